"""Folders and files without the rights, and folders that vanish. As root, run as nobody."""
import os
import resource
import shutil
import tempfile

import writers
from room import (NOBODY, USERS, Coded, Room, Skipped, contents, need, put, slurp, snapshot,
                  unchanged)

STAFF = 50


def own(path="."):
    """As root, gives all below a folder to nobody, who runs the commands."""
    if os.geteuid() == 0:
        for folder, folders, files in os.walk(path):
            for name in ["."] + folders + files:
                os.lchown(os.path.join(folder, name), NOBODY, NOBODY)


class Plain:
    """Commands run without the rights of root, by a copy of the program that all may read."""

    def __init__(self, room):
        self.room = room
        self.folder = tempfile.mkdtemp(dir=os.path.dirname(os.getcwd()))
        os.chmod(self.folder, 0o755)
        self.inner = Room(shutil.copy(room.program, os.path.join(self.folder, "cedunmi")))
        os.chmod(self.inner.program, 0o755)

    def __enter__(self):
        return self.inner

    def __exit__(self, *_):
        self.room.made += self.inner.made
        shutil.rmtree(self.folder)


def test_read_only_folders(room):
    """Where the folder is read-only, no command writes; 73, and everything is as it was."""
    for writer in writers.writers(1):
        writer.lay()
        own()
        writer.note()
        os.chmod("out", 0o555)
        with Plain(room) as plain:
            plain.refused(73, *writer.words, nobody=True)
        need(writer.state() == "old", writer.name, writer.state())
        os.chmod("out", 0o755)


def test_checks_need_no_rights(room):
    """check, and every other command that only reads, works in a folder that is read-only."""
    Coded(1).harm(bad=[3]).lay()
    own()
    os.chmod(".", 0o555)
    try:
        with Plain(room) as plain:
            plain.ends(30, "check", 1, "record", "table", "tree", "marks", nobody=True)
            plain.ends(30, "read", 1, "record", "table", "tree", "marks", "-", nobody=True)
            plain.ends(0, "record", "record", nobody=True)
    finally:
        os.chmod(".", 0o777)


def test_unreadable_inputs(room):
    """An input that may not be read is 66."""
    Coded(1).lay()
    own()
    with Plain(room) as plain:
        for name, words in (("table", ("code", 1, "table", "volume", "none")),
                            ("volume", ("code", 1, "table", "volume", "none")),
                            ("record", ("record", "record")), ("text", ("typed", "text", "none")),
                            ("marks", ("sample", 1, 3, "tree", "marks", "none"))):
            before = snapshot()
            os.chmod(name, 0)
            plain.ends(66, *words, nobody=True).errors().says(name)
            os.chmod(name, 0o644)
            unchanged(before, snapshot(), words)


def test_other_folders_read_only(room):
    """--in-place with tree, marks and proof in three folders: where one is read-only, none is
    written."""
    wrong = Coded(1).wrong_seven().harm(bad=[3]).lay()
    words = ("repair", "--in-place", 1, "record", "table", "a/tree", "b/marks", "c/proof")
    for closed in "abc":
        for folder in "abc":
            os.mkdir(folder)
        put("a/tree", wrong.tree)
        put("b/marks", wrong.marks)
        own()
        os.chmod(closed, 0o555)
        with Plain(room) as plain:
            before = snapshot()
            plain.ends(73, *words, nobody=True).errors()
            unchanged(before, snapshot(), "%s read-only" % closed)
        for folder in "abc":
            os.chmod(folder, 0o755)
            shutil.rmtree(folder)


def test_read_only_files(room):
    """A file that is read-only, in a folder that is not, is replaced by --force or refused; it
    keeps its mode."""
    Coded(1).lay()
    put("there", b"mine", 0o444)
    own()
    with Plain(room) as plain:
        plain.refused(73, "table", 1, "there", nobody=True)
        status = plain.ends((0, 73), "table", "--force", 1, "there", nobody=True).status
    need(os.stat("there").st_mode & 0o777 == 0o444, "the mode is lost")
    need(slurp("there") == (slurp("table") if status == 0 else b"mine"), "neither old nor new")


def test_groups(room):
    """A file of another owner, replaced by a member of its group, keeps the group and its mode; by
    anybody else, its group, which is another then, has no rights."""
    if os.geteuid() != 0:
        raise Skipped("only root can give files away")
    Coded(1).lay()
    os.chmod(".", 0o777)
    words = ("table", "--force", 1, "there")
    with Plain(room) as plain:
        for mode in (0o660, 0o640, 0o664, 0o670):
            for groups, group, wanted in (([STAFF], STAFF, mode), ([], USERS, mode & 0o707)):
                put("there", b"mine")
                os.chown("there", 0, STAFF)
                os.chmod("there", mode)
                plain.works(*words, user=NOBODY, group=USERS, extra_groups=groups)
                info = os.stat("there")
                need((info.st_mode & 0o7777, info.st_uid, info.st_gid) == (wanted, NOBODY, group),
                     "mode %o became %o," % (mode, info.st_mode & 0o7777), info.st_uid, info.st_gid)


def test_owners(room):
    """What root replaces stays its owner's and its group's: files, folders with their files, and
    what --in-place writes and keeps."""
    if os.geteuid() != 0:
        raise Skipped("only root can give files away")
    for writer in writers.writers(1):
        writer.lay()
        for name in writer.old:
            os.chown("out/" + name, NOBODY, STAFF)
        writer.note()
        room.ends(writer.status, *writer.words)
        need(writer.state() == "new", writer.name, writer.state())


def test_masks(room):
    """With a mask that takes its own rights away from who writes: all of the work or none of it,
    and nothing is left."""
    statuses = set()
    with Plain(room) as plain:
        for writer in writers.writers(1):
            for mask in (0o777, 0o700, 0o500, 0o300, 0o100):
                writer.lay()
                own()
                writer.note()
                said = plain.run(*writer.words, nobody=True, umask=mask)
                for name in os.listdir("out"):
                    if not os.access("out/" + name, os.R_OK):
                        os.chmod("out/" + name, 0o600)
                state, what = writer.state(), "%s, mask %o" % (said, mask)
                need(said.status in (writer.status, 73, 74), what)
                need(state == ("new" if said.status == writer.status else "old"), what, state)
                statuses.add(said.status == writer.status)
    need(statuses == {True, False}, "always ended alike:", statuses)


def test_started_in_a_closed_folder(room):
    """Started in a folder that may not be searched, a FOLDER that is there and empty is written as
    a new one is."""
    coded = Coded(1).lay()
    here = os.getcwd()
    os.makedirs("made/empty")
    os.mkdir("closed")
    own()
    with Plain(room) as plain:
        os.chdir("closed")
        os.chmod(here + "/closed", 0)
        try:
            for name in ("new", "empty"):
                made = here + "/made/" + name
                plain.codes(1, here + "/table", here + "/volume", made, nobody=True)
                need(contents(made) == coded.files(), "coded into", name)
        finally:
            os.chmod(here + "/closed", 0o755)
            os.chdir(here)


def test_no_more_processes(room):
    """Where no thread can be had, which tells a terminal what is waited for, all works the same."""
    limits = [(resource.RLIMIT_NPROC, 1)]
    with Plain(room) as plain:
        for writer in writers.writers(1):
            writer.lay()
            own()
            os.chmod("out", 0o777)
            writer.note()
            ours, terminal = os.openpty()
            said = plain.ends(writer.status, *writer.words, nobody=True, limits=limits,
                              stderr=terminal)
            need(writer.state() == "new", str(said), writer.state())
            os.close(terminal)
            os.close(ours)


def test_sticky_folders(room):
    """Another's file in a folder like /tmp can't be replaced: 73, and nothing is left."""
    if os.geteuid() != 0:
        return
    coded = Coded(1).lay()
    os.mkdir("shared")
    os.chmod("shared", 0o1777)
    put("shared/there", b"mine", 0o666)
    os.mkdir("shared/made")
    for name, data in coded.files().items():
        put("shared/made/" + name, data)
    with Plain(room) as plain:
        for words in (("table", 1, "shared/there"), ("code", 1, "table", "volume", "shared/made")):
            before = snapshot()
            plain.ends((73, 74), "--force", *words, nobody=True).errors()
            unchanged(before, snapshot(), words)


def test_unlistable_folders(room):
    """A folder that may be written but not listed: all of the work is done, or none."""
    Coded(1).lay()
    os.mkdir("blind")
    own()
    os.chmod("blind", 0o333)
    with Plain(room) as plain:
        status = plain.ends((0, 73), "table", 1, "blind/new", nobody=True).status
    os.chmod("blind", 0o755)
    need(os.listdir("blind") == (["new"] if status == 0 else []), os.listdir("blind"))


def test_vanished_folders(room):
    """A folder that is not there, or is taken away while the command waits: 73, nothing made."""
    Coded(1).lay()
    text = slurp("text")
    for words in (("table", 1, "no/where"), ("typed", "text", "no/where"),
                  ("sample", 1, 3, "tree", "marks", "no/where"),
                  ("read", 1, "record", "table", "tree", "marks", "no/where"),
                  ("code", 1, "table", "volume", "no/where"),
                  ("repair", 1, "record", "table", "tree", "marks", "no/where"),
                  ("table", 1, "table/below"), ("table", "--force", 1, "no/where")):
        room.refused(73, *words)
    os.mkdir("going")
    process = room.start("typed", "-", "going/record")
    os.rmdir("going")
    _, err = process.communicate(text, 20)
    need(process.returncode == 73, "the folder went, and it ended with", process.returncode, err)
    need(not os.path.lexists("going"), "a vanished folder was made again")


def test_vanished_here(room):
    """The folder in which the command is run is gone."""
    Coded(1).lay()
    here = os.getcwd()
    for status, words in ((73, ("table", 1, "new")), (66, ("check-table", 1, "new")),
                          (73, ("code", 1, here + "/table", here + "/volume", "new")),
                          (73, ("table", "--force", 1, "new"))):
        os.makedirs("gone", exist_ok=True)
        os.chdir("gone")
        os.rmdir(here + "/gone")
        try:
            room.ends(status, *words).errors()
        finally:
            os.chdir(here)
