"""The commands that write, as one list: what stands in the folder `out` before and after each.

Inputs are in the folder `in`, everything that a command writes in `out`. So a test of full disks,
kills, rights or failing calls goes through all of them alike.
"""
import os
import re

import by_hand
from room import NOBODY, USERS, Coded, contents, fill, need, show

LEFT = re.compile(r"\.cedunmi-[0-9a-f]{16}(/|$)")
FILLER = ".filler"        # takes the room of a disk, and is no command's


class Writer:
    """A command that writes: its words, what `out` holds before and after, and its status. MODES
    are those of names that are there before, which as root are nobody's."""

    def __init__(self, name, words, old, new, status=0, modes=None):
        self.name, self.words, self.old, self.new, self.status = name, words, old, new, status
        self.modes, self.was = modes or {}, {}

    def lay(self, beside=None):
        """Makes `out` as it is before, with other files beside."""
        fill("out", {**self.old, **(beside or {})})
        for name, mode in self.modes.items():
            if os.geteuid() == 0:
                os.chown(os.path.join("out", name), NOBODY, USERS)
            os.chmod(os.path.join("out", name), mode)
        self.note()

    def note(self):
        """Keeps which inodes and rights the names have that are there before."""
        self.was = {name: borne(name) for name in self.old}

    def state(self, left=False, copied=False):
        """Whether `out` is as before or as after, with its rights; with LEFT there may be temporary
        names beside, with COPIED what is as before may be a copy."""
        found = contents("out")
        found.pop(FILLER, None)
        if left:
            found = {name: held for name, held in found.items() if not LEFT.match(name)}
        if found == self.old and all(self.is_old(name, copied) for name in found):
            return "old"
        if found == self.new and all(self.is_new(name) for name in found):
            return "new"
        return "between" if left and self.between(found) else describe(found, self)

    def is_old(self, name, copied=False):
        """Whether what bears a name is what did before, or a copy with all its rights."""
        return name in self.was and borne(name)[copied:] == self.was[name][copied:]

    def is_new(self, name):
        """Whether a name has the rights that it had before, but for bits that run a program in
        another's name; what is kept of a file has that file's."""
        before = self.was.get(name[:-1] if name in ("tree~", "marks~") else name)
        return before is None or borne(name)[1:] == (before[1] & 0o777, *before[2:])

    def between(self, found):
        """Of a killed command with several files to replace: no file is a part, none is lost."""
        if "--in-place" not in self.words:
            return False
        for name, held in found.items():
            if not (held == self.old.get(name) and self.is_old(name)
                    or held == self.new.get(name) and self.is_new(name)):
                return False
        lost = any(found.get(name) != held and found.get(name + "~") != held
                   for name, held in self.old.items() if name in ("tree", "marks"))
        early = found["marks"] != self.old["marks"] and found["tree"] == self.old["tree"]
        return not lost and not early

    def judge(self, status, left=False):
        """A command that ended so left `out` as before, or did all of its work and said so."""
        state = self.state(left)
        need(state in ("old", "new", "between"), self.name, "ended with %s:" % status, state)
        need(status != self.status or state == "new", self.name, "did nothing, and ended with",
             status)
        return state


def borne(name):
    """What bears a name in `out`: its inode, its mode, owner and group."""
    info = os.stat(os.path.join("out", name))
    return info.st_ino, info.st_mode & 0o7777, info.st_uid, info.st_gid


def describe(found, writer):
    """How what is in `out` differs from before and after."""
    words = []
    for name in sorted(set(found) | set(writer.old) | set(writer.new)):
        if name not in found:
            words.append(name + " is not there")
        elif name not in writer.old and name not in writer.new:
            words.append(name + " is left")
        elif name in writer.old and found[name] == writer.old[name] and writer.is_old(name):
            words.append(name + " as before")
        elif name in writer.new and found[name] == writer.new[name] and writer.is_new(name):
            words.append(name + " as after")
        elif found[name] in (writer.old.get(name, b""), writer.new.get(name, b"")):
            words.append("%s has inode %d, mode %o, owner %d and group %d" % (name, *borne(name)))
        else:
            words.append(name + " is neither: " + show(found[name]))
    return ", ".join(words)


def within(folder, files):
    """Files below a folder, and the folder."""
    return {folder: None, **{folder + "/" + name: data for name, data in files.items()}}


def lay_inputs(depth):
    """Makes the folder `in`; gives a whole, a damaged, a wrongly coded, and a misfilled volume."""
    whole = Coded(depth, 1, length=700)
    harmed = Coded(depth, 2, kind=by_hand.PLAIN).harm(absent=[1, 14], bad=[6])
    wrong = Coded(depth, 3).wrong_seven().harm(bad=[2])
    misfilled = Coded(depth, 5, length=700, kind=by_hand.PLAIN).misfilled(701).harm(bad=[4])
    text = "".join(line + "\n" for line in by_hand.printed(whole.record)).encode()
    files = {"table": whole.table, "volume": whole.volume, "text": text}
    for name, coded in (("whole", whole), ("harmed", harmed), ("wrong", wrong),
                        ("misfilled", misfilled)):
        files.update((name + "-" + kind, data) for kind, data in coded.files().items())
    fill("in", files)
    return whole, harmed, wrong, misfilled


def of(name):
    """Record, table, tree and marks of one of the volumes."""
    return ("in/%s-record" % name, "in/table", "in/%s-tree" % name, "in/%s-marks" % name)


def kept(coded):
    """What --in-place keeps."""
    return {"tree~": coded.tree, "marks~": coded.marks}


def of_one_file(depth, whole, harmed, misfilled):
    """The commands that write one file."""
    over, tree = {"file": b"what was there before"}, of("whole")[2:]
    sample = by_hand.sample(depth, 3, whole.tree)
    return [
        Writer("table", ("table", depth, "out/file"), {}, {"file": whole.table}),
        Writer("table --force", ("table", "--force", depth, "out/file"), over,
               {"file": whole.table}, modes={"file": 0o4755}),
        Writer("table --for", ("table", "--for", "in/volume", "out/file"), {},
               {"file": by_hand.house_table(1)}),
        Writer("typed", ("typed", "in/text", "out/file"), {}, {"file": whole.record}),
        Writer("typed --force", ("typed", "--force", "in/text", "out/file"), over,
               {"file": whole.record}),
        Writer("sample --force", ("sample", "--force", depth, 3, *tree, "out/file"), over,
               {"file": sample}, modes={"file": 0o640}),
        Writer("read --force", ("read", "--force", depth, *of("whole"), "out/file"), over,
               {"file": whole.volume}),
        Writer("read of damage", ("read", depth, *of("harmed"), "out/file"), {},
               {"file": harmed.volume}, 30),
        Writer("read of misfilled", ("read", *of("misfilled"), "out/file"), {},
               {"file": misfilled.volume}, 43)]


def of_folders(depth, whole, harmed, wrong, misfilled):
    """The commands that make a folder."""
    before, plain = Coded(depth, 4).files(), Coded(depth, 1, length=700, kind=by_hand.PLAIN)
    words = (depth, "in/table", "in/volume", "out/made")
    repaired = {name: before[name] for name in ("tree", "marks")}
    return [
        Writer("code", ("code", *words), {}, within("made", whole.files())),
        Writer("code into an empty folder", ("code", *words), within("made", {}),
               within("made", whole.files()), modes={"made": 0o710}),
        Writer("code --force", ("code", "--force", *words), within("made", before),
               within("made", whole.files()),
               modes={"made": 0o750, "made/tree": 0o600, "made/record": 0o640}),
        Writer("code --plain", ("code", "--plain", *words), {}, within("made", plain.files())),
        Writer("recode", ("recode", depth, *of("whole"), "out/made"), {},
               within("made", plain.files())),
        Writer("recode --force", ("recode", *of("whole"), "--force", "out/made"),
               within("made", before), within("made", plain.files()),
               modes={"made": 0o700, "made/record": 0o604}),
        Writer("repair", ("repair", depth, *of("harmed"), "out/made"), {},
               within("made", harmed.repair().files())),
        Writer("repair of misfilled", ("repair", *of("misfilled"), "out/made"), {},
               within("made", misfilled.repair().files()), 43),
        Writer("repair --force", ("repair", "--force", depth, *of("wrong"), "out/made"),
               within("made", repaired), within("made", wrong.repair().files()), 31,
               modes={"made/marks": 0o600})]


def in_place(depth, harmed, wrong, misfilled):
    """The repairs in place."""
    place = ("out/tree", "out/marks", "out/proof")
    older = {"tree~": b"older tree", "marks~": b"older marks", "proof": b"older proof"}
    return [
        Writer("repair --in-place", ("repair", "--in-place", depth, *of("harmed")[:2], *place),
               {"tree": harmed.tree, "marks": harmed.marks},
               {**harmed.repair().files(), **kept(harmed)}, modes={"tree": 0o600, "marks": 0o660}),
        Writer("repair --in-place of misfilled",
               ("repair", "--in-place", *of("misfilled")[:2], *place),
               {"tree": misfilled.tree, "marks": misfilled.marks},
               {**misfilled.repair().files(), **kept(misfilled)}, 43),
        Writer("repair --in-place --force",
               ("repair", "--in-place", "--force", depth, *of("wrong")[:2], *place),
               {"tree": wrong.tree, "marks": wrong.marks, **older},
               {**wrong.repair().files(), **kept(wrong)}, 31,
               modes={"tree": 0o640, "proof": 0o604, "tree~": 0o666})]


def writers(depth):
    """Every command that writes, into places that are free and over what is there."""
    whole, harmed, wrong, misfilled = lay_inputs(depth)
    return of_one_file(depth, whole, harmed, misfilled) \
        + of_folders(depth, whole, harmed, wrong, misfilled) \
        + in_place(depth, harmed, wrong, misfilled)


def one(depth, name):
    """The writer of this name."""
    return next(writer for writer in writers(depth) if writer.name == name)


def temporary(folder):
    """The names in a folder that a killed command has left."""
    return [name for name in os.listdir(folder) if LEFT.match(name)]
