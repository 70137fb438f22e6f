"""Several commands at once, many times: one wins, and nothing is mixed."""
import fcntl
import os
import random
import select
import shutil
import signal
import subprocess
import threading
import time

import by_hand
import writers
from room import Coded, Wrong, contents, fill, need, put, slurp, snapshot, unchanged

WHOLE = ("record", "table", "tree", "marks")


def together(room, commands):
    """Starts commands at once, and waits for all; their statuses."""
    running = [room.start(*words, stdin=subprocess.DEVNULL, stdout=subprocess.DEVNULL)
               for words in commands]
    return [(process.communicate(timeout=20), process.returncode)[1] for process in running]


def volumes(count):
    """Volumes of depth 2, as files, with what `code` makes of each."""
    made = [Coded(2, 30 + number) for number in range(count)]
    put("table", made[0].table)
    for number, coded in enumerate(made):
        put("volume%d" % number, coded.volume)
    return made


def test_code_at_once(room):
    """Volumes coded into one folder at once: exactly one is, whole, and the others are refused."""
    made = volumes(4)
    for turn in range(40):
        count = 2 + turn % 3
        statuses = together(room, [("code", 2, "table", "volume%d" % i, "made")
                                   for i in range(count)])
        need(sorted(statuses) == [0] + [73] * (count - 1), "ended with", statuses)
        winner = statuses.index(0)
        need(contents("made") == made[winner].files(), "not the winner's folder")
        need(not writers.temporary("."), "left:", writers.temporary("."))
        fill("made", {})
        if turn % 2:
            os.rmdir("made")


def test_code_with_force_at_once(room):
    """With --force all are coded, and tree, marks and record are always of one volume."""
    made = volumes(3)
    all_files = [coded.files() for coded in made]
    for turn in range(40):
        statuses = together(room, [("code", "--force", 2, "table", "volume%d" % i, "made")
                                   for i in range(2 + turn % 2)])
        need(set(statuses) == {0}, "ended with", statuses)
        need(contents("made") in all_files, "a mixed folder")
        need(not writers.temporary("."), "left:", writers.temporary("."))


def test_files_at_once(room):
    """One file written by many at once: one makes it, and with --force the last has it whole."""
    volumes(1)
    for depth in range(1, 6):
        put("t%d" % depth, Coded(depth).table)
    for _ in range(25):
        statuses = together(room, [("table", depth, "new") for depth in (1, 2, 3, 4)])
        need(sorted(statuses) == [0, 73, 73, 73], "ended with", statuses)
        need(slurp("new") == slurp("t%d" % (1 + statuses.index(0))), "not the winner's")
        statuses = together(room, [("table", "--force", depth, "new") for depth in (3, 4, 5)])
        need(statuses == [0, 0, 0], "ended with", statuses)
        need(slurp("new") in [slurp("t%d" % depth) for depth in (3, 4, 5)], "a mixed file")
        os.remove("new")
        need(not writers.temporary("."), "left:", writers.temporary("."))


def test_in_place_at_once(room):
    """Repairs of one tree at once: one repairs, the others find it whole; the damage is kept."""
    for turn in range(30):
        harmed = Coded(2, turn).harm(absent=[1, 20], bad=[5, 33]).lay()
        force = ("--force",) if turn % 2 else ()
        words = ("repair", *force, "--in-place", 2, *WHOLE, "proof")
        statuses = together(room, [words] * (2 + turn % 2))
        need(0 in statuses and set(statuses) <= {0, 73} - ({73} if force else set()),
             "ended with", statuses)
        files = harmed.repair().files()
        need(slurp("tree") == files["tree"] and slurp("marks") == files["marks"], "not repaired")
        need(slurp("tree~") == harmed.tree and slurp("marks~") == harmed.marks,
             "what was damaged is not what is kept")
        need(not writers.temporary("."), "left:", writers.temporary("."))
        os.remove("tree~")
        os.remove("marks~")


def test_crossed_folders(room):
    """Two repairs in place, each with its tree in the folder of the other's marks, at once: none
    waits for the other for ever."""
    harmed = Coded(1, 3).harm(absent=[1], bad=[5]).lay()
    one = ("repair", "--in-place", "--force", 1, "record", "table", "x/tree", "y/marks", "x/proof")
    two = ("repair", "--in-place", "--force", 1, "record", "table", "y/tree", "x/marks", "y/proof")
    files = harmed.repair().files()
    for _ in range(25):
        for folder in ("x", "y"):
            fill(folder, {"tree": harmed.tree, "marks": harmed.marks})
        need(together(room, [one, two]) == [0, 0], "not both repaired")
        for folder in ("x", "y"):
            need(contents(folder) == {**files, "tree~": harmed.tree, "marks~": harmed.marks},
                 "in the folder", folder)


def reading(stop, look, wrong):
    """Looks again and again, until told to stop; keeps what was wrong."""
    count = 0
    while not stop.is_set():
        try:
            look()
        except Exception as what:
            wrong.append(what)
            return
        count += 1
    if count < 20:
        wrong.append(Wrong("it was read %d times only" % count))


def while_read(look, work):
    """Does the work while another thread looks."""
    stop, wrong = threading.Event(), []
    thread = threading.Thread(target=reading, args=(stop, look, wrong))
    thread.start()
    try:
        work()
    finally:
        stop.set()
        thread.join()
    if wrong:
        raise wrong[0]


def test_readers_of_a_file(room):
    """Whoever reads a file while it is replaced sees an old or a new one, whole, and always one."""
    both = [Coded(4).table, Coded(5).table]
    put("file", both[0])

    def look():
        need(slurp("file") in both, "a part of a file was seen")
    while_read(look, lambda: [room.works("table", "--force", depth, "file")
                              for _ in range(40) for depth in (4, 5)])


def test_readers_of_a_folder(room):
    """Whoever opens a folder while it is replaced finds one volume's files, and always a folder."""
    made = volumes(2)
    all_files = [coded.files() for coded in made]
    fill("made", all_files[0])

    def look():
        folder = os.open("made", os.O_RDONLY | os.O_DIRECTORY)
        try:
            found = {}
            for name in ("tree", "marks", "record"):
                file = os.open(name, os.O_RDONLY, dir_fd=folder)
                with open(file, "rb") as opened:
                    found[name] = opened.read()
            need(found in all_files, "a mixed folder was seen")
        except FileNotFoundError:
            pass                    # an old folder, which was taken away while it was read
        finally:
            os.close(folder)
    while_read(look, lambda: [room.codes("--force", 2, "table", "volume%d" % i, "made")
                              for _ in range(30) for i in (0, 1)])


class Locked:
    """The lock of a folder, held."""

    def __init__(self, folder="."):
        self.folder = os.open(folder, os.O_RDONLY)
        fcntl.flock(self.folder, fcntl.LOCK_EX)

    def __enter__(self):
        return self

    def __exit__(self, *_):
        os.close(self.folder)


def test_lock(room):
    """While another holds the folder's lock nothing is written; then it is."""
    for writer in writers.writers(1):
        writer.lay()
        with Locked("out"):
            process = room.start(*writer.words, stdin=subprocess.DEVNULL)
            time.sleep(0.03)
            need(process.poll() is None, writer.name, "did not wait:", process.returncode)
            found = {name: data for name, data in contents("out").items()
                     if not writers.LEFT.match(name)}
            need(found == writer.old, writer.name, "wrote without the lock")
        process.communicate(timeout=20)
        need(process.returncode == writer.status, writer.name, process.returncode)
        writer.judge(process.returncode)


def test_lock_is_told(room):
    """Who waits for a lock is told so after half a second, but not with --quiet, and goes on when
    it is free."""
    Coded(1).harm(absent=[3]).lay()
    commands = [("table", 1, "out/new"), ("code", 1, "table", "volume", "out/made"),
                ("repair", "--in-place", 1, "record", "table", "out/tree", "out/marks", "proof")]
    fill("out", {"tree": slurp("tree"), "marks": slurp("marks")})
    with Locked("out"):
        began = time.monotonic()
        quiet = room.start("table", "--quiet", 1, "out/quiet")
        told = [room.start(*words) for words in commands]
        for process in told:
            need(select.select([process.stderr], [], [], 20)[0], "nothing was told")
            line = process.stderr.readline()
            need(line == b"cedunmi: waiting for another command in out ..\n", line)
            need(process.poll() is None, "it did not wait:", process.returncode)
        need(time.monotonic() - began > 0.4, "told at once")
        time.sleep(0.05)
    for process in [quiet] + told:
        _, err = process.communicate(timeout=20)
        need(process.returncode == 0 and err == b"", process.args, process.returncode, err)
    need(sorted(os.listdir("out")) == ["made", "marks", "marks~", "new", "quiet", "tree", "tree~"],
         os.listdir("out"))


def test_replaced_while_waiting(room):
    """A folder that another comes in the place of, while a command waits for its lock, is not
    written to: the other is."""
    for writer in writers.writers(1):
        for folder in ("out", "out/made"):
            writer.lay()
            if not os.path.isdir(folder):
                continue
            with Locked(folder):
                process = room.start(*writer.words, stdin=subprocess.DEVNULL)
                time.sleep(0.015)
                os.rename("out", "gone")
                writer.lay()
                before = snapshot(b"gone", touched=True)
            process.communicate(timeout=20)
            need(process.returncode == writer.status and writer.state() == "new", writer.name,
                 process.returncode, writer.state())
            unchanged(before, snapshot(b"gone", touched=True), writer.name)
            shutil.rmtree("gone")


def test_put_in_a_folder_at_once(room):
    """Files written into a folder while `code --force` replaces it: each of which it was said that
    it was written is there."""
    coded = Coded(1).lay()
    statuses = set()
    for turn in range(40):
        fill("made", coded.files())
        code = room.start("code", "--force", 1, "table", "volume", "made",
                          stdin=subprocess.DEVNULL, stdout=subprocess.DEVNULL,
                          stderr=subprocess.DEVNULL)
        if turn % 4:
            time.sleep(0.0005 * (turn % 4))
        names = ["mine%d" % number for number in range(3)]
        ended = together(room, [("table", 1, "made/" + name) for name in names])
        statuses.add(code.wait(20))
        need(set(ended) <= {0, 73} and statuses <= {0, 73}, "ended with", ended, statuses)
        mine = {name: coded.table for name, status in zip(names, ended) if status == 0}
        found = contents("made")
        need(found == {**coded.files(), **mine}, "not the same names:", sorted(found), ended)
        need(not writers.temporary("."), "left:", writers.temporary("."))
    need(0 in statuses, "never coded")


def test_lock_before_reading(room):
    """--in-place reads after it has the lock: what was repaired meanwhile is seen as whole."""
    harmed = Coded(1).harm(absent=[3]).lay()
    with Locked():
        process = room.start("repair", "--in-place", 1, *WHOLE, "proof")
        time.sleep(0.03)
        put("marks", Coded(1).marks)
        put("tree", Coded(1).tree)
        before = snapshot()
    out, _ = process.communicate(timeout=20)
    need(process.returncode == 0 and b"\nstored: 0\n" in out, process.returncode, out)
    unchanged(before, snapshot(), "a repair of what is whole")
    need(harmed.marks != slurp("marks"), "nothing was harmed")


def test_no_lock_while_waiting(room):
    """A command that waits for its input keeps nobody from the folder."""
    Coded(1).lay()
    text = slurp("text")
    waiting = room.start("typed", "-", "new")
    room.works("table", 1, "other")
    waiting.communicate(text, 20)
    need(waiting.returncode == 0 and slurp("new") == slurp("record"), waiting.returncode)


def test_signal_while_locked(room):
    """A command that waits for the lock can be ended, and leaves nothing."""
    for name in ("table --force", "code", "repair --in-place"):
        writer = writers.one(1, name)
        for number in (signal.SIGTERM, signal.SIGINT, signal.SIGHUP):
            writer.lay()
            with Locked("out"):
                process = room.start(*writer.words, stdin=subprocess.DEVNULL)
                time.sleep(0.02)
                process.send_signal(number)
                try:
                    process.communicate(timeout=20)
                except subprocess.TimeoutExpired:
                    process.kill()
                    process.communicate()
                    raise Wrong("%s, waiting for a lock, did not end by %s" % (name, number.name))
                need(writer.state() == "old", name, "after", number.name, writer.state())


def test_many_kinds_at_once(room):
    """Different commands in one folder at once do not hinder each other."""
    chance = random.Random(7)
    coded = Coded(1).lay()
    expected = {"a": coded.table, "b": coded.record, "c": slurp("sample"), "d": coded.volume}
    commands = [("table", 1, "a"), ("typed", "text", "b"), ("sample", 1, 3, "tree", "marks", "c"),
                ("read", 1, *WHOLE, "d"), ("code", 1, "table", "volume", "e"),
                ("repair", 1, *WHOLE, "f"), ("recode", 1, *WHOLE, "g"), ("check", 1, *WHOLE)]
    for _ in range(15):
        chance.shuffle(commands)
        need(set(together(room, commands)) == {0}, "not all ended with 0")
        for name, data in expected.items():
            need(slurp(name) == data, "another file:", name)
            os.remove(name)
        need(contents("e") == coded.files(), "another folder")
        need(contents("g") == Coded(1, kind=by_hand.PLAIN).files(), "another folder, recoded")
        for folder in ("e", "f", "g"):
            for name in os.listdir(folder):
                os.remove(os.path.join(folder, name))
            os.rmdir(folder)
        need(not writers.temporary("."), "left:", writers.temporary("."))
