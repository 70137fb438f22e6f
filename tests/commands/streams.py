"""Standard input and output in the place of a file; pipes, closed and full ones; devices."""
import os
import resource
import subprocess
import threading

import by_hand
import disk
import writers
from room import Coded, contents, need, put, slurp

WHOLE = ("record", "table", "tree", "marks")
# Commands with their inputs by name; what is to be tried with `-` in each place.
READERS = [(0, ("check-table", 1, "table")), (0, ("record", "record")), (0, ("sha256", "volume")),
           (0, ("check-sample", 1, 3, "record", "sample")), (0, ("check", 1, *WHOLE)),
           (0, ("check-proof", 1, "wrong", "table", "proof")),
           (0, ("read", 1, *WHOLE, "-")),
           (0, ("read", "--unverified", 1, "record", "tree", "marks", "-")),
           (0, ("sample", 1, 3, "tree", "marks", "-")), (0, ("typed", "text", "-"))]
INPUTS = ("table", "record", "volume", "sample", "tree", "marks", "text", "wrong", "proof")


def lay():
    """A coded volume, and a wrong one's record and proof."""
    coded = Coded(1).lay()
    wrong = Coded(1).wrong_seven()
    put("wrong", wrong.record)
    put("proof", wrong.repair().proof)
    return coded


def swapped(words, place, other):
    """The words with another one at a place."""
    return words[:place] + (other,) + words[place + 1:]


def places(words):
    """The places of inputs among a command's words."""
    return [i for i, word in enumerate(words) if i and word in INPUTS]


def test_standard_input(room):
    """Each input can come from standard input, alone; what is printed is the same."""
    lay()
    for status, words in READERS:
        plain = room.ends(status, *words)
        for place in places(words):
            data = slurp(words[place])
            said = room.ends(status, *swapped(words, place, "-"), given=data)
            if words[0] == "sha256":
                said.prints(plain.out.replace(b"  volume", b"  -"))
            else:
                said.prints(plain.out)
            with open(words[place], "rb") as file:
                said = room.ends(status, *swapped(words, place, "-"), stdin=file, given=None)
            need(said.out[:60] == plain.out[:60], str(said))
        both = places(words)[:2]
        if len(both) == 2:
            twice = swapped(swapped(words, both[0], "-"), both[1], "-")
            room.refused(64, *twice)


def test_standard_input_to_files(room):
    """With an input from standard input, the commands that make folders work alike."""
    coded, plain = lay(), Coded(1, kind=by_hand.PLAIN)
    for place, name in ((2, "table"), (3, "volume")):
        words = swapped(("code", 1, "table", "volume", "made" + name), place, "-")
        room.codes(*words[1:], given=slurp(name))
        need(contents("made" + name) == coded.files(), "coded from standard input:", name)
    for place in range(2, 6):
        words = ("repair", 1, *WHOLE, "repaired%d" % place)
        room.ends(0, *swapped(words, place, "-"), given=slurp(words[place]))
        need(contents("repaired%d" % place) == coded.repair().files(), "repaired:", words[place])
        words = swapped((1, *WHOLE, "recoded%d" % place), place - 1, "-")
        room.recodes(by_hand.PLACED, *words, given=slurp(WHOLE[place - 2]))
        need(contents("recoded%d" % place) == plain.files(), "recoded:", WHOLE[place - 2])


def test_standard_output(room):
    """Each output that is one file can go to standard output; nothing is made beside it."""
    coded = lay()
    before = set(os.listdir("."))
    for words, data in [(("table", 1, "-"), coded.table), (("typed", "text", "-"), coded.record),
                        (("sample", 1, 3, "tree", "marks", "-"), slurp("sample")),
                        (("read", 1, *WHOLE, "-"), coded.volume),
                        (("read", "--unverified", 1, "record", "tree", "marks", "-"),
                         coded.volume)]:
        for options in ((), ("--force",), ("-q",)):
            said = room.ends(0, *options, *words).prints(data)
            need(said.err == b"", str(said))
        with open("there", "wb") as file:
            room.ends(0, *words, stdout=file)
        need(slurp("there") == data, "standard output to a file:", words)
        os.remove("there")
    need(set(os.listdir(".")) == before, "made beside:", set(os.listdir(".")) - before)


def test_not_for_folders(room):
    """`-` is no FOLDER, and with --in-place none of TREE, MARKS and PROOF; `./-` is a file."""
    coded = lay()
    room.refused(64, "code", 1, "table", "volume", "-")
    room.refused(64, "repair", 1, *WHOLE, "-")
    room.refused(64, "recode", 1, *WHOLE, "-")
    for place in (4, 5, 6):
        words = swapped(("repair", 1, *WHOLE, "new"), place, "-")
        room.refused(64, "--in-place", *words)
    room.works("table", 1, "./-")
    need(slurp("-") == coded.table, "the file -")
    room.ends(0, "check-table", 1, "./-", given=b"")
    room.codes(1, "./-", "volume", "./made")
    need(contents("made") == coded.files(), "coded with the table ./-")


def test_pipes(room):
    """A FIFO and the names of /dev/fd are inputs, however slowly they come."""
    coded = lay()
    os.mkfifo("fifo")

    def slowly():
        with open("fifo", "wb", buffering=0) as file:
            for start in range(0, len(coded.volume), 100):
                file.write(coded.volume[start:start + 100])
    feeder = threading.Thread(target=slowly)
    feeder.start()
    room.codes(1, "table", "fifo", "made")
    feeder.join()
    need(contents("made") == coded.files(), "coded from a FIFO")
    with open("tree", "rb") as file:
        number = file.fileno()
        room.ends(0, "check", 1, "record", "table", "/dev/fd/%d" % number, "marks",
                  pass_fds=[number])
    room.codes(1, "table", "/dev/null", "nothing")
    need(contents("nothing") == Coded(1, length=0).files(), "coded from /dev/null")
    room.refused(2, "check-sample", 1, 3, "record", "/dev/null")
    folder = os.open(".", os.O_RDONLY)
    room.refused(66, "check-table", 1, "-", stdin=folder, given=None)
    os.close(folder)


def test_full_output(room):
    """A report or data that can't be printed, as the disk is full: 74."""
    lay()
    for words in [words for _, words in READERS] + [("help",), ("--version",), ("explain", 7),
                                                    ("table", 1, "-"), ("help", "code")]:
        with open("/dev/full", "wb") as full:
            room.ends(74, *words, stdout=full).errors()


def test_full_output_of_writers(room):
    """A repair whose report can't be printed is done, and says so: 74."""
    for writer in writers.writers(1):
        if writer.words[0] == "repair":
            writer.lay()
            with open("/dev/full", "wb") as full:
                said = room.ends(74, *writer.words, stdout=full).errors()
            said.says("the files are in their places")
            need(writer.state() == "new", str(said), writer.state())


def opened(name, flags):
    """A file that is open so."""
    return os.fdopen(os.open(name, flags), "rb", 0)


def outputs_that_are_inputs(room):
    """Each input in turn as standard output, opened to write over it or to append: 73, and it is as
    it was; the same where it is standard input too."""
    lay()
    for words in [words for _, words in READERS] + [("repair", 1, *WHOLE, "made")]:
        for place in places(words):
            for flags in (os.O_RDWR, os.O_WRONLY | os.O_APPEND):
                name, given = words[place], swapped(words, place, "-")
                with opened(name, flags) as out, opened(name, os.O_RDONLY) as standard:
                    room.refused(73, *words, stdout=out).says(name)
                    room.refused(73, *given, stdout=out, stdin=standard, given=None)


def test_output_is_input(room):
    """Standard output that leads to an input is refused."""
    outputs_that_are_inputs(room)


def test_no_proc(room):
    """Where nothing is mounted on /proc, on which the names of /dev/fd rest, all works the same."""
    disk.alone()
    with disk.Disk("/proc"):
        outputs_that_are_inputs(room)
        for writer in writers.writers(1):
            writer.lay()
            room.ends(writer.status, *writer.words)
            need(writer.state() == "new", writer.name, writer.state())


def test_streams_of_the_other_kind(room):
    """Standard output that is open for reading alone is 74, standard input for writing alone 66; no
    byte is taken for written or read that was not."""
    lay()
    put("other", b"")
    printing = [words for _, words in READERS] + [("table", 1, "-"), ("help",), ("--version",)]
    with opened("/dev/null", os.O_RDONLY) as out, opened("other", os.O_WRONLY) as standard:
        for words in printing:
            room.refused(74, *words, stdout=out)
            for place in places(words):
                room.refused(66, *swapped(words, place, "-"), stdin=standard, given=None)
        room.refused(66, "typed", "-", "new", stdin=standard, given=None)


def test_limited_output(room):
    """Standard output to a file that would grow over a limit: 74, and no end by a signal."""
    lay()
    for _, words in READERS + [(0, ("table", 5, "-")), (0, ("help",))]:
        for limit in (0, 1, 10):
            with open("limited", "wb") as file:
                room.ends(74, *words, stdout=file,
                          limits=[(resource.RLIMIT_FSIZE, limit)]).errors()
            need(os.path.getsize("limited") <= limit, words, "wrote over the limit")


def closed_pipe():
    """The writing end of a pipe that nobody reads."""
    reading, writing = os.pipe()
    os.close(reading)
    return writing


def test_reader_gone(room):
    """A reader that went away changes nothing for a report; where it is data, it is 74."""
    coded = lay()
    Coded(1).harm(absent=[2]).lay()
    for status, words in [(30, ("check", 1, *WHOLE)), (0, ("repair", 1, *WHOLE, "made")),
                          (0, ("check-table", 1, "table")), (0, ("help",)),
                          (0, ("check-sample", 1, 3, "record", "sample"))]:
        writing = closed_pipe()
        said = room.ends(status, *words, stdout=writing)
        need(said.err == b"", str(said))
        os.close(writing)
    need(contents("made") == coded.repair().files(), "the reader went, and so did the repair")
    for words in [("table", 1, "-"), ("typed", "text", "-"), ("read", 1, *WHOLE, "-"),
                  ("sample", 1, 3, "tree", "marks", "-")]:
        writing = closed_pipe()
        room.ends(74, *words, stdout=writing)
        os.close(writing)


def test_closed_streams(room):
    """With standard input, output and error closed, no report gets into a file that is written."""
    for writer in writers.writers(1):
        for closing in ("<&-", ">&-", "2>&-", ">&- 2>&-", "<&- >&- 2>&-"):
            writer.lay()
            room.made += 1
            words = ["sh", "-c", 'exec "$@" ' + closing, "sh", room.program]
            done = subprocess.run(words + [str(word) for word in writer.words], check=False,
                                  stdout=subprocess.DEVNULL, stderr=subprocess.DEVNULL, timeout=20)
            need(done.returncode in (writer.status, 74), writer.name, closing, done.returncode)
            state = writer.state()
            need(state == "new" or done.returncode == 74 and state == "old", writer.name, closing,
                 state)


def test_closed_output(room):
    """Data for standard output that is closed is not lost without a word."""
    lay()
    for words in (("table", "1", "-"), ("typed", "text", "-"), ("read", "1", *WHOLE, "-")):
        room.made += 1
        done = subprocess.run(["sh", "-c", 'exec "$@" >&-', "sh", room.program, *words],
                              stdout=subprocess.DEVNULL, stderr=subprocess.PIPE, check=False)
        need(done.returncode == 74, words, "with standard output closed ended with",
             done.returncode, done.stderr)


def test_read_errors(room):
    """An input that gives an error when it is read: 74 for an error of the device."""
    lay()
    room.refused(74, "check-table", 1, "/proc/self/mem")
    room.refused(74, "code", 1, "table", "/proc/self/mem", "none")


def test_sha256(room):
    """`sha256` prints what the system's own program prints."""
    put("empty", b"")
    put("two words", b"a\nb")
    put("longest", bytes(1048576))
    put("long", bytes(1048577))
    for name in ("empty", "two words", "longest", "./empty", "/dev/null", room.program):
        if os.path.getsize(name) <= 1048576:
            theirs = subprocess.run(["sha256sum", name], stdout=subprocess.PIPE, check=True).stdout
            room.ends(0, "sha256", name).prints(theirs)
    room.refused(2, "sha256", "long").says("long has 1048577 bytes; ")
    room.refused(2, "sha256", "-", given=bytes(1048577))
