"""Inputs that are far too long: refused at once, in little memory, by their number."""
import os
import resource
import subprocess

from room import Coded, need, put

GIGABYTE = 1 << 30
LITTLE = [(resource.RLIMIT_AS, 256 << 20), (resource.RLIMIT_CPU, 5)]
WHOLE = ("record", "table", "tree", "marks")
# Each command, and its statuses with a file of zeros without end in each place.
PLACES = [(("check-table", 1, "table"), {"table": 2}),
          (("code", 1, "table", "volume", "none"), {"table": 2, "volume": 2}),
          (("recode", 1, *WHOLE, "none"), dict.fromkeys(WHOLE, 2)),
          (("record", "record"), {"record": 2}), (("sha256", "volume"), {"volume": 2}),
          (("typed", "text", "none"), {"text": (2, 65)}),
          (("sample", 1, 3, "tree", "marks", "none"), {"tree": 2, "marks": 2}),
          (("check-sample", 1, 3, "record", "sample"), {"record": 2, "sample": 2}),
          (("check", 1, *WHOLE), dict.fromkeys(WHOLE, 2)),
          (("repair", 1, *WHOLE, "none"), dict.fromkeys(WHOLE, 2)),
          (("read", 1, *WHOLE, "none"), dict.fromkeys(WHOLE, 2)),
          (("read", "--unverified", 1, "record", "tree", "marks", "none"),
           dict.fromkeys(("record", "tree", "marks"), 2)),
          (("repair", "--in-place", 1, *WHOLE, "none"), dict.fromkeys(WHOLE, 2)),
          (("check-proof", 1, "record", "table", "proof"), {"record": 2, "table": 2, "proof": 6})]


def lay():
    """A coded volume, a proof, and a gigabyte that takes no room."""
    Coded(1).lay()
    put("proof", Coded(1).wrong_seven().repair().proof)
    with open("huge", "wb") as file:
        file.truncate(GIGABYTE)


def soon(room, status, words, **how):
    """The command ends so, with little memory, though its input has no end; nothing is written."""
    before = sorted(os.listdir("."))
    said = room.ends(status, *words, limits=LITTLE, **how).errors()
    need(sorted(os.listdir(".")) == before, str(said) + ", and has written")
    return said


def everywhere():
    """Each command with each place of an input: the words up to it, those after it, the status."""
    for words, places in PLACES:
        for name, status in places.items():
            at = len(words) - 1 - words[::-1].index(name)
            yield words[:at], words[at + 1:], status


def test_sparse_files(room):
    """A file of a gigabyte in every place, and the message has its length."""
    lay()
    for before, after, status in everywhere():
        said = soon(room, status, before + ("huge",) + after)
        if status == 2:
            said.says("huge has 1073741824 bytes; ")


def test_long_proof(room):
    """A proof that begins well and has no end is of the wrong length."""
    lay()
    wrong = Coded(1).wrong_seven()
    put("record", wrong.record)
    with open("proof", "r+b") as file:
        file.truncate(GIGABYTE)
    words = ("check-proof", 1, "record", "table", "proof")
    soon(room, 2, words).says("proof has 1073741824 bytes; ")


def test_endless(room):
    """A device and a pipe without end, in every place."""
    lay()
    for before, after, status in everywhere():
        replaced = "--in-place" in before and before[-1] in ("table", "tree")
        soon(room, 73 if replaced else status, before + ("/dev/zero",) + after)
        if replaced:
            continue
        endless = subprocess.Popen(["cat", "/dev/zero"], stdout=subprocess.PIPE,
                                   stderr=subprocess.DEVNULL)
        soon(room, status, before + ("-",) + after, stdin=endless.stdout, given=None)
        endless.stdout.close()
        need(endless.wait(5) != 0, "an endless pipe was read to its end")


def test_one_over(room):
    """One byte over the longest of each kind is refused; the longest table is read whole."""
    Coded(1).lay()
    for length, status in ((220792, 3), (220793, 2), (220796, 2), (220788, 3), (16384, 3),
                           (16388, 3), (16385, 2)):
        put("long", bytes(length))
        room.refused(status, "check-table", 1, "long")
        room.refused(status, "check-table", 1, "-", given=bytes(length))
    for kind, length in (("tree", 4096), ("marks", 16), ("record", 556)):
        words = tuple("long" if word == kind else word for word in WHOLE)
        put("long", bytes(length + 1))
        room.refused(2, "check", 1, *words).says("long has %d bytes; " % (length + 1))


def test_little_memory(room):
    """At the largest depth, every file at its longest, little memory is enough."""
    Coded(9).harm(bad=range(5000, 5030)).lay()
    for words in (("check", 9, *WHOLE), ("read", 9, *WHOLE, "volume2"),
                  ("repair", 9, *WHOLE, "made"), ("recode", 9, *WHOLE, "none"),
                  ("recode", 9, "record", "table", "made/tree", "made/marks", "other")):
        room.ends((0, 14, 30), *words, limits=[(resource.RLIMIT_AS, 64 << 20)])
    need(os.path.exists("other/tree") and not os.path.exists("none"), "what was recoded")
    put("megabyte", bytes(1 << 20))
    room.ends(0, "sha256", "megabyte", limits=[(resource.RLIMIT_AS, 64 << 20)])
