"""Volumes of every length: there and back; too long; and trees that are filled up otherwise."""
import os
import shutil

import by_hand
from by_hand import DEPTHS, KINDS
from room import Coded, contents, need, put, slurp, volume_of

WHOLE = ("record", "table", "tree", "marks")


def of_depth(depth):
    """Lengths around pages, and the longest ones."""
    most = by_hand.lengths(depth)["volume"]
    return sorted({0, 1, 255, 256, 257, 511, 512, 700, most // 2, most - 257, most - 256,
                   most - 255, most - 1, most})


def back(room, coded, status, *words):
    """Reads the volume by these words; it is the one that was coded, to its last byte."""
    said = room.ends(status, "read", *words, "back")
    need(slurp("back") == coded.volume, str(said) + ", but it is another volume")
    os.remove("back")


def test_trim_chart(room):
    """A trim chart of 700 bytes goes in and comes back as 700 bytes."""
    chart = b"".join(b"R%03d  %5d ohm  +-1 %%\n" % (i, 47 * i) for i in range(40))[:700]
    put("chart", chart)
    room.works("table", "--for", "chart", "table")
    room.codes("table", "chart", "coded")
    need(contents("coded")["record"][:8].hex() == "00000001800002bc", "the record's head")
    coded = ("coded/record", "table", "coded/tree", "coded/marks")
    room.works("read", *coded, "back")
    need(slurp("back") == chart and len(chart) == 700, "another chart")
    room.works("read", "--unverified", *coded[:1], *coded[2:], "unverified")
    need(slurp("unverified") == chart, "another chart, unverified")


def test_there_and_back(room):
    """Each length at each depth is coded as by hand, and comes back, whole and from damage."""
    for depth in DEPTHS:
        lengths = of_depth(depth) if depth < 7 else [0, 257, of_depth(depth)[-2]]
        for turn, length in enumerate(lengths):
            kind = (depth + turn) % 2
            coded = Coded(depth, length, length=length, kind=kind).lay()
            room.codes("table", "volume", "made", kind=kind)
            need(contents("made") == coded.files(), "coded at depth", depth, "of", length)
            shutil.rmtree("made")
            back(room, coded, 0, *WHOLE)
            back(room, coded, 0, "--unverified", "record", "tree", "marks")
            coded.harm(absent=[1, 14], bad=[5]).lay()
            back(room, coded, 30, *WHOLE)
            room.ends(0, "-q", "repair", *WHOLE, "mended")
            need(contents("mended") == coded.repair().files(), "repaired at", depth, length)
            back(room, coded, 0, "record", "table", "mended/tree", "mended/marks")
            shutil.rmtree("mended")


def test_too_long(room):
    """A volume that its depth does not hold is 2: how much that holds is said, and which depth
    would hold it."""
    for depth in DEPTHS:
        Coded(depth).lay()
        most = by_hand.lengths(depth)["volume"]
        for length in (most + 1, 2 * most, 2 * most + 1, 262144, 262145):
            if length <= most:
                continue
            put("long", bytes(length))
            enough = [d for d in DEPTHS if length <= by_hand.lengths(d)["volume"]]
            wanted = "no depth holds more than 262144: split it\n"
            if enough:
                wanted = ("depth %d holds at most %d: take depth %d, and a table of it: "
                          "cedunmi table --for VOLUME TABLE writes one\n"
                          % (depth, most, enough[0]))
            for given in ((), (depth,)):
                room.refused(2, "code", *given, "table", "long", "none").says(
                    "cedunmi: long has %d bytes; %s" % (length, wanted))
    room.refused(2, "code", "table", "-", "none", given=bytes(262145)).says(
        "standard input has 262145 bytes or more; no depth holds more")


def test_needs_filling(room):
    """Without the check all pages of the volume must be held, those of the filling too."""
    for depth in (1, 2, 5):
        coded = Coded(depth, 3, length=1)
        last = by_hand.first(depth - 1) + (2 << depth) - 1
        coded.harm(absent=[last]).lay()
        room.refused(9, "read", "--unverified", "record", "tree", "marks", "none").says(
            "a needed page is absent: page %d" % last)
        back(room, coded, 30, *WHOLE)


def misfilled(room, coded):
    """check, repair, repair --in-place and read of a tree that is filled up otherwise: 43, all is
    written, and it is said."""
    coded.lay()
    expected = coded.repair()
    need(expected.end == by_hand.MISFILLED, "not misfilled")
    room.ends(43, "check", *WHOLE).prints(expected.report())
    room.ends(43, "repair", *WHOLE, "made").prints(expected.report("made/proof"))
    need(contents("made") == expected.files(), "what repair wrote")
    shutil.rmtree("made")
    for quiet in ((), ("--quiet",)):
        said = room.ends(43, "read", *quiet, *WHOLE, "back").prints("")
        need(slurp("back") == coded.volume, "the volume of a misfilled tree")
        need((b"but misfilled: what fills it up isn't zero: " in said.err) != bool(quiet),
             str(said))
        need(b"is held" not in said.err, "what a repair would come to is said of the tree:", said)
        need((b"but the tree is damaged: " in said.err) == (expected.stored > 0 and not quiet),
             str(said))
        os.remove("back")
    room.ends(43, "repair", "--in-place", *WHOLE, "proof").prints(expected.report("proof"))
    found = contents(".")
    need({name: found[name] for name in ("tree", "marks")} == expected.files(), "in place")
    need("proof" not in found, "a proof of a misfilled tree")
    for kept in ("tree~", "marks~"):
        if kept in found:
            os.remove(kept)


def test_misfilled(room):
    """A byte of the filling that is not zero, its first, a middle one, its last, with damage and
    without."""
    for depth in DEPTHS:
        most = by_hand.lengths(depth)["volume"]
        for length in (0, 700, most - 1) if depth < 6 else (700,):
            for turn, place in enumerate(sorted({length, (length + most) // 2, most - 1})):
                kind = (depth + turn) % 2
                misfilled(room, Coded(depth, 7, length=length, kind=kind).misfilled(place))
        for kind in KINDS:
            misfilled(room, Coded(depth, 8, length=700, kind=kind).misfilled(701, most - 1).harm(
                absent=[3, 10], bad=[7]))


def test_filled(room):
    """A volume may end with any bytes, and a full one has no filling: neither is misfilled."""
    for depth in (1, 3):
        most = by_hand.lengths(depth)["volume"]
        for volume in (bytes(most), b"\xff" * most, volume_of(depth, 3), bytes(300) + b"\1",
                       b"\0"):
            put("volume", volume)
            put("table", by_hand.house_table(depth))
            room.codes("table", "volume", "made")
            words = ("made/record", "table", "made/tree", "made/marks")
            room.ends(0, "check", *words)
            room.works("read", *words, "back")
            need(slurp("back") == volume, "another volume")
            os.remove("back")
            shutil.rmtree("made")


def test_shorter_records(room):
    """A record that says fewer bytes than were coded: what is over is filling, and isn't zero. One
    that says more reads the zeros too."""
    coded = Coded(2, 9, length=1300).lay()
    for length, status in ((1299, 43), (700, 43), (0, 43), (1301, 0), (2048, 0)):
        record = by_hand.head_of(2, length, coded.table) + coded.record[by_hand.HEAD:]
        put("record", record)
        room.ends(status, "read", *WHOLE, "back")
        need(slurp("back") == coded.volume.ljust(2048, b"\0")[:length], "read", length)
        os.remove("back")
