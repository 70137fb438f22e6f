"""The depth, where it is left out: every command as with it; a depth that is not the record's."""
import os
import shutil
import struct

import by_hand
from by_hand import DEPTHS
from room import Coded, contents, need, put, slurp, table_leaving

WHOLE = ("record", "table", "tree", "marks")
# Each command that has a depth, with the words after it; OUT is the output. Those with a 1 take a
# record.
COMMANDS = [(0, ("check-table",), ("table",)), (0, ("code",), ("table", "volume", "OUT")),
            (0, ("sample",), (3, "tree", "marks", "OUT")),
            (1, ("check-sample",), (3, "record", "sample")), (1, ("check",), WHOLE),
            (1, ("repair",), (*WHOLE, "OUT")), (1, ("repair", "--in-place"), (*WHOLE, "OUT")),
            (1, ("recode",), ("record", "table", "whole", "held", "OUT")),
            (0, ("code", "--plain"), ("table", "volume", "OUT")),
            (1, ("check-proof",), ("record", "table", "proof")), (1, ("read",), (*WHOLE, "OUT")),
            (1, ("read", "--unverified"), ("record", "tree", "marks", "OUT"))]


def lay(depth, **how):
    """A damaged volume, and a proof that shows nothing."""
    whole = Coded(depth, 31, **how)
    put("whole", whole.tree)
    put("held", whole.marks)
    put("proof", struct.pack(">3I", 1 << 30, 2 << 30, 3 << 30 | 4)
        + b"".join(whole.tree[256 * i:256 * i + 256] for i in (0, 1)))
    return whole.harm(bad=[2], absent=[9]).lay()


def done(room, words):
    """How a command ends, what it prints and says, and what it leaves; what is there then is as it
    was before."""
    kept = contents(".")
    said = room.run(*words)
    found = {name: data for name, data in contents(".").items() if kept.get(name) != data}
    shutil.rmtree("OUT", ignore_errors=True)
    for name in set(contents(".")) - set(kept):
        if os.path.lexists(name):
            os.remove(name)
    for name, data in kept.items():
        put(name, data)
    return said.status, said.out, said.err, found


def test_left_out(room):
    """Every command at every depth, with the depth and without it, does the same; but check-table
    then says which it is."""
    statuses = set()
    for depth in DEPTHS:
        lay(depth, length=700, kind=depth % 2)
        for _, command, after in COMMANDS:
            given = done(room, (*command, depth, *after))
            without = done(room, (*command, *after))
            if command == ("check-table",):
                said = b"well-formed at depth %d, " % depth
                need(said in without[1], "which depth it is, is not said:", without[1])
                without = (without[0], without[1].replace(said, b"well-formed, "), *without[2:])
            need(given == without, command, "at depth", depth, "ended with", without[:3],
                 "and with the depth", given[:3])
            need(bool(given[3]) == ("OUT" in after), command, "wrote", sorted(given[3]))
            statuses.add((command, given[0]))
    need({status for _, status in statuses} == {0, 8, 30}, statuses)


def test_another(room):
    """A depth that is not the record's is refused where a record is read: 11, and both are said."""
    lay(3)
    for taken, command, after in COMMANDS:
        for depth in DEPTHS:
            if taken and depth != 3:
                room.refused(11, *command, depth, *after).says(
                    "cedunmi: record is of depth 3, and DEPTH is %d\n" % depth)
        if taken:
            for depth in (0, 10, 2 ** 32 + 3):
                room.refused(1, *command, depth, *after)


def test_count_tells(room):
    """Whether a depth is there the number of arguments tells, and not what they look like."""
    coded = Coded(2, 32, length=1500).lay()
    for name, data in (("1", coded.table), ("3", coded.record), ("4", coded.tree),
                       ("5", coded.marks), ("7", coded.volume)):
        put(name, data)
    room.ends(0, "check-table", "1")
    room.codes("1", "7", "9")
    need(contents("9") == coded.files(), "coded by the table 1")
    room.works("read", "3", "1", "4", "5", "8")
    need(slurp("8") == coded.volume, "read by the record 3")
    room.ends(0, "check", "3", "1", "4", "5")
    room.refused(66, "check", "2", "1", "4", "5")
    room.ends(0, "check-table", "2", "1")
    room.refused(3, "check-table", "3", "1")
    room.refused(66, "check-table", "2")


def wrong_tables(depth):
    """Tables that are well-formed at no depth: a word changed, words missing or too many."""
    table = by_hand.house_table(depth)
    for word in (0, 1, 60 * (1 << depth - 1) - 60, len(table) // 8, len(table) // 4 - 1):
        yield table[:4 * word] + b"\x3f\xff\xff\xff" + table[4 * word + 4:]
        yield table[:4 * word]
    yield table + bytes(4)


def test_wrong_tables(room):
    """A table that is well-formed at no depth is refused as at the depth that it is nearest to; one
    that leaves a page out as at its own."""
    for depth in DEPTHS:
        put("volume", b"")
        for table in wrong_tables(depth):
            put("bad", table)
            said = [room.refused(3, "check-table", *given, "bad").err for given in ((), (depth,))]
            words = [int(err.split(b": word ")[1].split()[0]) for err in said]
            need(words[0] >= words[1], "not the depth that fits best:", said)
            if len(table) == len(by_hand.house_table(depth)):
                need(said[0] == said[1], "another message:", said)
            need(room.refused(3, "code", "bad", "volume", "none").err == said[0], said)
        put("thin", table_leaving(depth, (depth - 1, 3, 1)))
        said = room.refused(10, "check-table", "thin").err
        need(said == room.refused(10, "check-table", depth, "thin").err, said)
    for length in (1, 7, 220796):
        put("bad", bytes(length))
        room.refused(2, "check-table", "bad").says("bad has %d bytes; a table has " % length)


def test_wrong_trees(room):
    """A tree as long as none is refused by `sample`, and the lengths of all are said."""
    coded = Coded(2).lay()
    lengths = ", ".join(str(by_hand.lengths(depth)["tree"]) for depth in DEPTHS)
    for data in (b"", coded.tree[:-1], coded.tree + b"\0", bytes(3000000)):
        put("tree", data)
        room.refused(2, "sample", 3, "tree", "marks", "none").says(
            "cedunmi: tree has %d bytes; a tree of depth 1 to 9 has %s\n" % (len(data), lengths))
    put("tree", Coded(3).tree)
    room.refused(2, "sample", 3, "tree", "marks", "none").says("a marks file of depth 3 has 112\n")


def test_house_tables(room):
    """`table --for` writes the house table of the least depth that holds a volume."""
    for depth in DEPTHS:
        most = by_hand.lengths(depth)["volume"]
        for length, wanted in ((0, 1), (most // 2 + 1, depth), (most - 1, depth), (most, depth),
                               (most + 1, depth + 1)):
            put("volume", bytes(length))
            if wanted > max(DEPTHS):
                room.refused(2, "table", "--for", "volume", "none").says(
                    "volume has %d bytes; no depth holds more than 262144: split it\n" % length)
                continue
            room.works("table", "--for", "volume", "made")
            need(slurp("made") == by_hand.house_table(wanted), "the table for", length)
            os.remove("made")
            room.ends(0, "table", "--for", "-", "-", given=bytes(length)).prints(
                by_hand.house_table(wanted))
    put("volume", bytes(9))
    room.refused(73, "table", "--for", "--force", "volume", "volume")
    room.refused(66, "table", "--for", "nowhere", "none")
