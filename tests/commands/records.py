"""Records that are refused, and tables that are not the record's: numbers, their order, words."""
import struct

import by_hand
from by_hand import DEPTHS
from room import Coded, another_table, need, put, slurp, table_leaving

WHOLE = ("record", "table", "tree", "marks")
# The commands that take a record; those with a table take it after the record.
BY_RECORD = [("check-sample", 3, "record", "sample"),
             ("read", "--unverified", "record", "tree", "marks", "none")]
BY_TABLE = [("check", *WHOLE), ("repair", *WHOLE, "none"), ("read", *WHOLE, "none"),
            ("repair", "--in-place", *WHOLE, "none"), ("recode", *WHOLE, "none"),
            ("check-proof", "record", "table", "proof")]
# What the words of the head are, and the kinds that each may have.
HEAD = (("kind and depth", (0, 1)), ("length", (2,)), ("number of table words", (3,)))


def with_depth(words, depth):
    """The words with a depth before their arguments."""
    options = 2 if str(words[1]).startswith("--") else 1
    return (*words[:options], depth, *words[options:])


def lay(depth, **how):
    """A coded volume of 700 bytes, and a proof."""
    coded = Coded(depth, 41, length=700, **how).lay()
    put("proof", Coded(depth, 41, length=700, **how).wrong_seven().repair().proof)
    return coded


def changed(record, word, value):
    """A record with another word of its head."""
    return record[:4 * word] + struct.pack(">I", value) + record[4 * word + 4:]


def test_kinds(room):
    """A word of another kind is 11 in every command, with a depth or without; it is named."""
    coded = lay(2)
    for word, (name, right) in enumerate(HEAD):
        value = struct.unpack(">3I", coded.record[:12])[word]
        for kind in {0, 1, 2, 3} - set(right):
            put("record", changed(coded.record, word, value & (1 << 30) - 1 | kind << 30))
            wanted = "record is no record, or damaged: bytes %d to %d, its %s, are %s, of kind " \
                "%s, not %s\n" % (4 * word, 4 * word + 3, name,
                                  slurp("record")[4 * word:4 * word + 4].hex(),
                                  format(kind, "02b"),
                                  " or ".join(format(other, "02b") for other in right))
            for words in BY_RECORD + BY_TABLE + [("record", "record")]:
                room.refused(11, *words).says(wanted)
                if words[0] != "record":
                    room.refused(11, *with_depth(words, 2)).says(wanted)


def test_lengths(room):
    """A length over what the depth holds is 11 in every command; the longest is taken."""
    for depth in (1, 2, 5, 9):
        coded, most = lay(depth), by_hand.lengths(depth)["volume"]
        for length in (most + 1, 2 * most, (1 << 30) - 1):
            put("record", changed(coded.record, 1, 2 << 30 | length))
            for words in BY_RECORD + BY_TABLE + [("record", "record")]:
                room.refused(11, *words).says(
                    "cedunmi: record says a length of %d bytes, and depth %d holds at most %d\n" % (
                        length, depth, most))
        put("record", changed(coded.record, 1, 2 << 30 | most))
        room.ends(0, "check", *WHOLE)
        room.ends(0, "check-sample", 3, "record", "sample")


def test_depths(room):
    """A depth that there is not is 11 where no other is given; one that there is, is taken."""
    coded = lay(2)
    for depth in (0, 10, 17, (1 << 30) - 1):
        put("record", changed(coded.record, 0, depth % 2 << 30 | depth))
        for words in BY_RECORD + BY_TABLE + [("record", "record")]:
            room.refused(11, *words).says(
                "cedunmi: record says depth %d, and depths are 1 to 9\n" % depth)
            if words[0] != "record":
                room.refused(11, *with_depth(words, 2))
    put("record", changed(coded.record, 0, 3))
    for words in BY_RECORD + BY_TABLE[:5]:
        named = "sample" if words[0] == "check-sample" else "tree"
        room.refused(2, *words).says("of depth 3 has ").says(
            "cedunmi: record says depth 3; %s is as long as a %s of depth 2\n" % (named, named))
    put("record", coded.record)
    put("tree", coded.tree[:-1])
    said = room.refused(2, "check", *WHOLE)
    need(b"says depth" not in said.err, "a depth is said to be wrong:", said)


def test_roots(room):
    """A root of 512 bytes, as it was before there were records, is 2, and it is said what it is."""
    coded = lay(1)
    put("record", coded.record[by_hand.HEAD:])
    for words in BY_RECORD + BY_TABLE + [("record", "record")]:
        room.refused(2, *words).says("cedunmi: record has 512 bytes; a record has 556; it is a "
                                     "root, as it was before there were records: ")
        if words[0] != "record":
            room.refused(2, *with_depth(words, 1)).says("before there were records")
    for length in (0, 44, 511, 513, 555, 557):
        put("record", coded.record[:length].ljust(length, b"\0"))
        said = room.refused(2, "record", "record").says(
            "record has %d bytes; a record has 556\n" % length)
        need(b"before" not in said.err, str(said))
    text = "\n".join(by_hand.printed(coded.record)).encode()
    for data in (text, text.upper(), b"# a print\n" + text):
        put("record", data)
        room.refused(2, "check", *WHOLE).says(
            "a record has 556: cedunmi typed makes one of a print\n")
    put("record", b"\0" + text)
    need(b"typed" not in room.refused(2, "record", "record").err, "no print is taken for one")


def names(depth, table):
    """What is said of a table: its words and its hash."""
    return "%d words, with the SHA-256 %s" % (len(table) // 4, by_hand.digest(table).hex())


def test_other_tables(room):
    """Another table than the record names is 12 in each command that takes one: both are named, and
    the house table is known."""
    for depth in DEPTHS:
        house, other = by_hand.house_table(depth), another_table(depth)
        for named, lent in ((house, other), (other, house)):
            lay(depth, table=named)
            put("table", lent)
            known = ", the house table of depth %d: cedunmi table %d FILE writes it" % (
                depth, depth)
            for words in BY_TABLE if depth in (1, 3) else BY_TABLE[:1]:
                said = room.refused(12, *words)
                said.says("cedunmi: record names a table of %s%s\n" % (
                    names(depth, named), known * (named == house)))
                said.says("cedunmi: table has %s\n" % names(depth, lent))
                need(said.err.count(b"\n") == 3, str(said))


def test_other_counts(room):
    """A record with the hash of the table and another number of words: it is said that the record
    is wrong."""
    coded = lay(2)
    for count in (0, 180, 182, (1 << 30) - 1):
        put("record", changed(coded.record, 2, 3 << 30 | count))
        for words in BY_TABLE:
            said = room.refused(12, *words).says(
                "cedunmi: the SHA-256 is the same: record has a wrong number of words; "
                "compare it with the manual\n")
            need(said.err.count(b"\n") == 4, str(said))


def test_each_bit(room):
    """Each bit of a record's head: what it says of the table is 12, of kind, depth and length 11 or
    another length."""
    for kind in by_hand.KINDS:
        each_bit(room, lay(1, kind=kind))


def each_bit(room, coded):
    """Each bit of this record's head. The second is that of the other kind, by which no page fits."""
    words = with_depth(("check", *WHOLE), 1)
    for bit in range(8 * by_hand.HEAD):
        record = bytearray(coded.record)
        record[bit // 8] ^= 128 >> bit % 8
        put("record", bytes(record))
        length = by_hand.length_of(record)
        if bit == 1:
            wanted = 32
        elif bit >= 66:
            wanted = 12
        elif 34 <= bit < 64 and length <= 1024:
            wanted = 43 if length < 700 else 0
        else:
            wanted = 11
        room.ends(wanted, *words)


def test_order(room):
    """11 comes after 1 and 2 and before 3; 12 after 3 and 10 and before 4."""
    coded = lay(2)
    put("bad", coded.table[:7] + b"\7" + coded.table[8:])
    put("thin", table_leaving(2, (1, 5, 1)))
    put("other", another_table(2))
    put("marked", b"\2" + coded.marks[1:])
    put("wrong", changed(coded.record, 1, 2 << 30 | 2049))
    put("short", coded.tree[:-1])
    for status, words in ((1, (10, "wrong", "bad", "tree", "marked")),
                          (2, (2, "wrong", "bad", "short", "marked")),
                          (11, (2, "wrong", "bad", "tree", "marked")),
                          (3, (2, "record", "bad", "tree", "marked")),
                          (10, (2, "record", "thin", "tree", "marked")),
                          (12, (2, "record", "other", "tree", "marked")),
                          (4, (2, "record", "table", "tree", "marked"))):
        room.refused(status, "check", *words)
        room.refused(status, "repair", *words, "none")
        room.refused(status, "recode", *words, "none")
    put("head", bytes(12))
    for status, words in ((11, ("wrong", "bad", "head")), (3, ("record", "bad", "head")),
                          (10, ("record", "thin", "head")), (12, ("record", "other", "head")),
                          (6, ("record", "table", "head"))):
        room.refused(status, "check-proof", *words)
    room.refused(11, "check-sample", 32, "wrong", "sample")
    room.refused(5, "check-sample", 32, "record", "sample")


def test_damaged_tables(room):
    """A table that breaks a rule: which one the record names is said beside it."""
    coded = lay(2)
    put("table", coded.table[:7] + b"\7" + coded.table[8:])
    room.refused(3, "check", *WHOLE).says(
        "cedunmi: record names a table of %s, the house table of depth 2: " % names(2, coded.table))
