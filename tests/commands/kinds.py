"""The two kinds of volume: which one `code` makes, recoding there and back, what is not recoded, and
records that are of another kind than what comes with them."""
import os
import random
import shutil

import by_hand
from by_hand import CALLED, DEPTHS, KINDS, PLACED, PLAIN
from room import Coded, another_table, contents, need, put, slurp, table_leaving

WHOLE = ("record", "table", "tree", "marks")


def both():
    """Each depth with each kind."""
    return ((depth, kind) for depth in DEPTHS for kind in KINDS)


def test_coding(room):
    """`code` makes kind 00, and says so; with --plain it makes kind 01, as it was while there was no
    other. The kind is in the record, and the table's hash is the same."""
    for depth in DEPTHS:
        placed, plain = (Coded(depth, 51, length=777, kind=kind).lay() for kind in KINDS)
        room.ends(0, "code", "table", "volume", "placed").prints("coded: kind 00, with places\n")
        room.ends(0, "code", "table", "volume", "plain", "--plain").prints("coded: kind 01, plain\n")
        need(contents("placed") == placed.files() and contents("plain") == plain.files(), depth)
        records = slurp("placed/record"), slurp("plain/record")
        need([record[:4].hex() for record in records]
             == ["0000000%d" % depth, "4000000%d" % depth], "the first words")
        need(records[0][4:by_hand.HEAD] == records[1][4:by_hand.HEAD], "the rest of the heads")
        for folder in ("placed", "plain"):
            words = [folder + "/record", "table", folder + "/tree", folder + "/marks"]
            room.ends(0, "check", *words)
            room.works("read", *words, "back")
            need(slurp("back") == placed.volume, "the volume of", folder)
            os.remove("back")
            shutil.rmtree(folder)


def test_blank_pages(room):
    """Of a blank volume all pages of the base have one hash where it is plain, and each its own with
    places: no two hashes of the root, or of a page of the tree, are equal."""
    put("volume", b"")
    for depth in (1, 2, 5):
        put("table", by_hand.house_table(depth))
        for kind, option in ((PLACED, ()), (PLAIN, ("--plain",))):
            room.ends(0, "code", *option, "--force", "table", "volume", "made")
            hashed = slurp("made/record")[by_hand.HEAD:]
            for layer in range(depth - 1):
                hashed += slurp("made/tree")[256 * by_hand.first(layer):][:1024 << layer]
            hashes = [hashed[at:at + 32] for at in range(0, len(hashed), 32)]
            need((len(set(hashes)) == len(hashes)) == (kind == PLACED), depth, kind)


def test_recoding(room):
    """A volume of either kind, of any length, by any table: what comes is as it is coded of the
    other kind, and recoded once more it is as it was. The source stays, and the kinds are said."""
    chance = random.Random(52)
    for depth, kind in both():
        most = by_hand.lengths(depth)["volume"]
        for length, table in ((chance.randrange(most), None), (most, another_table(depth)),
                              (0, None))[:3 if depth < 6 else 1]:
            coded = Coded(depth, 53, table, length, kind).lay()
            other = Coded(depth, 53, table, length, 1 - kind)
            before = contents(".")
            room.recodes(kind, *WHOLE, "made")
            need(contents("made") == other.files(), "recoded", depth, kind, length)
            words = ("made/record", "table", "made/tree", "made/marks")
            room.recodes(1 - kind, depth, *words, "back")
            need(contents("back") == coded.files(), "recoded back", depth, kind, length)
            room.ends(0, "check", *words)
            shutil.rmtree("made")
            shutil.rmtree("back")
            need(contents(".") == before, "a source was changed")


def test_recoding_over(room):
    """A folder that is there is replaced with --force alone, and never one with an input in it; the
    report is on standard output, and where that is full it is said that the files are there."""
    coded = Coded(1, 54, kind=PLAIN).lay()
    room.recodes(PLAIN, *WHOLE, "made")
    room.refused(73, "recode", *WHOLE, "made")
    room.recodes(PLAIN, "--force", *WHOLE, "made")
    made = ("made/record", "table", "made/tree", "made/marks", "made")
    room.refused(73, "recode", "--force", *made)
    need(contents("made") == Coded(1, 54).files(), "what was recoded")
    with open("/dev/full", "wb") as full:
        for words in (("recode", *WHOLE, "full"), ("code", "table", "volume", "coded")):
            said = room.ends(74, *words, stdout=full)
            said.says("cedunmi: the files are in their places\n")
            need(contents(words[-1]) == Coded(1, 54).files(), "not in their places")
    need(coded.files() == {name: slurp(name) for name in coded.files()}, "a source was changed")


def not_recoded(room, coded, *lines):
    """A volume that is not recoded: 14, nothing is written, and this is said."""
    coded.lay()
    said = room.refused(14, "recode", *WHOLE, "none").says(
        "cedunmi: the tree is not whole as it is, so it is not recoded "
        "(number 14: cedunmi explain 14)\n")
    for line in (*lines, "cedunmi check says more"):
        said.says("cedunmi: " + line)
    need(said.err.count(b"\n") == 3, str(said))


def test_damage(room):
    """A page that is absent, or one bit of it wrong, in any layer: 14, and what a repair would mend
    is said. What the repair leaves is recoded."""
    chance = random.Random(55)
    for depth, kind in both():
        for layer in sorted({0, 1, depth // 2, depth - 2, depth - 1} & set(range(depth))):
            place = by_hand.first(layer) + chance.randrange(by_hand.pages(layer))
            mended = "a repair makes it whole: %s bad; repair it, and recode what that leaves\n"
            absent = Coded(depth, 56, kind=kind).harm(absent=[place])
            not_recoded(room, absent, mended % "1 page absent, 0")
            bad = Coded(depth, 56, kind=kind).harm(bad=[place])
            not_recoded(room, bad, mended % "0 pages absent, 1")
        room.ends(0, "-q", "repair", *WHOLE, "mended")
        room.recodes(kind, "record", "table", "mended/tree", "mended/marks", "made")
        need(contents("made") == Coded(depth, 56, kind=1 - kind).files(), "mended and recoded")
        shutil.rmtree("mended")
        shutil.rmtree("made")


def test_other_ends(room):
    """A volume that was coded wrongly, one of which too much is lost, one that is filled up
    otherwise: 14, and how a repair would end is said."""
    for depth, kind in both():
        end = "a repair would end so: "
        not_recoded(room, Coded(depth, 57, kind=kind).wrong_seven(),
                    end + "fault: the volume was not coded as the table says; the proof would have ")
        not_recoded(room, Coded(depth, 57, kind=kind).naming(another_table(depth)), end + "fault: ")
        lost = Coded(depth, 57, kind=kind).harm(absent=range(by_hand.first(depth)))
        not_recoded(room, lost, end + "unavailable: no equation gives another page of layer 0; "
                    "bring some of its 16 missing pages, and repair again\n")
        filled = Coded(depth, 57, length=700, kind=kind).misfilled(701)
        not_recoded(room, filled, end + by_hand.MISFILLED_SAID + "\n",
                    "cedunmi check says more; see first that the record's length is the manual's: "
                    "cedunmi explain 43\n")
        not_recoded(room, filled.harm(bad=[5]), end + "misfilled: ")


def test_order(room):
    """14 comes last: after 1, 2, 11, 3, 10, 12 and 4."""
    coded = Coded(2, 58, length=700).harm(absent=[20]).lay()
    put("bad", coded.table[:7] + b"\7" + coded.table[8:])
    put("thin", table_leaving(2, (1, 5, 1)))
    put("other", another_table(2))
    put("marked", b"\2" + coded.marks[1:])
    put("wrong", b"\x80" + coded.record[1:])
    put("short", coded.tree[:-1])
    for status, words in ((1, (10, "wrong", "bad", "short", "marked")),
                          (2, (2, "wrong", "bad", "short", "marked")),
                          (11, (2, "wrong", "bad", "tree", "marked")),
                          (3, (2, "record", "bad", "tree", "marked")),
                          (10, (2, "record", "thin", "tree", "marked")),
                          (12, (2, "record", "other", "tree", "marked")),
                          (4, (2, "record", "table", "tree", "marked")),
                          (14, (2, "record", "table", "tree", "marks"))):
        room.refused(status, "recode", *words, "none")
        room.refused(73, "recode", "--force", *words, ".")


def root_said(kind):
    """What is said of a record of this kind whose root is of the other."""
    return "this record says %s, but its root fits as one of %s: compare it with the manual\n" % (
        CALLED[kind], CALLED[1 - kind])


def rest_said(kind, what):
    """What is said where a record is of this kind, and what is checked by it agrees with itself by
    the other: never that another record is to be taken than the manual's."""
    to_do = {"tree": "if it was recoded, recode it by the record that came with it, and compare the "
                     "record that this gives with the manual's",
             "sample": "ask for one of a tree of %s, or for the manual's record of %s" % (
                 CALLED[kind], CALLED[1 - kind]),
             "proof": "it is not against the volume of this record: turn it down"}
    return "this %s agrees with itself as one of %s, and the record is of %s: %s\n" % (
        what, CALLED[1 - kind], CALLED[kind], to_do[what])


def doubted(room, words, doubt):
    """No command takes a tree by this record, and why is said, in the place of pages that are to be
    brought; nothing is written in place."""
    last = "unavailable: no equation gives another page of layer 0; " + doubt
    for command in (("check",), ("repair",)):
        folder = ("made",) if command == ("repair",) else ()
        said = room.ends(32, *command, *words, *folder)
        need(said.out.decode().endswith(last), str(said) + ", but not:", last)
    shutil.rmtree("made")
    room.refused(32, "read", *words, "none").says(last)
    room.refused(14, "recode", *words, "none").says(last)
    said = room.ends(32, "repair", "--in-place", *words, "none")
    need(said.out.decode().endswith(last), str(said) + ", but not:", last)
    said.says("nothing was written: fewer pages would be held than before; " + doubt)


def test_changed_kinds(room):
    """A record whose kind was changed: no page fits, and it is said that the root would by the other
    kind, of a damaged tree too, and where one page of the top layer is held; samples and proofs
    likewise."""
    for depth, kind in both():
        coded = Coded(depth, 59, kind=kind).lay()
        put("record", by_hand.of_other_kind(coded.record))
        before = contents(".")
        doubted(room, WHOLE, root_said(1 - kind))
        room.refused(7, "check-sample", 3, "record", "sample").says(root_said(1 - kind))
        need(contents(".") == before, "something was changed")
        coded.harm(absent=range(0, 16, 2), bad=range(1, 14, 2))
        put("tree", coded.tree)
        put("marks", coded.marks)
        doubted(room, WHOLE, root_said(1 - kind))
        coded = Coded(depth, 59, kind=kind).harm(absent=[*range(11), *range(12, 16)])
        put("tree", coded.tree)
        put("marks", coded.marks)
        doubted(room, WHOLE, root_said(1 - kind))
        wrong = Coded(depth, 59, kind=kind).wrong_seven()
        put("other", by_hand.of_other_kind(wrong.record))
        put("proof", wrong.repair().proof)
        room.refused(7, "check-proof", "other", "table", "proof").says(root_said(1 - kind))
        put("proof", Coded(depth, 59, kind=kind).repair().prove(0, 0, 4, [0, 1]))
        room.refused(7, "check-proof", "record", "table", "proof").says(root_said(1 - kind))


def test_mixed_kinds(room):
    """A volume and the same recoded, the one's record with the other's tree, sample or proof: at
    depth 1 the trees are the same; else it is said that they are of two kinds. Recoded by the record
    that came with it, the tree gives the manual's record, and one that is forged another."""
    for depth, kind in both():
        coded, other = Coded(depth, 60, kind=kind).lay(), Coded(depth, 60, kind=1 - kind)
        put("record", other.record)
        if depth == 1:
            need(coded.tree == other.tree, "two trees at depth 1")
            room.ends(0, "check", *WHOLE)
            continue
        doubted(room, WHOLE, rest_said(1 - kind, "tree"))
        room.refused(7, "check-sample", 3, "record", "sample").says(rest_said(1 - kind, "sample"))
        few = Coded(depth, 60, kind=kind).harm(absent=range(9))
        put("few", few.marks)
        said = room.ends(32, "check", "record", "table", "tree", "few")
        need(said.out.endswith(b" missing pages, and repair again\n"), str(said))
        base, members = depth - 1, by_hand.house_members(depth - 1, 5)
        put("proof", coded.repair().prove(base, 5, members[-1], members[:-1]))
        room.refused(7, "check-proof", "record", "table", "proof").says(
            rest_said(1 - kind, "proof"))
        put("came", coded.record)
        room.recodes(kind, "came", "table", "tree", "marks", "made")
        need(contents("made") == other.files(), "recoded by the record that came")
        shutil.rmtree("made")
        forged = Coded(depth, 61, kind=kind).lay()
        put("came", forged.record)
        put("record", other.record)
        doubted(room, WHOLE, rest_said(1 - kind, "tree"))
        room.recodes(kind, "came", "table", "tree", "marks", "made")
        need(slurp("made/record") != other.record, "a forged tree gives the manual's record")
        shutil.rmtree("made")


def test_other_records(room):
    """Another volume's record: nothing is said of kinds where it is of the same; where it is of the
    other, that is said."""
    for depth, kind in both():
        Coded(depth, 61, kind=kind).lay()
        for other in KINDS:
            put("record", Coded(depth, 62, kind=other).record)
            said = room.ends(32, "check", *WHOLE)
            if other == kind:
                need(said.out.endswith(b"don't fit this record: is it the volume's?\n"), str(said))
                sampled = room.refused(7, "check-sample", 3, "record", "sample")
                need(b"kind 0" not in said.out + sampled.err, str(said), str(sampled))
            elif depth > 1:
                need(said.out.decode().endswith(rest_said(other, "tree")), str(said))
