"""What check, repair and read make of damage: report, status and files beside those by hand."""
import os
import random
import shutil

import by_hand
from room import Coded, another_table, contents, need, put, slurp, snapshot, unchanged

WHOLE = ("record", "table", "tree", "marks")


def compare(room, coded, folder="made"):
    """check, repair and read of one tree, in three commands: they must agree with it by hand."""
    coded.lay()
    expected = coded.repair()
    damage = 30 if any(layer.absent or layer.bad for layer in expected.layers) else 0
    status = {by_hand.WHOLE: damage, by_hand.FAULT: 31, by_hand.UNAVAILABLE: 32}[expected.end]
    words = (coded.depth, *WHOLE)
    before = snapshot(touched=True)
    said = room.ends(status, "check", *words).prints(expected.report())
    unchanged(before, snapshot(touched=True), said)
    said = room.ends(status if status > 30 else 0, "repair", *words, folder)
    said.prints(expected.report(folder + "/proof"))
    need(contents(folder) == expected.files(), str(said) + ", but what it wrote differs")
    said = room.ends(status, "read", *words, "back").prints("")
    if status > 30:
        need(not os.path.lexists("back"), str(said) + ", and has written a volume")
    else:
        need(slurp("back") == coded.volume, str(said) + ", and has written another volume")
        os.remove("back")
    need(slurp("tree") == coded.tree and slurp("marks") == coded.marks, "an input was changed")
    for name in contents(folder):
        os.remove(os.path.join(folder, name))
    os.rmdir(folder)
    return expected.end


def test_the_report_of_the_manual(room):
    """One bad copy at depth 2, word for word."""
    Coded(2, 1).harm(bad=[2]).lay()
    room.ends(30, "check", 2, *WHOLE).prints(
        "a repair would come to this:\n"
        "layer 0: 16 pages, 0 to 15: 0 absent, 1 bad; 1 stored, 0 missing\n"
        "  bad copies: 2\n"
        "layer 1: 32 pages, 16 to 47: 0 absent, 0 bad; 0 stored, 0 missing\n"
        "stored: 1\n"
        "whole: every page is held, and the tree agrees with the record and the table\n")
    put("marks", bytes(48))
    room.ends(32, "check", 2, *WHOLE).prints(
        "a repair would come to this:\n"
        "layer 0: 16 pages, 0 to 15: 16 absent, 0 bad; 0 stored, 16 missing\n"
        "  missing: 0 1 2 3 4 5 6 7 8 9 10 11 12 13 14 15\n"
        "layer 1: 32 pages, 16 to 47: not entered\n"
        "stored: 0\n"
        "unavailable: no equation gives another page of layer 0; bring some of its 16 missing "
        "pages, and repair again\n")


def test_no_damage(room):
    """A whole tree: status 0, nothing stored."""
    for depth in by_hand.DEPTHS:
        for kind in by_hand.KINDS:
            need(compare(room, Coded(depth, 5, kind=kind)) == by_hand.WHOLE, "a whole tree")


def test_damage(room):
    """Absent pages and bad copies in every layer, from few to more than can be repaired."""
    chance, ends = random.Random(14), []
    for turn in range(60):
        depth, kind = 1 + turn % 5, turn // 5 % 2
        places = range(by_hand.first(depth))
        share = chance.choice([0.02, 0.1, 0.2, 0.4, 0.6])
        hit = [p for p in places if chance.random() < share]
        bad = [p for p in hit if chance.random() < 0.4]
        harmed = Coded(depth, turn, kind=kind).harm(set(hit) - set(bad), bad)
        ends.append((kind, compare(room, harmed)))
    for kind in by_hand.KINDS:
        for end in (by_hand.WHOLE, by_hand.UNAVAILABLE):
            need(2 < ends.count((kind, end)), "ends:", ends)


def test_deeper(room):
    """Absent pages and bad copies in every layer of deeper trees: little, and too much for the
    base alone."""
    chance = random.Random(16)
    for depth in (6, 7, 8, 9):
        base = by_hand.first(depth - 1)
        for share, end in ((0.1, by_hand.WHOLE), (0.7, by_hand.UNAVAILABLE)):
            hit = [p for p in range(by_hand.first(depth))
                   if chance.random() < (share if p >= base else 0.05)]
            bad = [p for p in hit if chance.random() < 0.4]
            coded = Coded(depth, depth, kind=depth % 2)
            found = compare(room, coded.harm(set(hit) - set(bad), bad))
            need(found == end, "end", found, "at depth", depth, "with", share)


def test_faults(room):
    """A volume coded wrongly, at the top and in the base, with and without damage."""
    for depth, kind in ((depth, kind) for depth in by_hand.DEPTHS for kind in by_hand.KINDS):
        need(compare(room, Coded(depth, 6, kind=kind).wrong_seven()) == by_hand.FAULT, "no fault")
        compare(room, Coded(depth, 7, kind=kind).wrong_seven().harm(absent=[4], bad=[9, 12]))
        other = Coded(depth, 8, kind=kind).naming(another_table(depth))
        need(compare(room, other) == by_hand.FAULT, "no fault by another table")


def test_longest_proofs(room):
    """The longest proof of each depth, of an equation of eight members in the base, is written and
    accepted."""
    for depth in by_hand.DEPTHS:
        k, equations = 2 << depth, by_hand.house_equations(depth)
        equations[-1][-1] = [0, 1, 2] + list(range(4 * k - 5, 4 * k))
        coded = Coded(depth, 23, kind=depth % 2).naming(by_hand.table_of(equations))
        need(compare(room, coded) == by_hand.FAULT, "no fault by eight members")
        room.ends(31, "repair", depth, *WHOLE, "made")
        need(len(slurp("made/proof")) == by_hand.lengths(depth)["proof"], "the longest proof")
        room.ends(0, "check-proof", depth, "record", "table", "made/proof")
        shutil.rmtree("made")


def test_proofs_are_accepted(room):
    """The proof that a repair writes is one that check-proof accepts."""
    wrong = Coded(3, 9).wrong_seven().lay()
    room.ends(31, "repair", 3, *WHOLE, "made")
    room.ends(0, "check-proof", 3, "record", "table", "made/proof")
    Coded(3, 9).naming(another_table(3)).lay()
    room.ends(31, "repair", 3, *WHOLE, "other")
    room.ends(0, "check-proof", 3, "record", "table", "other/proof")
    need(contents("other")["proof"] != wrong.repair().proof, "one proof for two faults")


def test_in_place(room):
    """--in-place replaces tree and marks, and keeps the old ones; modes stay; the report's name."""
    coded = Coded(2, 10).harm(absent=[1, 20], bad=[5, 30]).lay()
    os.chmod("tree", 0o640)
    os.chmod("marks", 0o604)
    expected = coded.repair()
    said = room.ends(0, "repair", "--in-place", 2, *WHOLE, "proof")
    said.prints(expected.report("proof"))
    need(not os.path.lexists("proof"), "a proof of a whole tree")
    found = contents(".")
    need((found["tree"], found["marks"]) == tuple(expected.files().values()), "the new ones")
    need((found["tree~"], found["marks~"]) == (coded.tree, coded.marks), "the old ones")
    need(sorted(found) == sorted("table volume tree marks record sample text tree~ marks~".split()),
         "names:", sorted(found))
    modes = [os.stat(name).st_mode & 0o777 for name in ("tree", "marks", "tree~", "marks~")]
    need(modes == [0o640, 0o604, 0o640, 0o604], "modes", [oct(mode) for mode in modes])
    os.remove("tree~")
    os.remove("marks~")
    before = snapshot(touched=True)
    said = room.ends(0, "repair", "--in-place", 2, *WHOLE, "proof")
    said.prints(Coded(2, 10).repair().report("proof"))
    after = snapshot(touched=True)
    need(before == after, "a repair in place that changes nothing has written")


def test_in_place_faults(room):
    """--in-place with a fault writes the proof; what was kept before is not lost."""
    wrong = Coded(1, 11).wrong_seven().harm(bad=[4]).lay()
    expected = wrong.repair()
    put("proof", b"mine")
    room.refused(73, "repair", "--in-place", 1, *WHOLE, "proof")
    os.remove("proof")
    for kept in ("tree~", "marks~"):
        put(kept, b"older")
        room.refused(73, "repair", "--in-place", 1, *WHOLE, "proof").says(kept)
        os.remove(kept)
    put("tree~", b"older")
    room.ends(31, "repair", "--in-place", "--force", 1, *WHOLE, "proof").prints(
        expected.report("proof"))
    found = contents(".")
    need({name: found[name] for name in ("tree", "marks", "proof")} == expected.files(), "files")
    need((found["tree~"], found["marks~"]) == (wrong.tree, wrong.marks), "the old ones")
    room.ends(0, "check-proof", 1, "record", "table", "proof")


def test_another_record(room):
    """A repair by another volume's record is no harm: nothing but the new folder is written, and in
    place nothing, since fewer pages would be held; the record is doubted."""
    Coded(1, 12).lay()
    put("record", Coded(1, 13).record)
    before = contents(".")
    said = room.ends((31, 32), "repair", 1, *WHOLE, "made")
    made = contents("made")
    after = {name: held for name, held in contents(".").items() if not name.startswith("made")}
    need(after == before, str(said) + ", and has changed an input")
    need(set(made) <= {"tree", "marks", "proof"}, "made", sorted(made))
    for force in ((), ("--force",)):
        said = room.ends(32, "repair", "--in-place", *force, 1, *WHOLE, "proof")
        said.says("nothing was written: fewer pages would be held than before")
        need(b"is it the volume's?" in said.out, str(said))
    after = {name: held for name, held in contents(".").items() if not name.startswith("made")}
    need(after == before, str(said) + ", and has changed something")
