"""Where a path breaks: which page check-sample and check-proof name, beside what is by hand."""
import random

import by_hand
from by_hand import DEPTHS, KINDS
from room import Coded, need, put



def laid(coded):
    """Puts the files here that a check needs, record and table, beside what it checks."""
    put("record", coded.record)
    put("table", coded.table)
    return coded


def changed(data, *places):
    """The bytes with these changed."""
    data = bytearray(data)
    for place in places:
        data[place] ^= 1
    return bytes(data)


def sample_broken(room, coded, number, sample, *options):
    """The lines of a sample that is refused, which are those by hand."""
    put("damaged", sample)
    said = room.refused(7, "check-sample", *options, coded.depth, number, "record", "damaged")
    lines = by_hand.broken_sample(coded.depth, number, coded.record, sample)
    need(said.err.decode() == lines, str(said) + ", but this should be said:", lines)
    return lines


def proof_broken(room, coded, proof, record="record"):
    """The lines of a proof that is refused, which are those by hand."""
    put("damaged", proof)
    said = room.refused(7, "check-proof", coded.depth, record, "table", "damaged")
    lines = by_hand.broken_proof(coded.record, coded.table, proof)
    need(said.err.decode() == lines, str(said) + ", but this should be said:", lines)
    return lines


def some(depth, slots, step):
    """The hashes of which a byte is changed: all, and at greater depths one in so many."""
    return range(slots) if depth < 6 else range(depth % step, slots, step)


def test_samples(room):
    """Each page of a sample with a byte changed in each of its eight hashes, or two pages."""
    chance, told = random.Random(4), []
    for depth, kind in ((depth, kind) for depth in DEPTHS for kind in KINDS):
        coded = laid(Coded(depth, 15, kind=kind))
        for number in chance.sample(range(8 << depth), 2 - (depth > 5)):
            sample = by_hand.sample(depth, number, coded.tree)
            for slot in some(depth, len(sample) // 32, 3):
                places = [32 * slot + chance.randrange(32)]
                places += [chance.randrange(len(sample))] * chance.randrange(2)
                told.append(sample_broken(room, coded, number, changed(sample, *places)))
    for layer in range(max(DEPTHS)):
        need(sum(" of layer %d (number 7" % layer in lines for lines in told) > 5, "layer", layer)
    for words in ("the root has", "and leads to the root", "but doesn't lead to the root"):
        need(sum(words in lines for lines in told) > 10, words)


def test_two_pages(room):
    """Data page and parity page of each layer at once, by the page above or by themselves; with
    another record; with another number."""
    for depth in DEPTHS:
        coded = laid(Coded(depth, 16, kind=depth % 2))
        for number in (0, 5, (8 << depth) - 1):
            sample = by_hand.sample(depth, number, coded.tree)
            for index in range(1, 2 * depth - 1, 2):
                at = 256 * index
                both = changed(sample, at + 3, at + 256)
                gone = sample[:at] + bytes(256) + sample[at + 256:]
                sample_broken(room, coded, number, both)
                lines = sample_broken(room, coded, number, gone, "--quiet")
                need(index == 1 or ": pages " in lines, lines)
            sample_broken(room, coded, (number + 1) % (8 << depth), sample)
        coded.record = Coded(depth, 17, kind=depth % 2).record
        put("record", coded.record)
        sample_broken(room, coded, 5, by_hand.sample(depth, 5, coded.tree))


def test_other_numbers(room):
    """A sample under each number that is not its own: plain, it breaks at any layer, and what is to
    be asked for depends on the number in each; with places it breaks at the base."""
    for kind, counts in ((by_hand.PLAIN, (3, 4, 8, 16, 224)), (by_hand.PLACED, (0, 0, 0, 0, 255))):
        coded = laid(Coded(5, 21, kind=kind))
        sample = by_hand.sample(5, 200, coded.tree)
        told = [sample_broken(room, coded, i, sample) for i in range(256) if i != 200]
        for layer, count in enumerate(counts):
            lines = [said for said in told if " of layer %d (number 7" % layer in said]
            need(len(lines) == count, "layer", layer, len(lines))
            need(all("the sample that of base page " in said for said in lines), "layer", layer)


def test_other_numbers_of_equal_pages(room):
    """The sample of base page 200 of a blank volume is taken under every number where it is plain,
    and with places under those alone for which each page of it has the same bytes."""
    table = by_hand.house_table(5)
    for kind, taken in ((by_hand.PLAIN, range(256)), (by_hand.PLACED, (8, 104, 200))):
        tree, root = by_hand.tree_of(5, table, bytes(16384), kind)
        put("record", by_hand.head_of(5, 0, table, kind) + root)
        put("sample", by_hand.sample(5, 200, tree))
        for i in range(256):
            room.ends(0 if i in taken else 7, "check-sample", i, "record", "sample")


def test_other_tables(room):
    """A proof by another table than that of the record, which has members whose hashes stand in
    other slots: it breaks at its own layer, and what is to be asked for depends on the record."""
    for depth in DEPTHS:
        base, equations = depth - 1, by_hand.house_equations(depth)
        coded = laid(Coded(depth, 22, kind=depth % 2))
        members = equations[base][9]
        proof = coded.repair().prove(base, 9, members[-1], members[:-1])
        data = sorted((i + (2 << base)) % (4 << base) for i in members[:2])
        equations[base][9] = data + members[2:]
        laid(coded.naming(by_hand.table_of(equations)))
        lines = proof_broken(room, coded, proof)
        need("layer %d, a given member" % base in lines and "if this record is" in lines, lines)


def test_proofs(room):
    """Each page of a proof with a byte changed in each hash: members, paths, the withheld one's."""
    chance, told = random.Random(5), []
    for depth in DEPTHS:
        coded = laid(Coded(depth, 18, kind=depth % 2))
        for layer in sorted({0, depth // 2, depth - 1}):
            equation = chance.randrange(12 << layer)
            others = list(by_hand.house_members(layer, equation))
            withheld = others.pop(chance.randrange(len(others)))
            proof = coded.repair().prove(layer, equation, withheld, others)
            for slot in some(depth, (len(proof) - 12) // 32, 9):
                place = 12 + 32 * slot + chance.randrange(32)
                told.append(proof_broken(room, coded, changed(proof, place)))
    for words in (", a given member (", ", in the path of member ", "the withheld member ",
                  "the root has", "and leads to the root", "but doesn't lead to the root"):
        need(sum(words in lines for lines in told) > 40, words)


def test_first_member(room):
    """Of several members whose ways break, and with another record, the first in the proof's order
    is named; in a proof of layer 0 the withheld one has no path."""
    for depth in DEPTHS:
        wrong = laid(Coded(depth, 19, kind=depth % 2).wrong_seven())
        proof = wrong.repair().proof
        proof_broken(room, wrong, changed(proof, 12 + 256, 12 + 512))
        proof_broken(room, wrong, changed(proof, len(proof) - 1))
        base = depth - 1
        members = by_hand.house_members(base, 3)
        proof = wrong.repair().prove(base, 3, members[1], members[:1] + members[2:])
        for places in ((len(proof) - 1, 12), (12 + 256 * depth, 12 + 512 * depth), (12, 13)):
            proof_broken(room, wrong, changed(proof, *places))
        wrong.record = Coded(depth, 20, kind=depth % 2).record
        put("record", wrong.record)
        proof_broken(room, wrong, proof)
