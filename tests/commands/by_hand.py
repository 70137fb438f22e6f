"""What docs/FORMAT.md says, in plain Python: tables, trees, records, samples, repairs and their
reports.

The tests compare with it what the program writes and prints. It shares no code with the library.
"""
import functools
import hashlib
import heapq
import struct
from collections import Counter

PAGE = 256
DEPTHS = range(1, 10)
PLACED, PLAIN = KINDS = 0, 1
CALLED = ("kind 00, with places", "kind 01, plain")     # by the program
KIND_WORDS = ("placed", "plain")                        # in a print
WHOLE, FAULT, UNAVAILABLE, MISFILLED = 0, 1, 2, 13
HEAD = 44         # bytes of a record before the root
MISFILLED_SAID = ("misfilled: every page is held, and the tree agrees with the root and the table, "
                  "but what fills up the volume isn't zero")


def digest(data):
    """The SHA-256 of the bytes."""
    return hashlib.sha256(data).digest()


def page_hash(kind, layer, number, page):
    """The hash of a page in a volume of this kind; its number is that in its layer."""
    place = struct.pack(">I", 1 << 30 | layer << 24 | number)
    return digest((b"" if kind == PLAIN else place) + page)


def first(layer):
    """The place of a layer's first page in the tree."""
    return 16 * ((1 << layer) - 1)


def pages(layer):
    """How many pages a layer has."""
    return 16 << layer


def lengths(depth):
    """The bytes of each kind of file; of a volume, a table and a proof, of the longest."""
    marks = first(depth)
    return {"volume": 512 << depth, "tree": PAGE * marks, "marks": marks, "record": 556,
            "sample": PAGE * (2 * depth - 1), "table": 220792, "proof": 12 + PAGE * (8 * depth - 1)}


def house_members(layer, equation):
    """The members of an equation of the house table."""
    k = 4 << layer
    data = sorted([equation % k, (equation + 1 + equation // k) % k])
    return data + ([k + equation - 1] if equation else []) + [k + equation]


def table_of(layers):
    """The bytes of a table with these equations, a list of lists of members for each layer."""
    words = []
    for layer, equations in enumerate(layers):
        words.append(1 << 30 | layer)
        for number, members in enumerate(equations):
            words.append(2 << 30 | number)
            words.extend(members)
    words.append(3 << 30 | len(words))
    return struct.pack(">%dI" % len(words), *words)


def house_equations(depth):
    """The equations of the house table, layer by layer."""
    return [[house_members(j, e) for e in range(12 << j)] for j in range(depth)]


def house_table(depth):
    """The bytes of the house table."""
    return table_of(house_equations(depth))


def equations_of(table):
    """The equations that the bytes of a table have, layer by layer."""
    layers = []
    for word in struct.unpack(">%dI" % (len(table) // 4), table):
        kind, value = word >> 30, word & (1 << 30) - 1
        if kind == 1:
            layers.append([])
        elif kind == 2:
            layers[-1].append([])
        elif kind == 0:
            layers[-1][-1].append(value)
    return layers


def uncovered(table):
    """The first layer that has a data page in fewer than two equations, and its lowest such page;
    None where there is no such page."""
    for layer, equations in enumerate(equations_of(table)):
        held = Counter(i for equation in equations for i in equation)
        for page in range(4 << layer):
            if held[page] < 2:
                return layer, page
    return None


def xor(some):
    """The exclusive-or of pages."""
    value = 0
    for page in some:
        value ^= int.from_bytes(page, "big")
    return value.to_bytes(PAGE, "big")


def with_parity(data, equations):
    """A layer's data pages, and the parity pages that its equations give."""
    layer = list(data)
    for members in equations:
        layer.append(xor(layer[i] for i in members[:-1]))
    return layer


def hashes_above(hashes):
    """The data pages of the layer above: eight hashes of this layer in each."""
    s = len(hashes) // 8
    return [b"".join(hashes[q * s + i] for q in range(8)) for i in range(s)]


def head_of(depth, length, table, kind=PLACED):
    """The record of a volume without the root: what it says of kind, depth, length and table."""
    words = kind << 30 | depth, 2 << 30 | length, 3 << 30 | len(table) // 4
    return struct.pack(">3I", *words) + digest(table)


def kind_of(record):
    """The kind of volume that a record says."""
    return record[0] >> 6


def of_other_kind(record):
    """A record that says the other kind, of the same root."""
    return bytes([record[0] ^ 64]) + record[1:]


def length_of(record):
    """The length of the volume that a record says."""
    return struct.unpack(">I", record[4:8])[0] & (1 << 30) - 1


@functools.lru_cache(maxsize=8)
def tree_of(depth, table, filled, kind=PLACED):
    """Tree and root of a volume of this kind that is filled up."""
    equations = equations_of(table)
    data = [filled[i:i + PAGE] for i in range(0, len(filled), PAGE)]
    layers = []
    for j in reversed(range(depth)):
        layers.insert(0, with_parity(data, equations[j]))
        hashes = [page_hash(kind, j, i, page) for i, page in enumerate(layers[0])]
        data = hashes_above(hashes)
    return b"".join(b"".join(layer) for layer in layers), b"".join(hashes)


def code(depth, table, volume, kind=PLACED):
    """Tree, marks and record of a volume."""
    tree, root = tree_of(depth, table, volume.ljust(lengths(depth)["volume"], b"\0"), kind)
    return tree, b"\1" * first(depth), head_of(depth, len(volume), table, kind) + root


def sample_places(depth, number):
    """The places in the tree of the pages of a sample."""
    places = [first(depth - 1) + number]
    for j in reversed(range(depth - 1)):
        k = 4 << j
        places += [first(j) + number % k, first(j) + k + number % (3 * k)]
    return places


def sample(depth, number, tree):
    """The sample of a base page."""
    return b"".join(tree[PAGE * p:PAGE * (p + 1)] for p in sample_places(depth, number))


def sample_way(depth, number):
    """The layers of a sample, going up: each with its number, and the numbers of its pages, the
    data page first, and the bytes of the sample that they begin at."""
    way = [(depth - 1, [(number, 0)])]
    for j in reversed(range(depth - 1)):
        k, at = 4 << j, PAGE * (2 * (depth - 1 - j) - 1)
        way.append((j, [(number % k, at), (k + number % (3 * k), at + PAGE)]))
    return way


def proof_ways(table, proof):
    """The members of a proof in its order, the withheld one last: what is said of the pages of its
    path, and its way up, as of a sample."""
    layer, equation, withheld = [word & (1 << 30) - 1 for word in struct.unpack(">3I", proof[:12])]
    others = [i for i in equations_of(table)[layer][equation] if i != withheld]
    for position, i in enumerate(others + [withheld]):
        own = [] if i == withheld else [(layer, i)]
        way = own + [(j, i % (4 << j)) for j in reversed(range(layer))]
        at = 12 + PAGE * position * (layer + 1)
        yield ("the withheld member %d" if i == withheld else "member %d") % i, [
            (j, [(number, at + PAGE * step)]) for step, (j, number) in enumerate(way)]


def unfit(way, record, data):
    """Of each layer of a way up the pages of these bytes whose hash the data page of the next, or
    the root, does not have for them."""
    above = [data[held[0][1]:][:PAGE] for _, held in way[1:]] + [record[HEAD:]]
    for (layer, held), hashes in zip(way, above):
        s = pages(layer) // 8 if layer else 1
        yield [(i, at) for i, at in held
               if page_hash(kind_of(record), layer, i, data[at:at + PAGE])
               != hashes[32 * (i // s):][:32]]


def listed(word, numbers):
    """Numbers after a word, which has an s if there are more than one."""
    return word + "s" * (len(numbers) > 1) + " " + " and ".join(map(str, numbers))


def places(layer, some):
    """Pages of a layer, each with its number first, by their places in the tree."""
    return listed("page", [first(layer) + page[0] for page in some])


def to_ask(way, wrong, right):
    """What is said of the page above a break, and which to ask for again: the topmost that does not
    fit. The way up starts there; of each of its layers there are the pages that do not fit."""
    hashes = "other hashes for them" if len(wrong[0]) > 1 else "another hash for it"
    above = [(layer, held[0]) for layer, held in way[1:]]
    higher = [(layer, [page]) for (layer, page), bad in zip(above, wrong[1:]) if page in bad]
    layer, asked = higher[-1] if higher else (way[0][0], wrong[0])
    leads = ", but doesn't lead to the root itself" if higher else ", and leads to the root"
    return "%s has %s%s: if %s, ask for %s again%s, bytes %d to %d of damaged" % (
        places(above[0][0], above[0][1:]) if above else "the root", hashes, leads * bool(above),
        right, places(layer, asked), " first" * bool(higher), asked[0][1],
        asked[-1][1] + PAGE - 1)


def broken(way, record, data, whose, right):
    """What is said of a way up that breaks, or None."""
    wrong = list(unfit(way, record, data))
    at = next((at for at, some in enumerate(wrong) if some), None)
    if at is None:
        return None
    layer, some = way[at][0], wrong[at]
    return ("cedunmi: a hash doesn't lead to the root: %s of the tree, %s of layer %d%s "
            "(number 7: cedunmi explain 7)\ncedunmi: %s\n" % (
                places(layer, some), listed("number", [page[0] for page in some]), layer,
                whose(layer), to_ask(way[at:], wrong[at:], right)))


def broken_sample(depth, number, record, sample):
    """What is said of a sample in the file damaged that breaks, or None."""
    right = "this record is the volume's, and the sample that of base page %d" % number
    return broken(sample_way(depth, number), record, sample, lambda layer: "", right)


def broken_proof(record, table, proof):
    """What is said of a proof in the file damaged that breaks, or None: of the first member with a
    way up that does."""
    layer = proof[3]
    for member, way in proof_ways(table, proof):
        said = broken(way, record, proof, lambda j: ", a given member" if j == layer else
                      ", in the path of " + member, "this record is the volume's")
        if said:
            return said
    return None


class Layer:
    """What a repair found and did in one layer."""

    def __init__(self, number, absent, bad):
        self.number, self.absent, self.bad = number, absent, bad
        self.missing = []

    def lines(self):
        """The layer's lines of the report."""
        low, count = first(self.number), pages(self.number)
        stored = self.absent + len(self.bad) - len(self.missing)
        yield "layer %d: %d pages, %d to %d: %d absent, %d bad; %d stored, %d missing" % (
            self.number, count, low, low + count - 1, self.absent, len(self.bad), stored,
            len(self.missing))
        for word, places in (("bad copies", self.bad), ("missing", self.missing)):
            if places:
                yield "  %s: %s" % (word, " ".join(map(str, places)))


class Repair:
    """A repair of a tree: its end, what it stored, the tree and the marks then, and the proof."""

    def __init__(self, depth, record, table, tree, marks):
        self.depth, self.kind, self.root = depth, kind_of(record), record[HEAD:]
        self.tree = [tree[i:i + PAGE] for i in range(0, len(tree), PAGE)]
        self.marks = list(marks)
        self.end, self.stored, self.proof, self.layers = WHOLE, 0, b"", []
        for number, equations in enumerate(equations_of(table)):
            if self.end == WHOLE:
                self.enter(number, equations)
        if self.end == WHOLE and any(self.volume()[length_of(record):]):
            self.end = MISFILLED

    def volume(self):
        """The pages of the volume, filled up as they are."""
        base = first(self.depth - 1)
        return b"".join(self.tree[base:base + pages(self.depth - 1) // 4])

    def fits(self, layer, number, page):
        """Whether a page has the hash that stands for the one of this number."""
        if layer == 0:
            committed = self.root[32 * number:32 * number + 32]
        else:
            s = pages(layer) // 8
            committed = self.tree[first(layer - 1) + number % s][32 * (number // s):][:32]
        return page_hash(self.kind, layer, number, page) == committed

    def enter(self, number, equations):
        """Repairs one layer."""
        low, count = first(number), pages(number)
        found = Layer(number, self.marks[low:low + count].count(0), [])
        for i in range(count):
            if self.marks[low + i] and not self.fits(number, i, self.tree[low + i]):
                found.bad.append(low + i)
                self.marks[low + i] = 0
            if not self.marks[low + i]:
                self.tree[low + i] = bytes(PAGE)
        self.layers.append(found)
        self.peel(number, equations)
        found.missing = [low + i for i in range(count) if not self.marks[low + i]]
        if found.missing and self.end == WHOLE:
            self.end = UNAVAILABLE

    def peel(self, layer, equations):
        """Takes the lowest equation with at most one absent member, until there is none."""
        low = first(layer)
        absent = [[i for i in members if not self.marks[low + i]] for members in equations]
        ready = [number for number, gone in enumerate(absent) if len(gone) < 2]
        while ready and self.end == WHOLE:
            number = heapq.heappop(ready)
            members, gone = equations[number], absent[number]
            withheld = gone[0] if gone else members[-1]
            others = [i for i in members if i != withheld]
            formed = xor(self.tree[low + i] for i in others)
            if not self.fits(layer, withheld, formed):
                self.end = FAULT
                self.proof = self.prove(layer, number, withheld, others)
            elif gone:
                self.tree[low + withheld], self.marks[low + withheld] = formed, 1
                self.stored += 1
                for other in self.given(absent, withheld):
                    heapq.heappush(ready, other)

    @staticmethod
    def given(absent, page):
        """Takes a page that is there now from the absent members of equations; gives those
        equations that have one left."""
        for number, gone in enumerate(absent):
            if page in gone:
                gone.remove(page)
                if len(gone) == 1:
                    yield number

    def path(self, layer, number):
        """The pages that lead from a page to the root."""
        path = b""
        for j in reversed(range(layer)):
            number %= pages(j + 1) // 8
            path += self.tree[first(j) + number]
        return path

    def prove(self, layer, equation, withheld, others):
        """The fault proof of an equation."""
        proof = struct.pack(">3I", 1 << 30 | layer, 2 << 30 | equation, 3 << 30 | withheld)
        for i in others:
            proof += self.tree[first(layer) + i] + self.path(layer, i)
        return proof + self.path(layer, withheld)

    def report(self, where=None):
        """The report; WHERE is the name of the proof, None for a check, which writes nothing."""
        lines = ["a repair would come to this:"] if where is None else []
        lines += [line for layer in self.layers for line in layer.lines()]
        for j in range(len(self.layers), self.depth):
            low, count = first(j), pages(j)
            lines.append("layer %d: %d pages, %d to %d: not entered" % (
                j, count, low, low + count - 1))
        lines += ["stored: %d" % self.stored, self.last_line(where)]
        return "".join(line + "\n" for line in lines)

    def last_line(self, where):
        """The end in words."""
        if self.end == WHOLE:
            return "whole: every page is held, and the tree agrees with the record and the table"
        if self.end == MISFILLED:
            return MISFILLED_SAID
        if self.end == FAULT:
            there = "the proof would have %d bytes" % len(self.proof)
            if where is not None:
                there = "the proof of %d bytes is in %s" % (len(self.proof), where)
            return "fault: the volume was not coded as the table says; " + there
        missing = self.layers[-1]
        return ("unavailable: no equation gives another page of layer %d; bring some of its %d "
                "missing pages, and repair again" % (missing.number, len(missing.missing)))

    def files(self):
        """What the repair writes: names and bytes."""
        wrote = {"tree": b"".join(self.tree), "marks": bytes(self.marks)}
        if self.end == FAULT:
            wrote["proof"] = self.proof
        return wrote


def check_of(before, value):
    """The check of a line of a printed record."""
    return digest(bytes([before]) + value).hex()[:4]


def printed(record, kinds=True):
    """The lines of a printed record, without its comments: depth, length, table, hash T, the
    hashes 0 to 15, and the check of all. Without KINDS, as it was while there was one kind."""
    lines, word = [], " " + KIND_WORDS[kind_of(record)] if kinds else ""
    for i, form in enumerate(("depth   %d" + word, "length  %d bytes", "table   %d words")):
        word = record[4 * i:4 * i + 4]
        said = form % (struct.unpack(">I", word)[0] & (1 << 30) - 1)
        lines.append("%-20s  %s" % (said, check_of(16 + i, word)))
    hashes = [("T", 19, record[12:HEAD])]
    hashes += [(str(i), i, record[HEAD + 32 * i:][:32]) for i in range(16)]
    for name, before, value in hashes:
        groups = " ".join(value[g:g + 4].hex() for g in range(0, 32, 4))
        lines.append("%2s %s  %s" % (name, groups, check_of(before, value)))
    return lines + ["check  " + digest(record).hex()[:8]]
