"""The tables of times: each is a list of rows, the head first."""

import program
from program import COMPARED, DEPTHS, PROCESSES, TRIALS

SHORT, LONG = 256, 1 << 20

# Keeps OpenSSL's vector code off: no SSSE3, AVX, AVX2, BMI and SHA instructions.
SCALAR = {"OPENSSL_ia32cap": "~0x1000020000000000:~0x20000128"}

# Hasher, environment, title.
HASHERS = [
    ("cedunmi", {}, "Cedunmi, proved"),
    ("reference", {}, "plain Rust (tests/reference)"),
    ("rustcrypto", {}, "RustCrypto sha2, scalar"),
    ("openssl", SCALAR, "OpenSSL, scalar"),
    ("openssl", {}, "OpenSSL, vector code"),
]

READERS = [
    ("cedunmi", "Cedunmi, proved"),
    ("reference", "plain Rust (tests/reference)"),
    ("sixteenth", "hashing a sixteenth of the tree"),
]

LOSSES = [("0", "nothing lost"), ("12.4", "12.4 % lost"), ("25", "25 % lost"), ("47", "47 % lost")]

# The tables that repairs are timed with, by what their cases begin with.
REPAIRED = [("", "house table"), ("up-", "chain upwards"), ("down-", "chain downwards")]

REPAIRS = [
    *((before + loss, f"{table}, {title}") for before, table in REPAIRED for loss, title in LOSSES),
    ("fault", "house table, a fault in the base"),
    ("stopping", "house table, a stopping set in the base"),
    ("empty", "house table, nothing lost, a volume of 0 bytes"),
]

# What is read and written, by name.
LONG_TOO = [("cedunmi", "house table"), ("long", "long table")]

# Name, case and title.
CHECKS = [
    ("cedunmi", "proof", "the longest proof"),
    ("alone", "proof", "its hashing and reading alone"),
    ("cedunmi", "long", "with the long table"),
    ("alone", "long", "its hashing and reading alone"),
    ("cedunmi", "sample", "a sample"),
    ("hashes", "sample", "its hashing alone"),
]

PROOFS = [("proof", "the longest proof"), ("long", "the same, long table")]

BEYOND = [str(depth) for depth in DEPTHS[1:]]


def hash_times():
    """The fewest nanoseconds for a message, by the row of HASHERS and the length."""
    groups = {}
    for index, (hasher, changes, _) in enumerate(HASHERS):
        groups.setdefault(tuple(changes.items()), {})[hasher] = index
    best = {}
    for _ in range(PROCESSES):
        for changes, rows in groups.items():
            times = program.shortest(["time", TRIALS, *rows], changes)
            named = {(rows[hasher], int(length)): time for (hasher, length), time in times.items()}
            program.keep_shorter(best, named)
    return best


def per_message(hasher, changes):
    """Instructions for one more message of 256 bytes."""
    few, many = (program.instructions(["work", hasher, SHORT, n], changes) for n in (100, 1100))
    return round((many - few) / 1000)


def per_block(hasher, changes):
    """Instructions for one more block of 64 bytes in a long message."""
    short, long = (program.instructions(["work", hasher, 1 << n, 1], changes) for n in (16, 17))
    return round((long - short) / 1024)


def hashing(best):
    rows = [["SHA-256", "256 B MB/s", "ours/it", "1 MiB MB/s", "ours/it", "instr./256 B",
             "instr./block"]]
    for index, (hasher, changes, title) in enumerate(HASHERS):
        row = [title]
        for length in (SHORT, LONG):
            row.append(f"{length / best[index, length] * 1000:.0f}")
            row.append(f"{best[index, length] / best[0, length]:.2f}")
        rows.append([*row, str(per_message(hasher, changes)), str(per_block(hasher, changes))])
    return rows


def reading(best):
    words = str(program.house_words(COMPARED))
    ours = best["cedunmi", words]
    rows = [["House table of depth 5", "microseconds", "ours/it", "million words/s"]]
    for name, title in READERS:
        time = best[name, words]
        rate = "" if name == "sixteenth" else f"{int(words) / time * 1000:.0f}"
        rows.append([title, f"{time / 1000:.1f}", f"{time / ours:.2f}", rate])
    return rows


def of(best, *key):
    """The times whose keys begin so, by depth."""
    return [(found, time) for found, time in best.items() if found[:len(key)] == key]


def each_word(best, name):
    """Nanoseconds for each word of a table, by depth."""
    return [time / int(words) for (_, words), time in of(best, name)]


def each_symbol(best, *key):
    """Microseconds for each symbol of a tree, by depth."""
    times = [time for _, time in of(best, *key)]
    return [time / 1000 / program.symbols(depth) for depth, time in zip(DEPTHS, times)]


def reading_by_depth(best):
    rows = [["Reading a table", "words at depth 9", "nanoseconds a word, depth 1", *BEYOND]]
    for name, title in LONG_TOO:
        words = int(of(best, name)[-1][0][1])
        rows.append([title, f"{words:,}", *(f"{time:.2f}" for time in each_word(best, name))])
    return rows


def ratio(best, other, *key):
    """Our speed over another's, where it was timed."""
    if (other, *key) not in best:
        return ""
    return f"{best[(other, *key)] / best[('cedunmi', *key)]:.2f}"


def compressed(length):
    """The bytes that SHA-256 compresses for a message: whole blocks, with the padding."""
    return (length + 8) // 64 * 64 + 64


def compressed_for(depth):
    """The same for a tree of the house table: its symbols, and the table."""
    return program.symbols(depth) * compressed(SHORT) + compressed(4 * program.house_words(depth))


def writing(best, hash_best):
    rows = [["Writing a tree", "microseconds", "per symbol", "per symbol, long table", "MB/s of block",
             "/plain Rust", "/hashing alone", "/compressing alone"]]
    symbol_times = zip(each_symbol(best, "cedunmi"), each_symbol(best, "long"))
    for ((_, *key), ours), (house, long) in zip(of(best, "cedunmi"), symbol_times):
        depth, size = key
        compressing = compressed_for(int(depth)) * hash_best[0, LONG] / LONG
        rows.append([f"depth {depth}", f"{ours / 1000:.0f}", f"{house:.2f}", f"{long:.2f}",
                     f"{int(size) / ours * 1000:.1f}", ratio(best, "reference", *key),
                     ratio(best, "hashes", *key), f"{compressing / ours:.2f}"])
    return rows


def repairing(best):
    rows = [["Repairing a tree", "depth 9, microseconds", "per symbol, depth 1", *BEYOND,
             "/plain Rust, depth 5", "/hashing alone, depth 9"]]
    for case, title in REPAIRS:
        ours = of(best, "cedunmi", case)
        (_, *compared), (_, *largest) = ours[COMPARED - 1][0], ours[-1][0]
        rows.append([title, f"{ours[-1][1] / 1000:.0f}",
                     *(f"{time:.2f}" for time in each_symbol(best, "cedunmi", case)),
                     ratio(best, "reference", *compared), ratio(best, "hashes", *largest)])
    return rows


def searching(counts):
    """What a search looks at that goes back."""
    rows = [["Equations looked at", "in all, depth 9", "per symbol, depth 1", *BEYOND]]
    for before, table in REPAIRED:
        for loss, title in LOSSES[1:]:
            looked = of(counts, before + loss)
            rows.append([f"{table}, {title}", f"{int(looked[-1][1]):,}",
                         *(f"{count / int(symbols):.1f}" for (_, _, symbols), count in looked)])
    return rows


def check_times(best):
    """With the times for hashing and reading alone, the table's hash too, which are those of three calls, as another name's."""
    alone = {("alone", *key): time + best[("reading", *key)] + best[("naming", *key)]
             for (name, *key), time in best.items() if name == "hashes" and ("reading", *key) in best}
    return {**best, **alone}


def checking(best):
    best = check_times(best)
    rows = [["Checking", "bytes at depth 5", "at depth 9", "microseconds, depth 1", *BEYOND,
             "/plain Rust, depth 5"]]
    for name, case, title in CHECKS:
        times = of(best, name, case)
        key, size = times[COMPARED - 1][0][1:], times[-1][0][3]
        sizes = [f"{int(bytes_):,}" for bytes_ in (key[2], size)] if name == "cedunmi" else ["", ""]
        rows.append([title, *sizes, *(f"{time / 1000:.1f}" for _, time in times),
                     ratio(best, "reference", *key) if name == "cedunmi" else ""])
    return rows


class Growth:
    """What calls of one kind cost for a unit: the most at depth 1 to 5 and deeper, over the least of `base` at depth 1 to 5."""

    def __init__(self, title, unit, base, cases):
        self.title, self.unit, self.least = title, unit, min(base[:COMPARED])
        each = [(time, depth, case) for case, times in cases for depth, time in zip(DEPTHS, times)]
        self.most = [max(one for one in each if one[1] <= COMPARED),
                     max(one for one in each if one[1] > COMPARED)]
        self.ratios = [time / self.least for time, _, _ in self.most]

    def row(self):
        cells = []
        for (time, depth, case), ratio in zip(self.most, self.ratios):
            at = f"{time:.2f} at depth {depth}" + (f", {case}" if case else "")
            cells += [at, f"{ratio:.2f}"]
        return [self.title, self.unit, f"{self.least:.2f}", *cells]


def over_alone(best, case, other):
    """A check's time over that of its hashing and reading, or of its hashing alone, by depth."""
    best = check_times(best)
    pairs = zip(of(best, "cedunmi", case), of(best, other, case))
    return [ours / alone for (_, ours), (_, alone) in pairs]


def repair_growths(repair):
    for before, title in REPAIRED:
        cases = [(loss, each_symbol(repair, "cedunmi", before + case)) for case, loss in LOSSES]
        yield Growth(f"repair, {title}", "microseconds a symbol", each_symbol(repair, "cedunmi", "0"), cases)


def write_growths(tree):
    for name, title in LONG_TOO:
        yield Growth(f"writing, {title}", "microseconds a symbol", each_symbol(tree, "cedunmi"),
                     [("", each_symbol(tree, name))])


def read_growths(table):
    for name, title in LONG_TOO:
        yield Growth(f"reading, {title}", "nanoseconds a word", each_word(table, "cedunmi"),
                     [("", each_word(table, name))])


def check_growths(checks):
    for case, title in PROOFS:
        yield Growth(title, "its hashing and reading alone", over_alone(checks, "proof", "alone"),
                     [("", over_alone(checks, case, "alone"))])
    yield Growth("a sample", "its hashing alone", over_alone(checks, "sample", "hashes"),
                 [("", over_alone(checks, "sample", "hashes"))])


def growing(table, tree, repair, checks):
    rows = [["Growth", "for each, or over", "least, depth 1 to 5", "most, depth 1 to 5", "ratio",
             "most, depth 6 to 9", "ratio"]]
    found = [*repair_growths(repair), *write_growths(tree), *check_growths(checks)]
    shallow, deep = (f"{max(ratios):.2f}" for ratios in zip(*(growth.ratios for growth in found)))
    return [*rows, *(growth.row() for growth in found), ["the worst of these", "", "", "", shallow, "", deep],
            *(growth.row() for growth in read_growths(table))]
