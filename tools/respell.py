#!/usr/bin/env python3
"""Gives the repository's own definitions, fields and lemmas the spelling of today's Rattle.

usage: python3 tools/respell.py            at the top, once, right after port.py
       python3 tools/respell.py --list     prints old and new names, and changes nothing

Words are in snake case. A dash joins two names of definitions, as in `length-be`, and a plain word is added with `_`, as in `same_yes`. Types and modules keep
their capitals. Names of src/, strings, inputs and outputs are not touched, nor is a name that a library of the kit exports to some file here.
"""
import collections
import glob
import re
import sys

TOKEN = re.compile(r"[^\s(){}\[\],;.:\"`«»⟦⟧⌜⌝|λ]+")
MODIFIERS = r"(?:(?:abbrev|unfoldable|opaque|pub|record|data|infixl?r? \d+) +)*"
DECLARED = re.compile(r"^\s*" + MODIFIERS + r"([^\s:{}()\[\]]+)(?: \{[^}]*\}| \([^)]*\))* :(?: |$)")
MODULE = re.compile(r"^\s*(?:pub )?module +([a-z][^\s:{}()]*)")
IMPORT = re.compile(r"^use (\S+?)\.\{(.*)\}\s*$")
LEMMA_FILE = re.compile(r"crates/\w+/(specs|proofs)/")
SAID = re.compile(r"`[^`]*`|[a-z]+[A-Z]\w*")
# what std calls by these words is joined by a dash in a lemma's name, as the repository's own definitions are
STD = set("length take drop get_or set sets append map replicate paste concat reverse min max slice_index eqb leb ltb mod div".split())


def files():
    for p in sorted(glob.glob("crates/*/specs/**/*.antt", recursive=True) + glob.glob("crates/*/proofs/**/*.antt", recursive=True)):
        if "/out/" not in p:
            yield p


def read(p):
    with open(p, encoding="utf-8") as f:
        return f.read()


def snake(word):
    """One part of a name, in snake case. A capital that stands alone, or begins a type's name, stays."""
    if not word or not word[0].islower():
        return word
    return re.sub(r"(?<=[a-z0-9])([A-Z])", lambda m: "_" + m.group(1).lower(), word)


def declared():
    """The repository's own names: definitions of specs/, and all others."""
    definitions, others = set(), set()
    for p in files():
        if p.endswith("/Proof.antt"):
            continue
        for line in read(p).splitlines():
            m = DECLARED.match(line) or MODULE.match(line)
            if m and not line.lstrip().startswith(("--", "use ", "mod ", "pub mod ")):
                (definitions if "/specs/" in p else others).add(m.group(1))
    for p in [*files(), *glob.glob("crates/*/src/**/*.rt", recursive=True)]:
        others.update(re.findall(r"[{ ]\S+ as ([a-z]\w*[A-Z]\w*)", "\n".join(re.findall(r"^(?:ghost )?use .*$", read(p), re.M))))
    return definitions, others


def imported():
    """What files here take from the kit's libraries."""
    names = set()
    for p in files():
        for line in read(p).splitlines():
            m = IMPORT.match(line)
            if m and not (m.group(1).startswith("Rattle.") and not m.group(1).startswith("Rattle.std")):
                names.update(n.strip().split(" as ")[0].strip() for n in m.group(2).split(","))
    return names


def goals():
    """Names of goals and of what stands beside them in a Proof.antt: they are Rattle's."""
    names = set()
    for p in files():
        if p.endswith("/Proof.antt"):
            names.update(m.group(1) for m in re.finditer(r"^(\S+) : tie\.", read(p), re.M))
    return names


def plan():
    definitions, others = declared()
    kept = imported() | goals()
    functions = {snake(n) for n in definitions if "-" not in n} | STD

    def new(name):
        if not re.match(r"[a-z]", name):
            if "-" not in name or not re.match(r"\w", name):
                return name
        parts = [snake(x) for x in name.split("-")]
        out = parts[0]
        for a, b in zip(parts, parts[1:]):
            whole = out.split("-")[-1]
            is_name = (whole in functions or whole[:1].isupper()) and (b in functions or b[:1].isupper())
            out += ("-" if is_name else "_") + b
        return out

    table = {}
    for n in sorted(definitions | others):
        if n in kept or not re.search(r"-|[a-z0-9][A-Z]", n) or "◌" in n:
            continue
        to = new(n)
        if to != n:
            table[n] = to
    return table, kept


def turn_line(line, table, comment_at):
    code, comment = line[:comment_at], line[comment_at:]
    code = TOKEN.sub(lambda m: table.get(m.group(0), m.group(0)), code)
    comment = SAID.sub(lambda m: TOKEN.sub(lambda t: table.get(t.group(0), t.group(0)), m.group(0)), comment)
    return code + comment


def turn(text, table, mark):
    out = []
    for line in text.split("\n"):
        at = line.find(mark)
        while at > 0 and line[:at].count('"') % 2:
            at = line.find(mark, at + 1)
        out.append(turn_line(line, table, len(line) if at < 0 else at))
    return "\n".join(out)


# lemmas that port.py gave the name of what they speak of
FELL = {n: n + "_lem" for n in "block_room block_size gap_at goes_on has_end head_ok names_table root_in step_by".split()}


def apart(table):
    """Where a lemma would fall together with what it speaks of, it gets `_lem`, as std has it."""
    for old, to in together(table):
        if "-" in old:
            table[old] = to + "_lem"


def together(table):
    """Names that would fall together: a new name that is declared already, or is the new name of two."""
    seen = collections.defaultdict(set)
    for old, to in table.items():
        seen[to].add(old)
    definitions, others = declared()
    return [(old, to) for to, olds in sorted(seen.items()) for old in sorted(olds) if len(olds) > 1 or to in definitions | others]


def main():
    table, kept = plan()
    apart(table)
    for old, to in together(table):
        if to not in FELL:
            print("together:", old, to)
    if "--list" in sys.argv:
        for old, to in table.items():
            print(old, to)
        return
    for p in files():
        t = read(p)
        if re.match(r"crates/\w+/proofs/[A-Z]\w*\.antt$", p):
            t = re.sub(r"(?<![\w.'-])(" + "|".join(FELL) + r")(?![\w'-]|\.\w)", lambda m: FELL[m.group(1)], t)
        n = turn(t, table, "--")
        if n != read(p):
            open(p, "w", encoding="utf-8").write(n)
    for p in sorted(glob.glob("crates/*/src/**/*.rt", recursive=True)):
        t = read(p)
        n = turn(t, table, "//")
        if n != t:
            open(p, "w", encoding="utf-8").write(n)


main()
