"""Every command at every depth beside what is made by hand; every number and refusal; the help."""
import os
import re
import shlex
import struct

import by_hand
from by_hand import DEPTHS, KINDS
from room import Coded, contents, need, put, slurp, table_leaving, volume_of

STATUSES = [*range(13), 14, 30, 31, 32, 33, 43, 64, 65, 66, 70, 73, 74]
MISFILLED = 13      # the end of a repair, explained as its status 43 is
COMMANDS = ["table", "check-table", "code", "recode", "record", "typed", "sample", "check-sample",
            "check", "repair", "check-proof", "read", "explain", "sha256", "help"]


def test_every_depth(room):
    """Tables, trees and volumes of both kinds are those made by hand, and each check accepts them."""
    for depth in DEPTHS:
        table = "t%d" % depth
        room.works("table", depth, table)
        need(slurp(table) == by_hand.house_table(depth), "the house table of depth", depth)
        room.ends(0, "check-table", depth, table).prints(
            "accepted: the table is well-formed, with each data page in two equations or more\n")
        for kind in KINDS:
            coded, folder = Coded(depth, 1, kind=kind), "coded%d-%d" % (depth, kind)
            put("volume", coded.volume)
            room.codes(depth, table, "volume", folder, kind=kind)
            need(contents(folder) == coded.files(), "what code wrote at depth", depth, kind)
            for options in ([depth, folder + "/record", table],
                            ["--unverified", depth, folder + "/record"]):
                room.works("read", *options, folder + "/tree", folder + "/marks", "back")
                need(slurp("back") == coded.volume, "the volume read at depth", depth)
                os.remove("back")


def test_samples(room):
    """Samples of every kind of number are those made by hand, and no other number's."""
    for depth, kind in ((depth, kind) for depth in DEPTHS for kind in KINDS):
        coded = Coded(depth, 2, kind=kind).lay()
        last = (8 << depth) - 1
        for number in sorted({0, 1, 5, last // 3, last // 2, last}):
            name = "sample%d" % number
            room.works("sample", depth, number, "tree", "marks", name)
            need(slurp(name) == by_hand.sample(depth, number, coded.tree), "sample", number)
            room.ends(0, "check-sample", depth, number, "record", name).prints(
                "accepted: every hash leads to the root\n")
            room.refused(7, "check-sample", depth, (number + 1) % (last + 1), "record", name)
            os.remove(name)


def test_other_tables(room):
    """A table that is not the house table is taken, and used."""
    equations = by_hand.house_equations(2)
    equations[1][0] = [0, 2, 8]
    coded = Coded(2, 3, by_hand.table_of(equations)).lay()
    room.ends(0, "check-table", 2, "table")
    room.codes(2, "table", "volume", "coded")
    need(contents("coded") == coded.files(), "a volume coded by another table")
    room.works("read", 2, "record", "table", "tree", "marks", "back")
    need(slurp("back") == coded.volume, "a volume read by another table")


def test_uncovered_tables(room):
    """A table that has a data page in one equation, or in none, is refused; the first such layer,
    its lowest such page, and what the page is left with are said."""
    for depth in DEPTHS:
        base = depth - 1
        for pages in [((base, (4 << base) - 1, 1),), ((base, 3, 0),), ((0, 2, 1), (base, 0, 1)),
                      ((base, 2, 0), (base, 1, 1)), ((0, 1, 2), (base, 3, 1))]:
            put("thin", table_leaving(depth, *pages))
            layer, page = by_hand.uncovered(slurp("thin"))
            holds = [e for e, members in enumerate(by_hand.equations_of(slurp("thin"))[layer])
                     if page in members]
            said = room.refused(10, "check-table", depth, "thin")
            said.says(": page %d of layer %d, counted in that layer, is the first such (number 10: " % (page, layer))
            said.says("cedunmi: thin has it in equation %d alone: " % holds[0] if holds else
                      "cedunmi: thin has it in no equation: ")
            need(len(holds) < 2 and said.err.count(b"\n") == 2, str(said))
        put("two", table_leaving(depth, (base, 1, 2), (0, 2, 2)))
        need(by_hand.uncovered(slurp("two")) is None, "a table that covers every page")
        room.ends(0, "check-table", depth, "two")


def test_uncovered_everywhere(room):
    """Each command that takes a table refuses one that leaves a page out: after 3, and before all
    that follows 3."""
    coded = Coded(2).lay()
    thin = table_leaving(2, (1, 5, 1))
    put("thin", thin)
    put("short", thin[:-4])
    put("marked", b"\2" + coded.marks[1:])
    put("proof", bytes(12))
    for words in (("check-table", 2, "thin"), ("code", 2, "thin", "volume", "none"),
                  ("check", 2, "record", "thin", "tree", "marked"),
                  ("repair", 2, "record", "thin", "tree", "marked", "none"),
                  ("repair", "--in-place", 2, "record", "thin", "tree", "marked", "none"),
                  ("read", 2, "record", "thin", "tree", "marked", "none"),
                  ("recode", 2, "record", "thin", "tree", "marked", "none"),
                  ("code", "--plain", 2, "thin", "volume", "none"),
                  ("check-proof", 2, "record", "thin", "proof")):
        said = room.refused(10, *words).says(
            "cedunmi: a data page stands in fewer than two equations of its layer: "
            "page 5 of layer 1, counted in that layer, is the first such (number 10: cedunmi explain 10)\n")
        said.says("cedunmi: thin has it in equation 4 alone: ")
        short = tuple("short" if word == "thin" else word for word in words)
        room.refused(3, *short).says("word 180 ")
    room.refused(3, "check-table", 3, "thin").says("thin is a table of depth 2\n")
    put("long", bytes(2049))
    room.refused(2, "code", 2, "thin", "long", "none")


def test_numbers(room):
    """Each number that stops a call is the exit status, and nothing is written."""
    coded = Coded(1).lay()
    put("two", volume_of(2))
    put("deep", Coded(6).record)
    put("bad", coded.table[:7] + b"\7" + coded.table[8:])
    put("marked", coded.marks[:3] + b"\2" + coded.marks[4:])
    put("lost", coded.marks[:3] + b"\0" + coded.marks[4:])
    put("harmed", coded.tree[:900] + b"x" + coded.tree[901:])
    tree = ("tree", "marks")
    for status, said, words in [
            (1, "depth", ("table", 10, "none")), (1, "depth", ("table", 0, "none")),
            (1, "depth", ("table", 4294967297, "none")), (1, "depth", ("table", 1000, "none")),
            (1, "depth is not 1 to 9", ("table", 4294967305, "none")),
            (1, "depth", ("code", 10, "table", "volume", "none")),
            (1, "depth", ("check", 10, "record", "table", *tree)),
            (1, "depth", ("repair", 10, "record", "table", *tree, "none")),
            (1, "depth", ("read", 10, "record", "table", *tree, "none")),
            (1, "depth", ("recode", 10, "record", "table", *tree, "none")),
            (1, "depth", ("code", "--plain", 10, "table", "volume", "none")),
            (1, "depth", ("read", "--unverified", 10, "record", *tree, "none")),
            (1, "depth", ("sample", 10, 3, *tree, "none")),
            (1, "depth", ("check-sample", 10, 3, "record", "sample")),
            (1, "depth", ("check-proof", 10, "record", "table", "volume")),
            (1, "depth", ("check-table", 10, "table")),
            (2, "a tree of depth 1 has 4096\n", ("check", 1, "record", "table", "two", "marks")),
            (2, "a sample of depth 6 has 2816\n", ("check-sample", 6, 0, "deep", "sample")),
            (3, "word 1 ", ("code", 1, "bad", "volume", "none")),
            (3, "word 1 ", ("check-table", 1, "bad")), (3, "", ("check-table", 2, "table")),
            (3, "word 1 ", ("check", 1, "record", "bad", *tree)),
            (3, "word 1 ", ("repair", 1, "record", "bad", *tree, "none")),
            (3, "word 1 ", ("recode", 1, "record", "bad", *tree, "none")),
            (4, "3", ("repair", 1, "record", "table", "tree", "marked", "none")),
            (4, "3", ("check", 1, "record", "table", "tree", "marked")),
            (4, "3", ("recode", 1, "record", "table", "tree", "marked", "none")),
            (4, "3", ("read", 1, "record", "table", "tree", "marked", "none")),
            (4, "3", ("read", "--unverified", 1, "record", "tree", "marked", "none")),
            (4, "3", ("sample", 1, 0, "tree", "marked", "none")),
            (5, "numbers 0 to 15\n", ("sample", 1, 16, *tree, "none")),
            (5, "", ("sample", 1, 4294967296, *tree, "none")),
            (5, "", ("check-sample", 1, 16, "record", "sample")),
            (7, "", ("check-sample", 1, 4, "record", "sample")),
            (9, "page 3", ("read", "--unverified", 1, "record", "tree", "lost", "none")),
            (9, "page 3", ("sample", 1, 3, "tree", "lost", "none")),
            (14, "1 page absent, 0 bad", ("recode", "record", "table", "tree", "lost", "none")),
            (14, "0 pages absent, 1 bad", ("recode", 1, "record", "table", "harmed", "marks",
                                           "none"))]:
        room.refused(status, *words).says(said)
    room.ends(30, "read", "record", "table", "tree", "lost", "mended").says(
        "but the tree is damaged: 1 page absent, 0 bad; repair it\n")
    room.works("read", "--unverified", 1, "record", "harmed", "marks", "unverified")
    need(slurp("unverified")[900] == ord("x"), "read --unverified looks at hashes")


def test_lengths(room):
    """Of each file with the wrong length a line says the length that it has, and should have."""
    Coded(2).lay()
    put("short", bytes(1024))
    put("long", bytes(2049))
    room.refused(2, "code", 2, "table", "long", "none").says(
        "cedunmi: long has 2049 bytes; depth 2 holds at most 2048: take depth 3, "
        "and a table of it: cedunmi table --for VOLUME TABLE writes one\n")
    room.refused(2, "read", 2, "record", "table", "short", "marks", "none").says(
        "cedunmi: short has 1024 bytes; a tree of depth 2 has 12288\n")
    put("other", bytes(7))
    said = room.refused(2, "check", 2, "other", "table", "short", "other")
    said.says("cedunmi: other has 7 bytes; a record has 556\n")
    said.says("cedunmi: short has 1024 bytes; a tree of depth 2 has 12288\n")
    need(b"depth 2 has 48\n" in said.err and said.err.count(b"\n") == 4, str(said))
    for words in (("check-sample", 2, 3, "record", "other"), ("record", "other"),
                  ("check-table", 2, "other"), ("sample", 2, 3, "other", "marks", "none"),
                  ("sample", 2, 3, "tree", "other", "none"),
                  ("read", "--unverified", 2, "record", "tree", "other", "none"),
                  ("repair", 2, "record", "other", "tree", "marks", "none"),
                  ("recode", 2, "record", "table", "other", "marks", "none"),
                  ("recode", 2, "record", "table", "tree", "other", "none"),
                  ("recode", 2, "other", "table", "tree", "marks", "none"),
                  ("check-proof", 2, "record", "table", "other"),
                  ("check-proof", 2, "other", "table", "sample")):
        room.refused(2, *words).says("cedunmi: other has 7 bytes; ")
    put("empty", b"")
    room.refused(2, "check-sample", 2, 3, "record", "empty").says("cedunmi: empty has 0 bytes; ")


def test_proofs(room):
    """A fault proof is accepted for its record and table alone; each way to spoil it is a number."""
    for depth, kind in ((depth, kind) for depth in DEPTHS for kind in KINDS):
        wrong = Coded(depth, 4, kind=kind).wrong_seven().lay()
        proof = wrong.repair().proof
        put("proof", proof)
        room.ends(0, "check-proof", depth, "record", "table", "proof").prints(
            "accepted: the volume with this record was not coded as this table says\n")
        put("spoiled", proof[:300] + bytes([proof[300] ^ 1]) + proof[301:])
        room.refused(7, "check-proof", depth, "record", "table", "spoiled")
        put("head", proof[:11] + b"\2" + proof[12:])
        put("kind", b"\0" + proof[1:])
        room.refused(6, "check-proof", depth, "record", "table", "head")
        room.refused(6, "check-proof", depth, "record", "table", "kind")
        put("long", proof + b"\0")
        room.refused(2, "check-proof", depth, "record", "table", "long").says(
            "cedunmi: long has %d bytes; " % (len(proof) + 1))
        right = Coded(depth, 4, kind=kind)
        put("right", right.record)
        room.refused((7, 8), "check-proof", depth, "right", "table", "proof")
    right.lay()
    members = [right.tree[256 * i:256 * i + 256] for i in (0, 1)]
    put("none", struct.pack(">3I", 1 << 30, 2 << 30, 3 << 30 | 4) + b"".join(members))
    room.refused(8, "check-proof", depth, "record", "table", "none")


def test_usage(room):
    """What is no command, or has other arguments or options than it takes, is bad usage."""
    Coded(1).lay()
    whole = ("record", "table", "tree", "marks")
    for words in [(), ("nothing",), ("help", "nothing"), ("table", 1), ("table", 1, "a", "b"),
                  ("table", "one", "none"), ("table", "", "none"), ("table", "+1", "none"),
                  ("table", "1 ", "none"), ("table", "0x1", "none"),
                  ("code", "table", "volume"), ("code", 1, 1, "table", "volume", "none"),
                  ("code", "one", "table", "volume", "none"), ("table", "none"),
                  ("table", "--for", "none"), ("table", "--for", 1, "volume", "none"),
                  ("code", "--for", "table", "volume", "none"), ("check-table",),
                  ("check-table", 1, 1, "table"), ("check-table", "one", "table"),
                  ("sample", 1, "", "tree", "marks", "none"), ("sample", 3, "tree", "marks"),
                  ("sample", "tree", "marks", "none", "none"), ("record", 1, "record"),
                  ("check-proof", "record", "table"), ("check-sample", "record", "sample"),
                  ("sample", 1, "1.5", "tree", "marks", "none"), ("sample", 1, "--", "-1", "tree"),
                  ("check-sample", 1, "one", "record", "sample"), ("explain",), ("explain", "99"),
                  ("explain", "seven"), ("record",), ("typed", "text"), ("sha256",),
                  ("check", 1, *whole, "none"), ("read", *whole), ("repair", *whole),
                  ("read", "--unverified", 1, *whole, "none"), ("check", "one", *whole),
                  ("read", "one", *whole, "none"), ("repair", "", *whole, "none"),
                  ("repair", "--in-place", *whole), ("repair", "--in-place", "x", *whole, "none"),
                  ("read", "--unverified", "record", "tree", "marks"),
                  ("table", "--nothing", 1, "none"), ("table", "-f", 1, "none"),
                  ("-x", "table", 1, "none"), ("table", 1, "none", "--nothing"),
                  ("table", "--in-place", 1, "none"), ("table", "--unverified", 1, "none"),
                  ("code", "--in-place", 1, "table", "volume", "none"),
                  ("check", "--force", 1, *whole), ("check", "--in-place", 1, *whole),
                  ("repair", "--unverified", 1, *whole, "none"), ("recode", *whole),
                  ("recode", "one", *whole, "none"), ("recode", *whole[:3]),
                  ("recode", 1, 1, *whole, "none"), ("recode", "--plain", *whole, "none"),
                  ("recode", "--in-place", *whole, "none"), ("repair", "--plain", *whole, "none"),
                  ("table", "--plain", 1, "none"), ("code", "--placed", "table", "volume", "none"),
                  ("code", "--plain=yes", "table", "volume", "none"), ("code", "--plain", "table"),
                  ("table", "--force=yes", 1, "none"), ("table", "--forc", 1, "none")]:
        room.refused(64, *words)
    room.refused(64, "recode", "--plain", *whole, "none").says(
        "cedunmi: recode has no option --plain: the record says the kind, and the other is made\n")
    room.refused((1, 64), "table", 2 ** 64 + 1, "none")
    room.refused((5, 64), "sample", 1, 2 ** 64, "tree", "marks", "none")


def test_unreadable(room):
    """An input that is not there, or is a folder, is 66, in every place; nothing is written."""
    Coded(1).lay()
    put("proof", bytes(100))
    os.mkdir("folder")
    for words in [("check-table", 1, "table"), ("code", 1, "table", "volume", "none"),
                  ("record", "record"), ("typed", "text", "none"), ("sha256", "volume"),
                  ("sample", 1, 3, "tree", "marks", "none"),
                  ("check-sample", 1, 3, "record", "sample"),
                  ("check", 1, "record", "table", "tree", "marks"),
                  ("repair", 1, "record", "table", "tree", "marks", "none"),
                  ("recode", 1, "record", "table", "tree", "marks", "none"),
                  ("check-proof", 1, "record", "table", "proof"),
                  ("read", 1, "record", "table", "tree", "marks", "none")]:
        for place, word in enumerate(words):
            if place and isinstance(word, str) and word != "none":
                for other in ("nowhere", "folder", "table/below", "no/where"):
                    changed = words[:place] + (other,) + words[place + 1:]
                    room.refused(66, *changed).says(other)


def test_help(room):
    """The help has every command; a command's lines are had in three ways; the version."""
    said = room.ends(0, "help")
    text = said.out.decode()
    need(said.err == b"", str(said))
    for words in (("--help",), ("-h",)):
        need(room.ends(0, *words).out == said.out, "another help by", words)
    for command in COMMANDS:
        need(re.search(r"^  %s\b" % command, text, re.M), "the help has not", command)
        lines = room.ends(0, "help", command).prints(room.run(command, "--help").out).out
        need(room.run(command, "-h").out == lines, "other lines by -h for", command)
        need(re.match(rb"\W*(usage: )?(cedunmi )?%s\b" % command.encode(), lines), lines)
        need(len(lines) < len(said.out) // 2, "help", command, "says everything")
    for option in ("--force", "--in-place", "--unverified", "--for", "--plain", "--quiet", "-q",
                   "--version"):
        need(option in text, "the help has not", option)
    version = room.ends(0, "--version").out
    need(re.fullmatch(rb"cedunmi \d+\.\d+\.\d+\n", version), version)
    need(max(map(len, text.split("\n"))) <= 80, "a line of the help is longer than 80")


def test_statuses(room):
    """Every status that the help lists is explained, each otherwise, and no other is."""
    text = room.ends(0, "help").out.decode()
    section = text[re.search(r"^Exit status", text, re.M).start():].split("\n\n")[0]
    for status in STATUSES[12:] + [0, 1]:
        need(re.search(r"^ .*\b%d\b" % status, section, re.M), "not in the help:", status)
    said = set()
    for status in STATUSES + [MISFILLED]:
        words = room.ends(0, "explain", status).out
        need(len(words) > 10 and words.endswith(b"\n"), "explain", status, "prints", words)
        said.add(words)
    need(len(said) == len(STATUSES) + 1, "two statuses are explained alike")
    for status in (15, 23, 29, 42, 44, 34, 63, 67, 75, 256, -1):
        room.refused(64, "explain", "--", status)


def test_examples(room):
    """The examples of the help work, one after the other."""
    text = room.ends(0, "help").out.decode()
    lines = re.findall(r"^ +(?:\$ )?cedunmi (.*)$", text[text.index("\nExample"):], re.M)
    need(len(lines) >= 4, "the help has few examples:", lines)
    put("volume", volume_of(5))
    for line in lines:
        need(not re.search(r"[|<>&;]", line), "an example that only a shell runs:", line)
        room.ends(0, *shlex.split(line))
    need(slurp("volume") == volume_of(5), "an example changed the volume")


def test_quiet(room):
    """With -q nothing is printed, and the status is the same; data and errors are still there."""
    coded = Coded(1).harm(absent=[2]).lay()
    put("held", b"\1" * 16)
    whole = (1, "record", "table", "tree", "marks")
    for option in ("-q", "--quiet"):
        room.ends(30, "check", option, *whole).prints("")
        room.ends(0, "check-sample", option, 1, 3, "record", "sample").prints("")
        room.ends(0, "check-table", 1, "table", option).prints("")
        room.ends(0, "code", option, 1, "table", "volume", "coded" + option).prints("")
        room.ends(0, "recode", "record", "table", "tree", "held", "new" + option, option).prints("")
        room.ends(0, option, "repair", *whole, "made" + option).prints("")
        need(contents("made" + option) == coded.repair().files(), "what a quiet repair wrote")
        room.refused(66, "check-table", option, 1, "nowhere")
        room.refused(64, "check", option)
        room.ends(30, "read", option, *whole, "-").prints(coded.volume)
