"""Names with every byte, as long as can be, and like options; what messages make of them."""
import os
import subprocess

import by_hand
from room import Coded, contents, need, put, slurp

EVERY = bytes(byte for byte in range(1, 256) if byte != ord("/"))
ODD = [EVERY, b"a\nb", b"a\\b", b"a\\nb", b"\\", b"\n", b" ", b"a b ", b"*", b"$HOME", b"`id`",
       b"'", b'"', b"\xff", b"\xc3\xa4", b"~", b"#", b"%s%n", b"\r", b"\x1b[31m", b"...", b"a;b"]


def test_single_bytes(room):
    """Every byte alone is a name, for a file that is written and for one that is read."""
    for byte in EVERY:
        name = bytes([byte])
        if name in (b".", b"-"):
            continue
        room.works("table", 1, name)
        need(os.listdir(b".") == [name], "made for", name, os.listdir(b"."))
        room.ends(0, "check-table", 1, name)
        os.remove(name)


def all_of_it(room, name, coded):
    """A volume coded, sampled, harmed, repaired and read, each file in a folder under this name."""
    for kind in "vcsrtpno":
        os.mkdir(kind)
    at = {kind: os.fsencode(kind) + b"/" + name for kind in "vcsrtpno"}
    put(at["v"], coded.volume)
    room.works("table", 1, "--", at["t"])
    room.codes(1, at["t"], at["v"], at["c"])
    need(contents(at["c"].decode("utf-8", "surrogateescape")) == coded.files(), "coded", name)
    tree, marks, record = (at["c"] + b"/" + kind for kind in (b"tree", b"marks", b"record"))
    room.works("sample", 1, 3, tree, marks, at["s"])
    room.ends(0, "check-sample", 1, 3, record, at["s"])
    said = room.ends(0, "record", record)
    put(at["p"], said.out)
    room.works("typed", at["p"], at["r"])
    need(slurp(at["r"]) == coded.record, "typed", name)
    room.ends(0, "repair", 1, at["r"], at["t"], tree, marks, at["n"])
    need(sorted(os.listdir(at["n"])) == [b"marks", b"tree"], "repaired", name)
    room.recodes(by_hand.PLACED, at["r"], at["t"], tree, marks, at["o"])
    need(slurp(at["o"] + b"/tree") == coded.tree, "recoded", name)
    os.remove(at["v"])
    room.works("read", 1, record, at["t"], tree, marks, at["v"])
    need(slurp(at["v"]) == coded.volume, "read", name)
    for kind in "vcsrtpno":
        need(os.listdir(os.fsencode(kind)) == [name], "beside", name, os.listdir(kind))


def test_everything_under_odd_names(room):
    """All commands one after the other, every file and folder of an odd name."""
    coded = Coded(1)
    for number, name in enumerate(ODD):
        os.mkdir("turn%d" % number)
        os.chdir("turn%d" % number)
        all_of_it(room, name, coded)
        os.chdir("..")


def test_in_place_under_odd_names(room):
    """--in-place puts the old files under their name and `~`, whatever the name."""
    coded = Coded(1).harm(absent=[3])
    for name in ODD:
        os.mkdir("trees")
        os.mkdir("others")
        put(b"trees/" + name, coded.tree)
        put(b"others/" + name, coded.marks)
        put("table", coded.table)
        put("record", coded.record)
        room.ends(0, "repair", "--in-place", 1, "record", "table", b"trees/" + name,
                  b"others/" + name, "proof")
        need(sorted(os.listdir(b"trees")) == sorted([name, name + b"~"]), os.listdir(b"trees"))
        need(slurp(b"trees/" + name + b"~") == coded.tree, "kept under", name)
        need(slurp(b"others/" + name + b"~") == coded.marks, "kept under", name)
        need(slurp(b"trees/" + name) == coded.repair().files()["tree"], "repaired under", name)
        for path in (b"trees", b"others"):
            for entry in os.listdir(path):
                os.remove(path + b"/" + entry)
            os.rmdir(path)


def test_long_names(room):
    """The longest names that there can be work; longer ones are refused, and nothing is left."""
    coded = Coded(1).harm(absent=[3]).lay()
    longest = "n" * 255
    room.works("table", 1, longest)
    room.works("table", "--force", 1, longest)
    need(slurp(longest) == coded.table, "a long name")
    os.remove(longest)
    room.codes(1, "table", "volume", longest)
    room.codes("--force", 1, "table", "volume", longest)
    need(contents(longest) == Coded(1).files(), "a folder with a long name")
    room.refused(73, "table", 1, "n" * 256)
    room.refused(73, "code", 1, "table", "volume", "n" * 256)
    room.refused(66, "check-table", 1, "n" * 256)
    os.rename("tree", "t" * 255)
    os.rename("marks", "m" * 254)
    room.refused(73, "repair", "--in-place", 1, "record", "table", "t" * 255, "m" * 254, "proof")
    os.rename("t" * 255, "t" * 254)
    room.ends(0, "repair", "--in-place", 1, "record", "table", "t" * 254, "m" * 254, "proof")
    need(slurp("t" * 254 + "~") == coded.tree, "kept under a long name")


def test_deep_paths(room):
    """Paths of many folders, longer than a name, with an output at the end."""
    path = "/".join(["d" * 200] * 15)
    os.makedirs(path)
    room.works("table", 1, path + "/table")
    room.ends(0, "check-table", 1, path + "/table")
    room.refused(73, "table", 1, path + "/" + "e" * 200 + "/table")


def test_like_options(room):
    """Names that begin with a dash are names after `--`, options before it."""
    coded = Coded(1).lay()
    for name in ("-x", "--force", "--", "--help", "-q", "--in-place", "-table"):
        if name != "--":
            room.ends((64, 0) if name in ("--help", "-q", "--force") else 64, "table", 1, name)
            need(not os.path.exists(name), "made without --:", name)
        room.works("table", 1, "--", name)
        need(slurp(name) == coded.table, "made after --:", name)
        room.ends(0, "check-table", 1, "--", name)
        room.ends(0, "check-table", "--", 1, name)
        room.works("table", "--force", 1, "./" + name)
        os.remove(name)
    room.codes(1, "table", "--", "volume", "-a folder")
    need(contents("-a folder") == coded.files(), "made after --")


def test_messages(room):
    """A message shows a name with its control bytes escaped, on one line."""
    Coded(1).lay()
    raw = set(range(32)) | {127}
    for byte in sorted(raw - {0}) + [ord("\\"), 0xff]:
        name = b"no" + bytes([byte]) + b"where"
        for status, words in ((66, ("check-table", 1, name)),
                              (73, ("table", 1, name + b"/below")),
                              (64, ("help", name)), (64, (name,))):
            said = room.refused(status, *words)
            need(not raw & set(said.err.replace(b"\n", b"")), str(said) + ", a control byte")
            need(b"where" in said.err, str(said) + ", and the name is not in it")
        need(said.err.count(b"\n") <= 3, str(said))
    room.ends(66, "check-table", 1, b"a\nb\ncedunmi: c")
    said = room.refused(66, "check-table", 1, b"a\ncedunmi: accepted")
    need(said.err.count(b"\n") == 1, str(said) + ", more than one line")


def test_report_names(room):
    """A report shows the name of a proof on one line too."""
    wrong = Coded(1).wrong_seven().lay()
    said = room.ends(31, "repair", 1, "record", "table", "tree", "marks", b"a\nb\x1bc")
    need(said.out.count(b"\n") == wrong.repair().report("x").count("\n"), str(said))
    need(b"\x1b" not in said.out, str(said))
    need(os.path.isfile(b"a\nb\x1bc/proof"), "the proof is not there")
    room.refused(2, "code", 1, "table", "text", b"x\ny")
    put(b"long\x07", bytes(1025))
    said = room.refused(2, "code", 1, "table", b"long\x07", "none")
    need(b"\x07" not in said.err and b"has 1025 bytes; " in said.err, str(said))


def test_sha256_names(room):
    """`sha256` prints an odd name as the system's own program does."""
    for name in ODD:
        put(name, name)
        theirs = subprocess.run(["sha256sum", "--", name], stdout=subprocess.PIPE,
                                check=True).stdout
        room.ends(0, "sha256", "--", name).prints(theirs)
        need(by_hand.digest(name).hex().encode() in theirs, "the system's own", theirs)


def test_surroundings(room):
    """What the shell has set does not matter: TMPDIR, CDPATH, IFS, a name of the program."""
    coded = Coded(1).lay()
    os.makedirs("other/made")
    os.mkdir("back\\slash")
    put("plain", b"")
    for number, env in enumerate([
            {"TMPDIR": os.path.abspath("back\\slash")}, {"TMPDIR": "/no\\where"}, {"TMPDIR": ""},
            {"TMPDIR": os.path.abspath("plain")}, {"CDPATH": os.path.abspath("other")},
            {"IFS": "/"}, {"LC_ALL": "de_DE.UTF-8"}, {"POSIXLY_CORRECT": "1"}, {"HOME": "/nowhere"},
            {"PATH": "/nowhere"}]):
        room.codes(1, "table", "volume", "made%d" % number, env=env)
        need(contents("made%d" % number) == coded.files(), "coded with", env)
    need(os.listdir("other/made") == [] and os.listdir("back\\slash") == [], "made elsewhere")
    room.made += 1
    done = subprocess.run([room.program, "table", "1", "bare"], env={}, check=False)
    need(done.returncode == 0 and slurp("bare") == coded.table, "with no environment")
