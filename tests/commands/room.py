"""What every test uses: a folder to work in, commands run in it, and snapshots of what it holds."""
import os
import random
import resource
import shutil
import stat
import subprocess

import by_hand

PLAIN = {"PATH": "/usr/bin:/bin", "LC_ALL": "C"}
NOBODY, USERS = 65534, 100
LONGEST = 20    # seconds that a command may take: far more than any needs


class Wrong(Exception):
    """Something is not as it should be."""


class Skipped(Exception):
    """A test that this system does not allow."""


def need(true, *words):
    """Stops the test where something is not true, and says what."""
    if not true:
        raise Wrong(" ".join(show(word) for word in words))


def show(word):
    """A word for a message: text as it is, all else as Python writes it, long bytes cut."""
    if isinstance(word, str):
        return word
    text = repr(word)
    return text if len(text) < 600 else text[:400] + ".." + text[-150:]


class Said:
    """How a command ended, and what it printed."""

    def __init__(self, words, status, out, err):
        self.words, self.status, self.out, self.err = words, status, out, err

    def __str__(self):
        words = " ".join(show(w) if isinstance(w, bytes) else str(w) for w in self.words)
        return "`%s` ended with %s; printed %s; said %s" % (
            words, self.status, show(self.out), show(self.err))

    def prints(self, text):
        """It printed exactly this on standard output."""
        wanted = text if isinstance(text, bytes) else text.encode()
        need(self.out == wanted, str(self) + ", but this should be printed:", wanted)
        return self

    def says(self, text):
        """It said this, among other words, on standard error."""
        wanted = text if isinstance(text, bytes) else text.encode()
        need(wanted in self.err, str(self) + ", but not:", wanted)
        return self

    def errors(self):
        """Standard error is lines that begin as they should; of bad usage the first, where the
        command's lines follow."""
        lines = self.err.split(b"\n")
        need(lines.pop() == b"" and lines, str(self) + ", no whole line on standard error")
        for line in lines[:1] if self.status == 64 else lines:
            need(line.startswith(b"cedunmi: "), str(self) + ", a line begins otherwise")
        return self


class Room:
    """A folder, in which commands are run and counted."""

    def __init__(self, program):
        self.program = os.path.abspath(program)
        self.made = 0

    def start(self, *words, limits=(), nobody=False, env=None, **how):
        """Starts a command, and gives the process."""
        def prepare():
            for kind, most in limits:
                resource.setrlimit(kind, (most, most))
        if limits:
            how["preexec_fn"] = prepare
        if nobody and os.geteuid() == 0:
            how.update(user=NOBODY, group=NOBODY, extra_groups=[])
        for name in ("stdin", "stdout", "stderr"):
            how.setdefault(name, subprocess.PIPE)
        self.made += 1
        return subprocess.Popen([self.program, *map(word_of, words)],
                                env=dict(PLAIN, **(env or {})), **how)

    def run(self, *words, given=b"", timeout=LONGEST, **how):
        """Runs a command to its end; GIVEN is its standard input."""
        process = self.start(*words, **how)
        try:
            out, err = process.communicate(given, timeout)
        except subprocess.TimeoutExpired:
            process.kill()
            out, err = process.communicate()
            raise Wrong("it did not end: " + str(Said(words, "nothing", out, err)))
        return Said(words, process.returncode, out, err)

    def ends(self, status, *words, **how):
        """Runs a command, which ends with this status, or one of these."""
        said = self.run(*words, **how)
        wanted = status if isinstance(status, (tuple, set)) else (status,)
        need(said.status in wanted, "%s, not with %s" % (said, " or ".join(map(str, wanted))))
        return said

    def works(self, *words, says="", **how):
        """Runs a command that ends with 0 and prints nothing, or this line, and nothing else."""
        said = self.ends(0, *words, **how)
        wanted = (says + "\n" * bool(says)).encode()
        need((said.out, said.err) == (wanted, b""), "%s, but should say" % said, wanted)
        return said

    def codes(self, *words, kind=by_hand.PLACED, **how):
        """Runs `code` with these words, which codes a volume of this kind, and says so."""
        option = ("--plain",) if kind == by_hand.PLAIN else ()
        return self.works("code", *option, *words, says="coded: " + by_hand.CALLED[kind], **how)

    def recodes(self, kind, *words, **how):
        """Runs `recode` with these words, the last of which is the folder, which makes of a volume
        of this kind the same of the other, and says so, and what is to be done with its record."""
        says = "recoded: from %s, to %s\nprint %s for the manual, and keep the old volume until it " \
            "is there" % (by_hand.CALLED[kind], by_hand.CALLED[1 - kind],
                          shown(os.fsencode(words[-1]) + b"/record"))
        return self.works("recode", *words, says=says, **how)

    def refused(self, status, *words, **how):
        """Runs a command that ends so, says why, prints nothing, and has not touched a thing."""
        before = snapshot(touched=True)
        said = self.ends(status, *words, **how).errors()
        need(not said.out, "%s, but it should print nothing" % said)
        unchanged(before, snapshot(touched=True), said)
        return said


def shown(name):
    """A name as the program shows it: in quotes, with escapes, where a character can't be seen."""
    hidden = [*range(32), *range(0x7f, 0xa0), *range(0x200b, 0x2010), *range(0x2028, 0x202f),
              *range(0x2066, 0x206a)]
    try:
        text = name.decode()
        if not set(map(ord, text)) & set(hidden):
            return text
    except UnicodeDecodeError:
        pass
    escapes = {byte: "\\x%02x" % byte for byte in [*range(32), *range(127, 256)]}
    escapes.update({10: "\\n", 34: '\\"', 92: "\\\\"})
    return '"%s"' % "".join(escapes.get(byte, chr(byte)) for byte in name)


def word_of(word):
    """An argument, given as text, bytes, a path or a number."""
    return word if isinstance(word, (str, bytes)) else os.fspath(word) \
        if hasattr(word, "__fspath__") else str(word)


def entry(path, touched):
    """What a snapshot keeps of one name."""
    info = os.lstat(path)
    kind = stat.S_IFMT(info.st_mode)
    held = None
    if kind == stat.S_IFREG:
        held = (info.st_ino, info.st_mtime_ns, slurp(path))
    elif kind == stat.S_IFLNK:
        held = (info.st_ino, os.readlink(path))
    elif kind == stat.S_IFDIR and touched:
        held = (info.st_ino, info.st_mtime_ns)
    return (stat.filemode(info.st_mode), info.st_uid, info.st_gid, held)


def snapshot(folder=b".", touched=False):
    """Every name below a folder with its type, rights, bytes and time; with TOUCHED, the times of
    folders too, which shows a file that was made and taken away again."""
    found = {folder: entry(folder, touched)}
    with os.scandir(folder) as entries:
        for item in entries:
            path = os.fsencode(item.path)
            if item.is_dir(follow_symlinks=False):
                found.update(snapshot(path, touched))
            else:
                found[path] = entry(path, touched)
    return found


def unchanged(before, after, what):
    """Two snapshots are equal."""
    for path in sorted(set(before) | set(after)):
        need(before.get(path) == after.get(path), str(what) + ";", path, "was",
             before.get(path, "not there"), "and is", after.get(path, "not there"))


def contents(folder):
    """The names below a folder, with the bytes of files; None for a folder, else its kind."""
    found = {}
    for name in os.listdir(folder):
        path = os.path.join(folder, name)
        info = os.lstat(path)
        if stat.S_ISDIR(info.st_mode):
            found[name] = None
            found.update((name + "/" + below, held) for below, held in contents(path).items())
        else:
            found[name] = slurp(path) if stat.S_ISREG(info.st_mode) else stat.filemode(info.st_mode)
    return found


def slurp(path):
    """The bytes of a file."""
    with open(path, "rb") as file:
        return file.read()


def put(path, data, mode=None):
    """Writes a file afresh."""
    with open(path, "wb") as file:
        file.write(data)
    if mode is not None:
        os.chmod(path, mode)


def fill(folder, files):
    """Makes a folder, or a disk, with these files, names and bytes; what was there is gone."""
    shutil.rmtree(folder, ignore_errors=True)
    os.makedirs(folder, exist_ok=True)
    for name, data in files.items():
        if data is None:
            os.mkdir(os.path.join(folder, name))
        else:
            put(os.path.join(folder, name), data)


def volume_of(depth, seed=0):
    """The bytes of a volume, the same for each seed."""
    return random.Random("%d %d" % (depth, seed)).randbytes(512 << depth)


class Coded:
    """A coded volume, its bytes made by hand; as long as its depth holds, or of this length."""

    def __init__(self, depth, seed=0, table=None, length=None, kind=by_hand.PLACED):
        self.depth, self.kind = depth, kind
        self.table = table or by_hand.house_table(depth)
        self.volume = volume_of(depth, seed)[:length]
        self.tree, self.marks, self.record = by_hand.code(depth, self.table, self.volume, kind)

    def files(self):
        """What `code` writes."""
        return {"tree": self.tree, "marks": self.marks, "record": self.record}

    def lay(self):
        """Puts the files table, volume, tree, marks and record here, a sample and a print too."""
        put("table", self.table)
        put("volume", self.volume)
        for name, data in self.files().items():
            put(name, data)
        put("sample", by_hand.sample(self.depth, 3, self.tree))
        put("text", "".join(line + "\n" for line in by_hand.printed(self.record)).encode())
        return self

    def harm(self, absent=(), bad=()):
        """The same with pages absent, and with bad copies; not coded anew."""
        tree, marks = bytearray(self.tree), bytearray(self.marks)
        for place in absent:
            marks[place] = 0
        for place in bad:
            tree[256 * place + place % 256] ^= 1 + place % 255
        self.tree, self.marks = bytes(tree), bytes(marks)
        return self

    def wrong_seven(self):
        """The same with another page 7 of the top layer, its hash in the root: coded wrongly."""
        seven, at = b"\1" * 256, by_hand.HEAD + 7 * 32
        self.tree = self.tree[:7 * 256] + seven + self.tree[8 * 256:]
        hash_of = by_hand.page_hash(self.kind, 0, 7, seven)
        self.record = self.record[:at] + hash_of + self.record[at + 32:]
        return self

    def naming(self, table):
        """The same with another table, which the record names, but by which it was not coded."""
        self.table = table
        self.record = by_hand.head_of(self.depth, len(self.volume), table, self.kind) \
            + self.record[by_hand.HEAD:]
        return self

    def misfilled(self, *places):
        """The same with bytes that are not zero in what fills up the volume, counted from its
        beginning; coded so, and the record says the length of before."""
        filled = bytearray(self.volume.ljust(by_hand.lengths(self.depth)["volume"], b"\0"))
        for place in places:
            filled[place] ^= 1 + place % 255
        self.tree, root = by_hand.tree_of(self.depth, self.table, bytes(filled), self.kind)
        self.record = self.record[:by_hand.HEAD] + root
        return self

    def repair(self):
        """The repair of this, by hand."""
        return by_hand.Repair(self.depth, self.record, self.table, self.tree, self.marks)


def table_leaving(depth, *pages):
    """The house table, but for pages, each by its layer, its number there, and how many equations
    keep it: the first ones. In the others another data page stands for it."""
    equations = by_hand.house_equations(depth)
    for layer, page, kept in pages:
        those = [members for members in equations[layer] if page in members]
        for members in those[kept:]:
            members.remove(page)
            gone = [gone for at, gone, _ in pages if at == layer]
            members.append(next(i for i in range(4 << layer) if i not in members + gone))
            members.sort()
    return by_hand.table_of(equations)


def another_table(depth):
    """A table that differs from the house table in its last equation's second member."""
    equations = by_hand.house_equations(depth)
    low, high = equations[-1][-1][:2]
    equations[-1][-1][1] = next(i for i in range(low + 1, 4 << depth) if i != high)
    return by_hand.table_of(equations)
