"""What one would pick instead, on the same volume with as many pieces of the same size: zfec,
called as a library, and par2, a command, beside `cedunmi`, a command too."""

import os
import random
import shutil
import subprocess
import tempfile
import time
from pathlib import Path

import program
from program import PROCESSES, ROOT, TRIALS

LOSSES = ["0", "25", "47"]

# The bytes of a record, which is stored beside tree and marks.
RECORD = 556

HEAD = ["The same volume", "its bytes", "bytes stored", "coding", "repair, nothing lost",
        "25 % lost", "47 % lost"]


class Shape:
    """The pieces of a volume: so many of data, and with the others three times as many more."""

    piece = 256

    def __init__(self, depth):
        self.depth, self.data = depth, 2 ** (depth + 1)
        self.all, self.symbols = 4 * self.data, program.symbols(depth)
        self.volume = bytes((i * 2654435761 % 2 ** 32 >> 13) % 256
                            for i in range(self.piece * self.data))


def lost(count, percent, seed=0):
    """So many percent of the numbers below a count, at random."""
    return sorted(random.Random(seed).sample(range(count), count * int(percent) // 100))


class Zfec:
    """Its calls. A repair gives the volume back, and then every piece that was lost."""

    title = "zfec, calls"

    def __init__(self, shape, _room):
        import zfec
        self.shape, sizes = shape, (shape.data, shape.all)
        self.encoder, self.decoder = zfec.Encoder(*sizes), zfec.Decoder(*sizes)
        starts = range(0, len(shape.volume), shape.piece)
        self.volume = [shape.volume[at:at + shape.piece] for at in starts]
        self.pieces = self.encoder.encode(self.volume)
        self.takes_any_piece()

    def takes_any_piece(self):
        """docs/BENCHMARKS.md says that it finds no bad piece: so it is."""
        numbers = list(range(1, self.shape.data + 1))
        changed = [bytes(self.shape.piece), *(self.pieces[number] for number in numbers[1:])]
        if self.decoder.decode(changed, numbers) == self.volume:
            program.fail("zfec gave the volume back from a bad piece")

    def stored(self):
        return sum(map(len, self.pieces))

    def code(self):
        start = time.process_time_ns()
        self.encoder.encode(self.volume)
        return time.process_time_ns() - start

    def repair(self, percent):
        gone = lost(self.shape.all, percent)
        held = [number for number in range(self.shape.all) if number not in gone][:self.shape.data]
        start = time.process_time_ns()
        volume = self.decoder.decode([self.pieces[number] for number in held], held)
        again = self.encoder.encode(volume, gone) if gone else []
        spent = time.process_time_ns() - start
        if (volume, again) != (self.volume, [self.pieces[number] for number in gone]):
            program.fail("zfec: the repair is wrong")
        return spent


def command(folder, *words):
    """The nanoseconds of processor time that a command and what it runs take, and its status."""
    process = subprocess.Popen(words, cwd=folder, stdout=subprocess.DEVNULL,
                               stderr=subprocess.DEVNULL)
    _, status, usage = os.wait4(process.pid, 0)
    process.returncode = os.waitstatus_to_exitcode(status)
    return (usage.ru_utime + usage.ru_stime) * 1e9, process.returncode


def done(folder, *words):
    """The same of a command that must end with 0."""
    spent, status = command(folder, *words)
    if status:
        program.fail(f"{' '.join(words)}: it ended with {status}")
    return spent


class Commands:
    """Commands that code in one folder, and repair a copy that has lost something."""

    def __init__(self, shape, room):
        self.shape, self.coded, self.damaged = shape, room / "coded", room / "damaged"
        self.coded.mkdir(parents=True)
        (self.coded / "volume").write_bytes(shape.volume)
        self.code()

    def copy(self):
        shutil.rmtree(self.damaged, ignore_errors=True)
        shutil.copytree(self.coded, self.damaged)


class Cedunmi(Commands):
    """The tree loses symbols of all its layers."""

    title = "Cedunmi, commands"
    tool = str(ROOT / "target" / "cedunmi")

    def __init__(self, shape, room):
        super().__init__(shape, room)
        self.seeds = {percent: self.seed(percent) for percent in LOSSES}

    def stored(self):
        return sum(file.stat().st_size for file in (self.coded / "tree").iterdir())

    def code(self):
        depth = str(self.shape.depth)
        if not (self.coded / "table").exists():
            done(self.coded, self.tool, "table", depth, "table")
        return done(self.coded, self.tool, "code", "--force", depth, "table", "volume", "tree")

    def damage(self, percent, seed):
        self.copy()
        marks = bytearray(b"\1" * self.shape.symbols)
        for number in lost(self.shape.symbols, percent, seed):
            marks[number] = 0
        (self.damaged / "tree" / "marks").write_bytes(marks)

    def repair_words(self):
        files = ["tree/record", "table", "tree/tree", "tree/marks", "repaired"]
        return [self.tool, "repair", "--force", str(self.shape.depth), *files]

    def seed(self, percent):
        """The first with which a repair is whole."""
        for seed in range(1000):
            self.damage(percent, seed)
            if command(self.damaged, *self.repair_words())[1] == 0:
                return seed
        return program.fail(f"no loss of {percent} % is repaired")

    def repair(self, percent):
        self.damage(percent, self.seeds[percent])
        return done(self.damaged, *self.repair_words())


class Par2(Commands):
    """The volume's pieces and the recovery slices are lost alike. A repair gives the volume
    back, and no recovery slice."""

    title = "par2, commands"

    def stored(self):
        return sum(file.stat().st_size for file in self.coded.iterdir())

    def code(self):
        for file in self.coded.glob("*.par2"):
            file.unlink()
        sizes = [f"-s{self.shape.piece}", f"-c{self.shape.all - self.shape.data}"]
        return done(self.coded, "par2", "create", "-q", "-q", "-t1", *sizes, "-n1", "volume.par2",
                    "volume")

    def damage(self, percent):
        self.copy()
        piece, data = self.shape.piece, self.shape.data
        (file,) = self.damaged.glob("volume.vol*.par2")
        volume, recovery = bytearray(self.shape.volume), bytearray(file.read_bytes())
        slices = recovery_slices(recovery)
        for number in lost(self.shape.all, percent):
            if number < data:
                volume[piece * number:piece * (number + 1)] = bytes(piece)
            else:
                at = slices[number - data]
                recovery[at:at + piece] = bytes(piece)
        (self.damaged / "volume").write_bytes(volume)
        file.write_bytes(recovery)

    def repair(self, percent):
        self.damage(percent)
        spent = done(self.damaged, "par2", "repair", "-q", "-q", "-t1", "volume.par2")
        if (self.damaged / "volume").read_bytes() != self.shape.volume:
            program.fail("par2: the repair is wrong")
        return spent


def recovery_slices(data):
    """Where the slices of the recovery packets of a PAR2 file begin. A packet has a head of 64
    bytes: 8 of magic, 8 of length, two hashes of 16, and 16 of type; a slice follows a number."""
    slices, at = [], 0
    while at < len(data):
        if data[at + 48:at + 64] == b"PAR 2.0\0RecvSlic":
            slices.append(at + 68)
        at += int.from_bytes(data[at + 8:at + 16], "little")
    return slices


def row(shape, title, stored, times):
    """A row, with the times in milliseconds."""
    return [f"depth {shape.depth}, {title}", f"{len(shape.volume):,}", f"{stored:,}",
            *(f"{nanoseconds / 1e6:.3g}" for nanoseconds in times)]


def ours(shape, tree, repair):
    """Our calls, from the times of the other tables."""
    depth = str(shape.depth)
    times = [tree["cedunmi", depth, str(len(shape.volume))],
             *(repair["cedunmi", percent, depth, str(shape.symbols)] for percent in LOSSES)]
    stored = shape.symbols * (shape.piece + 1) + RECORD
    return row(shape, "Cedunmi, calls", stored, times)


def best_row(shape, other, trials):
    best = [float("inf")] * (1 + len(LOSSES))
    for _ in range(trials):
        best = list(map(min, best, [other.code(), *map(other.repair, LOSSES)]))
    return row(shape, other.title, other.stored(), best)


def instead(tree, repair):
    rows = [HEAD]
    for shape in map(Shape, range(1, program.COMPARED + 1)):
        rows.append(ours(shape, tree, repair))
        for kind, trials in ((Zfec, PROCESSES * TRIALS), (Cedunmi, PROCESSES), (Par2, PROCESSES)):
            with tempfile.TemporaryDirectory() as room:
                rows.append(best_row(shape, kind(shape, Path(room)), trials))
    return rows
