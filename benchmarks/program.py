"""The program of benchmarks/src: its build, its times and its instructions."""

import os
import shutil
import subprocess
import sys
from pathlib import Path

ROOT = Path(__file__).resolve().parents[1]
TARGET = Path(os.environ.get("BENCHMARKS_TARGET", ROOT / "target" / "benchmarks")).resolve()
PACKAGE = TARGET / "package"
PROGRAM = TARGET / "release" / "benchmarks"
LIBRARY = Path(os.environ.get("CEDUNMI_LIB_DIR", ROOT / "target" / "staticlib")).resolve()

PROCESSES = 30
TRIALS = 8

# The depths of a tree, and the largest at which others are beside it.
DEPTHS = range(1, 10)
COMPARED = 5


def symbols(depth):
    """The symbols of a tree."""
    return 16 * (2 ** int(depth) - 1)


def house_words(depth):
    """The words of the house table."""
    return 60 * (2 ** depth - 1) + 1


def fail(message):
    sys.exit(f"benchmarks: {message}")


def environment(changes):
    kept = {name: value for name, value in os.environ.items() if name != "OPENSSL_ia32cap"}
    return {**kept, **changes}


def cargo(words, folder, **options):
    """Runs cargo offline, with no compiler flags of the caller's, and gives what it wrote."""
    changes = {"CEDUNMI_LIB_DIR": str(LIBRARY), "CARGO_TARGET_DIR": str(TARGET), "RUSTFLAGS": ""}
    command = ["cargo", words[0], "--quiet", "--release", "--offline", *words[1:]]
    done = subprocess.run(command, cwd=folder, env=environment(changes), check=False, **options)
    if done.returncode:
        fail(f"{' '.join(command)}: it failed")
    return done.stdout


def build():
    """Builds a copy of the package, where cargo may write a lock file: the versions
    in it are those that the machine's Debian has."""
    if not (LIBRARY / "libcedunmi_c.a").is_file():
        fail(f"{LIBRARY}/libcedunmi_c.a is missing: make")
    shutil.rmtree(PACKAGE, ignore_errors=True)
    shutil.copytree(ROOT / "benchmarks", PACKAGE)
    manifest = PACKAGE / "Cargo.toml"
    manifest.write_text(manifest.read_text().replace('path = "..', f'path = "{ROOT}'))
    cargo(["build"], PACKAGE)


def run(words, changes=(), before=(), built=PROGRAM):
    """Runs the program as it was built there, and gives what it and `before` wrote."""
    command = [*before, str(built), *map(str, words)]
    done = subprocess.run(command, env=environment(dict(changes)), capture_output=True, text=True,
                          check=False)
    if done.returncode:
        fail(f"{' '.join(command)}: {done.stderr}")
    return done.stdout + done.stderr


def shortest(words, changes=(), built=PROGRAM):
    """The fewest nanoseconds of one process, by the other words of the lines that it prints."""
    lines = [line.split() for line in run(words, changes, built=built).splitlines()]
    return {tuple(key): float(nanoseconds) for *key, nanoseconds in lines}


def searches():
    """The equations that a search looks at that goes back, by case, depth and symbols."""
    return shortest(["searches"])


def keep_shorter(best, others):
    for key, nanoseconds in others.items():
        best[key] = min(best.get(key, nanoseconds), nanoseconds)


def best_of_each(words, programs, processes=PROCESSES, changes=()):
    """The fewest nanoseconds of many processes, in the same form, of each program, taken in turns."""
    fewest = [{} for _ in programs]
    for _ in range(processes):
        for built, best in zip(programs, fewest):
            keep_shorter(best, shortest(words, changes, built))
    return fewest


def best_of(command):
    return best_of_each([command, TRIALS], [PROGRAM])[0]


def instructions(words, changes=(), options=(), built=PROGRAM):
    valgrind = ["valgrind", "--tool=callgrind", "--callgrind-out-file=/dev/null", *options]
    for line in run(words, changes, valgrind, built).splitlines():
        if "Collected :" in line:
            return int(line.split()[-1])
    return fail("valgrind gave no count")


def resilience(command):
    """The lines that tests/resilience prints."""
    words = ["run", "--locked", "--package", "resilience", "--", command]
    return cargo(words, ROOT / "tests", capture_output=True, text=True).splitlines()
