"""What the benchmarks need from Debian."""

import glob
import os
import shutil
import subprocess
import sys

import program

SHA2 = "/usr/share/cargo/registry/sha2-0.10*"

# What the program of benchmarks/src is built and counted with, and what else is compared:
# a path or a command, and the Debian package with it.
PROGRAM = [
    ("cargo", "cargo"),
    ("cc", "gcc"),
    ("objcopy", "binutils"),
    ("valgrind", "valgrind"),
    ("/usr/include/openssl/sha.h", "libssl-dev"),
    (SHA2, "librust-sha2-dev"),
]
OTHERS = [
    ("openssl", "openssl"),
    ("/usr/lib/python3/dist-packages/zfec", "python3-zfec"),
    ("par2", "par2"),
]


def missing(needs):
    """The packages of what is not there."""
    return [package for need, package in needs if not (shutil.which(need) or glob.glob(need))]


def install(needs):
    packages = missing(needs)
    if packages and os.geteuid() == 0 and shutil.which("apt-get"):
        words = ["install", "-y", "-q", "--no-install-recommends", *packages]
        for command in (["update", "-q"], words):
            subprocess.run(["apt-get", *command], stdout=sys.stderr, check=False)
    if missing(needs):
        program.fail("missing: apt-get install " + " ".join(missing(needs)))
