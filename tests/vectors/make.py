#!/usr/bin/env python3
"""Makes what the program `vectors` reads, and what it must print.

    make.py            writes crates/vectors/stdin and crates/vectors/stdout
    make.py --check    writes nothing, and fails unless they hold exactly that

The input is a row of frames. A frame is two big-endian numbers of four bytes,
`times` and `length`, and then `length` bytes, at most 4,096 of them. Its
message is those bytes `times` times over, at most 1,048,576 bytes in all. The
output has a line for each frame: the SHA-256 of its message, as 64 lower-case
hexadecimal digits. The digests are those of Python's hashlib, which is held to
the published ones first.
"""

import hashlib
import struct
import sys
from pathlib import Path

FOLDER = Path(__file__).resolve().parents[2] / "crates" / "vectors"

LONGEST_FRAME = 4096
LONGEST_MESSAGE = 1048576

# The examples that NIST publishes with FIPS 180-4 for SHA-256, and the empty
# message: (times, bytes, digest).
PUBLISHED = [
    (1, b"abc",
     "ba7816bf8f01cfea414140de5dae2223b00361a396177a9cb410ff61f20015ad"),
    (1, b"",
     "e3b0c44298fc1c149afbf4c8996fb92427ae41e4649b934ca495991b7852b855"),
    (1, b"abcdbcdecdefdefgefghfghighijhijkijkljklmklmnlmnomnopnopq",
     "248d6a61d20638b8e5c026930c3e6039a33ce45964ff2167f6ecedd419db06c1"),
    (1, b"abcdefghbcdefghicdefghijdefghijkefghijklfghijklmghijklmn"
        b"hijklmnoijklmnopjklmnopqklmnopqrlmnopqrsmnopqrstnopqrstu",
     "cf5b16a778af8380036ce59e7b0492370b249b11e8f07a51afac45037afee9d1"),
    (1000000, b"a",
     "cdc76e5c9914fb9281a1c7e284d73e67f1809a48a497200e046d39ccc7112cd0"),
]

# Lengths around which the padding takes one block more, and a symbol's length.
EDGES = [55, 56, 63, 64, 119, 120, 127, 128, 183, 184, 191, 192, 256]

# Longer messages: (times, length of the bytes).
REPEATED = [
    (2, 64), (3, 85), (5, 100), (16, 63), (16, 64), (16, 65), (64, 64),
    (255, 257), (65535, 1), (65536, 1), (65537, 1), (16384, 64),
    (1048575, 1), (1048576, 1), (349525, 3), (256, 4096), (257, 4080),
]


def mixed(length, start):
    """Bytes without an evident pattern, the same on every run."""
    state = start
    out = bytearray()
    for _ in range(length):
        state = (state * 1103515245 + 12345) % 2 ** 31
        out.append(state >> 16 & 0xFF)
    return bytes(out)


def messages():
    """Every frame's (times, bytes)."""
    for times, part, _ in PUBLISHED:
        yield times, part
    for length in range(1, 131):
        yield 1, mixed(length, length)
    for length in EDGES:
        yield 1, bytes(length)
        yield 1, b"\xff" * length
        yield 1, b"\x80" * length
    for length in (1000, 2048, 4095, 4096):
        yield 1, mixed(length, length)
    for times, length in REPEATED:
        yield times, mixed(length, times)


def frame(times, part):
    if len(part) > LONGEST_FRAME or times * len(part) > LONGEST_MESSAGE:
        sys.exit(f"make.py: a frame is too long: {times} times {len(part)}")
    return struct.pack(">II", times, len(part)) + part


def digest(times, part):
    return hashlib.sha256(part * times).hexdigest()


def check_hashlib():
    for times, part, published in PUBLISHED:
        if digest(times, part) != published:
            sys.exit(f"make.py: hashlib differs from the published {published}")


def files():
    """The two files: their paths and contents."""
    rows = list(messages())
    return {
        FOLDER / "stdin": b"".join(frame(*row) for row in rows),
        FOLDER / "stdout": b"".join(digest(*row).encode() + b"\n" for row in rows),
    }


def check(path, content):
    if not path.is_file() or path.read_bytes() != content:
        sys.exit(f"make.py: {path} is not what make.py makes")


def main(arguments):
    if arguments not in ([], ["--check"]):
        sys.exit(__doc__)
    check_hashlib()
    made = files()
    for path, content in made.items():
        if arguments:
            check(path, content)
        else:
            path.parent.mkdir(parents=True, exist_ok=True)
            path.write_bytes(content)
    vectors = made[FOLDER / "stdout"].count(b"\n")
    print(f"vectors: {vectors} messages, {'as stored' if arguments else 'written'}")


if __name__ == "__main__":
    main(sys.argv[1:])
