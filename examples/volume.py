"""Codes a volume of 3,700 bytes, loses a fifth of its pages, repairs it, reads it back, checks a sample, and recodes it.

    volume.py LIBRARY    the library as a shared object
"""

import ctypes
import sys

if len(sys.argv) != 2:
    sys.exit(__doc__)
library = ctypes.CDLL(sys.argv[1])


def call(name, *arguments):
    """A call's result. A number goes as 64 bits, a bytearray as its pointer and its length."""
    words = []
    for argument in arguments:
        if isinstance(argument, int):
            words.append(ctypes.c_uint64(argument))
        else:
            words.append((ctypes.c_uint8 * len(argument)).from_buffer(argument))
            words.append(ctypes.c_size_t(len(argument)))
    function = getattr(library, name)
    function.restype = ctypes.c_uint64
    return function(*words)


def done(name, *arguments):
    """The value of a call that must not stop."""
    value, number = divmod(call(name, *arguments), 256)
    if number != 0:
        raise RuntimeError(f"{name} stopped with {number}")
    return value


PLACED = 0
depth, number = 3, 50
pages = 16 * (2**depth - 1)
block = bytearray((i + i // 256) % 256 for i in range(3700))
back = bytearray(1024 * 2**(depth - 1))
table = bytearray(4 * (60 * (2**depth - 1) + 1))
tree, marks, record = bytearray(256 * pages), bytearray(pages), bytearray(556)
output, sample = bytearray(12 + 256 * (8 * depth - 1)), bytearray(256 * (2 * depth - 1))

done("cmt_house_table", depth, table)
done("cmt_tree_write", depth, PLACED, table, block, tree, marks, record)

marks[::5] = bytes(len(marks[::5]))
repaired = done("cmt_repair", depth, record, table, tree, marks, output)
print(f"end {repaired % 2**24}, stored {repaired // 2**24 % 2**16}")

done("cmt_block_read", depth, record, tree, marks, back)
del back[int.from_bytes(record[4:8], "big") % 2**30:]
print("the block is", "as it was" if back == block else "another")

done("cmt_sample_take", depth, number, tree, marks, sample)
right = call("cmt_sample_check", depth, number, record, sample)
sample[0] ^= 1
damaged = call("cmt_sample_check", depth, number, record, sample)
print(f"sample: {right}, damaged: {damaged % 256} at layer {damaged // 256}")

plain_tree, plain_marks, plain_record = bytearray(256 * pages), bytearray(pages), bytearray(556)
done("cmt_recode", depth, record, table, tree, marks, plain_tree, plain_marks, plain_record)
print(f"recoded: from kind {record[0] // 64} to {plain_record[0] // 64}")
