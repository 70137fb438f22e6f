"""Volumes with places beside plain ones, and what recoding costs beside a check and a write."""

from program import COMPARED
from tables import BEYOND, of

# What is timed, and its title.
CALLS = [
    ("write", "writing a tree"),
    ("whole", "repairing, nothing lost"),
    ("lossy", "repairing, 25 % lost"),
    ("proof", "checking the longest proof"),
    ("sample", "checking a sample"),
]

# From which kind to which, and the title.
RECODED = [("plain", "placed", "from plain to with places"), ("placed", "plain", "from with places to plain")]


def by_depth(best, kind, call):
    return [time for _, time in of(best, kind, call)]


def kinds(best):
    rows = [["With places", "depth 9, microseconds", "plain", "time/plain, depth 1", *BEYOND]]
    for call, title in CALLS:
        placed, plain = (by_depth(best, kind, call) for kind in ("placed", "plain"))
        rows.append([title, f"{placed[-1] / 1000:.1f}", f"{plain[-1] / 1000:.1f}",
                     *(f"{ours / its:.3f}" for ours, its in zip(placed, plain))])
    return rows


def recoding(best):
    """A check is a repair of the tree with nothing lost, by its own kind; a write is of the other."""
    rows = [["Recoding", f"depth {COMPARED}, microseconds", "depth 9", "time/a check and a write, depth 1", *BEYOND]]
    for kind, other, title in RECODED:
        recoded = by_depth(best, kind, "recode")
        both = map(sum, zip(by_depth(best, kind, "whole"), by_depth(best, other, "write")))
        rows.append([title, f"{recoded[COMPARED - 1] / 1000:.0f}", f"{recoded[-1] / 1000:.0f}",
                     *(f"{time / two:.3f}" for time, two in zip(recoded, both))])
    return rows
