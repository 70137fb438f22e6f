"""What it adds to a call that it hashes the table, to see that it is the one that the record names, or to name it there."""

from program import COMPARED
from tables import LONG_TOO, LOSSES, PROOFS, REPAIRED, of

HEAD = ["Hashing the table", "depth 5, microseconds", "of the call's", "share",
        "depth 9, microseconds", "of the call's", "share"]

# A tree is written by calls of these names, and its table hashed alone by those.
ALONE = {"cedunmi": "naming", "long": "long-naming"}


def shares(call, alone):
    """The hash alone, the call and the share, at depth 5 and at the largest, of times by depth."""
    cells = []
    for at in (COMPARED - 1, -1):
        whole, part = call[at][1], alone[at][1]
        cells += [f"{part / 1000:.1f}", f"{whole / 1000:.1f}", f"{100 * part / whole:.1f} %"]
    return cells


def row(title, best, case):
    return [title, *shares(of(best, "cedunmi", case), of(best, "naming", case))]


def naming(tree, repair, checks):
    proofs = [row(title, checks, case) for case, title in PROOFS]
    repairs = [row(f"repair, {table}, {title}", repair, before + loss)
               for before, table in REPAIRED for loss, title in (LOSSES[0], LOSSES[-1])]
    writing = [[f"writing, {title}", *shares(of(tree, name), of(tree, ALONE[name]))] for name, title in LONG_TOO]
    return [HEAD, *proofs, *repairs, *writing]
