"""The three plots of docs/benchmarks.svg."""

import math

import plot
from page import rows_of
from plot import BLUE, COLOURS, DASHED, GREY, ORANGE, RED, Line, Panel
from program import COMPARED, DEPTHS
from tables import LOSSES, REPAIRED, each_symbol

DESCRIPTION = ("The time for each symbol, depth 1 to 9; samples and proofs grow with the depth as 003's do; "
               "repairs are whole up to losses of some forty percent at depth 1 to 5")

# What a repair may cost at any depth, with any table and loss, over the least for the house table with nothing lost.
LIMIT = 1.25


def ticks_over(highest):
    """At most seven ticks, from 0 to a round number that is not below the highest value."""
    step = next(step for step in (0.2, 0.5, 1, 2, 5, 10) if 6 * step >= highest)
    return [round(step * at, 1) for at in range(math.ceil(highest / step) + 1)]


def by_depth(times):
    return list(zip(DEPTHS, times))


def growth(tree, repair):
    """Microseconds for each symbol against depth."""
    house = each_symbol(repair, "cedunmi", "0")
    cases = [before + loss for before, _ in REPAIRED for loss, _ in LOSSES]
    most = list(map(max, zip(*(each_symbol(repair, "cedunmi", case) for case in cases))))
    limit = [LIMIT * min(house[:COMPARED])] * len(DEPTHS)
    lines = [Line("repair, plain Rust", by_depth(each_symbol(repair, "reference", "0")), RED, DASHED),
             Line("1.25 × the least", by_depth(limit), GREY, "1 5"),
             Line("repair, the most", by_depth(most), RED),
             Line("repair, no loss", by_depth(house), ORANGE),
             Line("write, plain Rust", by_depth(each_symbol(tree, "reference")), BLUE, DASHED),
             Line("write", by_depth(each_symbol(tree, "cedunmi")), BLUE),
             Line("hashing alone", by_depth(each_symbol(tree, "hashes")), GREY, "2 3")]
    highest = max(y for line in lines for _, y in line.points)
    return Panel("Time for each symbol of a tree", "depth", "microseconds", list(DEPTHS), ticks_over(highest), lines)


def lengths(table):
    """Bytes against depth."""
    rows = [[int(cell.replace(",", "")) for cell in row] for row in rows_of(table)]

    def column(index):
        return [(row[0], row[index]) for row in rows]

    lines = [Line("longest proof", column(3), RED),
             Line("003, 8 members", column(4), RED, DASHED),
             Line("house proof", column(5), ORANGE),
             Line("003, 4 members", column(6), ORANGE, DASHED),
             Line("sample", column(1), BLUE),
             Line("003, sample", column(2), BLUE, DASHED)]
    return Panel("Samples and proofs grow with the depth", "depth", "bytes", [row[0] for row in rows],
                 [0, 5000, 10000, 15000, 20000], lines)


def survival(curve):
    """The chance of a whole repair against the loss; lines of DEPTH, PERCENT and CHANCE."""
    points = {}
    for depth, loss, chance in map(str.split, curve):
        points.setdefault(depth, []).append((int(loss), 100 * float(chance)))
    lines = [Line(f"depth {depth}", points[depth], colour)
             for depth, colour in zip(points, COLOURS)]
    return Panel("Repairs that are whole after a random loss", "percent of the symbols lost",
                 "percent", [0, 20, 40, 60, 80, 100], [0, 20, 40, 60, 80, 100],
                 lines).of_curves(12.4, 47)


def svg(tree, repair, length_table, curve):
    panels = [growth(tree, repair), lengths(length_table), survival(curve)]
    return plot.picture(panels, DESCRIPTION)
