"""Line plots side by side, as an SVG picture."""

from html import escape

# Colours that colour-blind readers tell apart, by Okabe and Ito.
BLUE, RED, GREEN, ORANGE, PURPLE = "#0072b2", "#d55e00", "#009e73", "#e69f00", "#cc79a7"
COLOURS = [BLUE, RED, GREEN, ORANGE, PURPLE]
GREY, INK = "#767676", "#1a1a1a"
DASHED = "5 4"

WIDTH, HEIGHT = 400, 400
LEFT, RIGHT, TOP, BOTTOM = 58, 110, 52, 52
LABEL_GAP = 14


class Line:
    """Points, joined."""

    def __init__(self, name, points, colour, dashes=None):
        self.name, self.points, self.colour, self.dashes = name, points, colour, dashes


class Panel:
    """One plot. The ticks say how far its axes go. A plot of curves has upright marks, no dots,
    and its names in a list, not at the ends of the lines."""

    def __init__(self, title, x_title, y_title, x_ticks, y_ticks, lines):
        self.title, self.x_title, self.y_title = title, x_title, y_title
        self.x_ticks, self.y_ticks, self.lines = x_ticks, y_ticks, lines
        self.curves, self.marks = False, []

    def of_curves(self, *marks):
        """The same, as a plot of curves."""
        self.curves, self.marks = True, marks
        return self

    def x(self, value):
        low, high = self.x_ticks[0], self.x_ticks[-1]
        return LEFT + (value - low) / (high - low) * (WIDTH - LEFT - RIGHT)

    def y(self, value):
        low, high = self.y_ticks[0], self.y_ticks[-1]
        return HEIGHT - BOTTOM - (value - low) / (high - low) * (HEIGHT - TOP - BOTTOM)


def write(x, y, words, anchor="start", colour=INK, more=""):
    return (f'<text x="{x:.1f}" y="{y:.1f}" text-anchor="{anchor}" fill="{colour}"{more}>'
            f"{escape(words)}</text>")


def stroke(points, colour, width=1.0, dashes=None):
    path = " ".join(f"{x:.1f},{y:.1f}" for x, y in points)
    dash = f' stroke-dasharray="{dashes}"' if dashes else ""
    return (f'<polyline points="{path}" fill="none" stroke="{colour}" stroke-width="{width}"'
            f"{dash}/>")


def axes(panel):
    x_end, bottom = WIDTH - RIGHT, HEIGHT - BOTTOM
    yield write(LEFT, 26, panel.title, more=' font-weight="bold"')
    yield write((LEFT + x_end) / 2, HEIGHT - 12, panel.x_title, "middle")
    yield write(8, TOP - 10, panel.y_title, colour=GREY)
    for tick in panel.y_ticks:
        y = panel.y(tick)
        yield stroke([(LEFT, y), (x_end, y)], "#e2e2e2")
        yield write(LEFT - 6, y + 4, f"{tick:,}", "end", GREY)
    for tick in panel.x_ticks:
        x = panel.x(tick)
        yield stroke([(x, bottom), (x, bottom + 4)], GREY)
        yield write(x, bottom + 18, f"{tick:,}", "middle", GREY)


def marks(panel):
    for value in panel.marks:
        x = panel.x(value)
        yield stroke([(x, TOP), (x, HEIGHT - BOTTOM)], GREY, dashes="2 3")
        yield write(x, TOP - 10, f"{value} %", "middle", GREY)


def line_strokes(panel):
    for line in panel.lines:
        points = [(panel.x(x), panel.y(y)) for x, y in line.points]
        yield stroke(points, line.colour, 2.0, line.dashes)
        if not panel.curves:
            for x, y in points:
                yield f'<circle cx="{x:.1f}" cy="{y:.1f}" r="2.5" fill="{line.colour}"/>'


def spread(wanted):
    """Heights for labels, in their order, that are no closer than the gap: those that would
    touch stand around their middle."""
    groups = []
    for height in wanted:
        groups.append([height])
        while len(groups) > 1 and top(groups[-1]) - bottom(groups[-2]) < LABEL_GAP:
            last = groups.pop()
            groups[-1] += last
    return [top(group) + LABEL_GAP * at for group in groups for at in range(len(group))]


def top(group):
    return sum(group) / len(group) - LABEL_GAP * (len(group) - 1) / 2


def bottom(group):
    return top(group) + LABEL_GAP * (len(group) - 1)


def labels(panel):
    """The lines' names, beside their ends."""
    lines = panel.lines
    heights = [TOP + LABEL_GAP * (1 + at) for at in range(len(lines))]
    if not panel.curves:
        lines = sorted(lines, key=lambda line: -line.points[-1][1])
        heights = spread([panel.y(line.points[-1][1]) for line in lines])
    for line, height in zip(lines, heights):
        yield write(WIDTH - RIGHT + 8, height + 4, line.name, colour=line.colour)


def picture(panels, description):
    width = WIDTH * len(panels)
    parts = [f'<svg xmlns="http://www.w3.org/2000/svg" viewBox="0 0 {width} {HEIGHT}" '
             f'width="{width}" height="{HEIGHT}" font-family="Helvetica, Arial, sans-serif" '
             'font-size="12">',
             f"<title>{escape(description)}</title>",
             f'<rect width="{width}" height="{HEIGHT}" fill="#ffffff"/>']
    for index, panel in enumerate(panels):
        parts.append(f'<g transform="translate({WIDTH * index} 0)">')
        for part in (axes, marks, line_strokes, labels):
            parts.extend(part(panel))
        parts.append("</g>")
    return "\n".join([*parts, "</svg>", ""])
