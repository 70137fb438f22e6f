"""Tables as text, as Markdown, and in the place of those that a page has."""

import program


def text(rows):
    widths = [max(len(row[i]) for row in rows) for i in range(len(rows[0]))]
    lines = []
    for row in rows:
        cells = [cell.rjust(width) for cell, width in zip(row[1:], widths[1:])]
        lines.append("  ".join([row[0].ljust(widths[0]), *cells]))
    return lines


def markdown(rows):
    head, *others = ("| " + " | ".join(row) + " |" for row in rows)
    return [head, "|---|" + "---:|" * (len(rows[0]) - 1), *others]


def first_cell(line):
    return line.split("|")[1].strip()


def renew(lines, new):
    """The lines of a page, with a table in the place of the one that begins with the same cell."""
    starts = [at for at, line in enumerate(lines)
              if line.startswith("|") and first_cell(line) == first_cell(new[0])]
    if len(starts) != 1:
        program.fail(f"the page has {len(starts)} tables of '{first_cell(new[0])}'")
    end = start = starts[0]
    while end < len(lines) and lines[end].startswith("|"):
        end += 1
    return lines[:start] + new + lines[end:]


def split(lines):
    """The tables among lines of Markdown."""
    tables = [[]]
    for line in lines:
        if line.startswith("|"):
            tables[-1].append(line)
        elif tables[-1]:
            tables.append([])
    return [table for table in tables if table]


def rows_of(table):
    """The cells of a table in Markdown, without its head."""
    return [[cell.strip() for cell in line.strip("|").split("|")] for line in table[2:]]
