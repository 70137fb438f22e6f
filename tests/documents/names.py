#!/usr/bin/env python3
"""Sees that the names and the files that a page cites are in the sources.

    tests/documents/names.py PAGE FOLDER..

A name is a word in backquotes: `read_right`, `table_reader::read`, `Demand3.checker`. A file is a word
that ends as source files do: specs/Table.antt, lib.rt.
"""

import re
import sys
from pathlib import Path

NAME = re.compile(r"`([A-Za-z][\w'-]*(?:(?:\.|::)[A-Za-z][\w'-]*)*)`")
FILE = re.compile(r"[\w/-]+\.(?:antt|rt|c|h)\b")
WORD = re.compile(r"[^\s(){}\[\],;.:`\"&*]+")


def sources(folders):
    kinds = (".antt", ".rt", ".c", ".h")
    return [file for folder in folders for file in Path(folder).rglob("*") if file.suffix in kinds]


def main(page, *folders):
    text = Path(page).read_text()
    files = sources(folders)
    words = {word for file in files for word in WORD.findall(file.read_text())}
    words.update(part for file in files for part in (file.stem, *file.parts))
    paths = ["/" + file.as_posix() for file in files]
    cited = sorted(set(NAME.findall(text)))
    named = sorted(set(FILE.findall(text)))
    wrong = [name for name in cited if not all(part in words for part in re.split(r"\.|::", name))]
    wrong += [name for name in named if not any(path.endswith("/" + name) for path in paths)]
    for name in wrong:
        print(f"{page}: {name} is not in the sources", file=sys.stderr)
    if wrong or not cited or not named:
        sys.exit(1)
    print(f"{Path(page).name}: {len(cited)} names and {len(named)} files of the sources, and all are there")


if __name__ == "__main__":
    if len(sys.argv) < 3:
        sys.exit(__doc__)
    main(*sys.argv[1:])
