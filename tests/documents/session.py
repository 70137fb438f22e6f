#!/usr/bin/env python3
"""Runs what a page shows, in the current folder, and fails where it comes out otherwise.

    session.py PAGE

A fenced block of the kind `hex NAME` or `c NAME` is saved under that name. Blocks of the
kind `console` are one session of sh: a line after `$ ` is a command, lines after
`> ` carry it on, and the others are what it prints. A page without a command
fails.
"""

import difflib
import subprocess
import sys
from pathlib import Path


def blocks(page):
    """The fenced blocks: the words after the fence, and the lines."""
    words, lines = None, []
    for line in page.read_text().splitlines():
        if not line.startswith("```"):
            lines.append(line)
        elif words is None:
            words, lines = line[3:].split(), []
        else:
            yield words, lines
            words, lines = None, []


def script(lines):
    """The session's commands, each after an echo of its lines."""
    shown, commands = [], []
    for line in lines + ["$ "]:
        if line.startswith("$ ") and commands:
            yield from ["cat <<'SHOWN'", *shown, "SHOWN", *commands]
            shown, commands = [], []
        if line.startswith(("$ ", "> ")):
            shown.append(line)
            commands.append(line[2:])


def main(page):
    session = []
    for words, lines in blocks(page):
        if words[:1] in (["hex"], ["c"]):
            Path(words[1]).write_text("\n".join(lines) + "\n")
        elif words == ["console"]:
            session += lines
    commands = "\n".join(script(session)) + "\n"
    done = subprocess.run(["sh", "-eu"], input=commands, stdout=subprocess.PIPE,
                          stderr=subprocess.STDOUT, text=True, check=False)
    found = done.stdout.splitlines()
    if found != session:
        difference = difflib.unified_diff(session, found, "the page", "the session", lineterm="")
        sys.exit("\n".join([f"{page}: not as it shows", *difference]))
    if not commands.strip() or done.returncode:
        sys.exit(f"{page}: status {done.returncode} of {len(session)} lines")
    print(f"{page.name}: {len(session)} lines of its session, as they should be")


if __name__ == "__main__":
    if len(sys.argv) != 2:
        sys.exit(__doc__)
    main(Path(sys.argv[1]))
