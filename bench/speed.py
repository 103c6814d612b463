"""Puts what bench/run.sh prints into docs/PERFORMANCE.md: bench/run.sh [PART..] | python3 bench/speed.py

A printed table replaces the table of the document with the same first line. The line `Measured:` is replaced too. Tables
that were not printed stay, and are named: they are of an earlier run.
"""

import re
import sys
from pathlib import Path

DOCUMENT = Path(__file__).resolve().parent.parent / "docs" / "PERFORMANCE.md"
TABLE = re.compile(r"(?m)^\|.*\n(?:\|.*\n?)+")
MEASURED = re.compile(r"(?m)^Measured: .*$")
# The one table that no part of bench/run.sh prints: what to run.
COMMANDS = "|To measure|Command|"


def key(table):
    """A table's first line, without the spaces and rulers that do not matter."""
    return re.sub(r"\s*\|\s*", "|", table.split("\n", 1)[0].strip())


def main():
    printed = sys.stdin.read()
    tables = {key(table): table for table in TABLE.findall(printed)}
    when = re.search(r"(?m)^(\d{4}-\d\d-\d\d), (.*)$", printed)
    text = DOCUMENT.read_text(encoding="utf-8")
    for table in TABLE.findall(text):
        new = tables.pop(key(table), None)
        if new:
            text = text.replace(table, new.rstrip("\n") + "\n")
        elif key(table) != COMMANDS:
            print(f"from an earlier run: {table.splitlines()[0]}")
    for table in tables.values():
        print(f"printed, but not in docs/PERFORMANCE.md: {table.splitlines()[0]}")
    if when:
        line = f"Measured: {when[1]}, {when[2]}, except in the tables that say otherwise."
        text = MEASURED.sub(line, text) if MEASURED.search(text) else text.replace("\n\n", f"\n\n{line}\n\n", 1)
    DOCUMENT.write_text(text, encoding="utf-8")


if __name__ == "__main__":
    main()
