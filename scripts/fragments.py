#!/usr/bin/env python3
"""Takes the C out of docs/C.md, so that scripts/test_c.sh can compile it.

    scripts/fragments.py FOLDER    writes each block of C to FOLDER/LINE.c, named for the line where it begins; fails if a
                                   whole program is not, word for word, the file of examples/ that its first comment names, or
                                   if C is in a block of another kind
"""

import re
import sys
from pathlib import Path

ROOT = Path(__file__).resolve().parent.parent
DOCUMENT = ROOT / "docs" / "C.md"


def blocks(text):
    """The fenced blocks: their first line's number, their kind and their text."""
    kind, first, lines = None, 0, []
    for number, line in enumerate(text.splitlines(), 1):
        if not line.startswith("```"):
            lines.append(line)
        elif kind is None:
            kind, first, lines = line[3:], number + 1, []
        else:
            yield first, kind, "\n".join(lines) + "\n"
            kind = None


def fault_of(kind, block):
    """What is wrong with a block, if anything."""
    if kind != "c":
        return "C in a block that is not marked as C" if re.search(r"naltvigo_\w+\(|#include", block) else None
    if "int main(" not in block:
        return None
    named = re.match(r"/\* (\w+)\b", block)
    path = ROOT / "examples" / f"{named[1]}.c" if named else None
    if path is None or not path.exists():
        return "a program whose first comment names no file of examples/"
    return None if path.read_text(encoding="utf-8") == block else f"another program than examples/{path.name}"


def main():
    folder = Path(sys.argv[1])
    found = list(blocks(DOCUMENT.read_text(encoding="utf-8")))
    faults = [f"{line}: {fault}" for line, kind, block in found if (fault := fault_of(kind, block))]
    programs = sum(kind == "c" and "int main(" in block for _, kind, block in found)
    if programs < 4:
        faults.append(f"{programs} programs: where are the others?")
    for line, kind, block in found:
        if kind == "c":
            (folder / f"{line}.c").write_text(block, encoding="utf-8")
    for fault in faults:
        print(f"docs/C.md:{fault}")
    return 1 if faults else 0


if __name__ == "__main__":
    sys.exit(main())
