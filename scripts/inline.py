#!/usr/bin/env python3
"""Prints the lines of the inline functions in include/*.h that decide something, and how many there are in each header.

    scripts/inline.py            prints them
    scripts/inline.py --check    prints only how many there are in all, and fails if these are too many

A line decides if it has `if`, `?`, a loop, a case, `&&`, `||` or a comparison.
"""

import re
import sys
from pathlib import Path

HEADERS = sorted((Path(__file__).resolve().parent.parent / "include").glob("*.h"))
DECIDES = re.compile(r"\b(?:if|for|while|case|default|memcmp|strcmp)\b|\?|&&|\|\||[=!]=|[<>]")

# These functions are not proved, so they should decide little.
MOST = 100


def lines_of_functions(text):
    """The lines of the inline functions, with their numbers; no comments."""
    text = re.sub(r"/\*.*?\*/", lambda it: "\n" * it[0].count("\n"), text, flags=re.S)
    depth, inside = 0, False
    for number, line in enumerate(text.split("\n"), 1):
        if line.startswith("static inline"):
            depth, inside = 0, True
        if not inside or not line.strip():
            continue
        yield number, line.strip()
        depth += line.count("{") - line.count("}")
        inside = depth > 0 or not line.rstrip().endswith("}")


def main():
    total, is_check = 0, "--check" in sys.argv
    for header in HEADERS:
        lines = list(lines_of_functions(header.read_text()))
        deciding = [(number, line) for number, line in lines if DECIDES.search(line.replace("->", "."))]
        total += len(deciding)
        if is_check:
            continue
        print(f"{header.name}: {len(deciding)} of {len(lines)} lines")
        for number, line in deciding:
            print(f"    {number}: {line}")
    print(f"inline: {total} lines decide; at most {MOST} may")
    return 1 if is_check and total > MOST else 0


if __name__ == "__main__":
    sys.exit(main())
