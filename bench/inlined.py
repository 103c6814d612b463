#!/usr/bin/env python3
"""Lists the functions marked #[inline(always)] that are still functions of a program, the largest first.

    python3 inlined.py PROGRAM

The compiler drops the mark, with no message, if a function would grow very large, and what should be part of a
loop is then a call. What makes it large are the marked functions that it calls often. Those that are rare or
expensive can be calls instead (#[inline(never)]), especially in the sinks of a walk.
"""

import pathlib
import re
import subprocess
import sys

CRATES = pathlib.Path(__file__).resolve().parent.parent / "crates"
MARKED = re.compile(r"#\[inline\(always\)\]\s+(?:#\[[^\n]*\]\s+)*(?:pub(?:\(\w+\))? )?(?:unsafe )?fn (\w+)")


def marked():
    """The crate and name of each function that is marked."""
    files = (it for it in CRATES.glob("*/src/**/*.rt") if "out" not in it.relative_to(CRATES).parts)
    return {(it.relative_to(CRATES).parts[0], name) for it in files for name in MARKED.findall(it.read_text())}


def main():
    listed = subprocess.run(["nm", "-S", "--defined-only", sys.argv[1]], capture_output=True, text=True, check=True)
    symbols = (it.split(maxsplit=3) for it in listed.stdout.splitlines())
    sizes = {it[3]: int(it[1], 16) for it in symbols if len(it) == 4 and it[2] in "tT"}
    wanted = marked()
    for symbol, size in sorted(sizes.items(), key=lambda it: -it[1]):
        parts = re.sub(r"::<[^>]*>", "", symbol).split("::")
        if (parts[0], parts[-1]) in wanted:
            print(f"{size:7} bytes  {symbol}")


if __name__ == "__main__":
    main()
