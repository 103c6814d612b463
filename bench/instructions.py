"""Counts the instructions of `cborc` and of plain C, and those of `--keys basic` and of any keys, and prints
Markdown.

    python3 instructions.py CBORC PLAIN FOLDER NAME..

PLAIN is plain.c. Each count is callgrind's, for one byte, minus that of the integer 0: for NAME.cbor of inputs.py, and for
`check --strict` for its canonical bytes NAME.bytewise. `check` finds repeated keys, so it is compared with the C that
canonicalises. Ends with status 1 if a file is refused.
"""

import os
import sys

from program import TITLES
from strict import instructions

BYTES = ["--bytes", "100000000"]
# The documents of maps whose keys are integers and texts.
KEYED = ["records", "map_100000"]


def a_byte(folder, name, ending, words, out=()):
    """Instructions a byte with these words before the file, and OUT after it."""
    path, one = (f"{folder}/{it}.{ending}" for it in (name, "one"))
    return (instructions(*words, path, *out) - instructions(*words, one, *out)) / os.path.getsize(path)


def kinds_of_keys(cborc, folder):
    print("\n| with `--keys basic` | `canon` | ratio | `check` | ratio | `check --strict` | ratio |\n| --- |" + " ---: |" * 6)
    calls = (["canon"], "cbor", [f"{folder}/out"]), (["check"], "cbor", []), (["check", "--strict"], "bytewise", [])
    for name in KEYED:
        cells = []
        for words, ending, out in calls:
            basic, of_any = (a_byte(folder, name, ending, [cborc, *words, "--keys", it, *BYTES], out) for it in ("basic", "any"))
            cells += [f"{basic:.2f}", f"{basic / of_any:.3f}"]
        print(f"| {TITLES[name]} | " + " | ".join(cells) + " |", flush=True)


def main():
    cborc, plain, folder, *names = sys.argv[1:]
    print("| | `canon` | C | ratio | `check` | ratio | `check --strict` | C | ratio |\n| --- |" + " ---: |" * 8)
    for name in names:
        built = a_byte(folder, name, "cbor", [cborc, "canon", *BYTES], [f"{folder}/out"])
        checked = a_byte(folder, name, "cbor", [cborc, "check", *BYTES])
        by_c = a_byte(folder, name, "cbor", [plain, "canon"])
        strict = a_byte(folder, name, "bytewise", [cborc, "check", "--strict", *BYTES])
        strict_by_c = a_byte(folder, name, "bytewise", [plain, "strict"])
        cells = [built, by_c, built / by_c, checked, checked / by_c, strict, strict_by_c, strict / strict_by_c]
        print(f"| {TITLES[name]} | " + " | ".join(f"{it:.2f}" for it in cells) + " |", flush=True)
    kinds_of_keys(cborc, folder)


if __name__ == "__main__":
    main()
