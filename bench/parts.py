"""Counts the instructions of the check of canonical bytes at once and in parts of 4 KiB, and prints Markdown.

    python3 parts.py LIBRARY FOLDER NAME..

LIBRARY is library.c. Each count is callgrind's, of the canonical bytes NAME.bytewise of inputs.py, minus that of the integer 0,
for one byte. Ends with status 1 if a document is refused.
"""

import os
import sys

from strict import instructions

CALLS = ["check_canonical", "checked_4096"]


def main():
    library, folder, *names = sys.argv[1:]
    starts = [instructions(library, "--call", call, folder, "one") for call in CALLS]
    print("| canonical bytes checked, instructions a byte | `check_canonical` | in parts of 4 KiB | ratio |\n| --- | ---: | ---: | ---: |")
    for name in names:
        size = os.path.getsize(f"{folder}/{name}.bytewise")
        whole, parts = ((instructions(library, "--call", call, folder, name) - start) / size for call, start in zip(CALLS, starts))
        print(f"| {name} | {whole:.2f} | {parts:.2f} | {parts / whole:.2f} |", flush=True)


if __name__ == "__main__":
    main()
