"""Counts the instructions of naltvigo_values.h on the claims of a token, and prints the Markdown table of docs/C.md.

    python3 values.py DIST

DIST is what scripts/build_c.sh makes. Each count is callgrind's of 1,000 turns, minus that of none, for one turn.
"""

import os
import subprocess
import sys
import tempfile

from strict import instructions

SOURCE = os.path.join(os.path.dirname(os.path.abspath(__file__)), "values.c")
CALLS = {
    "put": "put a map of 7 pairs",
    "finish": "put it, and `naltvigo_finish`",
    "open": "`naltvigo_open`",
    "look": "two look-ups and two getters",
}
TIMES = 1000


def main():
    dist = sys.argv[1]
    with tempfile.TemporaryDirectory() as folder:
        program = os.path.join(folder, "values")
        compiler = os.environ.get("CC", "cc")
        subprocess.run([compiler, "-O2", SOURCE, f"-I{dist}/include", f"{dist}/lib/libnaltvigo.a", "-o", program], check=True)
        print("| claims of a token, 80 bytes | instructions |\n| --- | ---: |")
        for call, what in CALLS.items():
            none, some = (instructions(program, call, str(times)) for times in (0, TIMES))
            print(f"| {what} | {(some - none) / TIMES:,.0f} |", flush=True)


if __name__ == "__main__":
    main()
