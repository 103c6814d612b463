"""Counts the instructions of `read_strict` from a reader and of plain C, and prints Markdown.

    python3 strict.py PROGRAM FLOOR FOLDER NAME..

PROGRAM is strict.rattle, FLOOR plain.c; both read one file. Each count is callgrind's, of the canonical
bytes NAME.bytewise of inputs.py, minus that of the integer 0, for one byte. Ends with status 1 if a file is
refused.
"""

import os
import subprocess
import sys


def run_under(tool, *words, status=0):
    """Returns the output of a program that ends with this status, and the report of a tool of valgrind."""
    ran = subprocess.run(["valgrind", f"--tool={tool}", f"--{tool}-out-file=/dev/null", *words], capture_output=True, text=True)
    if ran.returncode != status:
        sys.exit(f"{' '.join(words)}: status {ran.returncode}")
    return ran.stdout, ran.stderr


def instructions(*words, status=0):
    """Returns the number of instructions of a run that ends with this status."""
    _, said = run_under("callgrind", *words, status=status)
    return int(next(line.split()[-1] for line in said.splitlines() if "Collected" in line))


def main():
    program, floor, folder, *names = sys.argv[1:]
    zero = f"{folder}/one.bytewise"
    readers = [program], [floor, "strict"]
    starts = [instructions(*it, zero) for it in readers]
    print("| input | `read_strict` | C | ratio |\n| --- | ---: | ---: | ---: |")
    for name in names:
        path = f"{folder}/{name}.bytewise"
        size = os.path.getsize(path)
        ours, plain = ((instructions(*it, path) - start) / size for it, start in zip(readers, starts))
        print(f"| {name} | {ours:.2f} | {plain:.2f} | {ours / plain:.2f} |", flush=True)


if __name__ == "__main__":
    main()
