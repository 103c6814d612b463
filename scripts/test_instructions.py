#!/usr/bin/env python3
"""Counts the instructions of the program in cases where its cost must not grow: scripts/test_instructions.py PROGRAM

A sequence costs what its items cost alone: `canon --seq` of 32 items of 250 nested maps, each out of order, takes at most
1.2 times the instructions of 32 runs over one. An item costs what it costs in a sequence, also if the limit on its bytes is high:
`check` of 6 MB takes at most 2.5 times the instructions of `check --seq`. `check --strict` of an array of 6 MB, which is checked as
it is read, takes at most 2 times the instructions of `check --strict --seq` of its members. valgrind counts; if it is missing, the
last line says so.
"""

import re
import shutil
import subprocess
import sys
import tempfile
from pathlib import Path

ITEMS, LEVELS, PAYLOAD = 32, 250, 60000
MEMBERS = 6_000_000
# Seven claims (RFC 8392) in 75 bytes, in order.
CLAIMS = (
    b"\xa7\x01\x75coap://as.example.com\x02\x66abcdef\x03\x73coaps://example.com"
    b"\x04\x1a\x56\x12\xae\xb0\x05\x1a\x56\x10\xfb\xf0\x06\x1a\x56\x10\xfb\xf0\x07\x42\x0b\x71"
)
SETS = 80_000


def nested(levels, payload):
    """{1: {1: .. h'..', 0: 0}, 0: 0}: every map's keys fall."""
    return b"\xa2\x01" * levels + b"\x59" + payload.to_bytes(2, "big") + bytes(payload) + b"\x00\x00" * levels


def instructions(program, words, folder):
    counted = [
        "valgrind", "--tool=callgrind", f"--callgrind-out-file={folder}/counts", program, *words,
    ]  # fmt: skip
    ended = subprocess.run(counted, cwd=folder, capture_output=True, text=True)
    if ended.returncode:
        raise SystemExit(f"instructions: {' '.join(words)} ends with {ended.returncode}: {ended.stderr[-500:]}")
    return int(re.search(r"Collected : (\d+)", ended.stderr)[1])


def times_of_a_sequence(program, folder):
    """The cost of nested items as one sequence, divided by their cost alone."""
    item = nested(LEVELS, PAYLOAD)
    (Path(folder) / "one").write_bytes(item)
    (Path(folder) / "many").write_bytes(item * ITEMS)
    one = instructions(program, ["canon", "--seq", "--depth", "256", "one", "out"], folder)
    many = instructions(program, ["canon", "--seq", "--depth", "256", "many", "out"], folder)
    return many / (ITEMS * one)


def times_of_an_item(program, folder):
    """The cost of an array of many integers as an item, divided by its cost as a sequence of one."""
    (Path(folder) / "array").write_bytes(b"\x9a" + MEMBERS.to_bytes(4, "big") + bytes(MEMBERS))
    words = ["--bytes", "1000000000", "array"]
    return instructions(program, ["check", *words], folder) / instructions(program, ["check", "--seq", *words], folder)


def times_in_parts(program, folder):
    """The cost of the strict check of an array longer than the first read, divided by that of its members as a sequence."""
    (Path(folder) / "claims").write_bytes(b"\x9a" + SETS.to_bytes(4, "big") + CLAIMS * SETS)
    (Path(folder) / "sets").write_bytes(CLAIMS * SETS)
    words = ["check", "--strict", "--bytes", "1000000000"]
    return instructions(program, [*words, "claims"], folder) / instructions(program, [*words, "--seq", "sets"], folder)


def main():
    program = str(Path(sys.argv[1]).resolve())
    if not shutil.which("valgrind"):
        print("instructions: not counted: valgrind is not installed")
        return 0
    with tempfile.TemporaryDirectory() as folder:
        of_a_sequence = times_of_a_sequence(program, folder)
        of_an_item = times_of_an_item(program, folder)
        in_parts = times_in_parts(program, folder)
    print(f"instructions: {ITEMS} nested items as one sequence take {of_a_sequence:.2f} times what they take alone")
    print(f"instructions: an item of {MEMBERS} bytes takes {of_an_item:.2f} times what it takes in a sequence")
    print(f"instructions: a strict check in parts takes {in_parts:.2f} times what the members take in a sequence")
    return 0 if of_a_sequence <= 1.2 and of_an_item <= 2.5 and in_parts <= 2 else 1


if __name__ == "__main__":
    sys.exit(main())
