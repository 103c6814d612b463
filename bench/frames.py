#!/usr/bin/env python3
"""Lists the functions of a program that use most stack, in bytes; with a second program, those that changed.

    python3 frames.py PROGRAM [LATER]

c/stack.c and scripts/run_limited.py check in the gate what a call uses in all; this says where. It is
computed from the first instructions of each function; what is pushed is not counted.
"""

import re
import subprocess
import sys

MOST = 30
# A large frame is touched as it is allocated: piece by piece, or in a loop down to the address in r11.
TAKES = re.compile(r"\t(?:sub +\$0x([0-9a-f]+),%rsp|lea +-0x([0-9a-f]+)\(%rsp\),%r11)$")
BEFORE = re.compile(r"\t(?:push|movq +\$0x0,\(%rsp\)|mov +%rsp,%rbp)")


def frames(program):
    """The bytes that each function uses, by its name."""
    lines = subprocess.run(["objdump", "-d", "--no-show-raw-insn", program], check=True, capture_output=True, text=True)
    taken, name = {}, None
    for line in lines.stdout.splitlines():
        if begins := re.match(r"[0-9a-f]+ <(.*)>:$", line):
            name = begins.group(1)
        elif name and (takes := TAKES.search(line)):
            taken[name] = taken.get(name, 0) + int(takes.group(1) or takes.group(2), 16)
        elif not BEFORE.search(line):
            name = None
    return taken


def main():
    before = frames(sys.argv[1])
    if len(sys.argv) < 3:
        for name in sorted(before, key=before.get, reverse=True)[:MOST]:
            print(f"{before[name]:>8,} {name}")
        return
    after = frames(sys.argv[2])
    grown = {name: after.get(name, 0) - before.get(name, 0) for name in before | after}
    for name in sorted(grown, key=lambda it: -abs(grown[it]))[:MOST]:
        if grown[name]:
            print(f"{before.get(name, 0):>8,} {after.get(name, 0):>8,} {name}")


if __name__ == "__main__":
    main()
