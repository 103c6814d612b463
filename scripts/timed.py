#!/usr/bin/env python3
"""Puts the seconds since it began before each line of `rt ci`, and reports at the end how long each crate took.

    rt ci 2>&1 | scripts/timed.py

rt prints when a crate is proved and when its edits begin, but neither when its proof begins nor when its edits
end. So this looks up each second what rt is running: a check in a crate's folder is its proof, one with --test
is that of its tests, one of an edited copy is an edit. The line 'N passed, M failed' is unchanged and stays the last.
"""

import glob
import os
import re
import sys
import threading
import time

KINDS = ("proof", "tests", "edits")
LAST = re.compile(r"\d+ passed, \d+ failed\n?")
EDITS = re.compile(r"rt: (\w+): trying its must-fail edits \((\d+)\)")


def text_of(file):
    with open(file, encoding="utf-8", errors="replace") as it:
        return it.read()


def is_ours(process):
    """Whether a process runs below the shell that this one runs below, as rt does."""
    while process not in (os.getppid(), 0, 1):
        process = int(re.search(r"(?m)^PPid:\s+(\d+)", text_of(f"/proc/{process}/status"))[1])
    return process == os.getppid()


def running():
    """The crate and kind of each check that runs now."""
    for file in glob.glob("/proc/[0-9]*/cmdline"):
        process = file.split("/")[2]
        try:
            words = text_of(file).split("\0")
            if "--crate-name" in words and is_ours(int(process)):
                is_edit = os.path.basename(os.readlink(f"/proc/{process}/cwd")).startswith("rt-edit-")
                yield words[words.index("--crate-name") + 1], "edits" if is_edit else "tests" if "--test" in words else "proof"
        except (OSError, TypeError, ValueError):
            # it has ended
            continue


def watch(taken, ended):
    """Adds up the seconds of each crate and kind."""
    before = time.monotonic()
    while not ended.wait(1):
        now = time.monotonic()
        for it in set(running()):
            taken[it] = taken.get(it, 0) + now - before
        before = now


def table(taken, edits):
    """The lines of the table, one for each crate."""
    yield f"{'seconds':24}{'proof':>8}{'tests':>8}{'edits':>8}"
    for crate in sorted({it for it, _ in taken}):
        columns = "".join(f"{taken.get((crate, kind), 0):8.0f}" for kind in KINDS)
        yield f"{crate:24}{columns}" + (f" ({edits[crate]})" if crate in edits else "")
    sums = "".join(f"{sum(seconds for (_, it), seconds in taken.items() if it == kind):8.0f}" for kind in KINDS)
    yield f"{'all, side by side':24}{sums}" + f" ({sum(map(int, edits.values()))})"


def main():
    began = time.monotonic()
    taken, edits, last = {}, {}, None
    ended = threading.Event()
    watcher = threading.Thread(target=watch, args=(taken, ended), daemon=True)
    watcher.start()
    for line in sys.stdin:
        if last is not None:
            print(last, end="", flush=True)
        last = line if LAST.fullmatch(line) else None
        found = EDITS.match(line)
        if found:
            edits[found[1]] = found[2]
        if last is None:
            print(f"{time.monotonic() - began:7.0f} {line}", end="", flush=True)
    ended.set()
    watcher.join()
    print(*table(taken, edits), sep="\n")
    print(last or "", end="", flush=True)


if __name__ == "__main__":
    for stream in (sys.stdin, sys.stdout):
        stream.reconfigure(encoding="utf-8", errors="replace")
    main()
