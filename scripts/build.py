#!/usr/bin/env python3
"""Proves and builds the program, and runs it in crates/cborc: scripts/build.py [WORD ..]

`rt run` proves one crate after another. Here the crates below the program are proved in parallel, in the order of the
kit's `rt ci`: first those that most lines depend on. Then `rt run` proves the program and passes it the WORDs. What was
proved before is not proved again. The kit's rt must be on the path. If the kit is of another version, `rt run` does all.
"""

import os
import shutil
import subprocess
import sys
import tempfile
import time

from kit import load_rt

PROGRAM = os.path.join(os.path.dirname(os.path.dirname(os.path.abspath(__file__))), "crates", "cborc")
# A second job nearly halves the time of a proof. Four jobs take as long as two, and 1.5 times the processor time.
JOBS = 2
# Begun when cbor_item and cbor_parser can begin. Earlier it would delay the crates that most others wait for.
LATE = {"cborc_files": ["theory_verdicts"]}


def say(text):
    print(f"build.py: {text}", file=sys.stderr, flush=True)


def is_built(crate, given, count):
    """Whether a library and those below it are proved, now or earlier."""
    began = time.monotonic()
    with tempfile.TemporaryFile("w+") as crate.out:
        is_well = all(given[it.name, "proof"] for it in crate.deps) and not crate.build_rlib(["--jobs", str(JOBS)], anew=False)
        crate.out.seek(0)
        place = f"{crate.name} ({len(given) + 1} of {count})"
        say(f"{place}: proved, {time.monotonic() - began:.0f} s" if is_well else f"{crate.out.read()}{place}: NOT PROVED")
    return is_well


def are_built(rt):
    """Whether all libraries below the program are proved."""
    rt.rtlib.guarded()
    libraries = [it for it in rt.rtlib.crates_below(PROGRAM) if it.folder != PROGRAM]
    held = rt.rtlib.lock(libraries)
    tasks = {}
    for it in libraries:
        waits = [dep.name for dep in it.deps] + LATE.get(it.name, [])
        call = lambda given, _, it=it: is_built(it, given, len(libraries) + 1)
        tasks[it.name, "proof"] = [(name, "proof") for name in waits], it.count(rb"\n"), 0, call
    # in_lanes runs this many at a time.
    os.environ["RT_JOBS"] = str(max(1, rt.processors() // JOBS))
    are_well = all(rt.in_lanes(tasks).values())
    for it in held:
        os.close(it)
    return are_well


def main():
    if sys.argv[1:2] in (["-h"], ["--help"]):
        sys.exit(print(__doc__.strip()))
    if not shutil.which("rt"):
        say("rt is not on the path: it is part of the Rattle kit, see README.md")
        sys.exit(2)
    say("proves and builds the program: about half an hour on four processors where nothing was proved before")
    try:
        if not are_built(load_rt()):
            sys.exit(1)
    except (AttributeError, ImportError, OSError, TypeError) as error:
        say(f"one crate after another: {error}")
    say("cborc, the last crate: proves and runs it")
    sys.exit(subprocess.run(["rt", "run", "--jobs", str(JOBS), "--", *sys.argv[1:]], cwd=PROGRAM).returncode)


if __name__ == "__main__":
    main()
