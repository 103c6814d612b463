#!/usr/bin/env python3
"""Stops the built program at each of its system calls, kills it there, and checks what it leaves.

    scripts/run_killed.py [PROGRAM]

run_program.py does this too.
"""

import ctypes
import itertools
import os
import platform
import re
import signal
import stat
import subprocess
import tempfile

from running import BEFORE, CLAIMS, PROGRAM, Place, end, faults

# Requests of ptrace (2), and the register with the number of a system call (x86-64).
TRACE_ME, PEEK, TO_SYSTEM_CALL = 0, 3, 24
NUMBER = 15 * 8
system = ctypes.CDLL(None)
system.ptrace.argtypes = [ctypes.c_long] * 4
system.ptrace.restype = ctypes.c_long
# Numbers of system calls: those that write, that flush a file to the disk, that rename one.
WRITES, SYNCS, RENAMES = {1, 18, 20}, {74, 75}, {82, 264, 316}
# The permissions of a file that only its owner may read.
OWN, OTHERS = 0o600, 0o077


def be_traced():
    # A file gets the permissions that it is made with.
    os.umask(0)
    system.ptrace(TRACE_ME, 0, 0, 0)


def traced(words, folder):
    """A run that stops at each of its system calls, at its start."""
    quiet = {"stdout": subprocess.DEVNULL, "stderr": subprocess.DEVNULL}
    return subprocess.Popen([PROGRAM, *words], cwd=folder, preexec_fn=be_traced, **quiet)


def kill_at(words, folder, stops):
    """Kills a run after this number of stops; a system call has one before and one after it. Returns whether the run
    reached this stop."""
    child = traced(words, folder)
    _, status = os.waitpid(child.pid, 0)
    while stops and os.WIFSTOPPED(status):
        system.ptrace(TO_SYSTEM_CALL, child.pid, 0, 0)
        _, status = os.waitpid(child.pid, 0)
        stops -= 1
    is_there = os.WIFSTOPPED(status)
    if is_there:
        os.kill(child.pid, signal.SIGKILL)
        _, status = os.waitpid(child.pid, 0)
    child.returncode = os.waitstatus_to_exitcode(status)
    return is_there


def system_calls(words, folder):
    """The numbers of the system calls that a run makes."""
    child, found = traced(words, folder), []
    _, status = os.waitpid(child.pid, 0)
    while os.WIFSTOPPED(status):
        found.append(system.ptrace(PEEK, child.pid, NUMBER, 0))
        system.ptrace(TO_SYSTEM_CALL, child.pid, 0, 0)
        _, status = os.waitpid(child.pid, 0)
    child.returncode = os.waitstatus_to_exitcode(status)
    return found


def look(place, name, out, others, before, after):
    """What a killed run left: whether OUT was written, and the number of new files. A user who cannot read OUT
    cannot read them."""
    found = place.get(out)
    if found not in (before, after):
        faults.append(f"{name}: OUT has neither its old content nor its new content")
    left = set(os.listdir(place.folder)) - {out, *others}
    for it in left:
        is_named = re.fullmatch(re.escape(out) + r"\.[0-9a-f]{16}\.tmp", it)
        if len(left) > 1 or not is_named or not after.startswith(place.get(it)):
            faults.append(f"{name}: left {sorted(left)}")
        mode = stat.S_IMODE(os.stat(place.path(it)).st_mode)
        if before and mode & OTHERS:
            faults.append(f"{name}: {it} has the permissions {mode:o}")
    return found == after, len(left)


def kills(place):
    """Runs killed at each of their system calls: OUT is unchanged, with or without a new file next to it, or complete."""
    # Three byte strings, whose heads are not the shortest.
    items, canonical = ((head + bytes(5_000)) * 3 for head in (b"\x5a\x00\x00\x13\x88", b"\x59\x13\x88"))
    rows = [
        ("a file", ["canon", "in", "out"], "out", b"\x18\x00", BEFORE, b"\x00"),
        ("a new file", ["canon", "in", "out"], "out", b"\x18\x00", None, b"\x00"),
        ("IN is OUT", ["canon", "in", "in"], "in", b"\x18\x00", b"\x18\x00", b"\x00"),
        ("a sequence", ["canon", "--seq", "in", "out"], "out", items, BEFORE, canonical),
    ]
    for title, words, out, given, before, after in rows:
        seen = set()
        for stops in itertools.count():
            place.clear()
            place.put("in", given)
            if before:
                place.put(out, before)
                os.chmod(place.path(out), OWN)
            goes_on = kill_at(words, place.folder, stops)
            seen.add(look(place, f"killed at stop {stops}, {title}", out, ["in"], before, after))
            if not goes_on:
                break
        # Before the new file was made, while it existed, and after that.
        if seen != {(False, 0), (False, 1), (True, 0)}:
            faults.append(f"killed, {title}: {sorted(seen)} were seen")


def kills_of_long_runs(place):
    """Runs killed while they write a large file: when the new file exists, when it is not empty, when it is complete."""
    count = 32_000_000 // len(CLAIMS)
    rows = [(["canon", "--bytes", "40000000"], b"\x5a\x02\x00\x00\x00" + bytes(1 << 25)), (["canon", "--seq"], CLAIMS * count)]
    for words, content in rows:
        for size in (0, 1, len(content)):
            place.clear()
            place.put("in", content)
            place.put("out", BEFORE)
            os.chmod(place.path("out"), OWN)
            child = subprocess.Popen([PROGRAM, *words, "in", "out"], cwd=place.folder)
            while child.poll() is None:
                try:
                    if any(it.name.endswith(".tmp") and it.stat().st_size >= size for it in os.scandir(place.folder)):
                        break
                except FileNotFoundError:
                    break
            child.kill()
            child.wait()
            look(place, f"{words} killed with {size} bytes", "out", ["in"], BEFORE, content)


def synced(place):
    """A new file is flushed to the disk after its last byte, before it replaces OUT."""
    if platform.machine() != "x86_64":
        return
    for words in (["canon", "in", "out"], ["canon", "--seq", "in", "out"], ["canon", "in", "new"]):
        place.clear()
        place.put("in", b"\x18\x00")
        place.put("out", BEFORE)
        calls = system_calls(words, place.folder)
        found = [place for place, call in enumerate(calls) if call in RENAMES]
        before = calls[: found[0]] if found else []
        writes = [call for call in before if call in WRITES | SYNCS]
        if len(found) != 2 or not writes or writes[-1] not in SYNCS:
            faults.append(f"{words}: no file was renamed, or it was not brought to the disk before: {calls}")


TESTS = (kills, kills_of_long_runs, synced)


def test():
    if not kill_at(["check", "in"], os.curdir, 0):
        print("killed: no run is to be stopped here")
        return
    for it in TESTS:
        with tempfile.TemporaryDirectory() as folder:
            it(Place(folder))


if __name__ == "__main__":
    test()
    end("killed")
