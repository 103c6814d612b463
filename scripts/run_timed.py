#!/usr/bin/env python3
"""Measures how long the built program takes for bytes that a sender chose, next to harmless ones.

    scripts/run_timed.py [PROGRAM]

1 MiB of chosen keys takes at most five times as long as 1 MiB of harmless ones: integers, or the same bytes as values. 1 KiB takes
at most a millisecond more than its check. Other processes may run as well. So a time is the processor time of the program, the
least of some runs. A time over its limit is measured again, together with the time that it is compared with. run_program.py does
this too.
"""

import os
import subprocess

from running import FOLDER, PROGRAM, end, faults, write

SIZE = 1 << 20
COMMANDS = (["check", "ITEM"], ["check", "--strict", "ITEM"], ["canon", "ITEM", "-"], ["show", "ITEM"], ["events", "ITEM"], ["compare", "ITEM", "ITEM"])


def head(kind, number):
    """The shortest head (RFC 8949, section 3)."""
    if number < 24:
        return bytes([kind << 5 | number])
    size = next(size for size in (1, 2, 4, 8) if number < 1 << 8 * size)
    return bytes([kind << 5 | {1: 24, 2: 25, 4: 26, 8: 27}[size]]) + number.to_bytes(size, "big")


def text(start, number):
    return head(3, start + 8) + b"x" * start + b"%08d" % number


def keys_of(size):
    """Keys for maps of about this size, by name."""
    return {
        "integers": [head(0, n) for n in range(size // 6)],
        "integers from the last to the first": [head(0, n) for n in reversed(range(size // 6))],
        "texts with one start": [text(min(1000, size // 10), n) for n in range(size // min(1020, size // 9))],
        "long texts with one start": [text(size // 20, n) for n in range(17)],
        "towers": [b"\xa1" * 100 + head(0, n) + b"\0" * 100 for n in range(size // 206)],
        "deep arrays": [b"\x81" * 250 + head(0, n) for n in range(size // 256)],
    }


def chosen(keys):
    return head(5, len(keys)) + b"".join(key + b"\0" for key in keys)


def harmless(values, order=sorted):
    """A map with these values, and keys that are spread over all integers, in canonical order or in another."""
    keys = order(n * 0x9E3779B97F4A7C15 % (1 << 64) for n in range(len(values)))
    return head(5, len(values)) + b"".join(head(0, key) + value for key, value in zip(keys, values))


def times(item, turns):
    """The least processor time of each command for an item, in seconds."""
    write("timed", item)
    least = [1e9] * len(COMMANDS)
    for _ in range(turns):
        for at, words in enumerate(COMMANDS):
            with subprocess.Popen([PROGRAM, *("timed" if it == "ITEM" else it for it in words)], cwd=FOLDER, stdout=subprocess.DEVNULL, stderr=subprocess.DEVNULL) as run:
                _, status, used = os.wait4(run.pid, 0)
                run.returncode = os.waitstatus_to_exitcode(status)
            least[at] = min(least[at], used.ru_utime + used.ru_stime)
    os.remove(os.path.join(FOLDER, "timed"))
    return least


def unfair(compare):
    """What is over its limit in each of up to three comparisons. `compare` gets the number of runs, and returns the names of these."""
    found = compare(2)
    for turns in (5, 10):
        if found:
            found = {name: why for name, why in compare(turns).items() if name in found}
    return found.values()


def costs(item, turns):
    """The times for a byte."""
    return [took / len(item) for took in times(item, turns)]


def a_mebibyte():
    integers = [harmless([b"\0"] * (SIZE // 10), order) for order in (sorted, list)]
    for name, keys in keys_of(SIZE).items():

        def compare(turns, name=name, keys=keys):
            others = map(max, *(costs(item, turns) for item in (*integers, harmless(keys))))
            return {
                " ".join(words): f"{' '.join(words)} of {name}: {took * 1e9:.0f} ns a byte, of harmless keys {other * 1e9:.0f}"
                for words, took, other in zip(COMMANDS, costs(chosen(keys), turns), others)
                if took > 5 * other
            }

        faults.extend(unfair(compare))


def a_kibibyte():
    for name, keys in keys_of(1000).items():

        def compare(turns, name=name, keys=keys):
            check, *others = times(chosen(keys), turns)
            # a millisecond; or on a slower processor, what a check takes with the start of the program
            return {
                " ".join(words): f"{' '.join(words)} of 1 KiB, {name}: {took * 1e3:.2f} ms, its check {check * 1e3:.2f} ms"
                for words, took in zip(COMMANDS[1:], others)
                if took > check + max(1e-3, check)
            }

        faults.extend(unfair(compare))


def test():
    a_mebibyte()
    a_kibibyte()


if __name__ == "__main__":
    test()
    end("times")
