"""Refuses memory from each request on, to the calls over whole items, for fuzz/memory.py.

On some documents and on the rows of the conformance tables, from whichever request on memory is refused:

- `Tree::of` returns the item that it was passed, `encode` returns Memory at 0, `encode_to` has written nothing, and a
  builder returns nothing.
- A sequence returns the first of its items, then Memory, and then none.
- `read_view` returns Memory at 0, or the tree of its view is refused.
- `same_meaning` names the side that it was reading, with Memory at 0: the left one, and from some request on the right
  one, which is an array of the same item, or the item itself after an empty array. For canonical bytes it requests none.
- The calls that allocate nothing make no request: the number of requests is the same with and without these calls.
"""

import os
import re
import subprocess
from collections import namedtuple

from reference import ANY_KEYS, Limits
from run import driver_line
from side_by_side import of_all, unlike

# Valid items, and some that are canonical bytes.
DOCUMENTS = [
    "a2a2186400200000a1a1010000a10080",
    "a8626161010a021864032004617a0581186406812007f408",
    "845f42010243030405ff7f657374726561646d696e67ff5818" + "07" * 24 + "c249010000000000000000",
]
CANONICAL = [
    "a3016162021863a103810400",
    "a25820" + "07" * 32 + "005821" + "07" * 33 + "00",
    "98" + "28" + "1a00012345" * 40,
]
MEMORY = re.compile(r"!19,(\d+),(\d+)")
# The words of a result.
WORDS = 8

# The input of a run, the sides that `same_meaning` must name in words 6 and 7 (None: those that it may name), and
# whether the calls that allocate nothing are made too.
Case = namedtuple("Case", "given limits sides idle", defaults=[None, False])


class Driver:
    """The driver of the readers (crates/fuzz_readers), with a library that refuses between it and the C library."""

    def __init__(self, program, library, folder):
        self.program, self.library, self.folder = os.path.abspath(program), library, folder
        os.makedirs(folder, exist_ok=True)

    def run(self, case, idle=0, refused_from=0):
        """The status, the words of the result, and each request."""
        counts = f"{self.folder}/counts"
        with open(counts, "w", encoding="utf-8"):
            pass
        env = {"LD_PRELOAD": self.library, "REFUSED_FROM": str(refused_from), "COUNTS": counts}
        line = f"memory {idle} " + driver_line(case.given, case.limits)
        ran = subprocess.run([self.program], env=env, input=line.encode(), capture_output=True)
        with open(counts, encoding="utf-8") as file:
            _, *asked = file.read().split()
        return ran.returncode, ran.stdout.decode().split(), asked


def is_items(found, usual):
    items, refused, rest = found.partition("!")
    memory = MEMORY.fullmatch(refused + rest)
    return memory and memory[1] == memory[2] and usual.startswith(items)


def is_refused(place, found, usual):
    """Whether a call returned what it returns if memory was refused."""
    return [
        lambda: found == "!19,true",
        lambda: found == "!19,0,0",
        lambda: found == "!19,0,0:0",
        lambda: found == "!",
        lambda: is_items(found, usual),
        lambda: found in ("!19,0,0", re.sub(",.*", ",!19,0,0", usual)),
        lambda: found in ("left!19,0,0", "right!19,0,0"),
        lambda: found in ("left!19,0,0", "right!19,0,0"),
    ][place]()


def sides_in_order(wanted, results):
    """Whether the sides that one comparison named, refused from later and later requests on, are the left one and then
    the right one; and these sides, if any are expected."""
    named = [it.partition("!")[0] for it in results if MEMORY.search(it)]
    return named == sorted(named) and (wanted is None or set(named) == wanted)


def go_through(driver, case):
    """The number of results that were Memory, and what went wrong."""
    case, first = case
    status, usual, asked = driver.run(case)
    digits = case.given.hex()
    wrong, reported, comparisons = [], 0, []
    if status != 0 or len(usual) != WORDS:
        return 0, [f"{digits}: {status} {usual}"]
    if case.idle:
        idle = driver.run(case, idle=9)
        if idle[:2] != (status, usual) or len(idle[2]) != len(asked):
            wrong.append(f"{digits}: other results or requests with calls that allocate nothing")
    for refused in range(first, len(asked) + 1):
        status, found, _ = driver.run(case, refused_from=refused)
        if status != 0:
            # the driver's own memory
            continue
        for place, (word, before) in enumerate(zip(found, usual, strict=True)):
            if word != before:
                reported += 1
                if not is_refused(place, word, before):
                    wrong.append(f"{digits}, from request {refused}: {word} in place of {before}")
        comparisons.append(found[6:])
    for place, wanted in enumerate(case.sides or (None, None)):
        if not sides_in_order(wanted, [it[place] for it in comparisons]):
            wrong.append(f"{digits}: the sides {[it[place] for it in comparisons]}")
    return reported, wrong


def documents():
    """The documents: a comparison needs memory on both sides, except for canonical bytes."""
    limits = Limits(64, 65536, ANY_KEYS)
    both = {"left", "right"}
    for digits in DOCUMENTS:
        yield Case(bytes.fromhex(digits), limits, (both, both), True), 1
    for digits in CANONICAL:
        yield Case(bytes.fromhex(digits), limits, (set(), {"left"}), True), 1


def refuse_calls(program, library, folder, rows):
    """The number of results of the driver that were Memory, and what went wrong."""
    drivers = [Driver(program, library, f"{folder}/driver-{number}") for number in range(os.cpu_count() or 1)]
    cases = [Case(row.given, row.limits) for row in rows]
    cases = unlike(lambda driver, case: driver.run(case)[2], drivers, cases)
    found = of_all(go_through, drivers, [*documents(), *cases])
    return sum(reported for reported, _ in found), [line for _, lines in found for line in lines]
