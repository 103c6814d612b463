#!/usr/bin/env python3
"""Tries programs that read and write values, one in each language, against the definitions of reference.py.

    fuzz/languages.py [--library dist/lib/libnaltvigo.so] [--inputs 3000] [--seed 1] NAME=COMMAND..

A program is called with `bytewise` or `length` and a byte limit, reads lines of hex digits, each an item, and writes the
canonical bytes of each value that it read, in hex digits, or `refused 5 Float at 1`. It reads items of up to 1,024 levels,
with keys of any kind. The inputs are the rows of the conformance tables and random items, and then their canonical bytes,
which must stay the same. With a library, its diagnostic text of what the programs write must be that of the value. The
program named Python may write `no value` if two keys of a map are equal in Python. The first result that differs from the
expected one is printed, and the status is 1.
"""

import argparse
import random
import shlex
import subprocess
import sys

from items import Items
from library import Library
from reference import ANY_KEYS, REASONS, Limits, Results
from table import rows
from values import ARRAY, BYTEWISE, LENGTH_FIRST, MAP, SIMPLE, TAG, UNSIGNED, diagnostic

LIMITS = Limits(1024, 1 << 30, ANY_KEYS)

# Inputs that are shorter than their canonical bytes, and byte limits around both lengths.
LIMITED = [(b"\x9f" + bytes(256) + b"\xff", limit) for limit in (257, 258, 259)]
ORDERS = {BYTEWISE: "bytewise", LENGTH_FIRST: "length"}


def in_python(value):
    """A value that is equal for two keys if Python's keys are equal, as True and 1 are."""
    if value[0] == UNSIGNED:
        return value[1]
    if value[0] == SIMPLE:
        return {20: False, 21: True}.get(value[1], value)
    return repr(value)


def has_equal_keys(value):
    """Whether two keys of a map in it are equal in Python."""
    kind = value[0]
    if kind == ARRAY:
        return any(map(has_equal_keys, value[1]))
    if kind == TAG:
        return has_equal_keys(value[2])
    if kind != MAP:
        return False
    keys = [in_python(key) for key, _ in value[1]]
    return len(set(keys)) < len(keys) or any(has_equal_keys(it) for pair in value[1] for it in pair)


def wanted(results, order):
    found = results.canonicalised(order)
    return found.hex() if isinstance(found, bytes) else f"refused {found.reason} {REASONS[found.reason]} at {found.place}"


def run(command, order, inputs, limit=LIMITS.most):
    """The program's lines for these inputs."""
    given = "".join(f"{it.hex()}\n" for it in inputs)
    words = [*shlex.split(command), ORDERS[order], str(limit)]
    ended = subprocess.run(words, input=given, capture_output=True, text=True)
    lines = ended.stdout.splitlines()
    if ended.returncode != 0 or len(lines) != len(inputs):
        sys.exit(f"languages: {command}: status {ended.returncode}, {len(lines)} lines for {len(inputs)}\n{ended.stderr}")
    return lines


def compare(name, command, order, inputs):
    """The number of inputs that have a value; ends with status 1 at the first result that differs from the expected one."""
    values = 0
    for results, found in zip(inputs, run(command, order, [it.given for it in inputs])):
        right = wanted(results, order)
        values += not right.startswith("refused")
        if found == "no value" and name == "Python" and results.value and has_equal_keys(results.value):
            continue
        if found != right:
            sys.exit(f"languages: {name}, {ORDERS[order]}, {results.given.hex() or 'empty'}: wanted {right}, found {found}")
    return values


def compare_limited(name, command, order):
    for given, limit in LIMITED:
        right = wanted(Results(given, LIMITS._replace(most=limit)), order)
        found = run(command, order, [given], limit)[0]
        if found != right:
            sys.exit(f"languages: {name}, {given.hex()}, limit {limit}: wanted {right}, found {found}")


def compare_texts(library, canonical):
    """Ends with status 1 if the text of canonical bytes is not that of their value by values.py."""
    for results in canonical:
        found = library.diagnostic(results.given, LIMITS, 8 * len(results.given) + 64)
        if found != diagnostic(results.value):
            sys.exit(f"languages: the text of {results.given.hex()}: wanted {diagnostic(results.value)}, found {found}")


def main():
    words = argparse.ArgumentParser(description=__doc__, formatter_class=argparse.RawDescriptionHelpFormatter)
    words.add_argument("--library")
    words.add_argument("--inputs", type=int, default=3000)
    words.add_argument("--seed", type=int, default=1)
    words.add_argument("programs", nargs="+", metavar="NAME=COMMAND")
    given = words.parse_args()
    sys.setrecursionlimit(10_000)
    items = Items(random.Random(given.seed))
    inputs = [Results(it.given, LIMITS) for it in rows()]
    inputs += [Results(items.given()[0], LIMITS) for _ in range(given.inputs)]
    programs = [it.partition("=")[::2] for it in given.programs]
    counts = []
    for order in ORDERS:
        canonical = [Results(it.canonicalised(order), LIMITS) for it in inputs if not wanted(it, order).startswith("refused")]
        if given.library:
            compare_texts(Library(given.library), canonical)
        for name, command in programs:
            values = compare(name, command, order, inputs)
            again = compare(name, command, order, canonical)
            compare_limited(name, command, order)
            if not 3 * values > len(inputs) > values or again < values:
                sys.exit(f"languages: {name}: {values} values of {len(inputs)} inputs, {again} of them once more")
            counts.append(f"{name} {values}")
    print(f"languages: {len(inputs)} inputs; values in each order: {', '.join(counts)}; all as they must be")


if __name__ == "__main__":
    main()
