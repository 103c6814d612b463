"""Prints a C header of the conformance tables of cbor_reader's tests: rows.py TABLE.. > rows.h

The comments in the tables say what the columns are. `rows_of` and `pairs_of` are the tables for Python's tests.
"""

import re
import sys
from typing import NamedTuple


class Limits(NamedTuple):
    depth: int
    most: int
    keys: str


def hex_of(column):
    """The bytes of hex digits; `3*00` means 000000."""
    words = [word.split("*") for word in column.split()]
    return "".join(word[0] if len(word) == 1 else int(word[0]) * word[1] for word in words)


def refusal_of(column):
    """The reason, the offset and the count of `12 Trailing at 1, read 1`."""
    found = re.fullmatch(r"(\d+) \w+ at (\d+), read (\d+)", column)
    return found and tuple(int(number) for number in found.groups())


def by_order(column):
    return ([part.strip() for part in column.split("/")] * 2)[:2]


def limits_of(column):
    """The limits of a column as `depth 1 bytes 4 keys basic`."""
    depth = re.search(r"depth (\d+)", column)
    most = re.search(r"bytes (\d+)", column)
    keys = re.search(r"keys (\w+)", column)
    return Limits(int(depth[1]) if depth else 256, int(most[1]) if most else 1048576, keys[1] if keys else "any")


def row(line):
    """The input in hex, the limits, and for each order: the canonical bytes, or the refusal, and the strict refusal."""
    given, limits, plain, strict, _ = [column.strip() for column in line.split("|", 4)]
    given = hex_of(given)
    results = []
    for plain_one, strict_one in zip(by_order(plain), by_order(strict)):
        refusal = refusal_of(plain_one)
        canonical = None if refusal else given if plain_one == "same" else hex_of(plain_one)
        taken = re.fullmatch(r"taken (\d+)", strict_one)
        whole = taken and int(taken[1]) == len(given) // 2
        if taken and not whole:
            strict_one = f"12 Trailing at {taken[1]}, read {taken[1]}"
        is_own = whole or not strict_one and plain_one == "same"
        own = None if is_own else refusal_of(strict_one or plain_one)
        results.append((canonical, refusal, own))
    return given, limits_of(limits), results


def pair(line):
    """The two inputs in hex, and 'same', 'different', or the side that is refused and its refusal."""
    left, right, result = [column.strip() for column in line.split("|")[:3]]
    found = re.fullmatch(r"(left|right) (.*)", result)
    return hex_of(left), hex_of(right), (found[1], refusal_of(found[2])) if found else (result, None)


def lines_of(paths):
    found = []
    for path in paths:
        with open(path, encoding="utf-8") as file:
            found += [line for line in file.read().splitlines() if "|" in line and not line.startswith("//")]
    return found


def rows_of(paths):
    found = [row(line) for line in lines_of(paths) if line.count("|") >= 4]
    basic = sum(limits.keys == "basic" for _, limits, _ in found)
    if len(found) < 200 or basic < 10:
        sys.exit(f"{len(found)} rows, {basic} of them for basic keys: where are the tables?")
    return found


def pairs_of(paths):
    found = [pair(line) for line in lines_of(paths) if line.count("|") == 3]
    if len(found) < 5:
        sys.exit(f"{len(found)} pairs: where is the table?")
    return found


def refusal_in_c(refusal):
    return "{%d, %d, %d}" % (refusal or (0, 0, 0))


def row_in_c(given, limits, results):
    keys = {"any": "NALTVIGO_ANY_KEYS", "basic": "NALTVIGO_INTEGERS_AND_TEXTS"}[limits.keys]
    texts = []
    for canonical, refusal, own in results:
        shown = "0" if canonical is None else f'"{canonical}"'
        texts.append("{%s, %s, %s}" % (shown, refusal_in_c(refusal), refusal_in_c(own)))
    return '    {"%s", %s, %d, %d, {%s}},' % (given, keys, limits.depth, limits.most, ", ".join(texts))


def pair_in_c(left, right, result):
    status = {"same": "NALTVIGO_OK", "different": "NALTVIGO_DIFFERENT"}.get(result[0], "NALTVIGO_REFUSED")
    side = "NALTVIGO_RIGHT" if result[0] == "right" else "NALTVIGO_LEFT"
    return '    {"%s", "%s", %s, %s, %s},' % (left, right, status, side, refusal_in_c(result[1]))


if __name__ == "__main__":
    print("static const struct row rows[] = {")
    print("\n".join(row_in_c(*it) for it in rows_of(sys.argv[1:])))
    print("};\nstatic const struct pair pairs[] = {")
    print("\n".join(pair_in_c(*it) for it in pairs_of(sys.argv[1:])))
    print("};")
