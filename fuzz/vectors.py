#!/usr/bin/env python3
"""Writes random inputs and what the library returns for them, to compare with the same library on another machine.

    fuzz/vectors.py LIBRARY COUNT [SEED] > FILE

LIBRARY is a libnaltvigo.so for this machine. A line is an input and seven results, with bars between: the order, the
kinds of keys, the limits on depth and on bytes, and the input in hex; then the results of canonicalise, check_valid,
check_canonical, diagnostic, next_valid, next_canonical, and compare with the input of the line before. A result is the
status; for REFUSED the reason, the offset and the number of bytes consumed; then what else the call returns: bytes in hex, the
number consumed, the side that is refused, or `-`. c/vectors.c and bindings/js/tests/native.test.mjs read it.
"""

import random
import sys

from items import Items
from library import OK, REFUSED, Library
from reference import Refusal

# c/vectors.c has space for an input of this size.
LONGEST = 1 << 14


def result(found, more):
    if isinstance(found, Refusal):
        return f"{REFUSED} {found.reason} {found.place} {found.read} {more}"
    return f"{OK} {more}"


def of_bytes(found):
    return result(found, "-" if isinstance(found, Refusal) else found.hex() or "-")


def of_front(found):
    return result(found, 0 if isinstance(found, Refusal) else found)


def of_comparison(found):
    if isinstance(found, tuple):
        side, refusal = found
        return result(refusal, ("left", "right").index(side))
    return f"{found} -"


def line(library, given, before, order, limits):
    most = len(given) + 64
    results = [
        of_bytes(library.canonicalise(given, order, limits, most)),
        result(library.check_valid(given, limits), "-"),
        result(library.check_canonical(given, order, limits), "-"),
        of_bytes(library.diagnostic(given, limits, 4 * most)),
        of_front(library.next_valid(given, limits)),
        of_front(library.next_canonical(given, order, limits)),
        of_comparison(library.compare(before, given, limits)),
    ]
    return "|".join([f"{order} {limits.keys} {limits.depth} {limits.most} {given.hex() or '-'}", *results])


def main():
    if len(sys.argv) < 3:
        print(__doc__.strip())
        return 0 if sys.argv[1:] in (["-h"], ["--help"]) else 2
    library, chance = Library(sys.argv[1]), random.Random(int(sys.argv[3]) if len(sys.argv) > 3 else 8949)
    items, before, count = Items(chance), b"\x00", int(sys.argv[2])
    while count:
        given, limits = items.given()
        if len(given) <= LONGEST:
            print(line(library, given, before, chance.randrange(2), limits))
            before, count = given, count - 1
    return 0


if __name__ == "__main__":
    sys.exit(main())
