"""Checks that no string in one piece is copied into a view's arena, for fuzz/memory.py.

`read_view` reads each valid row of the conformance tables and random valid items. It reads each once more with longer
strings: bytes are added to each byte string and text in one piece, key or member, so that a copy would make the arena larger. The
arena must have the same size for both.
"""

import random
import subprocess

from items import Items
from large import head
from reference import ANY_KEYS, Limits, Results
from run import driver_line
from values import ARRAY, BYTES, MAP, TAG, TEXT

# The number of bytes added to a string, and the number of random items.
MORE = 10_000
RANDOM_ITEMS = 300
MOST = 1 << 40


class Longer:
    """A valid item with longer strings, except those in chunks."""

    def __init__(self, given):
        self.given, self.at, self.found = given, 0, []
        self.item()

    def item(self):
        """Reads an item or a break; returns whether it was a break."""
        start, first = self.at, self.given[self.at]
        major, low = first >> 5, first & 31
        width = 1 << low - 24 if 24 <= low < 28 else 0
        self.at += 1 + width
        argument = int.from_bytes(self.given[start + 1 : self.at], "big") if width else low
        if major in (BYTES, TEXT) and low < 31:
            payload = self.given[self.at : self.at + argument]
            self.at += argument
            self.found.append(head(major, argument + MORE) + payload + MORE * b"a")
            return False
        if major in (BYTES, TEXT):
            self.at += self.chunks()
        self.found.append(self.given[start : self.at])
        if major in (ARRAY, MAP) and low == 31:
            while not self.item():
                pass
        elif major in (ARRAY, MAP, TAG):
            for _ in range({ARRAY: argument, MAP: 2 * argument, TAG: 1}[major]):
                self.item()
        return first == 0xFF

    def chunks(self):
        """The number of bytes of a string's chunks with their break."""
        at = self.at
        while self.given[at] != 0xFF:
            low = self.given[at] & 31
            width = 1 << low - 24 if low > 23 else 0
            count = int.from_bytes(self.given[at + 1 : at + 1 + width], "big") if width else low
            at += 1 + width + count
        return at + 1 - self.at


def inputs(rows):
    """Valid items with their limits."""
    items = Items(random.Random(8949))
    tried = [(row.given, row.limits) for row in rows]
    tried += [(items.item(), Limits(64, MOST, ANY_KEYS)) for _ in range(RANDOM_ITEMS)]
    for given, limits in tried:
        results = Results(given, limits)
        if results.plain is None:
            yield given[: results.size], limits._replace(most=MOST)


def look_into_arenas(program, rows):
    """The number of items that were read, and what went wrong."""
    tried = [(given, b"".join(Longer(given).found), limits) for given, limits in inputs(rows)]
    lines = [f"arena {driver_line(it, limits)}" for *both, limits in tried for it in both]
    ran = subprocess.run([program], input="".join(lines).encode(), capture_output=True, check=True)
    results = [it.split() for it in ran.stdout.decode().splitlines()]
    wrong = []
    for (given, longer, _), usual, found in zip(tried, results[::2], results[1::2], strict=True):
        if [usual[0], found[0], usual[1]] != [str(len(given)), str(len(longer)), found[1]]:
            wrong.append(f"{given.hex()}: its view has {usual}, with longer strings {found}")
    return len(tried), wrong
