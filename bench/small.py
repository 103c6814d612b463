"""Counts the instructions of a call of the library for C on small items, and prints two Markdown tables.

    python3 small.py LIBRARY

LIBRARY is library.c. Each count is callgrind's of 1,000 calls, minus that of none, for one call. The second table has what a
call costs beyond the work for the bytes: minus the cost of each further such item in an array, the mean of 15.
"""

import sys

from strict import instructions

ITEMS = ["the integer 0", "a byte string of 23", "a map of a text and a number", "the claims of a token"]
ITEMS += ["the integer 0 in two bytes", "these claims, the last one first"]
CALLS = ["canonicalise", "check_canonical", "check_valid", "compare", "diagnostic", "events"]
PLAIN = ["plain_canonicalise", "plain_check_canonical"]
TIMES = 1000
MEMBERS = 16


def count(library, call, place, members=0):
    """The instructions of a call on an item, or on an array of this many such items."""
    words = ["--calls", call, str(place), str(members)]
    none, some = (instructions(library, *words, str(times)) for times in (0, TIMES))
    return (some - none) / TIMES


def beyond(library, call, place):
    """Those of a call on an item beyond the work for its bytes."""
    one, many = (count(library, call, place, members) for members in (1, MEMBERS))
    return count(library, call, place) - (many - one) / (MEMBERS - 1)


def print_tables(library, title, calls, counted):
    names = [f"`{it}`" for it in calls] + ["plain C, canonical", "plain C, check"]
    print(f"| {title} | " + " | ".join(names) + " |\n| --- |" + " ---: |" * len(names))
    for place, item in enumerate(ITEMS):
        cells = [f"{counted(library, call, place):,.0f}" for call in calls + PLAIN]
        print(f"| {item} | " + " | ".join(cells) + " |", flush=True)


def main():
    library = sys.argv[1]
    print_tables(library, "small item, instructions a call", CALLS, count)
    print()
    print_tables(library, "those beyond the bytes' own work", CALLS[:4], beyond)


if __name__ == "__main__":
    main()
