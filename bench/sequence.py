"""Counts the instructions for an item of a sequence beyond those for its bytes, and prints a Markdown table.

    python3 sequence.py CBORC FOLDER

Each count is callgrind's for n items one after another, minus that for half as many. What the bytes cost is the
same count for the members of an array. The files are written to the folder. The items are those of small.py.
"""

import sys

from strict import instructions

CLAIMS = bytes.fromhex("0175636f61703a2f2f61732e6578616d706c652e636f6d02656572696b77037818636f61703a2f2f6c696768742e6578")
CLAIMS += bytes.fromhex("616d706c652e636f6d041a5612aeb0051a5610d9f0061a5610d9f0")
LAST_CLAIM = bytes.fromhex("07420b71")
ITEMS = {
    "the integer 0": b"\x00",
    "a map of a text and a number": b"\xa1\x63Fun\x18\x2a",
    "the claims of a token": b"\xa7" + CLAIMS + LAST_CLAIM,
    "the integer 0 in two bytes": b"\x18\x00",
    "these claims, the last one first": b"\xa7" + LAST_CLAIM + CLAIMS,
}
CANONICAL = 3
COUNT = 4000


def count(words, path, out, head, item):
    """The instructions of an item, if COUNT of them follow what `head` makes of this number."""
    found = []
    for times in (COUNT, COUNT // 2):
        with open(path, "wb") as file:
            file.write(head(times) + times * item)
        found.append(instructions(*words, path, *out))
    return (found[0] - found[1]) / (COUNT - COUNT // 2)


def beyond(cborc, path, words, item, out=()):
    one = count([cborc, *words, "--seq"], path, out, lambda _: b"", item)
    return one - count([cborc, *words], path, out, lambda times: b"\x99" + times.to_bytes(2, "big"), item)


def main():
    cborc, path = sys.argv[1], f"{sys.argv[2]}/items"
    print("| an item of a sequence, beyond its bytes' own work | `check --seq` | `check --strict --seq` | `canon --seq` |")
    print("| --- | ---: | ---: | ---: |")
    for place, (name, item) in enumerate(ITEMS.items()):
        plain = f"{beyond(cborc, path, ['check'], item):,.0f}"
        strict = f"{beyond(cborc, path, ['check', '--strict'], item):,.0f}" if place < CANONICAL else ""
        canon = f"{beyond(cborc, path, ['canon'], item, [path + '.canonical']):,.0f}"
        print(f"| {name} | {plain} | {strict} | {canon} |", flush=True)


if __name__ == "__main__":
    main()
