"""Counts the instructions of inputs that are refused for two equal keys, and of the same without, and prints Markdown.

    python3 repeats.py CBORC FOLDER

Each count is callgrind's, minus that of the integer 0, for a byte of the refused input. The files are written to the folder.
In each input the repeated key is at the end, so that all before it is read.
"""

import random
import sys

from inputs import MIB, SEED, Map, encode, filled, head, in_chunks, past_ascii, record, texts
from strict import instructions

DEPTH = 254
# Small enough that what follows it is within the byte limit.
MOST = MIB - 32


def ends_with(member):
    """An array of what is given, followed by the member with the last key repeated, or not."""
    return lambda before: lambda key: head(4, len(before) + 1) + b"".join(map(encode, before)) + member(key)


def small_map(key):
    return encode(Map([("b", 1), ("a", 2), (key, 3)]))


def large_map(key):
    chance = random.Random(SEED)
    return encode(Map(texts(chance, 100_000) + [(key, 1)]))


def map_of_records(key):
    chance = random.Random(SEED)
    return encode(Map([(f"{it:05}", record(chance)) for it in range(5500)] + [(key, 1)]))


def nested_keys(core):
    """Items of maps in one another as keys, around a key of these bytes; in the last of them, with another key."""
    def make(key):
        one, last = core, core + b"\x00" + key
        item = b"\xa1" * DEPTH + one + b"\x00" * DEPTH
        end = b"\xa1" * (DEPTH - 1) + b"\xa2" + last + b"\x00" * DEPTH
        return head(4, 2051) + item * 2050 + end
    return make


def shapes():
    """Each with a function from the last key to its bytes, the repeated key, and another one."""
    chance = random.Random(SEED)
    then_map = ends_with(small_map)
    yield "records, then a small map", then_map(filled(lambda: record(chance), MOST)), "b", "c"
    yield "a map of 100,001 texts", large_map, "00007", "zzzzz"
    yield "a map of 5,501 texts, nearly all with records", map_of_records, "00007", "zzzzz"
    yield "maps in one another as keys, around a number in two bytes", nested_keys(b"\x18\x00"), b"\x18\x00", b"\x01"
    yield "the same, canonical but for the last key", nested_keys(b"\x00"), b"\x00", b"\x01"
    yield "texts past ASCII, then a small map", then_map(filled(lambda: past_ascii(chance), MOST)), "b", "c"
    yield "small maps with a text in chunks", then_map(filled(lambda: in_chunks(chance), MOST)), "b", "c"


def count(words, path, out, status):
    return instructions(*words, path, *out, status=status)


def main():
    cborc, path = sys.argv[1], f"{sys.argv[2]}/repeats"
    with open(path + ".zero", "wb") as file:
        file.write(b"\x00")
    commands = (([cborc, "canon"], [path + ".canonical"]), ([cborc, "check"], []))
    starts = [count(words, path + ".zero", out, 0) for words, out in commands]
    print("| the last key is equal to an earlier one | `canon` | with none equal | ratio | `check` | with none equal | ratio |")
    print("| --- | ---: | ---: | ---: | ---: | ---: | ---: |")
    for name, make, repeated, other in shapes():
        cells = []
        for (words, out), start in zip(commands, starts):
            costs = []
            for key, status in ((repeated, 1), (other, 0)):
                made = make(key)
                with open(path, "wb") as file:
                    file.write(made)
                costs.append((count(words, path, out, status) - start) / len(made))
            refused, accepted = costs
            cells += [f"{refused:.1f}", f"{accepted:.1f}", f"{refused / accepted:.2f}"]
        print(f"| {name} | " + " | ".join(cells) + " |", flush=True)


if __name__ == "__main__":
    main()
