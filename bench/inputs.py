"""Makes the inputs of the benchmark from a seed, each with its canonical bytes in both orders.

    python3 inputs.py FOLDER

writes for each input NAME the files NAME.cbor, NAME.bytewise and NAME.length, and for each array the
canonical bytes of its members as a sequence, NAME.sequence. The writer is a plain
recursion over Python values, so that the program's output can be compared with it.
"""

import random
import sys

SEED = 8949
MIB = 1 << 20


class Map(list):
    """Pairs of a key and its value, in the order in which they are written."""


class Wide(int):
    """A number whose argument is written in eight bytes."""


class Chunks(str):
    """A text that is written in chunks of one character."""


class Tagged(tuple):
    """A tag's number and its content."""


def head(major, argument, wide=False):
    if wide:
        return bytes([major << 5 | 27]) + argument.to_bytes(8, "big")
    if argument < 24:
        return bytes([major << 5 | argument])
    for ai, size in ((24, 1), (25, 2), (26, 4), (27, 8)):
        if argument < 1 << 8 * size:
            return bytes([major << 5 | ai]) + argument.to_bytes(size, "big")
    raise ValueError(argument)


def encode(value, order=None):
    """The bytes as written, or the canonical ones if `order` is bytewise or length."""
    as_written = order is None
    if value is None or isinstance(value, bool):
        return bytes([{False: 0xF4, True: 0xF5, None: 0xF6}[value]])
    if isinstance(value, int):
        wide = as_written and isinstance(value, Wide)
        return head(0, value, wide) if value >= 0 else head(1, -1 - value, wide)
    if isinstance(value, bytes):
        return head(2, len(value)) + value
    if isinstance(value, Chunks) and as_written:
        chunks = [it.encode() for it in value]
        return b"\x7f" + b"".join(head(3, len(it)) + it for it in chunks) + b"\xff"
    if isinstance(value, str):
        text = value.encode()
        return head(3, len(text)) + text
    if isinstance(value, Tagged):
        return head(6, value[0]) + encode(value[1], order)
    if isinstance(value, Map):
        pairs = [(encode(key, order), encode(content, order)) for key, content in value]
        if not as_written:
            pairs.sort(key=lambda it: it[0] if order == "bytewise" else (len(it[0]), it[0]))
        return head(5, len(value)) + b"".join(key + content for key, content in pairs)
    return head(4, len(value)) + b"".join(encode(it, order) for it in value)


def shuffled(chance, pairs):
    pairs = list(pairs)
    chance.shuffle(pairs)
    return Map(pairs)


def filled(make, size):
    """An array of what `make` returns, of at most this many bytes."""
    made, used = [], 5
    while True:
        member = make()
        used += len(encode(member))
        if used > size:
            return made
        made.append(member)


def record(chance):
    words = "amber basil cedar delta ember flint grove heron inlet jetty".split()
    address = {"street": chance.choice(words), "number": chance.randrange(300), "town": chance.choice(words)}
    fields = {
        "identifier": chance.randrange(1 << 40),
        "name": " ".join(chance.choices(words, k=3)),
        "active": chance.random() < 0.5,
        "balance": chance.randrange(-(1 << 20), 1 << 20),
        "tags": chance.choices(words, k=4),
        "address": shuffled(chance, address.items()),
        "picture": chance.randbytes(24),
        "note": None,
    }
    return shuffled(chance, fields.items())


def texts(chance, count):
    """A map whose keys are this number of texts of five digits, shuffled."""
    return shuffled(chance, ((f"{it:05}", it % 24) for it in range(count)))


def past_ascii(chance):
    """A text of Latin, Greek, Cyrillic or Han letters, or of characters outside the Basic Multilingual Plane."""
    first, count = chance.choice(((0x61, 26), (0xE0, 32), (0x3B1, 24), (0x430, 32), (0x4E00, 2000), (0x1F600, 60)))
    return "".join(chr(first + chance.randrange(count)) for _ in range(chance.randrange(10, 70)))


def in_chunks(chance):
    """A small map, with a text in chunks."""
    return Map([("x", [5]), (1, Chunks("".join(chance.choices("abc", k=chance.randrange(20)))))])


def chain(chance):
    """Arrays, maps and tags in one another, 20 to 250 deep, with scalars next to them."""
    core = chance.randrange(1000)
    short = lambda: "".join(chance.choices("abcdefgh", k=chance.randrange(1, 5)))
    for _ in range(chance.randrange(20, 251)):
        core = chance.choice((
            lambda: [core],
            lambda: [short(), core, chance.randrange(30)],
            lambda: Map([("v", core), (7, None), ("k", chance.randrange(9))]),
            lambda: Tagged((1000 + chance.randrange(70_000), core)),
        ))()
    return core


def nested(core, depth, pair):
    for _ in range(depth):
        core = Map(pair(core))
    return core


def inputs():
    chance = random.Random(SEED)
    integers = lambda: chance.choice((1, -1)) * chance.randrange(1 << chance.choice((4, 8, 16, 32, 63)))
    numbers = shuffled(chance, ((it, 0) for it in range(1 << 16, (1 << 16) + 170_000)))
    yield "one", 0
    yield "records", filled(lambda: record(chance), MIB)
    yield "map_10000", texts(chance, 10_000)
    yield "map_100000", texts(chance, 100_000)
    yield "integers", filled(integers, MIB)
    yield "wide_integers", filled(lambda: Wide(chance.randrange(24)), MIB)
    yield "zeros", [0] * (MIB - 5)
    yield "text", "\u6c34" * ((MIB - 5) // 3)
    yield "chunks", Chunks("a" * (MIB // 2 - 1))
    yield "nested", nested(0, 256, lambda it: [(1, 0), (0, it)])
    yield "nested_many", filled(lambda: nested(chance.randrange(24), 255, lambda it: [(1, 0), (0, it)]), MIB)
    yield "nested_keys", nested(1, 256, lambda it: [(it, 0), (0, 0)])
    yield "keys_around_bytes", nested(bytes(MIB - 1100), 256, lambda it: [(it, 0), (0, 0)])
    yield "keys_around_map", nested(numbers, 255, lambda it: [(it, 0), (0, 0)])
    yield "keys_around_zeros", nested([0] * (MIB - 1100), 255, lambda it: [(it, 0), (0, 0)])
    yield "bytes_16_mib", bytes(16 * MIB)
    yield "texts", filled(lambda: past_ascii(chance), MIB)
    yield "small_chunks", filled(lambda: in_chunks(chance), MIB)
    yield "chains", filled(lambda: chain(chance), MIB)


def main():
    folder = sys.argv[1]
    for name, value in inputs():
        for ending, order in (("cbor", None), ("bytewise", "bytewise"), ("length", "length")):
            with open(f"{folder}/{name}.{ending}", "wb") as file:
                file.write(encode(value, order))
        if type(value) is list:
            with open(f"{folder}/{name}.sequence", "wb") as file:
                file.writelines(encode(it, "bytewise") for it in value)


if __name__ == "__main__":
    main()
