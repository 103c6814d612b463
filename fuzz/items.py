"""Items to try: random values in random encodings, and bytes that were changed afterwards."""

from reference import ANY_KEYS, INTEGERS_AND_TEXTS, Limits
from values import ARRAY, BYTES, LENGTH_FIRST, MAP, NEGATIVE, SIMPLE, TAG, TEXT, UNSIGNED, canonical

NUMBERS = [0, 1, 23, 24, 255, 256, 65535, 65536, (1 << 32) - 1, 1 << 32, (1 << 64) - 1]
TEXTS = ["", "a", "b", "aa", "ü", "水", "\U00010151", '"\\', "\n\x7f", "key", "longer than eight bytes", "longer than eight bits"]
BAD_TEXTS = [b"\xff", b"\xc3", b"a\xc3", b"\xed\xa0\x80", b"\xf4\x90\x80\x80", b"a\xc0\x80", b"\xe6\xb0", b"\x80"]
SPECIAL = [0x1C, 0x1F, 0x3F, 0xDF, 0x5F, 0x7F, 0x9F, 0xBF, 0xFF, 0xF8, 0xF9, 0xFA, 0xFB, 0xFC, 0x18, 0x19, 0x1A, 0x1B, 0x5B, 0x7B, 0x9B, 0xBB, 0xDB]


class Items:
    """Items from a source of random numbers."""

    def __init__(self, chance):
        self.chance = chance
        # the probability that a key is of any kind, and not an integer or a text
        self.others = 0.2

    # ---- values

    def value(self, depth):
        chance = self.chance
        kind = chance.choice([UNSIGNED, NEGATIVE, BYTES, TEXT, SIMPLE] + [ARRAY, MAP, MAP, TAG] * 2 * (depth > 0))
        if kind in (UNSIGNED, NEGATIVE):
            return (kind, self.number())
        if kind == BYTES:
            return (kind, chance.randbytes(self.length()))
        if kind == TEXT:
            return (kind, self.text())
        if kind == SIMPLE:
            return (kind, chance.choice([0, 19, 20, 21, 22, 23, 32, 255, chance.randrange(32, 256)]))
        if kind == TAG:
            return (kind, self.number(), self.value(depth - 1))
        if kind == ARRAY:
            return (kind, tuple(self.value(depth - 1) for _ in range(self.count())))
        return (kind, tuple((self.key(depth - 1), self.value(depth - 1)) for _ in range(self.count())))

    def key(self, depth):
        chance = self.chance
        if chance.random() < self.others:
            return self.value(depth)
        if chance.random() < 0.5:
            return (UNSIGNED, chance.randrange(30))
        return (TEXT, self.text())

    def number(self):
        chance = self.chance
        return chance.choice([chance.randrange(30), chance.choice(NUMBERS), chance.getrandbits(chance.randrange(1, 65))])

    def count(self):
        return self.chance.choice([0, 1, 1, 2, 2, 3, 4, 6, 24 if self.chance.random() < 0.05 else 5])

    def length(self):
        return self.chance.choice([0, 1, 2, 3, 7, 8, 9, 16, 23, 24, 25, 60, 255, 256, 600 if self.chance.random() < 0.1 else 5])

    def text(self):
        chance = self.chance
        if chance.random() < 0.03:
            return chance.choice(BAD_TEXTS)
        return "".join(chance.choice(TEXTS) for _ in range(chance.choice([0, 1, 1, 1, 2, 5]))).encode()

    def like(self, value):
        """The same value with the pairs of its maps in some order; now and then with one scalar changed."""
        kind = value[0]
        if kind == ARRAY:
            return (kind, tuple(self.like(it) for it in value[1]))
        if kind == TAG:
            return (kind, value[1], self.like(value[2]))
        if kind == MAP:
            pairs = [(self.like(key), self.like(content)) for key, content in value[1]]
            self.chance.shuffle(pairs)
            return (kind, tuple(pairs))
        return self.value(0) if self.chance.random() < 0.03 else value

    # ---- encodings

    def spell(self, value, wide):
        """The bytes of a value; `wide` is the probability that a head is longer than needed, or without a length."""
        kind = value[0]
        if kind in (UNSIGNED, NEGATIVE):
            return self.head(kind, value[1], wide)
        if kind == SIMPLE:
            return bytes([0xE0 | value[1]]) if value[1] < 24 else bytes([0xF8, value[1]])
        if kind in (BYTES, TEXT):
            if self.chance.random() < wide:
                return bytes([kind << 5 | 31]) + b"".join(self.chunks(kind, value[1], wide)) + b"\xff"
            return self.head(kind, len(value[1]), wide) + value[1]
        if kind == TAG:
            return self.head(TAG, value[1], wide) + self.spell(value[2], wide)
        members = value[1] if kind == ARRAY else [it for pair in value[1] for it in pair]
        inside = b"".join(self.spell(it, wide) for it in members)
        if self.chance.random() < wide:
            return bytes([kind << 5 | 31]) + inside + b"\xff"
        return self.head(kind, len(value[1]), wide) + inside

    def head(self, major, argument, wide):
        sizes = [size for size in (0, 1, 2, 4, 8) if argument < (1 << 8 * size if size else 24)]
        size = self.chance.choice(sizes) if self.chance.random() < wide else sizes[0]
        if size == 0:
            return bytes([major << 5 | argument])
        return bytes([major << 5 | {1: 24, 2: 25, 4: 26, 8: 27}[size]]) + argument.to_bytes(size, "big")

    def chunks(self, kind, content, wide):
        while content or self.chance.random() < 0.3:
            count = self.chance.randrange(len(content) + 1)
            yield self.head(kind, count, wide) + content[:count]
            content = content[count:]

    # ---- inputs

    def late_repeat(self):
        """The bytes of a map with a key that is repeated after a deep value, or after many pairs."""
        levels, pairs = self.chance.choice([(9, 1), (65, 1), (70, 3), (1, 260), (2, 400)])
        deep = (UNSIGNED, 0)
        for _ in range(levels):
            deep = (ARRAY, (deep,))
        entries = [((UNSIGNED, number), deep if number == 0 else (UNSIGNED, 0)) for number in range(pairs)]
        entries.append(self.chance.choice(entries))
        return self.spell((MAP, tuple(entries)), self.chance.choice([0, 0.1]))

    def item(self):
        """The bytes of an item: canonical, or nearly, or in any encoding."""
        if self.chance.random() < 0.01:
            return self.late_repeat()
        value = self.value(self.chance.choice([0, 1, 2, 3, 4]))
        if self.chance.random() < 0.3:
            return canonical(self.chance.choice([0, LENGTH_FIRST]), value)
        return self.spell(value, self.chance.choice([0, 0, 0.1, 0.5]))

    def changed(self, given):
        """The same with some change, so that it may no longer be an item."""
        chance = self.chance
        at = chance.randrange(len(given) + 1)
        kind = chance.randrange(6)
        if kind == 0:
            return given[:at]
        if kind == 1:
            return given[:at] + bytes([chance.choice(SPECIAL)]) + given[at:]
        if kind == 2:
            return given[:at] + bytes([chance.choice(SPECIAL)]) + given[at + 1 :]
        if kind == 3:
            return given[:at] + chance.randbytes(chance.randrange(1, 4)) + given[at + chance.randrange(3) :]
        if kind == 4:
            to = chance.randrange(at, len(given) + 1)
            return given[:to] + given[at:to] + given[to:]
        return given + chance.choice([b"\x00", b"\xff", given])

    def tower(self):
        """Containers in one another, around the greatest depth."""
        opener = self.chance.choice([b"\x81", b"\x9f", b"\xc1", b"\xa1\x00", b"\xbf\x00", b"\xa1", b"\xd8\x20"])
        levels = self.chance.choice([1, 2, 100, 255, 256, 257, 1023, 1024, 1025])
        after = {b"\x9f": b"\xff", b"\xbf\x00": b"\xff", b"\xa1": b"\x00"}.get(opener, b"")
        return opener * levels + b"\x00" + after * self.chance.choice([levels, levels, levels - 1])

    def given(self):
        """An input, and the limits to read it within."""
        chance = self.chance
        keys = chance.choice([ANY_KEYS, INTEGERS_AND_TEXTS])
        self.others = 0.2 if keys == ANY_KEYS else chance.choice([0, 0.4, 0.8])
        found = self.tower() if chance.random() < 0.02 else self.item()
        for _ in range(chance.choice([0, 0, 0, 1, 1, 2])):
            found = self.changed(found)
        depth = chance.choice([256, 256, 1024, chance.randrange(6)])
        most = chance.choice([1 << 20, 1 << 20, 1 << 20, chance.randrange(len(found) + 3)])
        return found, Limits(depth, most, keys)
