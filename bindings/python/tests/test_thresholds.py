"""Sizes below, at and above each threshold of the extension, and what is cut or forgotten past one of them."""

import array
import random
import unittest

import naltvigo
from items import any_encoding, encoded, head
from naltvigo import Encoded, FrozenDict, Refused, Tag, canonicalise_items, dumps, item_ends, items, loads

# 12 open containers, and 48 and 192 after those; texts of keys up to 32 bytes; 64 items, pairs and events; texts kept from
# 512 bytes on; 1,024 bytes on the stack; 16,384 with the lock held; and the widths of heads
THRESHOLDS = (12, 24, 32, 48, 64, 128, 192, 256, 512, 1024, 4096, 16384, 65536)
SIZES = sorted({size + more for size in THRESHOLDS for more in (-2, -1, 0, 1, 2)})
WIDE = {"max_bytes": 1 << 26}


class Values(unittest.TestCase):
    def check(self, value, rng, **options):
        data = encoded(value)
        options = {**WIDE, **options}
        self.assertEqual(dumps(value, **options), data)
        for given in (data, bytearray(data), memoryview(any_encoding(value, rng))):
            back = loads(given, **options)
            self.assertEqual(back, value)
            self.assertEqual(dumps(back, **options), data)
            self.assertEqual(naltvigo.canonicalise(given, **options), data)
            self.assertTrue(naltvigo.same(given, data, **options))
            naltvigo.check(given, **options)
        self.assertTrue(naltvigo.is_canonical(data, **options))

    def test_strings_and_arrays(self):
        rng = random.Random(1)
        for size in SIZES:
            with self.subTest(size=size):
                self.check(rng.randbytes(size), rng)
                self.check("a" * size, rng)
                self.check([n % 300 for n in range(size)], rng)
                self.check([b"x" * max(size - 3, 0), 1], rng)

    def test_maps(self):
        rng = random.Random(2)
        for size in [*(size for size in SIZES if size < 600), 4096, 16384, 65534, 65535, 65536]:
            with self.subTest(size=size):
                self.check({n * 7: n for n in range(size)}, rng)
                if size < 600:
                    self.check({str(n): n for n in range(size)}, rng)
                    self.check({(n, n + 1): FrozenDict({n: (n,)}) for n in range(size)}, rng)
                    self.check({Tag(n, "x"): [n] for n in range(size)}, rng)

    def test_keys_of_records(self):
        rng = random.Random(3)
        for size in (1, 2, 30, 31, 32, 33, 34, 64, 255, 256):
            names = ["k" * (size - 1) + end for end in "abcé"]
            self.check([{name: n for name in names} for n in range(40)], rng)

    def test_depths(self):
        rng = random.Random(4)
        for depth in [size for size in SIZES if size <= 1022]:
            with self.subTest(depth=depth):
                for wrap in (lambda it: [it], lambda it: {0: it}, lambda it: Tag(depth, it)):
                    value = 0
                    for _ in range(depth):
                        value = wrap(value)
                    data = dumps(value, depth=depth)
                    self.assertEqual(dumps(loads(data, depth=depth), depth=depth), data)
                    for call in (lambda: dumps(value, depth=depth - 1), lambda: loads(data, depth=depth - 1)):
                        with self.assertRaises(Refused) as raised:
                            call()
                        self.assertEqual(raised.exception.name, "TooDeep")
                    key = b"\xa1" + b"\x81" * depth + b"\0\0"
                    self.assertEqual(dumps(loads(key, depth=1024), depth=1024), key)

    def test_texts(self):
        for size in SIZES:
            data = encoded([0] * size)
            self.assertEqual(naltvigo.diagnostic(data), "[" + ", ".join("0" * size) + "]")
            self.assertEqual(naltvigo.diagnostic(encoded(bytes(size))), "h'" + "00" * size + "'")

    def test_limits_of_bytes(self):
        for size in SIZES:
            data = encoded(bytes(size))
            for call in (loads, naltvigo.check, naltvigo.canonicalise, naltvigo.check_canonical, naltvigo.diagnostic,
                         lambda data, **limit: list(items(data, **limit)), lambda data, **limit: list(naltvigo.events(data, **limit)),
                         item_ends, canonicalise_items, lambda data, **limit: naltvigo.same(data, data, **limit),
                         lambda data, **limit: dumps(bytes(size), **limit)):  # fmt: skip
                call(data, max_bytes=len(data))
                for limit in (2, len(data) - 1):
                    with self.subTest(size=size, limit=limit), self.assertRaises(Refused) as raised:
                        call(data, max_bytes=limit)
                    self.assertEqual((raised.exception.name, raised.exception.offset), ("TooLong", limit))


class Paths(unittest.TestCase):
    def test_each_length(self):
        # so that an explanation fills 512 and 1,024 bytes, or one more or less
        for length in range(1100):
            levels, last = length // 43, 1 + length % 43
            item = b"".join(b"\xa1" + head(3, size) + b"k" * size for size in [40] * levels + [last])
            with self.assertRaises(Refused) as raised:
                naltvigo.check(item + b"\xf9\0\0")
            self.assertEqual(raised.exception.path, "$" + f'."{"k" * 40}"' * levels + f'."{"k" * last}"')


class Events(unittest.TestCase):
    """A call of the library reports 64 events at most."""

    def test_many_in_one_part(self):
        for count in (61, 62, 63, 64, 65, 66, 127, 128, 129, 1000):
            data = encoded([n % 24 for n in range(count)] + [b"payload %d" % n for n in range(3)])
            reported = list(naltvigo.events(data))
            self.assertEqual(len(reported), 1 + count + 6)
            for event in reported:
                if event.kind == "piece":
                    self.assertEqual(event.data, data[event.offset : event.offset + event.number])
            self.assertEqual([event.data for event in reported[-6:]], [b"", b"payload 0", b"", b"payload 1", b"", b"payload 2"])
            self.assertEqual([event.offset for event in reported[1 : count + 1]], [reported[1].offset + n for n in range(count)])

    def test_payloads_far_from_the_start(self):
        rng = random.Random(5)
        for size in (4090, 4096, 4097, 8192, 16384, 65536, 70000):
            value = [rng.randbytes(size), b"short", "text", rng.randbytes(size)]
            data = encoded(value)
            for step in (1000, 4096, len(data)):
                chunks = [data[at : at + step] for at in range(0, len(data), step)]
                strings = []
                for event in naltvigo.events(chunks):
                    if event.kind in ("bytes", "text"):
                        strings.append(b"")
                    elif event.kind == "piece":
                        self.assertEqual(event.data, data[event.offset : event.offset + event.number])
                        strings[-1] += event.data
                self.assertEqual(strings, [value[0], b"short", b"text", value[3]])


class Sequences(unittest.TestCase):
    def test_numbers_and_ends_stay_whole(self):
        # more than 65,536 items, and more than 16 MiB
        small, large = b"\x18\x18", head(2, 1 << 20) + bytes(1 << 20)
        for parts in ([small] * 70_000, [large] * 17, [small] * 66_000 + [large] * 17 + [small]):
            data = b"".join(parts)
            ends, at = [], 0
            for part in parts:
                at += len(part)
                ends.append(at)
            pairs = list(zip([0, *ends], ends))
            self.assertEqual(item_ends(data, **WIDE), array.array("Q", ends))
            self.assertEqual(list(items(data, offsets=True, **WIDE)), pairs)
            self.assertEqual(sum(map(len, items(data, **WIDE))), len(data))
            canonical, canonical_ends = canonicalise_items(data, **WIDE)
            self.assertEqual((canonical, list(canonical_ends)), (data, ends))
            for call in (item_ends, canonicalise_items, lambda data, **limit: list(items(data, **limit))):
                with self.assertRaises(Refused) as raised:
                    call(data + b"\x81\xff", **WIDE)
                error = raised.exception
                self.assertEqual((error.item, error.start, error.offset, error.consumed), (len(parts) + 1, len(data), 1, 2))

    def test_lengths(self):
        for size in SIZES:
            one = encoded(bytes(size))
            for data in (one + one, b"\0" * size):
                self.assertEqual(b"".join(items(data)), data)
                self.assertEqual(canonicalise_items(data)[0], data)
                self.assertEqual(item_ends(data)[-1] if data else 0, len(data))


class Options(unittest.TestCase):
    def test_default_none_is_no_default(self):
        with self.assertRaisesRegex(TypeError, "no floats"):
            dumps(1.5, default=None)

    def test_encoded_is_checked_by_itself(self):
        # so the offset counts from its own first byte
        for options, given, offset, inner in (
            ({"keys": "basic"}, b"\xa1\x80\x00", 1, ", key 1 of the map at 0"), ({"depth": 1}, b"\x81\x80", 1, "[0]"),
            ({"max_bytes": 3}, b"\x43abc", 3, ""),
        ):  # fmt: skip
            with self.assertRaises(Refused) as raised:
                dumps([0, Encoded(given)], **options)
            self.assertEqual((raised.exception.offset, raised.exception.path), (offset, "$[1]" + inner))


if __name__ == "__main__":
    unittest.main()
