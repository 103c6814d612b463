"""Items in files and in chunks: load, dump, items and canonicalise_items, in bounded memory."""

import gc
import io
import pathlib
import random
import tempfile
import tracemalloc
import unittest

from items import any_encoding, encoded, head, some_value
from naltvigo import Refused, Tag, canonicalise_items, dump, dumps, item_ends, items, load, loads
from test_sequences import ends_of, some_sequence


class Raw(io.RawIOBase):
    """A file of which each call reads a few bytes."""

    def __init__(self, data, rng):
        self.data, self.at, self.rng, self.asked = data, 0, rng, 0

    def readable(self):
        return True

    def read(self, size=-1):
        assert size >= 0
        self.asked += 1
        part = self.data[self.at : self.at + min(size, self.rng.choice((1, 2, 100, 70_000)))]
        self.at += len(part)
        return part


def cuts(data, rng):
    """The same bytes as files and iterables of every kind."""
    yield io.BytesIO(data)
    yield Raw(data, rng)
    yield [data]
    smallest = 1 if len(data) < 50_000 else 997
    yield (data[at : at + smallest] for at in range(0, len(data), smallest))
    yield iter([b"", bytearray(data[: len(data) // 2]), b"", memoryview(data)[len(data) // 2 :], b""])
    step = rng.randrange(1, 100_000)
    yield [data[at : at + step] for at in range(0, len(data), step)]


class OneItem(unittest.TestCase):
    def test_what_is_no_binary_file(self):
        for call in load, items, canonicalise_items:
            for path in "some.cbor", pathlib.PurePath("some.cbor"):
                with self.subTest(call=call, path=path), self.assertRaisesRegex(TypeError, r"^an open file is needed, and not a (str|Pure\w*Path): "):
                    call(path)
            with self.subTest(call=call), self.assertRaisesRegex(TypeError, "^bytes are needed, and not a str: open a file with mode 'rb'$"):
                list(call(io.StringIO("text")))

    def test_round_trips(self):
        rng = random.Random(3)
        for _ in range(200):
            value = some_value(rng, 3)
            file = io.BytesIO()
            self.assertIsNone(dump(value, file))
            self.assertEqual(file.getvalue(), encoded(value))
            file.seek(0)
            self.assertEqual(load(file, canonical=True), value)
            self.assertEqual(load(Raw(any_encoding(value, rng), rng)), value)
        file = io.BytesIO()
        with self.assertRaises(TypeError):
            dump([1, 2.5], file)
        self.assertEqual(file.getvalue(), b"")
        dump({1j, 2j}, file, default=len, order="length", depth=1, max_bytes=1, keys="basic")
        self.assertEqual(file.getvalue(), b"\x02")
        with tempfile.TemporaryFile() as real:
            dump({"a": [1]}, real)
            real.seek(0)
            self.assertEqual(load(real, map_hook=list), ["a"])

    def test_what_is_read(self):
        for limit in (0, 1, 10, 65535, 65536, 70_000):
            data = head(2, 100_000) + bytes(100_000)
            file = Raw(data, random.Random(limit))
            with self.assertRaises(Refused) as raised:
                load(file, max_bytes=limit)
            self.assertEqual((raised.exception.name, raised.exception.offset, file.at), ("TooLong", limit, limit + 1))
        for data, name in ((b"", "Truncated"), (b"\x82\0", "Truncated"), (b"\0\0", "Trailing")):
            with self.assertRaises(Refused) as raised:
                load(io.BytesIO(data))
            self.assertEqual(raised.exception.name, name)
        for wrong in (io.StringIO("text"), "text", 7):
            with self.assertRaises(TypeError):
                load(wrong)


class Sequences(unittest.TestCase):
    def check(self, data, given, canonical, rng, **options):
        ends = ends_of(given)
        for source in cuts(data, rng):
            self.assertEqual(list(items(source, **options)), given)
        for source in cuts(data, rng):
            self.assertEqual(list(items(source, offsets=True, **options)), list(zip([0, *ends], ends)))
        for source in cuts(data, rng):
            parts = list(canonicalise_items(source, **options))
            self.assertEqual(b"".join(part for part, _ in parts), b"".join(canonical))
            self.assertEqual([one[start:end] for one, ends in parts for start, end in zip([0, *ends], ends)], canonical)

    def test_all_items(self):
        for count in (0, 1, 2, 100, 3000):
            given, canonical = some_sequence(count, count)
            self.check(b"".join(given), given, canonical, random.Random(count))

    def test_long_items(self):
        # around the parts that are read at once, and in one that has to be read several times
        rng = random.Random(4)
        for sizes in ((65533, 1, 65536), (1, 65535, 65534, 0), (300_000, 5, 200_000), (1_000_000,)):
            canonical = [encoded(rng.randbytes(size)) for size in sizes]
            self.check(b"".join(canonical), canonical, canonical, rng)

    def test_refusals(self):
        rng = random.Random(5)
        good = [b"\x18\x00", b"\x61a"] * 20_000
        for bad, name, offset in ((b"\x82\xff", "StrayBreak", 1), (b"\x82\0", "Truncated", 2), (b"\x43abc\0", None, 0), (b"\xf9\0\0", "Float", 0)):
            data = b"".join(good) + bad
            for source in cuts(data, rng):
                for call in (items, canonicalise_items):
                    if call is items or isinstance(source, list):
                        self.check_refusal(call, source, good, name, offset)

    def check_refusal(self, call, source, good, name, offset):
        found, refused = 0, None
        try:
            for one in call(source):
                found += 1 if isinstance(one, bytes) else len(one[1])
        except Refused as error:
            refused = error
        if name is None:
            self.assertEqual((found, refused), (len(good) + 2, None))
            return
        self.assertEqual((found, refused.name, refused.offset), (len(good), name, offset))
        self.assertEqual((refused.item, refused.start), (len(good) + 1, 4 * len(good) // 2))

    def test_limits(self):
        data = b"\0" + head(2, 100) + bytes(100)
        for source in cuts(data, random.Random(6)):
            with self.assertRaises(Refused) as raised:
                list(items(source, max_bytes=50))
            self.assertEqual((raised.exception.name, raised.exception.offset, raised.exception.item), ("TooLong", 50, 2))
        for call in (items, canonicalise_items):
            for wrong in ({"depth": 2000}, {"order": "x"}):
                with self.assertRaises(ValueError):
                    call(io.BytesIO(data), **wrong)
            for wrong in ("text", 7, None, [1, 2], ["text"], io.StringIO("text")):
                with self.assertRaises(TypeError, msg=repr(wrong)):
                    list(call(wrong))
        with self.assertRaises(Refused):
            list(items([b"\x18\x00"], canonical=True))

    def test_memory(self):
        # 40 MB, of which a part is in memory; and the work is in proportion to it
        one = head(2, 300_000) + bytes(300_000)
        for call in (items, canonicalise_items):
            source = (one[at : at + 1000] for _ in range(130) for at in range(0, len(one), 1000))
            tracemalloc.start()
            try:
                count = sum(1 if isinstance(found, bytes) else len(found[1]) for found in call(source))
                most = tracemalloc.get_traced_memory()[1]
            finally:
                tracemalloc.stop()
            self.assertEqual(count, 130)
            self.assertLess(most, 4 << 20)

    def test_an_endless_item_is_refused(self):
        file = Raw(b"\x9f" + bytes(1 << 22), random.Random(7))
        with self.assertRaises(Refused):
            list(items(file, max_bytes=1 << 16))
        self.assertLess(file.at, 1 << 18)


class Hooks(unittest.TestCase):
    def test_tags(self):
        data = bytes.fromhex("83 c10a a1c2410105 d87b c10b")
        seen = []

        def read(tag):
            seen.append((tag.number, tag.content))
            return tag.number, tag.content

        self.assertEqual(loads(data, tag_hook=read), [(1, 10), {(2, b"\1"): 5}, (123, (1, 11))])
        self.assertEqual(seen, [(1, 10), (2, b"\1"), (1, 11), (123, (1, 11))])
        self.assertEqual(loads(data, tag_hook=None), loads(data))
        with self.assertRaises(ZeroDivisionError):
            loads(data, tag_hook=lambda tag: 1 // 0)
        with self.assertRaisesRegex(TypeError, "unhashable"):
            loads(bytes.fromhex("a1 c101 00"), tag_hook=lambda tag: [])
        with self.assertRaisesRegex(ValueError, "equal in Python"):
            loads(bytes.fromhex("a2 c101 00 c102 00"), tag_hook=lambda tag: 5)
        with self.assertRaises(TypeError):
            loads(data, tag_hook=5)

    def test_maps(self):
        data = bytes.fromhex("82 a1 01 a0 a1 a10203 a10405")
        self.assertEqual(loads(data, map_hook=lambda found: list(found.items())), [[(1, [])], [(loads(b"\xa1\xa1\2\3\0").popitem()[0], [(4, 5)])]])
        with self.assertRaises(ZeroDivisionError):
            loads(b"\x81\xa0", map_hook=lambda found: 1 // 0)

    def test_a_hook_may_do_anything(self):
        data = dumps([{n: [n]} for n in range(200)])

        def read(found):
            gc.collect()
            self.assertTrue(gc.isenabled())
            return loads(data[:0] + b"\x81\x01") if len(gc.get_objects()) else None

        self.assertEqual(loads(data, map_hook=read), [[1]] * 200)
        self.assertTrue(gc.isenabled())

    def test_the_collector_rests_after_a_hook(self):
        phases, seen = [], []
        data = dumps([Tag(1, 0), [[] for _ in range(5000)], Tag(1, 0)])
        gc.collect()
        gc.callbacks.append(lambda phase, info: phases.append(phase))
        try:
            loads(data, tag_hook=lambda tag: seen.append(len(phases)))
        finally:
            gc.callbacks.pop()
        self.assertEqual(seen, [0, 0])


class Ends(unittest.TestCase):
    def test_a_buffer_is_still_read_as_one(self):
        data = b"\0\1\2"
        self.assertEqual(list(item_ends(data)), [1, 2, 3])
        self.assertEqual(canonicalise_items(bytearray(data))[0], data)


if __name__ == "__main__":
    unittest.main()
