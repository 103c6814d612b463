"""Calls on sequences: items with offsets, all ends, all canonical bytes, and files that are mapped."""

import array
import gc
import mmap
import random
import tempfile
import threading
import tracemalloc
import unittest

import naltvigo
from items import any_encoding, encoded, some_value
from naltvigo import Refused, canonicalise_items, is_canonical, item_ends, items


def some_sequence(seed, count):
    """Items in any encoding, and their canonical bytes."""
    rng = random.Random(seed)
    values = [some_value(rng, 3) for _ in range(count)]
    return [any_encoding(value, rng) for value in values], [encoded(value) for value in values]


def ends_of(parts):
    found, at = [], 0
    for part in parts:
        at += len(part)
        found.append(at)
    return found


class Bulk(unittest.TestCase):
    def test_all_items(self):
        for count in (0, 1, 2, 100, 3000):
            given, canonical = some_sequence(count, count)
            whole = b"".join(given)
            for data in (whole, bytearray(whole), memoryview(whole), memoryview(bytearray(whole)).toreadonly()):
                with self.subTest(count=count, type=type(data)):
                    ends = ends_of(given)
                    self.assertEqual(item_ends(data), array.array("Q", ends))
                    self.assertEqual(list(items(data, offsets=True)), list(zip([0, *ends], ends)))
                    self.assertEqual(list(items(data)), given)
                    self.assertEqual(canonicalise_items(data), (b"".join(canonical), array.array("Q", ends_of(canonical))))
            self.assertEqual(list(item_ends(b"".join(canonical), canonical=True)), ends_of(canonical))

    def test_orders(self):
        data = bytes.fromhex("a2 1864 00 20 00") * 2
        self.assertEqual(canonicalise_items(data)[0], data)
        self.assertEqual(canonicalise_items(data, order="length")[0], bytes.fromhex("a2 20 00 1864 00") * 2)
        self.assertEqual(list(item_ends(data, canonical=True)), [6, 12])
        with self.assertRaises(Refused):
            item_ends(data, canonical=True, order="length")

    def test_results_longer_than_the_input(self):
        one = b"\x9f" + b"\0" * 256 + b"\xff"
        data, ends = canonicalise_items(one * 50)
        self.assertEqual(data, (b"\x99\x01\x00" + b"\0" * 256) * 50)
        self.assertEqual(list(ends), [259 * (n + 1) for n in range(50)])
        with self.assertRaises(Refused) as raised:
            canonicalise_items(b"\0" + one, max_bytes=258)
        self.assertEqual((raised.exception.name, raised.exception.item, raised.exception.start), ("CanonicalTooLong", 2, 1))

    def test_refusals(self):
        for call in (item_ends, canonicalise_items, lambda data: list(items(data, offsets=True))):
            with self.assertRaises(Refused) as raised:
                call(b"\x18\x00\x61a\x82\xff")
            error = raised.exception
            self.assertEqual((error.item, error.start, error.reason, error.offset, error.consumed), (3, 4, 7, 1, 2))
        found = []
        iterator = items(b"\x18\x00\x61a\xff", offsets=True)
        with self.assertRaises(Refused):
            for pair in iterator:
                found.append(pair)
        self.assertEqual(found, [(0, 2), (2, 4)])
        self.assertEqual(list(iterator), [])
        for call in (item_ends, canonicalise_items):
            for wrong in ("text", 7, None):
                with self.assertRaises(TypeError):
                    call(wrong)
            self.assertEqual(call(b"\xa1\x80\x00") is not None, True)
            with self.assertRaises(Refused):
                call(b"\xa1\x80\x00", keys="basic")
            with self.assertRaises(Refused):
                call(b"\x81\x80", depth=1)

    def test_long_items(self):
        # past what is read with the lock held
        long = encoded(bytes(100_000))
        self.assertEqual(list(items(b"\0" + long + b"\1")), [b"\0", long, b"\1"])
        with self.assertRaises(Refused) as raised:
            list(items(b"\0" + long, max_bytes=20_000))
        self.assertEqual((raised.exception.name, raised.exception.offset), ("TooLong", 20_000))

    def test_an_iterator_of_several_threads(self):
        # arrays of small integers, whose lengths are in four bytes
        given = [b"\x9a" + (100_000 + n).to_bytes(4, "big") + bytes([n % 24]) * (100_000 + n) for n in range(60)]
        iterator, found, errors = items(b"".join(given)), [], []

        def take():
            while True:
                try:
                    found.append(next(iterator))
                except StopIteration:
                    return
                except ValueError as error:
                    errors.append(str(error))

        threads = [threading.Thread(target=take) for _ in range(4)]
        for thread in threads:
            thread.start()
        for thread in threads:
            thread.join()
        self.assertEqual(sorted(found), sorted(given))
        self.assertLessEqual(set(errors), {"another thread is in this iterator"})

    def test_a_buffer_that_changes_was_copied(self):
        data = bytearray(b"\x00\x61a")
        whole, pairs = items(data), items(memoryview(data), offsets=True)
        data[:] = b"\xff" * 50
        self.assertEqual((list(whole), list(pairs)), ([b"\x00", b"\x61a"], [(0, 1), (1, 3)]))

    def test_is_canonical(self):
        rng = random.Random(11)
        for _ in range(3000):
            value = some_value(rng, 3)
            data = any_encoding(value, rng)
            self.assertIs(is_canonical(data), data == encoded(value))
            self.assertIs(is_canonical(encoded(value, "length"), order="length"), True)
        for data in (b"", b"\0\0", b"\xf9\0\0", b"\x61\xff"):
            self.assertIs(is_canonical(data), False)
        self.assertIs(is_canonical(b"\xa1\x80\x00"), True)
        self.assertIs(is_canonical(b"\xa1\x80\x00", keys="basic"), False)


class Mapped(unittest.TestCase):
    @classmethod
    def setUpClass(cls):
        cls.given, cls.canonical = some_sequence(1, 20_000)

    def setUp(self):
        self.file = tempfile.TemporaryFile()
        self.addCleanup(self.file.close)
        self.file.write(b"".join(self.given))
        self.file.flush()

    def test_nothing_is_copied(self):
        data = b"".join(self.given)
        with mmap.mmap(self.file.fileno(), 0, access=mmap.ACCESS_READ) as mapped:
            tracemalloc.start()
            try:
                last = None
                for last in items(mapped, offsets=True):
                    pass
                most = tracemalloc.get_traced_memory()[1]
            finally:
                tracemalloc.stop()
            self.assertEqual(last[1], len(data))
            self.assertLess(most, len(data) // 10)
            self.assertEqual(list(item_ends(mapped)), ends_of(self.given))
            self.assertEqual(canonicalise_items(mapped)[0], b"".join(self.canonical))
            # a part of the file, as one of several workers takes it
            ends = item_ends(mapped)
            half = memoryview(mapped)[ends[9999] :]
            self.assertEqual(canonicalise_items(half)[0], b"".join(self.canonical[10_000:]))
            half.release()

    def test_the_file_is_held_until_the_iterator_ends(self):
        mapped = mmap.mmap(self.file.fileno(), 0, access=mmap.ACCESS_READ)
        iterator = items(mapped, offsets=True)
        next(iterator)
        with self.assertRaises(BufferError):
            mapped.close()
        del iterator
        gc.collect()
        mapped.close()
        mapped = mmap.mmap(self.file.fileno(), 0, access=mmap.ACCESS_READ)
        self.assertEqual(len(list(items(mapped))), 20_000)
        mapped.close()

    def test_single_items(self):
        with tempfile.TemporaryFile() as file:
            file.write(b"\x82\x18\x01\x02")
            file.flush()
            for access in (mmap.ACCESS_READ, mmap.ACCESS_COPY, mmap.ACCESS_WRITE):
                with mmap.mmap(file.fileno(), 0, access=access) as mapped:
                    self.assertEqual(naltvigo.canonicalise(mapped), b"\x82\x01\x02")
                    self.assertEqual(naltvigo.loads(mapped), [1, 2])
                    self.assertEqual(list(items(mapped)), [b"\x82\x18\x01\x02"])


if __name__ == "__main__":
    unittest.main()
