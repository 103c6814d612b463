"""Checker: what it says of bytes in parts, next to check_canonical of all bytes so far."""

import copy
import itertools
import pickle
import random
import sys
import threading
import time
import unittest

from items import any_encoding, encoded, head, some_value
from naltvigo import Checker, Refused, check_canonical, check_stream
from test_naltvigo import ORDERS, TABLES, result_of, rows_of
from times import least_time

TRUNCATED, TRAILING = 1, 12


def parts_of(data, size):
    return [data[at : at + size] for at in range(0, len(data), size)]


def word_on(data, **options):
    """What check_canonical says of the item that these bytes begin: its number of bytes, or the refusal; None if it continues."""
    said = result_of(check_canonical, data, **options)
    if said is None:
        return len(data)
    return said[1] if said[0] == TRAILING else None if said[0] == TRUNCATED else said


class Parts(unittest.TestCase):
    """After each part the checker returns what the library returns for all bytes so far."""

    def feed(self, checker, data, words, ends, kind=bytes):
        """Feeds the parts that end here; words[n] is the word on the first n bytes."""
        checker.restart()
        begin, word = 0, None
        for end in ends:
            word = words[end]
            consumed = end if word is None else word if isinstance(word, int) else word[2]
            said = result_of(checker.feed, kind(data[begin:end]))
            self.assertEqual(said, word if isinstance(word, tuple) else word is not None)
            found = checker.complete, checker.consumed, checker.used
            self.assertEqual(found, (isinstance(word, int), consumed, consumed - begin))
            begin = end
            if word is not None:
                break
        self.assertEqual(result_of(checker.end), (TRUNCATED, begin, begin) if word is None else word)
        if word is not None:
            # it stays so, and uses nothing
            for more in (b"\xff", b""):
                self.assertEqual(result_of(checker.feed, more), word if isinstance(word, tuple) else True)
                self.assertEqual((checker.consumed, checker.used), (consumed, 0))

    def check(self, data, rng, **options):
        checker, length = Checker(**options), len(data)
        words = [word_on(data[:n], **options) for n in range(length + 1)]
        for at in range(0, length + 1, 1 + length // 300):
            self.feed(checker, data, words, (at, length))
        self.feed(checker, data, words, range(length + 1))
        for kind in (bytes, bytearray, memoryview):
            ends = sorted(rng.choices(range(length + 1), k=rng.randrange(8)))
            self.feed(checker, data, words, [*ends, length], kind)

    def test_rows(self):
        rng = random.Random(1)
        for given, (depth, most, keys), _ in rows_of(TABLES):
            for order in ORDERS:
                with self.subTest(given=given, order=order):
                    self.check(bytes.fromhex(given), rng, order=order, depth=depth, max_bytes=most, keys=keys)

    def test_random_items(self):
        rng = random.Random(2)
        for turn in range(300):
            value, order = some_value(rng, 4), rng.choice(ORDERS)
            data = rng.choice((encoded(value, order), any_encoding(value, rng)))[:400] + rng.choice((b"", b"\0"))
            with self.subTest(data=data.hex(), order=order):
                self.check(data, rng, order=order, max_bytes=rng.choice((20, 1 << 20)), keys=rng.choice(("any", "basic")))

    def test_levels(self):
        # {0: {0: .. }}, maps as keys, arrays and tags, byte by byte, and one level too many
        for opening, closing in ((b"\xa1\0", b""), (b"\xa1", b"\0"), (b"\x81", b""), (b"\xc1", b"")):
            for levels in (1023, 1024, 1025):
                data, checker = opening * levels + b"\0" + closing * levels, Checker(depth=1024)
                said = result_of(lambda: [checker.feed(bytes([byte])) for byte in data][-1])
                at = len(opening) * 1024
                self.assertEqual(said, True if levels < 1025 else (9, at, at + 1))
                self.assertEqual(said, True if levels < 1025 else word_on(data, depth=1024))

    def test_keys_of_a_mebibyte(self):
        size = 1 << 20
        key = head(3, size) + b"a" * (size - 1)
        for last, size_of_part in itertools.product("Za", (64, 4096, 1 << 22)):
            data = b"\xa2" + key + b"Z\0" + key + last.encode() + b"\0"
            checker, wrong = Checker(max_bytes=1 << 24), (16, 2 + len(key) + 1, len(data) - 1)
            said = result_of(lambda: [checker.feed(part) for part in parts_of(data, size_of_part)][-1])
            self.assertEqual(said, wrong if last == "Z" else True)
            self.assertEqual(checker.consumed, len(data) - (last == "Z"))

    def test_sizes(self):
        # below and above where the lock is released, the part of a file, and both within an item
        for size, first in itertools.product((16382, 16383, 16384, 16385, 65535, 65536, 65537), (0, 1, 40_000)):
            data = head(4, first + size) + b"\0" * (first + size)
            for kind in (bytes, bytearray):
                checker, at = Checker(), len(data) - size
                self.assertIs(checker.feed(kind(data[:at])), False)
                self.assertIs(checker.feed(kind(data[at:] + b"\xff")), True)
                self.assertEqual((checker.used, checker.consumed), (size, len(data)))
                self.assertEqual(checker.end(), len(data))


class Time(unittest.TestCase):
    def test_time(self):
        # 4 MB in 3,000 parts take at most five times as long as in one, and not much longer than check_canonical
        data = encoded([{"id": n, "name": f"name {n}", "tags": ["a", "b", n % 7], "data": bytes(40)} for n in range(50_000)])
        self.assertGreater(len(data), 4_000_000)
        options = {"max_bytes": 1 << 23}

        def feed(parts):
            checker = Checker(**options)
            self.assertTrue([checker.feed(part) for part in parts][-1])

        small, whole = parts_of(data, 1400), [data]
        for _ in range(3):  # again if other processes disturbed it
            took, usual = least_time(lambda: feed(small), 3), least_time(lambda: feed(whole), 3)
            check = least_time(lambda: check_canonical(data, **options), 3)
            if took < 5 * usual and usual < 50 * check:
                return
        self.fail(f"{took * 1e3:.0f} ms in parts, {usual * 1e3:.0f} ms in one, {check * 1e3:.0f} ms by check_canonical")


class Use(unittest.TestCase):
    def test_end_of_an_item_that_goes_on(self):
        checker = Checker()
        for n, byte in enumerate(b"\x82\x18\x64"):
            self.assertEqual(result_of(checker.end), (TRUNCATED, n, n))
            checker.feed(bytes([byte]))
        self.assertTrue(checker.feed(b"\x01"))
        self.assertEqual((checker.end(), checker.end()), (4, 4))

    def test_a_sequence(self):
        rng, checker, found = random.Random(3), Checker(), []
        given = [encoded(some_value(rng, 3)) for _ in range(300)]
        for part in parts_of(b"".join(given), 70):
            while part:
                if checker.feed(part):
                    found.append(checker.end())
                part = part[checker.used :]
                if checker.complete:
                    checker.restart()
        self.assertEqual(found, [len(one) for one in given])

    def test_the_order_stays(self):
        by_length = b"\xa2\x20\0\x18\x64\0"
        checker = Checker(order="length", depth=1, max_bytes=6, keys="basic")
        for _ in range(2):
            self.assertTrue(checker.feed(by_length))
            checker.restart()
            for wrong, refusal in ((b"\x81\x80", (9, 1, 2)), (bytes([0x18, 0x64] * 4), True), (b"\xa1\x40", (20, 1, 2)), (b"\x87" + bytes(7), (2, 6, 6))):
                self.assertEqual(result_of(checker.feed, wrong), refusal)
                checker.restart()
                self.assertEqual((checker.complete, checker.consumed, checker.used), (False, 0, 0))
        self.assertEqual(result_of(Checker().feed, by_length), (16, 3, 5))

    def test_refused(self):
        checker = Checker()
        checker.feed(b"\x82\0")
        with self.assertRaises(Refused) as raised:
            checker.feed(b"\0\0" if checker.complete else b"\x18\0")
        error = raised.exception
        self.assertEqual((error.name, error.offset, error.consumed, error.path, error.item), ("NotShortest", 2, 4, "$", None))
        self.assertTrue(error.sentence and error.advice)
        with self.assertRaises(Refused) as again:
            checker.end()
        self.assertEqual(str(again.exception), str(error))
        self.assertIsNot(again.exception, error)

    def test_options(self):
        for wrong in ({"depth": 1025}, {"depth": -1}, {"max_bytes": (1 << 62) + 1}, {"order": "x"}, {"keys": "texts"}):
            for call in (Checker, lambda **options: check_stream(None, **options)):
                with self.assertRaises(ValueError):
                    call(**wrong)
        for wrong in ({"depth": True}, {"max_bytes": "1"}, {"canonical": True}, {"part": b""}):
            with self.assertRaises(TypeError):
                Checker(**wrong)
        with self.assertRaisesRegex(TypeError, "^keywords must be strings$"):
            Checker(**{1: 2})
        with self.assertRaisesRegex(TypeError, r"^Checker\(\) takes 0 positional arguments, and got 1$"):
            Checker(b"")

    def test_what_is_no_buffer(self):
        checker = Checker()
        checker.feed(b"\x82\0")
        for wrong in ("text", 7, None, [b""]):
            with self.assertRaises(TypeError):
                checker.feed(wrong)
        self.assertEqual((checker.consumed, checker.used), (2, 2))
        self.assertTrue(checker.feed(memoryview(b"\0-")[::2]))

    def test_no_copies(self):
        checker = Checker()
        for call in (copy.copy, copy.deepcopy, *(lambda it, n=n: pickle.dumps(it, n) for n in range(6))):
            with self.assertRaisesRegex(TypeError, "^a Checker cannot be copied or pickled$"):
                call(checker)
        for name in ("complete", "consumed", "used", "other"):
            with self.assertRaises(AttributeError):
                setattr(checker, name, 1)
        with self.assertRaises(TypeError):
            type("Own", (Checker,), {})


class Threads(unittest.TestCase):
    def test_one_at_a_time(self):
        # the other thread's calls are seen to be refused, so the lock is released while a long part is checked
        big = head(4, 1 << 22) + b"\0" * (1 << 22)
        checker, done = Checker(max_bytes=1 << 24), threading.Event()

        def work():
            while not done.is_set():
                result_of(checker.feed, big)
                try:
                    checker.restart()
                except ValueError:
                    pass

        thread = threading.Thread(target=work)
        thread.start()
        try:
            for call in (lambda: checker.feed(b""), checker.end, checker.restart):
                self.assertEqual(self.error_of(call), "another call is in this checker")
        finally:
            done.set()
            thread.join()

    def error_of(self, call):
        deadline = time.monotonic() + 30
        while time.monotonic() < deadline:
            try:
                call()
            except Refused:
                pass
            except ValueError as error:
                return str(error)
        return None

    def test_a_part_that_changes(self):
        # what is checked is what the part was when the call was made
        size = 1 << 17
        good, bad = head(4, size) + b"\0" * size, b"\xff" * (size + 5)
        data, done, found = bytearray(good), threading.Event(), set()

        def change():
            for now in itertools.cycle((bad, good)):
                if done.is_set():
                    return
                data[:] = now
                time.sleep(0)

        thread = threading.Thread(target=change)
        thread.start()
        try:
            for _ in range(300):
                found.add(result_of(Checker().feed, data))
        finally:
            done.set()
            thread.join()
        self.assertLessEqual(found, {True, (7, 0, 1)})
        data.extend(b"nothing holds it")

    @unittest.skipUnless(sys.version_info >= (3, 12), "Python has no __buffer__ before 3.12")
    def test_a_buffer_that_calls(self):
        class Calling:
            def __buffer__(self, flags):
                errors.update(map(error_of, (lambda: checker.feed(b""), checker.end, checker.restart)))
                return memoryview(b"\x81\0")

        checker, errors, error_of = Checker(), set(), self.error_of
        self.assertTrue(checker.feed(Calling()))
        self.assertEqual(errors, {"another call is in this checker"})


if __name__ == "__main__":
    unittest.main()
