"""Tests of the package, as it is installed. The repository's tables of inputs and results are its vectors.

python3 -m unittest discover bindings/python/tests
"""

import array
import pickle
import re
import sys
import threading
import time
import tracemalloc
import unittest
from pathlib import Path

import naltvigo
from naltvigo import Refused

ROOT = Path(__file__).resolve().parents[3]
sys.path.insert(0, str(ROOT / "c"))
from rows import pairs_of, rows_of  # noqa: E402

TABLES = sorted((ROOT / "crates/cbor_reader_tests/src/tests").glob("*_table.rt"))
EVENTS = ROOT / "crates/cbor_events_tests/src/tests/tables.rt"
ORDERS = ("bytewise", "length")


def result_of(call, *words, **more):
    """What a call returns, or the refusal as three numbers."""
    try:
        return call(*words, **more)
    except Refused as refused:
        return (refused.reason, refused.offset, refused.consumed)


class Rows(unittest.TestCase):
    """Each row of the conformance tables, with each call that it is about."""

    def rows(self):
        for given, (depth, most, keys), results in rows_of(TABLES):
            limits = dict(depth=depth, max_bytes=most, keys=keys)
            for order, (canonical, refusal, strict) in zip(ORDERS, results):
                yield bytes.fromhex(given), limits, order, canonical, refusal, strict

    def test_canonicalise(self):
        for data, limits, order, canonical, refusal, _ in self.rows():
            wanted = refusal or bytes.fromhex(canonical)
            for buffer in (data, bytearray(data), memoryview(data)):
                with self.subTest(data=data.hex(), order=order):
                    self.assertEqual(result_of(naltvigo.canonicalise, buffer, order=order, **limits), wanted)

    def test_check_canonical(self):
        for data, limits, order, _, _, strict in self.rows():
            with self.subTest(data=data.hex(), order=order):
                self.assertEqual(result_of(naltvigo.check_canonical, data, order=order, **limits), strict)

    def test_check_and_diagnostic(self):
        for data, limits, _, canonical, refusal, _ in self.rows():
            with self.subTest(data=data.hex()):
                # only canonicalise has the limit on canonical bytes
                wanted = None if refusal and refusal[0] == 13 else refusal
                self.assertEqual(result_of(naltvigo.check, data, **limits), wanted)
                text = result_of(naltvigo.diagnostic, data, **limits)
                self.assertEqual(text, wanted) if wanted else self.assertIsInstance(text, str)
                if canonical is not None:
                    self.assertTrue(naltvigo.same(data, bytes.fromhex(canonical), **limits))

    def test_items(self):
        for data, limits, _, _, refusal, _ in self.rows():
            with self.subTest(data=data.hex()):
                if refusal is None and data:
                    self.assertEqual(list(naltvigo.items(data, **limits)), [data])
                    self.assertEqual(list(naltvigo.items(data + data, **limits)), [data, data])

    def test_pairs(self):
        for left, right, (result, refusal) in pairs_of(TABLES):
            with self.subTest(left=left, right=right):
                words = bytes.fromhex(left), bytes.fromhex(right)
                if refusal is None:
                    self.assertIs(naltvigo.same(*words, depth=256), result == "same")
                    continue
                with self.assertRaises(Refused) as raised:
                    naltvigo.same(*words, depth=256)
                error = raised.exception
                self.assertEqual((error.side, error.reason, error.offset, error.consumed), (result, *refusal))
                self.assertTrue(str(error).startswith(f"{result} refused "))


class Events(unittest.TestCase):
    def rows(self):
        text = EVENTS.read_text(encoding="utf-8")
        body = re.search(r'static ACCEPTED: &str = r#"\n(.*?)\n"#;', text, re.S)[1]
        rows = ([column.strip() for column in line.split("|", 4)] for line in body.splitlines())
        return [(text, given, events) for given, _, events, _, text in rows]

    def reported(self, chunks):
        joined = []
        for event in naltvigo.events(chunks, depth=256):
            if event.kind == "piece" and joined and joined[-1].kind == "piece":
                last = joined.pop()
                event = last._replace(number=last.number + event.number, data=last.data + event.data)
            joined.append(event)
        return joined

    def test_rows(self):
        rows = self.rows()
        self.assertGreater(len(rows), 40)
        for _, given, wanted in rows:
            data = bytes.fromhex(given)
            for chunks in (data, [data], [bytes([byte]) for byte in data], [b"", data[:2], bytearray(data[2:]), b""]):
                with self.subTest(given=given):
                    reported = self.reported(chunks)
                    words = " ".join(
                        " ".join(str("-" if it is None else it) for it in (e.offset, e.kind, e.number, e.width)) for e in reported
                    )
                    self.assertEqual(words.replace("break", "end"), " ".join(wanted.split()))
                    for event in reported:
                        if event.kind == "piece":
                            self.assertEqual(event.data, data[event.offset : event.offset + event.number])

    def test_texts(self):
        for text, given, _ in self.rows():
            # some comments mention a missing length, which values do not have, or give the text in other words; and some
            # rows are well-formed alone
            if not re.search(r"_|\.\.|U\+", text) and result_of(naltvigo.check, bytes.fromhex(given)) is None:
                with self.subTest(given=given):
                    self.assertEqual(naltvigo.diagnostic(bytes.fromhex(given)), text)

    def test_refusals_come_after_the_events_before_them(self):
        for chunks, kinds, refusal in (
            ([b"\x82\x01"], ["array", "unsigned"], (1, 2, 2)),
            ([], [], (1, 0, 0)),
            ([b"\x82\x01", b"\xf9"], ["array", "unsigned"], (5, 2, 3)),
            ([b"\x01\x02"], ["unsigned"], (12, 1, 1)),
            ([b"\x01", b"", b"\x02"], ["unsigned"], (12, 1, 1)),
        ):
            reported = []
            with self.assertRaises(Refused) as raised:
                for event in naltvigo.events(chunks):
                    reported.append(event.kind)
            self.assertEqual(reported, kinds)
            error = raised.exception
            self.assertEqual((error.reason, error.offset, error.consumed), refusal)

    def test_limits(self):
        self.assertEqual(result_of(lambda: list(naltvigo.events(b"\x82\x01", max_bytes=2))), (2, 2, 2))
        self.assertEqual(result_of(lambda: list(naltvigo.events(b"\x81\x80", depth=1))), (9, 1, 2))

    def test_a_chunk_that_changes(self):
        # an event's data stay, and a bytearray may change after its event
        chunk = bytearray(b"\x42ab")
        event = list(naltvigo.events([chunk]))[1]
        chunk[1:] = b"xy"
        self.assertEqual(event.data, b"ab")


class Sequences(unittest.TestCase):
    def test_refused_after_those_before(self):
        found = []
        with self.assertRaises(Refused) as raised:
            for item in naltvigo.items(b"\x18\x00\x61a\xff"):
                found.append(item)
        self.assertEqual(found, [b"\x18\x00", b"\x61a"])
        error = raised.exception
        self.assertEqual((error.item, error.start, error.reason, error.offset, error.consumed), (3, 4, 7, 0, 1))
        self.assertTrue(str(error).startswith("item 3 refused 7 StrayBreak at 0: "))

    def test_canonical_ones(self):
        self.assertEqual(list(naltvigo.items(b"\x00\x61a", canonical=True)), [b"\x00", b"\x61a"])
        self.assertEqual(result_of(lambda: list(naltvigo.items(b"\x18\x00", canonical=True))), (14, 0, 2))
        keys = b"\xa2\x20\x00\x18\x64\x00"
        self.assertEqual(list(naltvigo.items(keys, canonical=True, order="length")), [keys])
        self.assertEqual(result_of(lambda: list(naltvigo.items(keys, canonical=True)))[0], 16)

    def test_none(self):
        self.assertEqual(list(naltvigo.items(b"")), [])


class Words(unittest.TestCase):
    """What is given with the input."""

    CALLS = ("canonicalise", "check", "check_canonical", "diagnostic", "items", "events")

    def test_limits_out_of_range(self):
        for name in self.CALLS:
            for words in (dict(depth=-1), dict(depth=1025), dict(depth=1 << 32), dict(max_bytes=-1), dict(max_bytes=(1 << 62) + 1)):
                with self.subTest(name=name, words=words), self.assertRaises(ValueError) as raised:
                    getattr(naltvigo, name)(b"\x00", **words)
                self.assertNotIsInstance(raised.exception, Refused)
        self.assertEqual(naltvigo.canonicalise(b"\x00", depth=0, max_bytes=1 << 62), b"\x00")
        # a limit of another type is reported as one, in range or not
        for name in (*self.CALLS, "same"):
            inputs = [b"\x00"] * (2 if name == "same" else 1)
            for limit in (1.5, 1e6, 2000.5, -0.5, "1", b"", None, True):
                for word in ("depth", "max_bytes"):
                    said = f"^{word} is an integer, and not {type(limit).__name__}$"
                    with self.subTest(name=name, word=word, limit=limit), self.assertRaisesRegex(TypeError, said):
                        getattr(naltvigo, name)(*inputs, **{word: limit})

    def test_orders(self):
        for name in ("canonicalise", "check_canonical", "items"):
            with self.subTest(name=name), self.assertRaises(ValueError):
                getattr(naltvigo, name)(b"\x00", order="shortest")

    def test_kinds_of_keys(self):
        data = b"\xa1\x80\x00"
        results = dict(canonicalise=data, check=None, check_canonical=None, diagnostic="{[]: 0}")
        for name, wanted in results.items():
            with self.subTest(name=name):
                call = getattr(naltvigo, name)
                self.assertEqual(result_of(call, data, keys="basic"), (20, 1, 2))
                self.assertEqual(call(data, keys="any"), wanted)
                self.assertEqual(call(data), wanted)
        for canonical in (False, True):
            found = naltvigo.items(b"\x00\xa1\x80\x00", keys="basic", canonical=canonical)
            self.assertEqual(next(found), b"\x00")
            self.assertEqual(result_of(next, found), (20, 1, 2))
        with self.assertRaises(Refused) as raised:
            naltvigo.same(b"\x00", b"\xa1\x80\x00", keys="basic")
        self.assertEqual((raised.exception.side, raised.exception.name), ("right", "KeyKind"))

    def test_other_kinds_of_keys(self):
        for name in ("canonicalise", "check", "check_canonical", "diagnostic", "items"):
            with self.subTest(name=name), self.assertRaises(ValueError) as raised:
                getattr(naltvigo, name)(b"\x00", keys="texts")
            self.assertNotIsInstance(raised.exception, Refused)

    def test_no_buffer(self):
        for name in self.CALLS:
            for data in ("text", 7, None):
                with self.subTest(name=name, data=data), self.assertRaises(TypeError):
                    list(getattr(naltvigo, name)(data) or ())

    def test_other_buffers(self):
        self.assertEqual(naltvigo.canonicalise(array.array("B", b"\x18\x00")), b"\x00")
        self.assertEqual(naltvigo.canonicalise(memoryview(b"\x18-\x00-")[::2]), b"\x00")
        self.assertEqual([it.kind for it in naltvigo.events(array.array("B", b"\x18\x00"))], ["unsigned"])

    def test_defaults(self):
        self.assertEqual(result_of(naltvigo.check, b"\x81" * 64 + b"\x80"), (9, 64, 65))
        self.assertIsNone(result_of(naltvigo.check, b"\x81" * 63 + b"\x80"))
        text = b"\x7a\x00\x0f\xff\xfb" + b"a" * 0xFFFFB
        self.assertIsNone(result_of(naltvigo.check, text))
        self.assertEqual(result_of(naltvigo.check, b"\x81" + text), (2, 1 << 20, 1 << 20))


class Rest(unittest.TestCase):
    def test_results_of_all_sizes(self):
        # around the sizes of buffers, and results longer than their input
        for count in (0, 1, 255, 256, 4090, 4091, 4092, 4093, 4096, 70000):
            with self.subTest(count=count):
                data = b"\x9f" + b"\x00" * count + b"\xff"
                head = b"\x80" if count == 0 else None
                self.assertEqual(naltvigo.canonicalise(b"\x5b" + count.to_bytes(8, "big") + data[1:-1]), naltvigo.dumps(data[1:-1]))
                result = naltvigo.canonicalise(data)
                self.assertEqual(result[-count:] if count else b"", b"\x00" * count)
                if head:
                    self.assertEqual(result, head)
                self.assertEqual(naltvigo.canonicalise(result), result)
                self.assertEqual(naltvigo.diagnostic(data), "[" + ", ".join("0" * count) + "]")

    def test_an_input_far_longer_than_the_limit(self):
        # refused as ever, and without space by the input's length
        endless, trailing = b"\x9f" + b"\x00" * (1 << 24), b"\x00" * (1 << 24)
        for name in ("canonicalise", "diagnostic"):
            for data, wanted in ((endless, (2, 10, 10)), (trailing, (12, 1, 1))):
                with self.subTest(name=name, wanted=wanted):
                    tracemalloc.start()
                    try:
                        result = result_of(getattr(naltvigo, name), data, max_bytes=10)
                        most = tracemalloc.get_traced_memory()[1]
                    finally:
                        tracemalloc.stop()
                    self.assertEqual(result, wanted)
                    self.assertLess(most, 1 << 20)
        # at the limit nothing changes
        self.assertEqual(naltvigo.canonicalise(b"\x18\x00", max_bytes=2), b"\x00")
        self.assertEqual(naltvigo.diagnostic(b"\x42\x00\x00", max_bytes=3), "h'0000'")

    def test_refused(self):
        with self.assertRaises(Refused) as raised:
            naltvigo.canonicalise(b"\xa2\x00\x01\x00\x02")
        error = pickle.loads(pickle.dumps(raised.exception))
        self.assertEqual((error.reason, error.name, error.offset, error.consumed), (11, "RepeatedKey", 3, 4))
        self.assertEqual((error.sentence, error.advice, error.path), (raised.exception.sentence, raised.exception.advice, "$, key 2 of the map at 0"))
        self.assertEqual(str(error), str(raised.exception))
        self.assertIn(f"{error.sentence} {error.advice}", str(error))
        self.assertIsInstance(error, ValueError)

    def test_names_are_those_of_the_header(self):
        header = re.sub(r"/\*.*?\*/", "", (ROOT / "include/naltvigo.h").read_text(), flags=re.S)
        found = {}
        for given, (depth, most, keys), _ in rows_of(TABLES):
            for call in (naltvigo.check, naltvigo.check_canonical, naltvigo.canonicalise):
                try:
                    call(bytes.fromhex(given), depth=depth, max_bytes=most, keys=keys)
                except Refused as refused:
                    found[refused.reason] = refused.name
        self.assertEqual(set(found), {*range(1, 17), 20})
        for number, name in found.items():
            snake = re.sub(r"(?<!^)(?=[A-Z])", "_", name).upper()
            self.assertRegex(header, rf"\bNALTVIGO_{snake} = {number}\b")

    def test_threads(self):
        faults = []

        def work(number):
            for turn in range(3000):
                data = b"\x9f" + bytes([number]) * (turn % 40) + b"\xff"
                if naltvigo.diagnostic(data).count(str(number)) != turn % 40:
                    faults.append(data)
                if result_of(naltvigo.check, bytes([number, number])) != (12, 1, 1):
                    faults.append(number)

        threads = [threading.Thread(target=work, args=(number,)) for number in range(1, 9)]
        for thread in threads:
            thread.start()
        for thread in threads:
            thread.join()
        self.assertEqual(faults, [])

    def test_the_lock_is_not_held(self):
        # no thread yields by itself for ten seconds, so another one counts only while a call has released the lock
        data = b"\x9f" + b"\xa1\x00\x00" * (1 << 22) + b"\xff"
        counted, done = [0], threading.Event()

        def count():
            while not done.is_set():
                counted[0] += 1
                time.sleep(0)

        interval = sys.getswitchinterval()
        sys.setswitchinterval(10)
        thread = threading.Thread(target=count)
        thread.start()
        try:
            before = counted[0]
            naltvigo.check(data, max_bytes=1 << 30)
            after = counted[0]
        finally:
            done.set()
            sys.setswitchinterval(interval)
            thread.join()
        self.assertGreater(after, before)

    def test_version(self):
        self.assertEqual(naltvigo.__version__, (ROOT / "VERSION").read_text().strip())


if __name__ == "__main__":
    unittest.main()
