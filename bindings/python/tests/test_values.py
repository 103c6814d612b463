"""dumps and loads on values: round trips, types, limits, paths."""

import collections
import enum
import pickle
import random
import unittest

import naltvigo
from items import EDGES, any_encoding, encoded, head, some_value
from naltvigo import Encoded, FrozenDict, Refused, Simple, Tag, dumps, loads, undefined


class RoundTrips(unittest.TestCase):
    def test_values(self):
        rng = random.Random(7)
        for _ in range(4000):
            value = some_value(rng, 5)
            for order in ("bytewise", "length"):
                data = dumps(value, order=order)
                self.assertEqual(data, encoded(value, order))
                back = loads(data, canonical=True, order=order)
                self.assertEqual(back, value)
                self.assertEqual(dumps(back, order=order), data)  # 1 and True, list and tuple are equal: their bytes differ
            given = any_encoding(value, rng)
            self.assertEqual(naltvigo.canonicalise(given), encoded(value))
            self.assertEqual(loads(given), value)
            self.assertEqual(dumps(loads(given)), encoded(value))
            self.assertEqual(loads(bytearray(given)), value)
            self.assertEqual(loads(memoryview(b"x" + given)[1:]), value)

    def test_integers(self):
        for n in EDGES:
            self.assertEqual(dumps(n), head(0, n))
            self.assertEqual(dumps(-1 - n), head(1, n))
            self.assertEqual([loads(dumps(n)), loads(dumps(-1 - n))], [n, -1 - n])
        for n in (2**64, -(2**64) - 1, 10**5000, -(10**5000)):
            with self.assertRaisesRegex(OverflowError, "Tag"):
                dumps([n])
        self.assertEqual(loads(b"\xc2\x49\x01" + bytes(8)), Tag(2, b"\x01" + bytes(8)))

    def test_records_share_their_keys(self):
        # texts of keys are stored by their ends and length: those that collide stay different
        keys = [f"a{x}{y}b" for x in "0123456789" for y in "0123456789"] + ["k" * n for n in range(40)] + ["é", "", "漢字"]
        rows = [{key: n for n, key in enumerate(keys)} for _ in range(5)]
        data = encoded(rows)
        self.assertEqual(loads(data), rows)
        self.assertEqual(dumps(loads(data)), data)

    def test_large(self):
        for value in ([0] * 300_000, {n: str(n) for n in range(50_000)}, [[n] for n in range(40_000)], "é" * 400_000):
            data = dumps(value, max_bytes=1 << 24)
            self.assertEqual(data, encoded(value))
            self.assertEqual(loads(data, max_bytes=1 << 24), value)


class Types(unittest.TestCase):
    def test_subclasses(self):
        class Text(str):
            def encode(self, *_):
                return b"no"

        class Number(int):
            def __index__(self):
                return 9

            def __invert__(self):
                return 9

        class Kind(enum.IntEnum):
            ONE = 1

        class Table(dict):
            def items(self):
                raise AssertionError("a method of a subclass was called")

            __iter__ = keys = __getitem__ = __len__ = items

        class Row(list):
            def __iter__(self):
                raise AssertionError("a method of a subclass was called")

            __getitem__ = __len__ = __iter__

        Point = collections.namedtuple("Point", "x y")
        self.assertEqual(dumps(Text("t")), b"\x61t")
        self.assertEqual([dumps(Number(5)), dumps(Number(-(2**64)))], [b"\x05", b"\x3b" + b"\xff" * 8])
        self.assertEqual(dumps(Kind.ONE), b"\x01")
        self.assertEqual(dumps(Point(1, 2)), b"\x82\x01\x02")
        self.assertEqual(dumps([Table(b=1, a=2), Row([3])]), b"\x82\xa2\x61a\x02\x61b\x01\x81\x03")
        self.assertEqual(dumps(collections.OrderedDict(b=1, a=2)), b"\xa2\x61a\x02\x61b\x01")
        self.assertEqual(dumps(collections.Counter("aab")), b"\xa2\x61a\x02\x61b\x01")
        self.assertEqual(dumps([bytearray(b"x"), memoryview(b"abcd")[::2]]), b"\x82\x41x\x42ac")

    def test_no_values(self):
        for wrong in ({1.5: 2}, [1j], {1}, object(), frozenset(), range(2), int, Ellipsis, {1: {2: 3.5}}):
            with self.assertRaises(TypeError, msg=repr(wrong)):
                dumps(wrong)
        with self.assertRaisesRegex(TypeError, r"no floats: write an integer .*Tag\(4, \[-2, 314\]\)"):
            dumps(1.0)

    def test_encoded(self):
        self.assertEqual(dumps([Encoded(b"\xbf\x01\x02\x18\x00\x03\xff"), 5]), bytes.fromhex("82 a2 0003 0102 05"))
        long = b"\x9f" + b"\0" * 70000 + b"\xff"
        self.assertEqual(dumps(Encoded(long)), b"\x9a\x00\x01\x11\x70" + b"\0" * 70000)

        class Signed(Encoded):
            def __new__(cls, data, by):
                signed = super().__new__(cls, data)
                signed.by = by
                return signed

        self.assertEqual(dumps([Signed(b"\x9f\x01\xff", "me")]), b"\x81\x81\x01")
        for wrong in (b"", b"\0\0", b"\x82\0", b"\xf9\0\0"):
            with self.assertRaises(Refused) as raised:
                dumps([0, Encoded(wrong)])
            self.assertEqual(raised.exception.path[:4], "$[1]")
        # alone it is within the limits, and in its place it is not
        with self.assertRaises(Refused) as raised:
            dumps([[Encoded(b"\x81\x81\0")], 1], depth=3)
        self.assertEqual((raised.exception.name, raised.exception.path), ("TooDeep", "$[0][0][0]"))

    def test_default(self):
        self.assertEqual(dumps([1.5, {2j}], default=str), dumps(["1.5", "{2j}"]))
        self.assertEqual(dumps({1, 2}, default=sorted), dumps([1, 2]))
        self.assertEqual(dumps([{"a": {1.5}}], default=lambda o: [repr(one) for one in o]), dumps([{"a": ["1.5"]}]))
        with self.assertRaises(TypeError):
            dumps(1.5, default=lambda o: o)
        with self.assertRaises(Refused):
            dumps(1.5, default=lambda o: [o])
        with self.assertRaises(ZeroDivisionError) as raised:
            dumps([[2.5]], default=lambda o: 1 // 0)
        self.assertEqual(raised.exception.path, "$[0][0]")
        self.assertEqual(raised.exception.__notes__, ["default was called with <class 'float'>", "at $[0][0]"])
        with self.assertRaises(TypeError):
            loads(b"\0", default=None)

    def test_tags(self):
        self.assertEqual(Tag(1, [2]), Tag(1, [2]))
        self.assertNotEqual(Tag(1, 2), Tag(2, 2))
        self.assertNotEqual(Tag(1, 2), (1, 2))
        self.assertEqual(len({hash(Tag(number, content)) for number in range(100) for content in range(100)}), 10_000)
        self.assertEqual(hash(Tag(1, Tag(2, "a"))), hash(Tag(1, Tag(2, "a"))))
        with self.assertRaises(TypeError):
            hash(Tag(1, [2]))
        self.assertEqual(repr(Tag(1, [Simple(3), undefined])), "Tag(1, [Simple(3), undefined])")
        self.assertEqual(Tag.__match_args__, ("number", "content"))
        with self.assertRaises(AttributeError):
            Tag(1, 2).content = 3
        for wrong in (-1, 2**64):
            with self.assertRaises(OverflowError):
                Tag(wrong, 0)
        for wrong in ("1", 1.0, None, True):
            with self.assertRaises(TypeError):
                Tag(wrong, 0)

    def test_small_types(self):
        for value in (Tag(1, (2,)), Simple(3), FrozenDict({1: 2})):
            again = pickle.loads(pickle.dumps(value))
            self.assertEqual((again, hash(again)), (value, hash(value)))
        self.assertIs(pickle.loads(pickle.dumps(undefined)), undefined)
        self.assertFalse(undefined)
        for wrong in (20, 23, 24, 31, 256, -1):
            with self.assertRaises(ValueError):
                Simple(wrong)
        with self.assertRaises(TypeError):
            Simple(True)


class Limits(unittest.TestCase):
    def test_bytes(self):
        for n in range(40):
            value = bytes(n)
            for limit in range(n + 4):
                if limit >= len(encoded(value)):
                    self.assertEqual(dumps(value, max_bytes=limit), encoded(value))
                else:
                    with self.assertRaises(Refused) as raised:
                        dumps(value, max_bytes=limit)
                    self.assertEqual((raised.exception.name, raised.exception.offset), ("TooLong", limit))
        wide = [0] * 1000
        for _ in range(8):
            wide = [wide] * 1000  # 10**27 bytes
        with self.assertRaises(Refused) as raised:
            dumps(wide)
        self.assertEqual((raised.exception.name, raised.exception.offset), ("TooLong", 1 << 20))
        with self.assertRaises(Refused) as raised:
            dumps([0, bytes(1 << 26), 1], max_bytes=100)
        self.assertEqual((raised.exception.name, raised.exception.offset, raised.exception.path), ("TooLong", 100, "$[1]"))

    def test_nothing_past_the_limit_is_looked_at(self):
        for value, fits in ((b"12345", 7), ("12345", 7), (Encoded(b"\x84\1\2\3\4"), 6)):
            for limit in range(fits):
                with self.assertRaises(Refused) as raised:
                    dumps([value, object()], max_bytes=limit)
                self.assertEqual((raised.exception.name, raised.exception.offset), ("TooLong", limit))
            with self.assertRaises(TypeError):
                dumps([value, object()], max_bytes=fits)

    def test_depth(self):
        deep = 0
        for _ in range(1024):
            deep = [deep]
        data = dumps(deep, depth=1024)
        self.assertEqual(data, b"\x81" * 1024 + b"\0")
        self.assertEqual(dumps(loads(data, depth=1024), depth=1024), data)
        for call in (lambda: dumps([deep], depth=1024), lambda: loads(b"\x81" * 100000, depth=1024)):
            with self.assertRaises(Refused) as raised:
                call()
            self.assertEqual(raised.exception.name, "TooDeep")

    def test_canonical_bytes_longer_than_the_input(self):
        # one limit for the input and for its canonical bytes, in every call that makes these
        data = b"\x9f" + b"\0" * 256 + b"\xff"
        for call in (loads, naltvigo.canonicalise, naltvigo.canonicalise_items, lambda data, **limit: dumps(Encoded(data), **limit)):
            with self.assertRaises(Refused) as raised:
                call(data, max_bytes=258)
            self.assertEqual(raised.exception.name, "CanonicalTooLong")
            call(data, max_bytes=259)
        naltvigo.check(data, max_bytes=258)
        self.assertEqual(loads(data, max_bytes=259), [0] * 256)

    def test_wrong_options(self):
        wrong = [("depth", 1025), ("depth", -1), ("max_bytes", 2**62 + 1), ("max_bytes", 2**70), ("order", "x"), ("keys", 3)]
        for name, value in wrong:
            with self.assertRaises(ValueError):
                dumps(0, **{name: value})
        for options in ({"depth": "1"}, {"depth": True}, {"max_bytes": False}, {"deep": 1}, {"canonical": True}, {"offsets": True}):
            with self.assertRaises(TypeError):
                dumps(0, **options)

    def test_operands(self):
        self.assertEqual([dumps(value=5), loads(data=b"\5"), naltvigo.same(left=b"\0", right=b"\0")], [b"\5", 5, True])
        self.assertEqual(naltvigo.same(b"\0", right=b"\1"), False)
        for call in (dumps, lambda: dumps(1, 2), lambda: dumps(1, value=1), lambda: naltvigo.same(b"\0"), lambda: loads()):
            with self.assertRaises(TypeError):
                call()


class Paths(unittest.TestCase):
    def test_dumps(self):
        for value, options, error, path in (
            ({"a": [0, {"b": Tag(24, (7, 1.5))}]}, {}, TypeError, '$."a"[1]."b"(24)[1]'),
            ([["fine", "\ud800"]], {}, UnicodeEncodeError, "$[0][1]"),
            ({"\ud800": 1}, {}, UnicodeEncodeError, "$, key 1 of the map at 0"),
            ([1, [2**64]], {}, OverflowError, "$[1][0]"),
            ({"x": [[[]]]}, {"depth": 3}, Refused, '$."x"[0][0]'),
            ([{b"k": 0}], {"keys": "basic"}, Refused, "$[0], key 1 of the map at 1"),
            ([0, {1: 2, (1.5,): 3}], {}, TypeError, "$[1], key 2 of the map at 2[0]"),
            (1.5, {}, TypeError, "$"),
            ([{1: 0, 2: Encoded(b"\x81\xf9")}], {}, Refused, "$[0].2[0]"),
        ):
            with self.subTest(value=value), self.assertRaises(error) as raised:
                dumps(value, **options)
            self.assertEqual(raised.exception.path, path)
            # a traceback shows the path: in the text of Refused, in a note of any other exception
            notes = [f"at {path}"] if error is not Refused and path != "$" else []
            self.assertEqual(getattr(raised.exception, "__notes__", []), notes)

    def test_same(self):
        for left, right, side, path in (("8100", "8261610082", "right", "$"), ("a1 61 78 82 00", "00", "left", '$."x"[1]'), ("00", "a1 61 79 82 00", "right", '$."y"[1]')):
            with self.assertRaises(Refused) as raised:
                naltvigo.same(bytes.fromhex(left), bytes.fromhex(right))
            self.assertEqual((raised.exception.side, raised.exception.path), (side, path))

    def test_long_paths(self):
        # the explanation has more bytes than most
        for count in (1, 50, 500, 1000):
            value = 1.5
            for n in range(count):
                value = {"k" * 40 + str(n): value}
            with self.assertRaises(TypeError) as raised:
                dumps(value, depth=1024)
            self.assertEqual(raised.exception.path, "$" + "".join(f'."{"k" * 40}{n}"' for n in reversed(range(count))))

    def test_a_refusal_keeps_its_path(self):
        with self.assertRaises(Refused) as raised:
            dumps([[[0]]], depth=2)
        again = pickle.loads(pickle.dumps(raised.exception))
        self.assertEqual((again.path, str(again)), ("$[0][0]", str(raised.exception)))

    def test_loads(self):
        for given, path in (
            ("a2 01 00 f5 00", "$"),
            ("82 00 a161 78 82 00 a2 00 00 f4 00", '$[1]."x"[1]'),
            ("a1 c1 a2 00 00 f4 00 00", "$, key 1 of the map at 0(1)"),
            ("81 d863 a2 00 00 f4 00", "$[0](99)"),
        ):
            with self.subTest(given=given), self.assertRaisesRegex(ValueError, "equal in Python") as raised:
                loads(bytes.fromhex(given))
            self.assertEqual(raised.exception.path, path)


if __name__ == "__main__":
    unittest.main()
