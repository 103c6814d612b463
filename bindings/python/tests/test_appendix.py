"""The examples of RFC 8949, Appendix A, that have no float, as values; and each row of the conformance tables by loads."""

import unittest

from naltvigo import FrozenDict, Simple, Tag, dumps, loads, undefined
from test_naltvigo import ORDERS, TABLES, result_of, rows_of

UP_TO_25 = list(range(1, 26))

# The bytes of the appendix, the value, and the canonical bytes where these are others.
EXAMPLES = [
    ("00", 0),
    ("01", 1),
    ("0a", 10),
    ("17", 23),
    ("1818", 24),
    ("1819", 25),
    ("1864", 100),
    ("1903e8", 1000),
    ("1a000f4240", 1000000),
    ("1b000000e8d4a51000", 1000000000000),
    ("1bffffffffffffffff", 18446744073709551615),
    ("c249010000000000000000", Tag(2, bytes.fromhex("010000000000000000"))),
    ("3bffffffffffffffff", -18446744073709551616),
    ("c349010000000000000000", Tag(3, bytes.fromhex("010000000000000000"))),
    ("20", -1),
    ("29", -10),
    ("3863", -100),
    ("3903e7", -1000),
    ("f4", False),
    ("f5", True),
    ("f6", None),
    ("f7", undefined),
    ("f0", Simple(16)),
    ("f8ff", Simple(255)),
    ("c074323031332d30332d32315432303a30343a30305a", Tag(0, "2013-03-21T20:04:00Z")),
    ("c11a514b67b0", Tag(1, 1363896240)),
    ("d74401020304", Tag(23, bytes.fromhex("01020304"))),
    ("d818456449455446", Tag(24, bytes.fromhex("6449455446"))),
    ("d82076687474703a2f2f7777772e6578616d706c652e636f6d", Tag(32, "http://www.example.com")),
    ("40", b""),
    ("4401020304", bytes.fromhex("01020304")),
    ("60", ""),
    ("6161", "a"),
    ("6449455446", "IETF"),
    ("62225c", '"\\'),
    ("62c3bc", "\u00fc"),
    ("63e6b0b4", "\u6c34"),
    ("64f0908591", "\U00010151"),
    ("80", []),
    ("83010203", [1, 2, 3]),
    ("8301820203820405", [1, [2, 3], [4, 5]]),
    ("98190102030405060708090a0b0c0d0e0f101112131415161718181819", UP_TO_25),
    ("a0", {}),
    ("a201020304", {1: 2, 3: 4}),
    ("a26161016162820203", {"a": 1, "b": [2, 3]}),
    ("826161a161626163", ["a", {"b": "c"}]),
    ("a56161614161626142616361436164614461656145", {"a": "A", "b": "B", "c": "C", "d": "D", "e": "E"}),
    ("5f42010243030405ff", bytes.fromhex("0102030405"), "450102030405"),
    ("7f657374726561646d696e67ff", "streaming", "6973747265616d696e67"),
    ("9fff", [], "80"),
    ("9f018202039f0405ffff", [1, [2, 3], [4, 5]], "8301820203820405"),
    ("9f01820203820405ff", [1, [2, 3], [4, 5]], "8301820203820405"),
    ("83018202039f0405ff", [1, [2, 3], [4, 5]], "8301820203820405"),
    ("83019f0203ff820405", [1, [2, 3], [4, 5]], "8301820203820405"),
    (
        "9f0102030405060708090a0b0c0d0e0f101112131415161718181819ff",
        UP_TO_25,
        "98190102030405060708090a0b0c0d0e0f101112131415161718181819",
    ),
    ("bf61610161629f0203ffff", {"a": 1, "b": [2, 3]}, "a26161016162820203"),
    ("826161bf61626163ff", ["a", {"b": "c"}], "826161a161626163"),
    ("bf6346756ef563416d7421ff", {"Fun": True, "Amt": -2}, "a263416d74216346756ef5"),
]


def is_same(left, right):
    """Equal, and of equal types all the way down: 1 and True are not."""
    if type(left) is not type(right) or left != right:
        return False
    if isinstance(left, (list, tuple)):
        return all(map(is_same, left, right))
    return not isinstance(left, dict) or all(is_same(left[key], right[key]) for key in left)


class Appendix(unittest.TestCase):
    def test_each_example(self):
        self.assertEqual(len(EXAMPLES), 58)
        for given, value, *other in EXAMPLES:
            canonical = bytes.fromhex(other[0] if other else given)
            for order in ORDERS:
                with self.subTest(given=given, order=order):
                    self.assertTrue(is_same(loads(bytes.fromhex(given), order=order), value))
                    self.assertTrue(is_same(loads(canonical, order=order, canonical=True), value))
                    self.assertEqual(dumps(value, order=order), canonical)
            if other:
                self.assertEqual(result_of(loads, bytes.fromhex(given), canonical=True)[0], 15)

    def test_keys(self):
        for given, value in (
            ("a1a1010100", {FrozenDict({1: 1}): 0}),
            ("a182018002", {(1, ()): 2}),
            ("a2c101000101", {Tag(1, 1): 0, 1: 1}),
            ("a2416100616101", {b"a": 0, "a": 1}),
        ):
            self.assertTrue(is_same(loads(bytes.fromhex(given)), value))


class Rows(unittest.TestCase):
    """Each row of the conformance tables."""

    def test_loads(self):
        collisions = 0
        for given, (depth, most, keys), results in rows_of(TABLES):
            data, limits = bytes.fromhex(given), dict(depth=depth, max_bytes=most, keys=keys)
            for order, (canonical, refusal, strict) in zip(ORDERS, results):
                with self.subTest(data=given, order=order):
                    try:
                        value = result_of(loads, data, order=order, **limits)
                    except ValueError as error:
                        self.assertIn("equal in Python", str(error))
                        collisions += 1
                        continue
                    if refusal:
                        self.assertEqual(value, refusal)
                    else:
                        self.assertEqual(result_of(dumps, value, order=order, **limits), bytes.fromhex(canonical))
        self.assertLess(collisions, 20)

    def test_loads_of_canonical_bytes(self):
        for given, (depth, most, keys), results in rows_of(TABLES):
            data, limits = bytes.fromhex(given), dict(depth=depth, max_bytes=most, keys=keys)
            for order, (_, _, strict) in zip(ORDERS, results):
                with self.subTest(data=given, order=order):
                    try:
                        value = result_of(loads, data, canonical=True, order=order, **limits)
                    except ValueError as error:
                        self.assertIn("equal in Python", str(error))
                        continue
                    if strict:
                        self.assertEqual(value, strict)
                    else:
                        self.assertEqual(dumps(value, order=order, **limits), data)


if __name__ == "__main__":
    unittest.main()
