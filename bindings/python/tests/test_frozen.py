"""FrozenList, FrozenDict and tags as keys: look-ups, equality, hashes, and that nothing changes them."""

import collections.abc
import copy
import gc
import pickle
import unittest
import weakref

from naltvigo import FrozenDict, FrozenList, Refused, Simple, Tag, dumps, loads, undefined

KEYS = bytes.fromhex("a4 80 00 82 01 82 02 03 01 a1 01 80 02 c1 8105 03")


def key_of(given, **options):
    """The one key of a map of which these are the key's bytes."""
    return next(iter(loads(b"\xa1" + bytes.fromhex(given) + b"\0", **options)))


class LookUps(unittest.TestCase):
    def test_by_what_a_user_writes(self):
        value = loads(KEYS)
        for key, found in (((), 0), ((1, (2, 3)), 1), (FrozenDict({1: ()}), 2), (Tag(1, (5,)), 3)):
            self.assertEqual(value[key], found)
        self.assertEqual({(): 0, (1, (2, 3)): 1, FrozenDict({1: ()}): 2, Tag(1, (5,)): 3}, value)
        self.assertNotIn((1, (2, 4)), value)
        self.assertNotIn(FrozenDict({1: (0,)}), value)
        self.assertNotIn(Tag(1, (6,)), value)

    def test_keys_that_differ_as_items(self):
        value = loads(bytes.fromhex("a4 8101 00 81f5 01 a10101 02 a101f5 03"))
        self.assertEqual([value[1,], value[True,], value[FrozenDict({1: 1})], value[FrozenDict({1: True})]], [0, 1, 2, 3])
        value = loads(bytes.fromhex("a2 c001 00 c0f5 01"))
        self.assertEqual([value[Tag(0, 1)], value[Tag(0, True)]], [0, 1])

    def test_what_is_within_a_key(self):
        key = key_of("84 8101 a2 8101 02 8102 03 c1 8101 8101")
        first, mapping, tag, last = key
        self.assertEqual((first, mapping, tag, last), ((1,), FrozenDict({(1,): 2, (2,): 3}), Tag(1, (1,)), (1,)))
        self.assertEqual((mapping[1,], mapping[2,], tag.content), (2, 3, first))
        self.assertEqual((first, tag), (last, key_of("c1 8101")))
        self.assertNotEqual(first, mapping)
        self.assertEqual(loads(b"\xa1" + dumps(mapping) + b"\0"), {mapping: 0})

    def test_length_first(self):
        given = "a2 1864 00 20 00"
        first, other = key_of("a2 20 00 1864 00", order="length"), key_of(given)
        for left, right in ((first, other), (first, FrozenDict({-1: 0, 100: 0})), (other, FrozenDict({100: 0, -1: 0}))):
            self.assertEqual((left, hash(left)), (right, hash(right)))
        self.assertEqual(dumps(first).hex(), dumps(other).hex())

    def test_what_dumps_refuses_equals_nothing(self):
        self.assertNotEqual(key_of("8101"), (object(),))
        self.assertNotEqual(key_of("8101"), ("\ud800",))
        self.assertNotEqual(key_of("8101"), (2**64,))
        self.assertNotEqual(key_of("a10101"), {1: object()})
        self.assertNotEqual(key_of("8101"), [1])
        self.assertNotEqual(key_of("a10101"), [(1, 1)])
        self.assertEqual(FrozenDict({1: 2.5}), {1: 2.5})
        self.assertNotEqual(FrozenDict({1: 2.5}), FrozenDict({1: 2}))


class Lists(unittest.TestCase):
    def test_it_is_a_sequence(self):
        key = key_of("83 01 02 01")
        self.assertIs(type(key), FrozenList)
        self.assertIsInstance(key, collections.abc.Sequence)
        self.assertEqual((len(key), key[0], key[-1], key[1:], list(key)), (3, 1, 1, (2, 1), [1, 2, 1]))
        self.assertEqual((key.count(1), key.index(2), 2 in key, 3 in key, list(reversed(key))), (2, 1, True, False, [1, 2, 1]))
        self.assertEqual((repr(key), hash(key)), ("(1, 2, 1)", hash((1, 2, 1))))
        for wrong in (3, -4):
            with self.assertRaises(IndexError):
                key[wrong]
        match key:
            case (first, *rest):
                self.assertEqual((first, rest), (1, [2, 1]))
            case _:
                self.fail("no sequence for a match statement")
        self.assertEqual(sorted([key, (1, 1), (1, 3)]), [(1, 1), key, (1, 3)])
        with self.assertRaises(TypeError):
            key < [1]

    def test_loads_alone_makes_it(self):
        with self.assertRaises(TypeError):
            FrozenList((1, 2))
        key = key_of("8101")
        with self.assertRaises(TypeError):
            key[0] = 2
        self.assertEqual(pickle.loads(pickle.dumps(key)), (1,))
        self.assertEqual(copy.deepcopy(key), key)


class Dicts(unittest.TestCase):
    def test_it_is_a_mapping(self):
        frozen = FrozenDict({1: "a", 2: "b"})
        self.assertIsInstance(frozen, collections.abc.Mapping)
        self.assertNotIsInstance(frozen, dict)
        self.assertEqual((len(frozen), frozen[1], frozen.get(3), frozen.get(3, 4), 1 in frozen, 3 in frozen), (2, "a", None, 4, True, False))
        self.assertEqual((list(frozen), list(frozen.keys()), list(frozen.values())), ([1, 2], [1, 2], ["a", "b"]))
        self.assertEqual((list(frozen.items()), list(reversed(frozen)), dict(frozen)), ([(1, "a"), (2, "b")], [2, 1], {1: "a", 2: "b"}))
        self.assertEqual(repr(frozen), "FrozenDict({1: 'a', 2: 'b'})")
        self.assertEqual((FrozenDict(a=1), FrozenDict([("a", 1)]), FrozenDict()), ({"a": 1}, {"a": 1}, {}))
        self.assertEqual(FrozenDict(frozen), frozen)
        self.assertEqual((frozen, hash(frozen)), (FrozenDict({2: "b", 1: "a"}), hash(FrozenDict({2: "b", 1: "a"}))))
        with self.assertRaises(KeyError):
            frozen[3]
        match frozen:
            case {1: found}:
                self.assertEqual(found, "a")
            case _:
                self.fail("no mapping for a match statement")
        again = pickle.loads(pickle.dumps(frozen))
        self.assertEqual((again, hash(again), type(again)), (frozen, hash(frozen), FrozenDict))

    def test_nothing_changes_it(self):
        frozen = FrozenDict({1: 2})
        before = hash(frozen)
        frozen.__init__({3: 4})
        for change in (
            lambda: dict.__init__(frozen, {3: 4}), lambda: dict.update(frozen, {3: 4}), lambda: dict.__setitem__(frozen, 1, 3),
            lambda: dict.clear(frozen), lambda: frozen.__setitem__(1, 3), lambda: setattr(frozen, "x", 1),
            lambda: frozen.keys().mapping.__setitem__(1, 3), lambda: frozen.__dict__,
        ):  # fmt: skip
            with self.assertRaises((TypeError, AttributeError)):
                change()
        given = {1: 2}
        other = FrozenDict(given)
        given[1] = 3
        self.assertEqual((frozen, other, hash(frozen)), ({1: 2}, {1: 2}, before))
        for value in (Tag(1, 2), Simple(3), key_of("8101")):
            number = repr(value)
            try:
                value.__init__(9, 9)
            except TypeError:
                pass
            for name in ("number", "content", "members", "x"):
                with self.assertRaises((TypeError, AttributeError)):
                    object.__setattr__(value, name, 5)
            self.assertEqual(repr(value), number)

    def test_what_has_no_hash(self):
        with self.assertRaises(TypeError):
            hash(FrozenDict({1: [2]}))
        chain = FrozenDict()
        for _ in range(200_000):
            chain = FrozenDict({1: chain})
        with self.assertRaises(RecursionError):
            hash(chain)
        del chain

    def test_cycles_are_found(self):
        class Node:
            pass

        ring = [Node()]
        seen = weakref.ref(ring[0])
        ring.append(FrozenDict({1: Tag(1, ring)}))
        self.assertEqual(repr(ring[1]), "FrozenDict({1: Tag(1, [" + repr(ring[0]) + ", FrozenDict(...)])})")
        del ring
        gc.collect()
        self.assertIsNone(seen())


class Dumps(unittest.TestCase):
    def test_as_values(self):
        key = key_of("82 01 a1 02 81 03")
        self.assertEqual(dumps([key, {key: key}]), bytes.fromhex("82 8201a1028103 a1 8201a1028103 8201a1028103"))
        self.assertEqual(dumps(FrozenDict({"b": undefined, "a": FrozenDict()})).hex(), "a26161a06162f7")
        with self.assertRaises(Refused) as raised:
            dumps([FrozenDict({1: FrozenDict({2: 3})})], depth=2)
        self.assertEqual((raised.exception.name, raised.exception.path), ("TooDeep", "$[0].1"))


if __name__ == "__main__":
    unittest.main()
