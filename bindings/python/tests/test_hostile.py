"""Hostile inputs and objects, and objects that change during a call: each gives a clear exception, and nothing leaks."""

import collections
import gc
import itertools
import random
import threading
import unittest

import naltvigo
from items import any_encoding, encoded, head, some_value
from naltvigo import Encoded, FrozenDict, Refused, Tag, dumps, loads
from times import least_time


class Unequal(str):
    """Equal to nothing, so a dict may hold it twice."""

    def __eq__(self, other):
        return False

    def __hash__(self):
        return 1


class UnequalTuple(tuple):
    def __eq__(self, other):
        return False

    __hash__ = tuple.__hash__


class Objects(unittest.TestCase):
    def test_values_that_contain_themselves(self):
        ring, loop = [], {}
        ring.append(ring)
        loop["x"] = [Tag(0, loop)]
        for value in (ring, loop):
            with self.assertRaises(Refused) as raised:
                dumps(value, depth=1024)
            self.assertEqual((raised.exception.name, raised.exception.offset), ("TooDeep", 1024 if value is ring else 341 * 5 + 3))
        self.assertEqual(repr(Tag(0, ring)), "Tag(0, [[...]])")
        ring[0] = Tag(0, ring)
        self.assertEqual(repr(ring), "[Tag(0, [...])]")

    def test_repeated_keys(self):
        with self.assertRaises(Refused) as raised:
            dumps([{Unequal("k"): 1, Unequal("k"): 2}])
        self.assertEqual((raised.exception.name, raised.exception.path), ("RepeatedKey", "$[0], key 2 of the map at 1"))
        for value in ({(1,): 0, UnequalTuple((1,)): 1}, {b"a": 0, Encoded(b"\x41a"): 1}):
            with self.assertRaises(Refused) as raised:
                dumps(value)
            self.assertEqual(raised.exception.name, "RepeatedKey")

    def test_containers_that_change(self):
        for kind in (dict, collections.OrderedDict, type("Table", (dict,), {})):
            for change in (lambda o: victim.update({2: 2}), lambda o: victim.pop(1), lambda o: victim.clear()):
                victim = kind({0: 1.5, 1: 1})
                with self.assertRaisesRegex(RuntimeError, "changed its size"):
                    dumps(victim, default=lambda o: change(o) and None)
        victim = [[1.5], 2]
        for change in (lambda o: victim.clear(), lambda o: victim.extend(range(9)), lambda o: victim.__delitem__(0)):
            victim[:] = [[1.5, 1.5], 2]
            with self.assertRaisesRegex(RuntimeError, "changed its size"):
                dumps(victim, default=change)

    def test_a_dict_that_grows_with_each_pair_is_not_followed(self):
        victim, calls = {0: 1.5, 1: 1.5}, []

        def grow(value):
            calls.append(value)
            if len(calls) < 1000:
                victim[len(victim)] = 1.5

        with self.assertRaisesRegex(RuntimeError, "changed its size"):
            dumps(victim, default=grow)
        self.assertEqual(len(calls), 2)

    def test_long_chains_are_let_go_of(self):
        chain = 0
        for _ in range(1_000_000):
            chain = Tag(0, chain)
        self.assertEqual(hash(chain), hash(Tag(0, chain.content)))
        for call in (repr, lambda value: value == Tag(0, chain.content.content), lambda value: Tag(0, value) == value):
            with self.assertRaises(RecursionError):
                call(chain)
        del chain
        chain = 0
        for _ in range(300_000):
            chain = [Tag(0, {0: chain})]
        del chain

    def test_threads_with_small_stacks(self):
        deep = 0
        for turn in range(1024):
            deep = {0: deep} if turn % 2 else [deep]
        data, found = dumps(deep, depth=1024), []
        inputs = [data] + [
            b"\xa1" + opening * 500 + b"\0" + closing * 500 + b"\0"
            for opening, closing in ((b"\x81\x81", b""), (b"\xa1", b"\0"), (b"\xa1\0", b""), (b"\xc1\x81", b""), (b"\x81\xa1", b"\0"))
        ]

        def work():
            for given in inputs:
                value = loads(given, depth=1024)
                # CPython compares lists and dicts by recursion; keys are compared without it
                is_equal = given is data or value == loads(given, depth=1024)
                found.append(is_equal and dumps(value, depth=1024) == given)
                del value

        threading.stack_size(128 * 1024)
        try:
            thread = threading.Thread(target=work)
            thread.start()
            thread.join()
        finally:
            threading.stack_size(0)
        self.assertEqual(found, [True] * len(inputs))

    def test_deep_keys(self):
        # maps within maps, as values within a key: the hash of one does not need those of all
        for opening, depth in ((b"\xa1\x00", 900), (b"\xa1\x80\xa1\x00", 600), (b"\x81", 1000), (b"\xc1", 1000)):
            data = b"\xa1" + opening * (depth // (2 if len(opening) > 2 else 1)) + b"\x00" + b"\x00"
            self.assertEqual(dumps(loads(data, depth=1024), depth=1024), data)


class Bytes(unittest.TestCase):
    def test_keys_that_are_equal_in_python(self):
        for given in (
            "a2 01 00 f5 00", "a2 00 00 f4 00", "bf 01 00 f5 00 ff", "a1 a2 01 00 f5 00 00",
        ):  # fmt: skip
            data = bytes.fromhex(given)
            naltvigo.check(data)
            for whole in (data, b"\x81" + data):
                with self.assertRaisesRegex(ValueError, "equal in Python") as raised:
                    loads(whole)
                self.assertNotIsInstance(raised.exception, Refused)
        for given in (
            "a2 41 61 00 61 61 00", "a2 20 00 21 00", "a3 f6 00 f7 00 e0 00", "a2 01 00 c001 00", "a2 8101 00 81f5 00",
            "a2 c001 00 c0f5 00", "a2 a10101 00 a101f5 00", "a3 80 00 a0 00 c080 00",
        ):  # fmt: skip
            data = bytes.fromhex(given)
            self.assertEqual(dumps(loads(data)), naltvigo.canonicalise(data))

    def test_keys(self):
        data = bytes.fromhex("a4 80 00 82 01 82 02 03 01 a1 01 80 02 c1 8105 03")
        value = loads(data)
        self.assertEqual(value, {(): 0, (1, (2, 3)): 1, FrozenDict({1: ()}): 2, Tag(1, (5,)): 3})
        self.assertEqual(dumps(value), naltvigo.canonicalise(data))
        with self.assertRaises(Refused):
            loads(data, keys="basic")

    def test_refusals(self):
        for data, name in (
            (b"", "Truncated"), (b"\x18", "Truncated"), (b"\0\0", "Trailing"), (b"\xf9\0\0", "Float"), (b"\x61\xff", "InvalidText"),
            (b"\xa2\0\0\0\0", "RepeatedKey"), (b"\x9f", "Truncated"), (b"\x9a\xff\xff\xff\xff", "Truncated"),
            (b"\x5b" + b"\x7f" * 8, "Truncated"), (b"\xbb" + b"\x7f" * 8, "Truncated"),
        ):  # fmt: skip
            with self.assertRaises(Refused) as raised:
                loads(data)
            self.assertEqual(raised.exception.name, name)
        with self.assertRaises(Refused):
            loads(b"\x18\0", canonical=True)
        self.assertEqual(loads(b"\x18\0"), 0)
        for wrong in ("00", 0, None, [0], (0,)):
            with self.assertRaises(TypeError):
                loads(wrong)

    def test_damaged_bytes(self):
        rng = random.Random(3)
        refused = 0
        for _ in range(20000):
            data = bytearray(any_encoding(some_value(rng, 3), rng))
            for _ in range(rng.randrange(3)):
                data[rng.randrange(len(data))] = rng.randrange(256)
            if rng.random() < 0.2:
                del data[rng.randrange(len(data) + 1) :]
            try:
                naltvigo.check(data)
            except Refused as error:
                refused += 1
                with self.assertRaises(Refused) as raised:
                    loads(data)
                self.assertEqual(str(raised.exception), str(error))
                continue
            try:
                self.assertEqual(dumps(loads(data)), naltvigo.canonicalise(data))
            except ValueError as error:
                self.assertIn("equal in Python", str(error))
        self.assertGreater(refused, 2000)


def colliding_integers(chosen, bits=10, honest=580):
    """Integers whose places in a dict's table of 2**bits are hard to find.

    When a table has used all bits of a hash, it goes from place i to 5 * i + 1. Therefore many small integers take the
    places of one such way. Of each chosen one all earlier tries lead to taken places, so it has to go that way to its end.
    """
    mask, rng, found, taken, place = (1 << bits) - 1, random.Random(1), [], set(), 0
    for _ in range(honest):
        found.append(place)
        taken.add(place)
        place = 5 * place + 1 & mask
    while len(found) < honest + chosen:
        n = perturb = rng.getrandbits(60)
        i, tries = n & mask, 0
        while i in taken and tries < 13:
            perturb >>= 5
            i, tries = i * 5 + perturb + 1 & mask, tries + 1
        if tries == 13:
            found.append(n)
    return found


class Collisions(unittest.TestCase):
    """loads does not make a dict of keys that were chosen so that each meets all others in it."""

    def test_tuples(self):
        # hash(-1) == hash(-2), so all of these have one hash
        data, harmless = (
            head(5, 1 << 12) + b"".join(b"\x8c" + b"".join(key) + b"\0" for key in itertools.product(numbers, repeat=12))
            for numbers in ((b"\x20", b"\x21"), (b"\0", b"\1"))
        )
        naltvigo.check(data)
        with self.assertRaisesRegex(ValueError, "keys of a map collide") as raised:
            loads(data)
        # a dict of them would take a hundred times as long as one of the others
        self.assertLess(least_time(lambda: loads(data)), 2 * least_time(lambda: loads(harmless)))
        self.assertEqual(raised.exception.path, "$")
        self.assertNotIsInstance(raised.exception, Refused)
        with self.assertRaisesRegex(ValueError, "keys of a map collide"):
            loads(b"\xa1" + data + b"\0")

    def test_integers(self):
        # at most 31.5 meetings a key; 32.4
        taken, refused = (encoded(dict.fromkeys(colliding_integers(chosen), 0)) for chosen in (62, 63))
        self.assertEqual(len(loads(taken, keys="basic")), 580 + 62)
        naltvigo.check(refused, keys="basic")
        with self.assertRaisesRegex(ValueError, "keys of a map collide"):
            loads(refused, keys="basic")

    def test_multiples_of_powers_of_two_are_taken(self):
        # at most 15 meetings a key in each table; 34 if those in earlier tables counted too
        for shift in range(0, 50, 4):
            keys = [n << shift for n in range(min(20000, 1 << 61 - shift))]
            self.assertEqual(list(loads(encoded(dict.fromkeys(keys, 0)))), keys)

    def test_a_few_are_taken(self):
        keys = list(itertools.product((b"\x20", b"\x21"), repeat=6))
        data = head(5, len(keys)) + b"".join(b"\x86" + b"".join(key) + b"\0" for key in keys)
        self.assertEqual(len(loads(data)), 64)

    def test_honest_keys_are_taken(self):
        rng = random.Random(2)
        size = 20_000
        for keys in (
            range(size), range(-size, 0), [n << 40 for n in range(size)], [n << 20 for n in range(size)],
            [n * 4096 for n in range(size)], [2**64 - 1 - n for n in range(size)], [rng.getrandbits(64) for _ in range(size)],
            [1_700_000_000_000 + 1000 * n for n in range(size)], [n << 44 | n for n in range(size)], [str(n) for n in range(size)],
            [rng.randbytes(16) for _ in range(size)], [(n, n % 7) for n in range(size)], [Tag(n, "x") for n in range(size)],
            [1 << n for n in range(64)] + [-1 - (1 << n) for n in range(64)],
        ):  # fmt: skip
            value = {key: 0 for key in keys}
            self.assertEqual(loads(encoded(value), max_bytes=1 << 24), value)


class Collector(unittest.TestCase):
    """loads pauses the collector of cycles, and leaves it as it was."""

    def test_it_runs_on(self):
        inputs = [b"\x80", b"\xa1\xa1\x01\x02\x03", b"\xa1\xa0\x03", b"\x82\x01", b"\x81\xa2\x01\0\xf5\0", encoded([[n] for n in range(3000)])]
        for is_enabled in (True, False):
            gc.enable() if is_enabled else gc.disable()
            try:
                for data in inputs:
                    try:
                        loads(data)
                    except ValueError:
                        pass
                    self.assertIs(gc.isenabled(), is_enabled)
            finally:
                gc.enable()

    def test_it_sees_what_was_made(self):
        for data in (b"\x80", b"\x81\x01", b"\x81\x81\x80"):
            value = loads(data)
            while value and value != [1]:
                self.assertTrue(gc.is_tracked(value))
                value = value[0]
            self.assertTrue(gc.is_tracked(value))


if __name__ == "__main__":
    unittest.main()
