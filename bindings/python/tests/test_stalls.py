"""No input keeps `loads` busy for long: the time of keys that were chosen, next to that of keys that nobody chose."""

import itertools
import unittest

import naltvigo
from items import head
from naltvigo import loads
from times import least_time, millisecond

SIZE = 1 << 20
WORD = (1 << 64) - 1


def a_map(keys):
    keys = list(keys)
    return head(5, len(keys)) + b"".join(key + b"\0" for key in keys)


def an_array(members):
    return head(4, len(members)) + b"".join(members)


def minus_ones_and_twos(count):
    """Arrays of these two numbers, whose hash is the same in CPython: so is that of all tuples of them."""
    return [b"".join(key) for key in itertools.product((b"\x20", b"\x21"), repeat=count)]


def pairs_of_one_hash(count):
    """Pairs of integers, (n, v) with n = 24, 25, .., whose tuples all have one hash."""
    first, second, start = 11400714785074694791, 14029467366897019727, 2870177450012600261
    back, back_again, found, n = pow(first, -1, 1 << 64), pow(second, -1, 1 << 64), [], 23
    end = 12345 - (2 ^ start ^ 3527539) & WORD
    end = end * back & WORD
    end = (end >> 31 | end << 33) & WORD
    while len(found) < count:
        n += 1
        between = start + n * second & WORD
        between = (between << 31 | between >> 33) * first & WORD
        value = (end - between) * back_again & WORD
        if value < 2**61 - 1:
            assert hash((n, value)) == 12345
            found.append((n, value))
    return found


def tags_of_one_hash(count):
    """Tags on integers, whose hashes are all the same by the rule in the extension."""
    factor, found, number = 0x9E3779B97F4A7C15, [], 23
    back = pow(factor, -1, 1 << 64)

    def mix(before, more):
        mixed = (before ^ more) * factor & WORD
        return mixed ^ mixed >> 32

    target = 12345 ^ 12345 >> 32
    while len(found) < count:
        number += 1
        value = target * back & WORD ^ mix(6, number)
        if value < 2**61 - 1:
            assert hash(naltvigo.Tag(number, value)) == 12345
            found.append(head(6, number) + head(0, value))
    return found


class Quadratic(unittest.TestCase):
    """A mebibyte of chosen keys takes at most five times as long as a mebibyte of others of the same form."""

    def compare(self, chosen, harmless, **options):
        self.assertLess(abs(len(chosen) - len(harmless)), SIZE // 20)
        options = {"max_bytes": 1 << 24, **options}
        naltvigo.check(chosen, **options)
        for _ in range(3):  # again if other processes disturbed it
            took = least_time(lambda: loads(chosen, **options), 3)
            usual = least_time(lambda: loads(harmless, **options), 3)
            if took < 5 * usual:
                return
        self.fail(f"{took * 1e3:.0f} ms, and {usual * 1e3:.0f} ms without such keys")

    def test_maps_with_pairs_of_one_hash(self):
        pairs = pairs_of_one_hash(SIZE // 13)
        chosen, harmless = ([head(0, n) + head(0, value ^ flip) for n, value in pairs] for flip in (0, 1))
        self.compare(*(b"\xa1" + head(5, len(keys)) + b"".join(keys) + b"\0" for keys in (chosen, harmless)))

    def test_tags_of_one_hash(self):
        keys = tags_of_one_hash(SIZE // 14)
        self.compare(a_map(keys), a_map([key[:-1] + bytes([key[-1] ^ 1 + i % 2]) for i, key in enumerate(keys)]))

    def test_many_small_arrays(self):
        chosen, harmless = (
            a_map(b"\x91" + b"".join(key) for key in itertools.islice(itertools.product(numbers, repeat=17), SIZE // 19))
            for numbers in ((b"\x20", b"\x21"), (b"\0", b"\1"))
        )
        self.compare(chosen, harmless)

    def test_few_large_arrays(self):
        body = head(4, 5406) + b"\x19\x01\0" * 5400
        chosen, harmless = (
            a_map(body + b"".join(key) for key in itertools.product(numbers, repeat=6))
            for numbers in ((b"\x20", b"\x21"), (b"\0", b"\1"))
        )
        self.compare(chosen, harmless)

    def test_maps_with_as_many_as_are_not_watched(self):
        chosen = a_map(b"\x86" + key for key in minus_ones_and_twos(6))
        harmless = a_map(b"\x86" + b"".join(key) for key in itertools.product((b"\0", b"\1"), repeat=6))
        self.compare(an_array([chosen] * (SIZE // len(chosen))), an_array([harmless] * (SIZE // len(harmless))))

    def test_keys_within_keys(self):
        bottom = head(2, SIZE) + bytes(SIZE)
        for depth in (62, 1020):
            harmless = b"\xa1\0" * depth + bottom
            self.compare(b"\xa1" * depth + bottom + b"\0" * depth, harmless, depth=1024)
            self.compare(b"\xa1" + harmless + b"\0", harmless, depth=1024)

    def test_two_keys_of_one_hash_at_each_level(self):
        def nested(one, other):
            left, right = b"\x81" + one, b"\x81" + other
            for _ in range(16):
                left, right = (b"\xa2" + left + one + right + last for last in (one, other))
            return a_map((left, right))

        self.compare(nested(b"\x20", b"\x21"), nested(b"\0", b"\1"))


class Small(unittest.TestCase):
    """No item of 1 KiB takes a millisecond more than its check."""

    def inputs(self):
        # maps within maps as keys that differ only at the bottom; each look-up in a dict can meet an entry several times
        for start in ("a2" + "a1" * 22, ):
            yield bytes.fromhex(
                "a2a1a1a1a1a1a1a1a1a1a1a1a1a1a1a1a1a1a1a1a1a1a1200109100a070502040b00070907040d0c0d000003000f00"
                "a1a1a1a1a1a1a1a1a1a1a1a1a1a1a1a1a1a1a1a1a1a1210109100a070502040b00070907040d0c0d000003000f00"
            )
        for opening, closing in ((b"\xa1", b"\0"), (b"\x81", b""), (b"\xa1\0", b""), (b"\xc1", b""), (b"\xc1\xa1", b"\0")):
            depth = 510 // len(opening + closing)
            yield b"\xa2" + b"".join(opening * depth + number + closing * depth + b"\0" for number in (b"\x20", b"\x21"))
        yield a_map(b"\x86" + key for key in minus_ones_and_twos(6))
        yield a_map(b"\x87" + key for key in minus_ones_and_twos(7)[:113])
        yield a_map(b"\xa1\0" + head(0, n) for n in range(24, 200))
        yield b"\xa1" + head(5, 72) + b"".join(head(0, n) + head(0, value) for n, value in pairs_of_one_hash(72)) + b"\0"

    def test_all(self):
        for data in self.inputs():
            with self.subTest(data=data[:20].hex()):
                self.assertLessEqual(len(data), 1025)
                naltvigo.check_canonical(data, depth=1024)
                most = millisecond()
                took = least_time(lambda: loads(data, depth=1024), 20) - least_time(lambda: naltvigo.check(data, depth=1024), 20)
                self.assertLess(took, most)
                # two calls, each with its check, and a comparison
                self.assertLess(least_time(lambda: loads(data, depth=1024) == loads(data, depth=1024), 10), 4 * most)

    def test_keys_of_a_thousand_levels(self):
        data = b"\xa2" + b"\x81" * 1010 + b"\x20\0" + b"\x81" * 1010 + b"\x21\0"
        value = loads(data, depth=1024)
        self.assertEqual((len(value), naltvigo.dumps(value, depth=1024)), (2, data))
        self.assertTrue(value == loads(data, depth=1024))


if __name__ == "__main__":
    unittest.main()
