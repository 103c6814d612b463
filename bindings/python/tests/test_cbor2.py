"""Compared with cbor2 (Debian's python3-cbor2), on values that both accept: equal bytes, and each reads the other's."""

import random
import unittest

import naltvigo
from items import any_encoding, some_value

try:
    import cbor2.types
except ImportError:
    cbor2 = None


def to_cbor2(value):
    """The value as cbor2 has it."""
    if value is naltvigo.undefined:
        return cbor2.undefined
    if isinstance(value, naltvigo.Simple):
        return cbor2.CBORSimpleValue(value.number)
    if isinstance(value, naltvigo.Tag):
        return cbor2.CBORTag(value.number, to_cbor2(value.content))
    if isinstance(value, (dict, naltvigo.FrozenDict)):
        pairs = {to_cbor2(key): to_cbor2(one) for key, one in value.items()}
        return cbor2.types.FrozenDict(pairs) if isinstance(value, naltvigo.FrozenDict) else pairs
    if isinstance(value, (list, tuple)):
        return type(value)(map(to_cbor2, value))
    return value


def has_other_meaning(value):
    """Whether cbor2 makes something else of it: of most tags it knows, of what has no hash there, of simple values below 20."""
    if isinstance(value, naltvigo.Tag):
        return value.number < 2**16 or has_other_meaning(value.content)
    if isinstance(value, naltvigo.Simple):
        return True
    if isinstance(value, (dict, naltvigo.FrozenDict)):
        return any(has_other_meaning(one) for pair in value.items() for one in pair)
    return isinstance(value, (list, tuple)) and any(map(has_other_meaning, value))


@unittest.skipIf(cbor2 is None, "cbor2 is not installed")
class Cbor2(unittest.TestCase):
    def values(self, count):
        rng = random.Random(9)
        while count:
            value = some_value(rng, 4)
            if not has_other_meaning(value):
                count -= 1
                yield value, rng

    def test_equal_bytes(self):
        for value, _ in self.values(3000):
            data = cbor2.dumps(to_cbor2(value), canonical=True)
            self.assertEqual(naltvigo.dumps(value, order="length"), data)
            self.assertEqual(naltvigo.loads(data, order="length", canonical=True), value)

    def test_each_reads_the_other(self):
        for value, rng in self.values(3000):
            self.assertEqual(naltvigo.loads(cbor2.dumps(to_cbor2(value))), value)
            for data in (naltvigo.dumps(value), any_encoding(value, rng)):
                self.assertEqual(cbor2.loads(data), to_cbor2(value))


if __name__ == "__main__":
    unittest.main()
