"""check_stream: what it says of files and chunks, next to check_canonical of all their bytes, and what it reads and stores."""

import io
import pathlib
import random
import unittest

from items import any_encoding, encoded, head, some_value
from naltvigo import check_canonical, check_stream
from test_checker import TRAILING, parts_of
from test_files import Raw, cuts
from test_memory import most_memory
from test_naltvigo import ORDERS, TABLES, result_of, rows_of


class Streams(unittest.TestCase):
    def check(self, data, rng, **options):
        wanted = result_of(check_canonical, data, **options)
        wanted = len(data) if wanted is None else wanted
        for source in (data, bytearray(data), memoryview(data), *cuts(data, rng)):
            self.assertEqual(result_of(check_stream, source, **options), wanted)

    def test_rows(self):
        for given, (depth, most, keys), results in rows_of(TABLES):
            for order, (_, _, strict) in zip(ORDERS, results):
                data, options = bytes.fromhex(given), dict(order=order, depth=depth, max_bytes=most, keys=keys)
                for source in (data, io.BytesIO(data), parts_of(data, 1), [b"", data[:2], bytearray(data[2:]), b""]):
                    with self.subTest(given=given, order=order):
                        self.assertEqual(result_of(check_stream, source, **options), strict or len(data))

    def test_files_and_chunks(self):
        rng = random.Random(4)
        for _ in range(200):
            value = some_value(rng, 3)
            for data in (encoded(value), encoded(value) + b"\0", encoded(value)[:-1], any_encoding(value, rng)):
                self.check(data, rng, max_bytes=rng.choice((30, 1 << 20)))
        for size in (65530, 65531, 65532, 131066, 131067):
            self.check(head(2, size) + bytes(size), rng)

    def test_what_is_read(self):
        def chunks(*given):
            yield from given
            self.fail("more was read")

        self.assertEqual(result_of(check_stream, chunks(b"\x82", b"\xff")), (7, 1, 2))
        self.assertEqual(result_of(check_stream, chunks(b"\x81\0", b"\0")), (TRAILING, 2, 2))
        for limit in (0, 1, 10, 65535, 65536, 70_000):
            file = Raw(head(2, 100_000) + bytes(100_000), random.Random(limit))
            self.assertEqual(result_of(check_stream, file, max_bytes=limit), (2, limit, limit))
            self.assertLessEqual(file.at, limit + 1)
        for data in (bytearray(1 << 24), memoryview(bytearray(1 << 24))[::2]):
            said, most = most_memory(lambda: result_of(check_stream, data, max_bytes=10))
            self.assertEqual((said, most < 1 << 16), ((TRAILING, 1, 1), True))
        file = Raw(b"\0" * 100_000, random.Random(5))
        self.assertEqual(result_of(check_stream, file, max_bytes=1), (TRAILING, 1, 1))
        self.assertLessEqual(file.at, 2)

    def test_what_is_no_source(self):
        for path in ("some.cbor", pathlib.PurePath("some.cbor")):
            with self.assertRaisesRegex(TypeError, "^an open file is needed, and not a "):
                check_stream(path)
        for wrong in (7, None, [1, 2], ["text"], io.StringIO("text")):
            with self.assertRaises(TypeError, msg=repr(wrong)):
                check_stream(wrong)


if __name__ == "__main__":
    unittest.main()
