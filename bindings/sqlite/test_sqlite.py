"""Tests of the extension for SQLite: `NALTVIGO_SQLITE=FILE python3 -m unittest`, FILE without its .so.

What each function returns of random items is tried by fuzz/databases.py.
"""

import os
import re
import resource
import sqlite3
import subprocess
import sys
import tempfile
import time
import unittest

EXTENSION = os.environ["NALTVIGO_SQLITE"]


def connect(file=":memory:", load=True):
    # cached statements would not release their blobs
    database = sqlite3.connect(file, cached_statements=0)
    if load:
        database.enable_load_extension(True)
        database.load_extension(EXTENSION)
    return database


def short(error):
    """An error without path and sentence, which are the library's."""
    return re.sub(r"( at \d+) \(\$.*?\): .*", r"\1", error)


class Tests(unittest.TestCase):
    def setUp(self):
        self.database = connect()
        self.addCleanup(self.database.close)

    def one(self, sql, *words):
        return self.database.execute(f"SELECT {sql}", words).fetchone()[0]

    def fails(self, sentence, sql, *words):
        with self.assertRaises(sqlite3.Error) as caught:
            self.one(sql, *words)
        self.assertEqual(short(str(caught.exception)), sentence)

    def test_null(self):
        for call in (
            "canonical(NULL)", "canonical(x'00', NULL)", "canonical(NULL, 'none')", "is_canonical(NULL)",
            "is_canonical(x'00', NULL)", "is_valid(NULL)", "refusal(NULL)", "same(NULL, 3)", "same(x'ff', NULL)",
            "diagnostic(NULL)", "get(NULL, 1)", "get(x'ff', NULL)", "get(x'ff', 1, NULL)",
        ):  # fmt: skip
            self.assertIsNone(self.one(f"cbor_{call}"), call)

    def test_what_is_no_item(self):
        for value in ("'00'", "0", "1.5"):
            for call in ("canonical", "is_canonical", "is_valid", "refusal", "diagnostic"):
                self.fails("cbor: an item is a blob", f"cbor_{call}({value})")
            self.fails("cbor: an item is a blob", f"cbor_same({value}, x'00')")
            self.fails("cbor: an item is a blob", f"cbor_same(x'00', {value})")
            self.fails("cbor: an item is a blob", f"cbor_get({value}, 1)")

    def test_empty_and_zero_blobs(self):
        self.assertEqual(self.one("cbor_refusal(x'')"), "refused 1 Truncated at 0")
        self.assertEqual(self.one("cbor_refusal(zeroblob(0))"), "refused 1 Truncated at 0")
        self.assertEqual(self.one("cbor_refusal(zeroblob(3))"), "refused 12 Trailing at 1")
        self.assertEqual(self.one("cbor_same(zeroblob(1), x'1800')"), 1)

    def test_explanations(self):
        # {"ü": [0, 1.5]}
        item = bytes.fromhex("a162c3bc8200f93e00")
        sentence, advice, path = self.one("cbor_explain(?)", item).split("\n")
        self.assertEqual(path, '$."ü"[1]')
        self.assertTrue(sentence.endswith(".") and advice.endswith(".") and sentence != advice)
        for call in ("canonical(?)", "diagnostic(?)", "get(?, 1)", "int(?)", "item(?)", "same(x'00', ?)"):
            with self.assertRaises(sqlite3.Error) as caught:
                self.one(f"cbor_{call}", item)
            side = "right: " if "same" in call else ""
            self.assertEqual(str(caught.exception), f"cbor: {side}refused 5 Float at 6 ({path}): {sentence}")
        # longer than the first space for it: 250 keys of 60 bytes
        deep = (b"\xa1\x78\x3c" + b"k" * 60) * 250 + b"\xf9\0\0"
        self.assertEqual(self.one("cbor_explain(?)", deep).split("\n")[2], "$" + ('."' + "k" * 60 + '"') * 250)
        # so that it fills 512 bytes, or one more or less
        for length in range(600):
            sizes = [40] * (length // 43) + [1 + length % 43]
            item = b"".join(b"\xa1" + head(3, size) + b"k" * size for size in sizes) + b"\xf9\0\0"
            self.assertEqual(self.one("cbor_explain(?)", item).split("\n")[2], "$" + "".join('."' + "k" * size + '"' for size in sizes))
        self.assertIsNone(self.one("cbor_explain(x'00')"))
        self.assertIsNone(self.one("cbor_explain(NULL)"))

    def test_orders(self):
        self.fails("cbor: the order of keys is 'bytewise' or 'length'", "cbor_canonical(x'00', 'none')")
        self.fails("cbor: the order of keys is 'bytewise' or 'length'", "cbor_is_canonical(x'00', 3)")
        # {100: 0, -1: 0}
        keys = bytes.fromhex("a21864002000")
        self.assertEqual(self.one("cbor_canonical(?)", keys), keys)
        self.assertEqual(self.one("cbor_canonical(?, 'bytewise')", keys), keys)
        self.assertEqual(self.one("cbor_canonical(?, 'length')", keys).hex(), "a22000186400")

    def test_keys(self):
        # {1: {"a": [-1]}, -5: 7, "ü": 0, "\0": 2}, without a length
        doc = bytes.fromhex("bf" "01bf61618120ff" "2407" "62c3bc00" "610002" "ff")
        self.assertEqual(self.one("cbor_get(?, 1)", doc).hex(), "a161618120")
        self.assertEqual(self.one("cbor_get(?, 1, 'a')", doc).hex(), "8120")
        self.assertEqual(self.one("cbor_get(?, -5)", doc).hex(), "07")
        self.assertEqual(self.one("cbor_get(?, 'ü')", doc).hex(), "00")
        self.assertEqual(self.one("cbor_get(?, char(0))", doc).hex(), "02")
        self.assertEqual(self.one("cbor_get(?, 1, 'a', 0)", doc).hex(), "20")
        # no index of an array is negative: [10, 11, 12, 13, 14, 15, 16]
        for index in (-9223372036854775808, -8, -7, -5, -1):
            self.assertIsNone(self.one("cbor_get(x'870a0b0c0d0e0f10', ?)", index), index)
        for keys in ("2", "'1'", "1, 1", "1, 'a', 1", "1, 'a', -1", "1, 'a', '0'", "'a'", "-4"):
            self.assertIsNone(self.one(f"cbor_get(?, {keys})", doc), keys)
        self.fails("cbor: a step of a path is an integer or a text", "cbor_get(?, 1.0)", doc)
        self.fails("cbor: a step of a path is an integer or a text", "cbor_get(?, 3, x'01')", doc)
        self.fails("cbor: cbor_get takes an item and one step or more", "cbor_get(?)", doc)
        self.fails("cbor: refused 1 Truncated at 1", "cbor_get(x'a1', 1)")
        ends = "a21b7fffffffffffffff003b7fffffffffffffff01"
        self.assertEqual(self.one(f"cbor_get(x'{ends}', 9223372036854775807)").hex(), "00")
        self.assertEqual(self.one(f"cbor_get(x'{ends}', -9223372036854775808)").hex(), "01")

    def test_a_text_key_in_utf_16(self):
        self.database.execute("PRAGMA encoding = 'UTF-16le'")
        self.database.execute("CREATE TABLE held (key TEXT)")
        self.database.execute("INSERT INTO held VALUES ('ü')")
        found = self.database.execute("SELECT cbor_get(x'a162c3bc07', key), cbor_diagnostic(x'62c3bc') FROM held").fetchone()
        self.assertEqual(found, (b"\x07", '"ü"'))

    def test_limits(self):
        tower = lambda levels: b"\x81" * levels + b"\x00"
        self.assertEqual(self.one("cbor_is_canonical(?)", tower(256)), 1)
        self.assertEqual(self.one("cbor_refusal(?)", tower(257)), "refused 9 TooDeep at 256")
        most = (1 << 25) - 5
        text = lambda length: b"\x5a" + length.to_bytes(4, "big") + bytes(length)
        self.assertEqual(self.one("cbor_is_canonical(?)", text(most)), 1)
        self.assertEqual(self.one("cbor_refusal(?)", text(most + 1)), "refused 2 TooLong at 33554432")
        # canonical bytes longer than the input, and a text of four bytes for each
        members = b"\x9f" + bytes(65536) + b"\xff"
        self.assertEqual(len(self.one("cbor_canonical(?)", members)), 65541)
        self.assertEqual(self.one("cbor_get(?, 65535)", members), b"\0")
        self.assertEqual(self.one("cbor_int(?, 0)", b"\x9f" + b"\x07" * 256 + b"\xff"), 7)
        self.assertEqual(len(self.one("cbor_array(cbor_item(?))", members)), 65542)
        self.assertEqual(self.one("cbor_diagnostic(?)", b"\x9f" + b"\xf7" * 1000 + b"\xff"), "[" + ", ".join(["undefined"] * 1000) + "]")

    # {1: {"a": [-1, "ü", h'00ff', true, null]}, -5: 18([7, 2^63]), "t": "a\0"}, in another order and without lengths
    NESTED = bytes.fromhex("bf" "6174626100" "24d282071b8000000000000000" "01bf61619f2062c3bc4200fff5f6ffff" "ff")

    def test_values(self):
        doc = self.NESTED
        self.assertEqual(self.one("cbor_int(?, 1, 'a', 0)", doc), -1)
        self.assertEqual(self.one("cbor_text(?, 1, 'a', 1)", doc), "ü")
        self.assertEqual(self.one("cbor_bytes(?, 1, 'a', 2)", doc), b"\x00\xff")
        self.assertEqual(self.one("cbor_bool(?, 1, 'a', 3)", doc), 1)
        self.assertEqual(self.one("cbor_int(?, -5, 18, 0)", doc), 7)
        self.assertEqual(self.one("cbor_get(?, -5)", doc).hex(), "d282071b8000000000000000")
        for item, call, wanted in (
            ("1903e8", "int", 1000), ("3903e7", "int", -1000), ("1b7fffffffffffffff", "int", 2**63 - 1),
            ("3b7fffffffffffffff", "int", -(2**63)), ("62c3bc", "text", "ü"), ("60", "text", ""), ("5f4101420203ff", "bytes", b"\1\2\3"),
            ("40", "bytes", b""), ("f4", "bool", 0), ("f5", "bool", 1),
        ):  # fmt: skip
            self.assertEqual(self.one(f"cbor_{call}(?)", bytes.fromhex(item)), wanted, item)

    def test_no_value(self):
        # another kind; no such value in SQL
        for item, call in (
            ("6131", "int"), ("4101", "int"), ("f5", "int"), ("c101", "int"), ("01", "text"), ("4161", "text"), ("6161", "bytes"),
            ("01", "bool"), ("f6", "bool"), ("f7", "bool"), ("80", "int"), ("1b8000000000000000", "int"), ("3b8000000000000000", "int"),
            ("626100", "text"),
        ):  # fmt: skip
            self.assertIsNone(self.one(f"cbor_{call}(?)", bytes.fromhex(item)), item)
        # a path that leads nowhere
        for path in ("2", "'1'", "1, 'a', 5", "1, 'a', -1", "1, 'a', '0'", "1, 'a', 0, 0", "-5, 17, 0", "-5, 0", "1, NULL"):
            self.assertIsNone(self.one(f"cbor_int(?, {path})", self.NESTED), path)
        self.assertIsNone(self.one("cbor_get(x'dbffffffffffffffff00', -1)"))
        self.fails("cbor: the first argument is an item", "cbor_int()")
        self.fails("cbor: refused 5 Float at 0", "cbor_int(x'f93e00')")
        self.fails("cbor: an item is a blob", "cbor_text(1)")

    def rows(self, sql, *words):
        return self.database.execute(sql, words).fetchall()

    def test_each(self):
        found = self.rows("SELECT ordinal, key, cbor_diagnostic(value) FROM cbor_each(cbor_get(?, 1, 'a'))", self.NESTED)
        self.assertEqual(found, [(0, None, "-1"), (1, None, '"ü"'), (2, None, "h'00ff'"), (3, None, "true"), (4, None, "null")])
        found = self.rows("SELECT ordinal, coalesce(cbor_int(key), cbor_text(key)), length(value) FROM cbor_each(?)", self.NESTED)
        self.assertEqual(found, [(0, 1, 13), (1, -5, 12), (2, "t", 3)])
        for item in ("x'80'", "x'a0'", "x'00'", "x'c18101'", "NULL"):
            self.assertEqual(self.rows(f"SELECT * FROM cbor_each({item})"), [], item)
        self.rows("CREATE TABLE held (doc BLOB)")
        self.database.executemany("INSERT INTO held VALUES (?)", [(b"\x81\x01",), (b"\x82\x02\x03",)])
        found = self.rows("SELECT doc, cbor_int(value) FROM held, cbor_each(doc) ORDER BY 2 DESC LIMIT 2")
        self.assertEqual(found, [(b"\x82\x02\x03", 3), (b"\x82\x02\x03", 2)])
        self.assertEqual(self.rows("SELECT count(*) FROM held a, cbor_each(a.doc) b, cbor_each(a.doc) c"), [(5,)])
        for count in (65535, 65536):
            many = b"\x9f" + b"\x18\xff" * count + b"\xff"
            self.assertEqual(self.rows("SELECT sum(cbor_int(value)), max(ordinal) FROM cbor_each(?)", many), [(255 * count, count - 1)])
        for item, sentence in (("x'f93e00'", "cbor: refused 5 Float at 0"), ("'00'", "cbor: an item is a blob")):
            with self.assertRaisesRegex(sqlite3.Error, f"^{sentence}"):
                self.rows(f"SELECT * FROM cbor_each({item})")
        with self.assertRaisesRegex(sqlite3.Error, "cbor_each takes an item"):
            self.rows("SELECT * FROM cbor_each")

    def test_constructors(self):
        for call, wanted in (
            ("array()", "80"), ("map()", "a0"), ("array(1, -500, 'ü', NULL)", "84013901f362c3bcf6"),
            ("array(9223372036854775807, -9223372036854775808)", "821b7fffffffffffffff3b7fffffffffffffff"),
            ("map('Fun', cbor_item(x'f5'), 'Amt', -2)", "a263416d74216346756ef5"), ("map(cbor_array(1), cbor_map())", "a18101a0"),
            ("array(cbor_byte_string(x'0b71'), cbor_item(x'9f01ff'), cbor_get(x'a1018102', 1))", "83420b7181018102"),
            ("map('a', cbor_array('b'))", "a1616181" "6162"), ("byte_string(x'')", "40"), ("byte_string(zeroblob(3))", "43000000"),
        ):  # fmt: skip
            self.assertEqual(self.one(f"cbor_{call}").hex(), wanted, call)
        self.assertIsNone(self.one("cbor_item(NULL)"))
        self.assertIsNone(self.one("cbor_byte_string(NULL)"))
        for length, head in ((23, "77"), (24, "7818"), (255, "78ff"), (256, "790100"), (65535, "79ffff"), (65536, "7a00010000")):
            self.assertEqual(self.one("cbor_array(?)", "x" * length).hex(), "81" + head + "78" * length)
        numbers = list(range(126))
        found = self.one(f"cbor_diagnostic(cbor_map({', '.join('?' * 126)}))", *reversed(numbers))
        self.assertEqual(found, "{" + ", ".join(f"{n}: {n - 1}" for n in numbers[1::2]) + "}")

    def test_what_makes_no_item(self):
        for call, sentence in (
            ("map(1)", "cbor: cbor_map takes keys and values in turn"), ("map(NULL, 1)", "cbor: a key is not NULL"),
            ("map(1, 2, 1, 3)", "cbor: refused 11 RepeatedKey at 3"), ("array(1.5)", "cbor: no item is a floating-point number"),
            ("array(x'0b71')", "cbor: give a blob as cbor_item(item) or as cbor_byte_string(bytes)"), ("item(x'f93e00')", "cbor: refused 5 Float at 0"),
            ("item('a')", "cbor: an item is a blob"), ("byte_string('a')", "cbor: a byte string is made of a blob"),
        ):  # fmt: skip
            self.fails(sentence, f"cbor_{call}")

    # Where SQLite stores a value, it is a blob like any other: then it is an error, never another item.
    def test_an_item_that_was_stored(self):
        sentence = "cbor: give a blob as cbor_item.item. or as cbor_byte_string.bytes."
        self.rows("CREATE TABLE held AS SELECT cbor_array(1) AS doc")
        for statement in (
            "SELECT cbor_array(doc) FROM held",
            "WITH v AS MATERIALIZED (SELECT cbor_item(doc) AS it FROM held) SELECT cbor_array(it) FROM v",
            "SELECT cbor_array(max(it)) FROM (SELECT cbor_item(doc) AS it FROM held ORDER BY 1)",
        ):
            try:
                self.assertEqual(self.rows(statement), [(bytes.fromhex("818101"),)], statement)
            except sqlite3.OperationalError as error:
                self.assertRegex(str(error), sentence)
        with self.assertRaisesRegex(sqlite3.OperationalError, sentence):
            self.rows("SELECT cbor_array(doc) FROM held")
        # also in an index
        self.rows("CREATE INDEX held_first ON held (cbor_get(doc, 0))")
        for value in ("cbor_get(doc, 0)", "cbor_item(cbor_get(doc, 0))"):
            try:
                self.assertEqual(self.rows(f"SELECT cbor_array({value}) FROM held WHERE cbor_get(doc, 0) > x''"), [(b"\x81\x01",)])
            except sqlite3.OperationalError as error:
                self.assertNotIn("cbor_item", value)
                self.assertRegex(str(error), sentence)

    @unittest.skipUnless(os.path.exists("/proc/self/statm"), "the memory of this process is not known")
    def test_nothing_is_left_behind(self):
        calls = (
            "cbor_canonical(x'81f93e00')", "cbor_canonical(x'9f01ff')", "cbor_diagnostic(x'61ff')", "cbor_diagnostic(x'8101')",
            "cbor_same(x'00', x'ff')", "cbor_get(x'a10001', 0)", "cbor_get(x'bf0001ff', 'a')", "cbor_get(x'bf0001', 0)",
            "cbor_int(x'9f01ff', 0)", "cbor_text(x'9f01ff', 0)", "cbor_bytes(x'9f01ff', 1)", "cbor_bool(x'9f01', 1)", "cbor_map(1, 2)",
            "cbor_map(1, 2, 1, 2)", "cbor_array(1, x'')", "cbor_item(x'9f01ff')", "count(*) FROM cbor_each(x'9f01ff')", "1 FROM cbor_each(x'9f')",
        )  # fmt: skip

        def run(count):
            for _ in range(count):
                for call in calls:
                    try:
                        self.one(call)
                    except sqlite3.OperationalError:
                        pass
            with open("/proc/self/statm") as file:
                return int(file.read().split()[1]) * resource.getpagesize()

        # one block of the smallest size a turn would be 640,000 bytes
        before = run(2000)
        self.assertLess(run(20000) - before, 300_000)

    # The limit holds for a whole process, and can only be lowered.
    def test_refused_memory(self):
        run = subprocess.run([sys.executable, __file__, "refuse memory"], stdout=subprocess.PIPE, text=True, check=True)
        self.assertEqual(run.stdout, "refused 6 times\n")

    def test_the_space_of_a_long_input(self):
        subprocess.run([sys.executable, __file__, "limit memory"], check=True)


def limit_memory():
    """A result has no more space than the limit of an item, however long the input is."""
    database = connect()
    database.execute("PRAGMA hard_heap_limit = 180000000")
    for call in ("canonical", "diagnostic", "same", "get", "int"):
        words = {"same": "(doc, doc)", "get": "(doc, 1)", "int": "(doc, 1)"}.get(call, "(doc)")
        try:
            database.execute(f"SELECT cbor_{call}{words} FROM (SELECT ? AS doc)", [bytes(100_000_000)]).fetchone()
        except sqlite3.OperationalError as error:
            assert short(str(error)).endswith("refused 12 Trailing at 1"), error


def refuse_memory():
    database, refused = connect(), 0
    item = b"\x9f" + b"\x00" * 500_000 + b"\xff"
    database.execute("PRAGMA hard_heap_limit = 1200000")
    # the bytes of a zeroblob, which are made for the call; and space for a result
    calls = [f"{call}(zeroblob(100000000 + 0 * length(?)))" for call in ("is_valid", "is_canonical", "canonical", "refusal", "diagnostic")]
    for call in calls + ["diagnostic(?)"]:
        try:
            database.execute(f"SELECT cbor_{call}", [item]).fetchone()
        except MemoryError:
            refused += 1
    # and the connection continues
    assert database.execute("SELECT cbor_is_valid(?)", [item]).fetchone() == (1,)
    print(f"refused {refused} times")


def head(kind, number):
    """The shortest head (RFC 8949, section 3)."""
    if number < 24:
        return bytes([kind << 5 | number])
    size = next(size for size in (1, 2, 4, 8) if number < 1 << 8 * size)
    return bytes([kind << 5 | {1: 24, 2: 25, 4: 26, 8: 27}[size]]) + number.to_bytes(size, "big")


def map_of(keys):
    return head(5, len(keys)) + b"".join(key + b"\0" for key in keys)


class Time(unittest.TestCase):
    """1 MiB that a sender chose costs at most five times what harmless keys cost, and 1 KiB a millisecond beyond its check.

    Other processes may run as well. So a time is the processor time of this process, the least of some turns, and it is
    compared with another one that is measured next to it.
    """

    CALLS = (
        "cbor_canonical(?1)", "cbor_diagnostic(?1)", "cbor_same(?1, ?1)", "cbor_get(?1, 0, 'x')", "cbor_get(?1, ?2)", "cbor_int(?1, ?2, 3)",
        "cbor_array(cbor_item(?1), cbor_item(?1))", "cbor_map(1, cbor_item(?1))", "count(*), sum(length(value)) FROM cbor_each(?1)",
    )  # fmt: skip

    def setUp(self):
        self.database = connect()
        self.addCleanup(self.database.close)

    def time(self, call, item, key, turns):
        """The least processor time of some turns."""
        least = 1e9
        for _ in range(turns):
            began = time.process_time()
            self.database.execute(f"SELECT ?2 IS NULL, {call}", (item, key)).fetchall()
            least = min(least, time.process_time() - began)
        return least

    def test_a_mebibyte_of_chosen_keys(self):
        size = 1 << 20
        text = lambda it: head(3, len(it)) + it
        numbers = range(size // 10)
        harmless = map_of([head(0, n * 0x9E3779B97F4A7C15 % (1 << 64)) for n in numbers])
        chosen = {
            "a long start": [text(b"x" * 1000 + b"%08d" % n) for n in range(size // 1012)],
            "a very long start": [text(b"x" * 60000 + b"%08d" % n) for n in range(size // 60012)],
            "keys from the last to the first": [head(0, n) for n in reversed(range(size // 6))],
            "towers": [b"\xa1" * 200 + head(0, n) + b"\0" * 200 for n in range(size // 406)],
            "deep arrays": [b"\x81" * 250 + head(0, n) for n in range(size // 256)],
        }
        chosen = {name: map_of(keys) for name, keys in chosen.items()}
        chosen["an array"] = head(4, size) + b"\0" * size
        chosen["deep arrays of arrays"] = head(4, size // 251) + (b"\x81" * 250 + b"\0") * (size // 251)
        for call in self.CALLS:
            most = 5 * self.time(call, harmless, 2, 2) / len(harmless)
            for name, item in chosen.items():
                for key in ("x" * 60009, size - 1):
                    for turns in (2, 5, 10):
                        found = self.time(call, item, key, turns) / len(item)
                        if found < most:
                            break
                        # again, both, if other processes disturbed it
                        most = 5 * self.time(call, harmless, 2, turns) / len(harmless)
                    self.assertLess(found, most, f"{call} of {name}, in seconds a byte")

    def millisecond(self):
        """A millisecond; or on a slower processor, what takes one here: 70 checks of an array of 1,000 integers."""
        return max(1e-3, 70 * self.time("cbor_is_valid(?1)", b"\x9f" + b"\0" * 1000 + b"\xff", None, 50))

    def test_a_kibibyte(self):
        for item in (b"\x81" * 255 + b"\0", b"\xc1" * 255 + b"\0", b"\xa1\0" * 255 + b"\0", b"\xa1" * 255 + b"\0" * 256, b"\x9f" + b"\0" * 1000 + b"\xff"):
            most = self.time("cbor_is_valid(?1)", item, None, 50) + self.millisecond()
            for call in self.CALLS:
                self.assertLess(self.time(call, item, 1000, 50), most, f"{call} of {item[:4].hex()}")
            path = ", ".join(["0"] * 100)
            self.assertLess(self.time(f"cbor_get(?1, {path})", item, None, 50), most, item[:4].hex())


class Tables(unittest.TestCase):
    def setUp(self):
        folder = tempfile.TemporaryDirectory()
        self.addCleanup(folder.cleanup)
        self.file = os.path.join(folder.name, "claims")
        self.database = connect(self.file)
        self.addCleanup(lambda: self.database.close())

    def test_an_index_is_used(self):
        self.database.execute("CREATE TABLE raw (doc BLOB)")
        self.database.executemany("INSERT INTO raw VALUES (?)", [(b"\x18\x00",), (b"\x00",), (b"\x9f\x01\xff",)])
        self.database.execute("CREATE INDEX raw_value ON raw (cbor_canonical(doc))")
        query = "SELECT count(*) FROM raw WHERE cbor_canonical(doc) = x'00'"
        self.assertEqual(self.database.execute(query).fetchone(), (2,))
        plan = self.database.execute(f"EXPLAIN QUERY PLAN {query}").fetchone()[3]
        self.assertIn("USING INDEX raw_value", plan)
        # an item that is refused is not stored, since the index needs its bytes
        with self.assertRaisesRegex(sqlite3.OperationalError, "^cbor: refused 5 Float at 0 "):
            self.database.execute("INSERT INTO raw VALUES (x'f93e00')")
        with self.assertRaisesRegex(sqlite3.IntegrityError, "UNIQUE"):
            self.database.execute("CREATE UNIQUE INDEX raw_unique ON raw (cbor_canonical(doc))")
        self.assertEqual(self.database.execute("PRAGMA integrity_check").fetchone(), ("ok",))

    def test_a_generated_column(self):
        self.database.execute("CREATE TABLE raw (doc BLOB, kept BLOB GENERATED ALWAYS AS (cbor_canonical(doc)) STORED)")
        self.database.execute("INSERT INTO raw (doc) VALUES (x'9f1801ff')")
        self.assertEqual(self.database.execute("SELECT kept FROM raw").fetchone(), (b"\x81\x01",))

    def test_null_passes_a_constraint(self):
        self.database.execute("CREATE TABLE loose (doc BLOB CHECK (cbor_is_canonical(doc)))")
        self.database.execute("INSERT INTO loose VALUES (NULL)")
        self.assertEqual(self.database.execute("SELECT count(*) FROM loose").fetchone(), (1,))

    def test_or_ignore_drops_a_row(self):
        self.database.execute("CREATE TABLE held (doc BLOB CHECK (cbor_is_canonical(doc)))")
        self.database.execute("INSERT OR IGNORE INTO held VALUES (x'1800'), (x'00')")
        self.assertEqual(self.database.execute("SELECT doc FROM held").fetchall(), [(b"\x00",)])

    def test_without_the_extension(self):
        self.database.execute("CREATE TABLE held (doc BLOB CHECK (cbor_is_canonical(doc)))")
        self.database.execute("CREATE INDEX held_value ON held (cbor_canonical(doc))")
        self.database.execute("INSERT INTO held VALUES (x'00')")
        self.database.commit()
        self.database.close()
        self.database = connect(self.file, load=False)
        self.assertEqual(self.database.execute("SELECT doc FROM held").fetchone(), (b"\x00",))
        for statement in ("INSERT INTO held VALUES (x'01')", "PRAGMA integrity_check", "VACUUM"):
            with self.assertRaisesRegex(sqlite3.OperationalError, "function: cbor_", msg=statement):
                self.database.execute(statement).fetchall()

    def test_a_schema_that_is_not_trusted(self):
        self.database.execute("CREATE TABLE held (doc BLOB CHECK (cbor_is_canonical(doc)))")
        self.database.execute("PRAGMA trusted_schema = 0")
        self.database.execute("INSERT INTO held VALUES (x'00')")


if __name__ == "__main__":
    if sys.argv[1:] == ["refuse memory"]:
        refuse_memory()
    elif sys.argv[1:] == ["limit memory"]:
        limit_memory()
    else:
        unittest.main()
