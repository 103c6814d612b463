"""Memory: what is copied and what is not, how much is allocated, and what is freed."""

import array
import ctypes
import gc
import io
import mmap
import os
import random
import subprocess
import sys
import tempfile
import tracemalloc
import unittest
import weakref

import naltvigo
from items import encoded, head, some_value
from naltvigo import Encoded, FrozenDict, Refused, Tag, canonicalise_items, dumps, item_ends, items, loads

# what a call on one item is, with this input and these options
CALLS = {
    "loads": loads, "canonicalise": naltvigo.canonicalise, "check": naltvigo.check, "diagnostic": naltvigo.diagnostic,
    "check_canonical": naltvigo.check_canonical, "is_canonical": naltvigo.is_canonical,
    "same": lambda data, **options: naltvigo.same(data, data, **options),
    "same, right": lambda data, **options: naltvigo.same(b"\0", data, **options),
}  # fmt: skip


def most_memory(call):
    """What a call returns or raises, and the most memory that it had at once."""
    tracemalloc.start()
    try:
        try:
            found = call()
        except Refused as refused:
            found = refused
        return found, tracemalloc.get_traced_memory()[1]
    finally:
        tracemalloc.stop()


def resident():
    """The bytes of memory that this process has now."""
    with open("/proc/self/statm", encoding="ascii") as file:
        return int(file.read().split()[1]) * os.sysconf("SC_PAGE_SIZE")


def blocks():
    """How many blocks are allocated, without garbage and without the names in Python's cache of attributes."""
    gc.collect()
    clear = getattr(sys, "_clear_internal_caches", None) or sys._clear_type_cache
    clear()
    return sys.getallocatedblocks()


class Changing(unittest.TestCase):
    """Read-only memory may change: what somebody else may write to is copied."""

    DATA = b"\x00\x61a"
    ITEMS = [b"\x00", b"\x61a"]

    def check(self, buffer, change):
        iterators = items(buffer), items(buffer, offsets=True)
        change()
        self.assertEqual([list(it) for it in iterators], [self.ITEMS, [(0, 1), (1, 3)]])

    def test_views_of_what_changes(self):
        for data in (bytearray(self.DATA), array.array("B", self.DATA)):
            for buffer in (data, memoryview(data), memoryview(data).toreadonly(), memoryview(memoryview(data).toreadonly())[:]):
                memoryview(data)[:] = memoryview(self.DATA)
                self.check(buffer, lambda: memoryview(data).__setitem__(slice(None), b"\xff\xff\xff"))
        block = (ctypes.c_ubyte * 3).from_buffer(bytearray(self.DATA))
        self.check(memoryview(block).toreadonly(), lambda: ctypes.memset(block, 0xFF, 3))

    def test_nothing_stays_locked(self):
        # an iterator over a copy holds nothing of what was copied
        data = bytearray(self.DATA)
        iterator = items(memoryview(data).toreadonly())
        data.extend(b"\xff" * 50)
        self.assertEqual(list(iterator), self.ITEMS)

    def test_maps_that_can_be_written_to(self):
        with tempfile.TemporaryFile() as file:
            file.write(self.DATA)
            file.flush()
            for access in (mmap.ACCESS_WRITE, mmap.ACCESS_COPY):
                with mmap.mmap(file.fileno(), 0, access=access) as mapped:
                    for view in (mapped, memoryview(mapped).toreadonly()):
                        mapped[:] = self.DATA
                        iterator = items(view)
                        mapped[:] = b"\xff" * 3
                        self.assertEqual(list(iterator), self.ITEMS)
                        del view

    @unittest.skipUnless(sys.version_info >= (3, 12), "Python has no __buffer__ before 3.12")
    def test_bytes_that_lie(self):
        class Lying(bytes):
            def __buffer__(self, flags):
                return memoryview(data).toreadonly()

        data = bytearray(self.DATA)
        self.check(Lying(b"\xff\xff\xff"), lambda: data.__setitem__(slice(None), b"\xff" * 3))


class Copies(unittest.TestCase):
    def test_bytes_are_not_copied(self):
        data = b"\x18\x18" * (1 << 21)
        for buffer in (data, memoryview(data), memoryview(data)[2:], memoryview(data).cast("H")):
            for call in (lambda: next(items(buffer)), lambda: naltvigo.is_canonical(buffer)):
                self.assertLess(most_memory(call)[1], 10_000)
        with tempfile.TemporaryFile() as file:
            file.write(data)
            file.flush()
            with mmap.mmap(file.fileno(), 0, access=mmap.ACCESS_READ) as mapped:
                self.assertLess(most_memory(lambda: next(items(mapped)))[1], 10_000)

    def test_all_shapes(self):
        whole = encoded([n % 24 for n in range(500)])
        spread = bytearray(2 * len(whole))
        spread[::2] = whole
        backwards = bytes(reversed(whole))
        views = [memoryview(spread)[::2], memoryview(bytes(spread))[::2], memoryview(backwards)[::-1], memoryview(bytearray(whole)).cast("B", [len(whole), 1])]
        wide = bytes.fromhex("01000000 02000000 03000000 04000000")
        for view in views:
            for name, call in CALLS.items():
                self.assertEqual(call(view), call(whole), name)
            self.assertEqual(list(item_ends(view)), [len(whole)])
        for view in (memoryview(wide).cast("I")[::2], memoryview(wide).cast("I")[::-1]):
            self.assertEqual(list(items(view)), [b"%c" % byte for byte in view.tobytes()])


class Limits(unittest.TestCase):
    """The memory of a call on one item is bounded by its limit, however long the input is."""

    def test_an_input_far_longer_than_the_limit(self):
        size = 1 << 24
        for data in (b"\0" * size, b"\x9f" + b"\0" * size, b"\x5a\x7f\xff\xff\xff" + b"\0" * size):
            wide = memoryview(data + data)[::2]
            for buffer in (data, bytearray(data), memoryview(data), wide, memoryview(bytearray(data)).toreadonly()):
                for name, call in CALLS.items():
                    with self.subTest(name=name, type=type(buffer)):
                        wanted = most_memory(lambda: call(data[:1000], max_bytes=10))[0]
                        found, most = most_memory(lambda: call(buffer, max_bytes=10))
                        self.assertEqual(str(found), str(wanted))
                        self.assertLess(most, 1 << 16)

    def test_one_byte_past_the_limit_is_seen(self):
        data = encoded(bytes(1000))
        for limit in (len(data) - 1, len(data), len(data) + 1):
            for more in (b"", b"\0", b"\0\0"):
                for name, call in CALLS.items():
                    wanted, found = (str(most_memory(lambda: call(kind(data + more), max_bytes=limit))[0]) for kind in (bytes, bytearray))
                    self.assertEqual(found, wanted, name)


    def test_a_limit_within_a_row(self):
        data = encoded([1, 2, 3, 4, 5, 6, [[[[]]]]]) + b"\0" * 5
        for width, code in ((2, "H"), (4, "I"), (8, "Q")):
            spread = b"".join(data[at : at + width] + bytes(width) for at in range(0, len(data), width))
            view = memoryview(spread).cast(code)[::2]
            self.assertEqual((view.tobytes(), view.c_contiguous), (data, False))
            for limit in range(len(data) + 2):
                for name, call in CALLS.items():
                    wanted, found = (str(most_memory(lambda: call(it, max_bytes=limit))[0]) for it in (data, view))
                    self.assertEqual(found, wanted, f"{name}, {limit} bytes, {width} a row")


class Leaks(unittest.TestCase):
    """Nothing is left of calls that were made many times."""

    def setUp(self):
        rng = random.Random(5)
        self.values = [some_value(rng, 4) for _ in range(50)]
        names = ["".join(rng.choice("abcdefgh") for _ in range(8)) for _ in range(4000)]
        self.records = dumps([{name: 1} for name in names])
        self.inputs = [dumps(value) for value in self.values]
        self.inputs += [b"\xa2\1\0\xf5\0", b"\x81\xa2\1\0\xf5\0", b"\x61\xff", b"\x9f\x18\1\xff", b"\xa1\xa1\x81\1\xc1\2\3", b"\xa1\x81\xa2\1\0\xf5\0\0"]
        self.inputs.append(dumps({n: str(n) for n in range(200)}))
        self.bad = [{"a": [1, 2.5]}, [["\ud800"]], {1: 2**64}, {1: [[[[]]]]}, {1: Encoded(b"\xff")}, {FrozenDict({1: 2.5}): 1}]

    def calls(self):
        for value in self.values + self.bad:
            yield dumps, (value,), {"depth": 3}
            yield dumps, (value,), {"default": lambda found: [found, found]}
        for data in self.inputs:
            yield loads, (data,), {}
            yield loads, (data,), {"tag_hook": lambda tag: tag.content, "map_hook": list}
            yield loads, (data,), {"tag_hook": lambda tag: 1 // 0}
            yield naltvigo.canonicalise, (data,), {}
            yield naltvigo.diagnostic, (memoryview(data * 2)[::2],), {}
            yield naltvigo.is_canonical, (bytearray(data),), {}
            yield naltvigo.same, (data, bytearray(data)), {}
            yield naltvigo.same, (bytearray(data), data), {}
            yield naltvigo.same, (data, 5), {}
            yield canonicalise_items, (data + data,), {}
            yield item_ends, (bytearray(data + data),), {}
            yield items, (data,), {"wrong": 1}
            yield list, (items(data + data, offsets=True),), {}
            yield list, (items(memoryview(data + data)),), {}
            yield list, (items([data, data[:-1]]),), {}
            yield list, (naltvigo.events([data, data]),), {}
            yield naltvigo.check_stream, ([data[:3], bytearray(data[3:])],), {}
            yield naltvigo.Checker, (), {"wrong": 1}
            yield lambda one: (loads(one) == loads(one), hash(next(iter(loads(one))))), (data,), {}

    def growth(self, turns):
        before = blocks()
        for _ in range(turns):
            for call, words, options in self.calls():
                try:
                    call(*words, **options)
                except (ValueError, TypeError, OverflowError, ZeroDivisionError, StopIteration):
                    pass
        return blocks() - before

    @unittest.skipUnless(sys.getallocatedblocks(), "Python does not count its blocks")
    def test_no_blocks_are_left(self):
        # each call is made 40 times a turn, so a leak shows in every turn; what Python keeps does not
        self.assertLess(min(self.growth(40) for _ in range(3)), 30)

    @unittest.skipUnless(sys.getallocatedblocks(), "Python does not count its blocks")
    def test_the_texts_of_keys(self):
        def growth():
            before = blocks()
            loads(self.records)
            return blocks() - before

        self.assertLess(min(growth() for _ in range(4)), 100)

    def test_cycles_are_found(self):
        class Owner(bytearray):
            pass

        def through_a_tag(owner):
            owner.held = Tag(1, [owner])

        def through_a_frozen_dict(owner):
            owner.held = FrozenDict({1: owner})

        def through_an_iterator(owner):
            owner.held = items(memoryview(bytes(9)))
            owner.more = Tag(5, (owner, owner.held))

        for join in (through_a_tag, through_a_frozen_dict, through_an_iterator):
            owner = Owner()
            join(owner)
            seen = weakref.ref(owner)
            del owner
            gc.collect()
            self.assertIsNone(seen(), join.__name__)

    def test_an_iterator_in_a_cycle(self):
        class Map(mmap.mmap):
            pass

        with tempfile.TemporaryFile() as file:
            file.write(b"\0\1")
            file.flush()
            mapped = Map(file.fileno(), 0, access=mmap.ACCESS_READ)
            mapped.held = items(mapped)
            seen = weakref.ref(mapped)
            del mapped
            gc.collect()
            self.assertIsNone(seen())


class InParts(unittest.TestCase):
    """Of an item whose bytes come in parts little is stored."""

    def test_an_item_larger_than_the_memory(self):
        # 64 MiB in small chunks, and of a file: neither Python's memory nor that of the process grows
        count = 1 << 16
        one, most = head(2, 1020) + bytes(1020), [0]
        length = len(head(4, count)) + count * len(one)

        def parts():
            yield head(4, count)
            for turn in range(count):
                yield from (one[:300], one[300:])
                if turn % 1024 == 0:
                    most[0] = max(most[0], resident())

        class File(io.RawIOBase):
            chunks = parts()

            def read(self, size=-1):
                return next(self.chunks, b"")

        for source in (parts(), File()):
            before = resident()
            tracemalloc.start()
            try:
                self.assertEqual(naltvigo.check_stream(source, max_bytes=1 << 27), length)
                self.assertLess(tracemalloc.get_traced_memory()[1], 1 << 19)
            finally:
                tracemalloc.stop()
            self.assertLess(most[0] - before, 8 << 20)

    def test_nothing_is_left_of_checkers(self):
        # each has some 10 KiB and a key
        key = b"\xa1" + head(2, 1000) + bytes(1000) + b"\0"
        for _ in range(200):
            naltvigo.Checker().feed(key[:900])
        before = resident()
        for _ in range(5000):
            naltvigo.Checker().feed(key[:900])
            checker = naltvigo.Checker()
            checker.feed(key)
            checker.restart()
        self.assertLess(resident() - before, 16 << 20)

    def test_a_copy_is_no_longer_than_the_rest_of_the_item(self):
        for begin, limit in ((b"", 10), (head(2, 1 << 20) + bytes(1 << 20), (1 << 20) + 8)):
            checker = naltvigo.Checker(max_bytes=limit)
            checker.feed(begin[:-1])
            more = bytearray(1 << 24)
            for part in (more, memoryview(more)[::2]):
                self.assertLess(most_memory(lambda: checker.feed(part))[1], 10_000)


class Interpreters(unittest.TestCase):
    def test_without_the_interpreter_s_lock(self):
        for flags, status in (("t", 1), ("td", 1), ("", 0), ("d", 0)):
            code = f"import sys; sys.path[:] = {sys.path!r}; sys.abiflags = {flags!r}; import naltvigo"
            ran = subprocess.run([sys.executable, "-c", code], capture_output=True, text=True)
            self.assertEqual(ran.returncode, status)
            self.assertEqual("ImportError: naltvigo needs the interpreter's lock" in ran.stderr, bool(status))

    def test_several_in_turn(self):
        try:
            import _xxsubinterpreters as interpreters
        except ImportError:
            self.skipTest("this Python has no such module")
        code = f"import sys; sys.path[:] = {sys.path!r}; import naltvigo; assert naltvigo.loads(naltvigo.dumps({{(1,): [2]}})) == {{(1,): [2]}}"
        for _ in range(5):
            number = interpreters.create()
            interpreters.run_string(number, code)
            interpreters.destroy(number)
        self.assertEqual(loads(dumps({(1,): head(0, 5)})), {(1,): b"\5"})


if __name__ == "__main__":
    unittest.main()
