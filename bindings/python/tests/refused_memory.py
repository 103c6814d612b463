"""Each request for memory of each call refused: the call raises MemoryError, or returns as usual, and can be made again.

    cc -shared -fPIC -O1 refuse.c -o refuse.so -ldl
    LD_PRELOAD=./refuse.so PYTHONMALLOC=malloc python3 refused_memory.py

The last line says how many calls were made, and how many of them were refused memory.
"""

import array
import ctypes
import gc
import sys

import naltvigo
from naltvigo import Checker, Encoded, FrozenDict, Simple, Tag, dumps, loads, undefined
from naltvigo._native import start_machine

refuser = ctypes.CDLL(None)
refuse_from, refused_count = refuser.refuse_from, refuser.refused_count
refuse_from.argtypes, refused_count.restype = (ctypes.c_long, ctypes.c_long), ctypes.c_long

DEEP = [[[[[[[[[[[[[[[0]]]]]]]]]]]]]]]
VALUE = {
    "a": [1, {"b": Tag(5, (1, 2**64 - 1, -(2**64)))}], "k" * 40: [b"x" * 3000, "é" * 10, Simple(3), undefined, {(1, (2,)): 3}],
    5: FrozenDict({1: 2}), 6: Encoded(b"\x9f\x01\xff"), 7: DEEP, 8: {n: str(n) for n in range(100)},
}  # fmt: skip
DATA = dumps(VALUE)
STREAMED = b"\x9f" + DATA + b"\x7f\x61a\x61b\xff\xa2\xa1\0\0\0\xa1\x80\0\1\xff"


class Table(dict):
    pass


def call(function, *words, **options):
    """A call to be made. It needs no frame of Python's: CPython raises SystemError if memory for one is refused."""
    return function, words, options


CALLS = {
    "dumps": call(dumps, VALUE),
    "dumps of a subclass": call(dumps, Table(VALUE)),
    "dumps by default": call(dumps, [1, [2.5]], default=repr),
    "loads": call(loads, DATA),
    "loads of other bytes": call(loads, STREAMED),
    "loads of a copy": call(loads, bytearray(STREAMED)),
    "canonicalise": call(naltvigo.canonicalise, STREAMED),
    "check": call(naltvigo.check, memoryview(bytearray(STREAMED))[::1]),
    "check_canonical": call(naltvigo.check_canonical, DATA),
    "is_canonical": call(naltvigo.is_canonical, array.array("B", DATA)),
    "same": call(naltvigo.same, STREAMED, bytearray(STREAMED)),
    "diagnostic": call(naltvigo.diagnostic, STREAMED),
    "item_ends": call(naltvigo.item_ends, STREAMED * 40),
    "canonicalise_items": call(naltvigo.canonicalise_items, STREAMED * 40),
    "a tag": call(Tag, 5, ()),
}
WRONG = {
    "dumps of a float": (call(dumps, [1, [2.5]]), TypeError),
    "dumps of a surrogate": (call(dumps, {"a": ["\ud800"]}), UnicodeEncodeError),
    "dumps of a great integer": (call(dumps, [[2**64]]), OverflowError),
    "dumps too deep": (call(dumps, DEEP, depth=4), naltvigo.Refused),
    "loads of equal keys": (call(loads, b"\x81\xa2\x01\0\xf5\0"), ValueError),
    "loads of no item": (call(loads, b"\x82\0"), naltvigo.Refused),
    "canonicalise of no item": (call(naltvigo.canonicalise, b"\x82\0"), naltvigo.Refused),
    "feed of no item": (call(Checker().feed, b"\x82\xff"), naltvigo.Refused),
    "end of no item": (call(Checker().end), naltvigo.Refused),
    "item_ends of no item": (call(naltvigo.item_ends, b"\0\x82\0"), naltvigo.Refused),
}


def outcome(to_call):
    """What a call returns, or the type of its exception."""
    function, words, options = to_call
    try:
        return function(*words, **options)
    except Exception as error:
        return type(error)


def with_refusal(to_call, start):
    """The outcome of a call of which one request for memory is refused, and whether it was."""
    function, words, options = to_call
    try:
        refuse_from(start, 1)
        found = function(*words, **options)
    except Exception as error:
        found = type(error)
    # if the call came to its end before that request, then it may be one of these
    while True:
        try:
            return found, refused_count()
        except MemoryError:
            pass


def try_all(name, to_call, wanted, counts):
    refused = 1
    for start in range(1, 100_000):
        found, refused = with_refusal(to_call, start)
        counts[0] += 1
        counts[1] += refused
        if not (found is MemoryError and refused or type(found) is type(wanted) and found == wanted):
            sys.exit(f"{name}, request {start} refused: {found!r}")
        if not refused:
            break
    if outcome(to_call) != wanted:
        sys.exit(f"{name}: another result once there is memory again")


def iterators(counts):
    """Iterators, and the machine of `events`: they are made in one call and used in others."""
    wanted = list(naltvigo.items(STREAMED * 3, offsets=True))
    for start in range(1, 60):
        for data in (STREAMED * 3, bytearray(STREAMED * 3)):
            found, refused = with_refusal(call(list, naltvigo.items(data, offsets=True)), start)
            counts[0], counts[1] = counts[0] + 1, counts[1] + refused
            if not (found == wanted or found is MemoryError and refused):
                sys.exit(f"items, request {start} refused: {found!r}")
        making = call(naltvigo.items, bytearray(STREAMED)), call(start_machine), call(start_machine().take, STREAMED, 0)
        for to_call in making:
            found, refused = with_refusal(to_call, start)
            counts[0], counts[1] = counts[0] + 1, counts[1] + refused
            if isinstance(found, type) and not (found is MemoryError and refused):
                sys.exit(f"{to_call[0]}, request {start} refused: {found!r}")


def checkers(counts):
    """Checkers: one that was refused memory refuses all until it is restarted."""
    longest = dumps({(n, "k" * 200): [{"a": {n: n}}] for n in range(40)})
    refused = 1
    for start in range(1, 1000):
        made, was_made = with_refusal(call(Checker), start)
        checker = Checker()
        found, refused = with_refusal(call(checker.feed, bytearray(longest)), start)
        counts[0], counts[1] = counts[0] + 2, counts[1] + refused + was_made
        if isinstance(made, type) and not (made is MemoryError and was_made):
            sys.exit(f"Checker, request {start} refused: {made!r}")
        if not (found is True or found is MemoryError and refused):
            sys.exit(f"feed, request {start} refused: {found!r}")
        # of a part that was not copied nothing was used
        if checker.consumed and found is MemoryError and outcome(call(checker.feed, b"")) is not MemoryError:
            sys.exit(f"feed, request {start} refused: it continues")
        checker.restart()
        if outcome(call(checker.feed, longest)) is not True or checker.used != len(longest):
            sys.exit(f"feed, request {start} refused: a restart does not help")
        if not refused:
            break
    if start < 3:
        sys.exit("feed requests no memory")


def main():
    counts = [0, 0]
    gc.disable()
    for name, to_call in CALLS.items():
        try_all(name, to_call, outcome(to_call), counts)
    for name, (to_call, error) in WRONG.items():
        if outcome(to_call) is not error:
            sys.exit(f"{name}: {outcome(to_call)}, and not {error}")
        try_all(name, to_call, error, counts)
    iterators(counts)
    checkers(counts)
    if counts[1] < 1000:
        sys.exit(f"only {counts[1]} calls were refused memory: is refuse.so loaded?")
    print(f"{counts[0]} calls, {counts[1]} of them refused memory: MemoryError, or the usual result")


if __name__ == "__main__":
    main()
