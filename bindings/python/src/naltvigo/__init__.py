"""Deterministic CBOR (RFC 8949, without floating-point numbers), over a library that is proved.

Values become canonical bytes, and checked bytes become values:

>>> import naltvigo
>>> naltvigo.dumps({"Fun": True, "Amt": -2}).hex()
'a263416d74216346756ef5'
>>> naltvigo.loads(bytes.fromhex("a263416d74216346756ef5"), canonical=True)
{'Amt': -2, 'Fun': True}

You can also check, compare and canonicalise bytes from other encoders. Each accepted input has one canonical encoding. Each
refusal has a name and an offset:

>>> streamed = bytes.fromhex("bf6346756ef563416d7421ff")       # {"Fun": true, "Amt": -2}, of indefinite length
>>> naltvigo.canonicalise(streamed).hex()
'a263416d74216346756ef5'
>>> naltvigo.diagnostic(streamed)
'{"Fun": true, "Amt": -2}'
>>> naltvigo.canonicalise(b"\\x81\\xf9\\x3e\\x00")                 # [1.5]
Traceback (most recent call last):
  ...
naltvigo.Refused: refused 5 Float at 1 ($[0]): ...

A call that reads bytes accepts any buffer (bytes, bytearray, memoryview, array, mmap and others). Each call has limits as
keyword arguments: `depth`, how deeply arrays, maps and tags may nest (0 to 1024), and `max_bytes`, how many bytes an item
and its canonical bytes may have (0 to 2 ** 62). All calls except `events` have `keys`, the items that may be keys of maps:
'any', or 'basic', only integers and texts. A call raises ValueError if a limit, order or kind of keys is out of range,
TypeError if a limit is not an integer, and MemoryError if memory runs out. Any number of threads may make calls. The
interpreter's lock is released while the library reads an input of 16 KiB or more. Memory that may change is copied first.
"""

import sys
from collections.abc import Mapping, Sequence

if "t" in getattr(sys, "abiflags", ""):
    raise ImportError("naltvigo needs the interpreter's lock: a Python without it (free-threaded) is not supported")

from ._native import (
    VERSION,
    Checker,
    FrozenDict,
    FrozenList,
    Simple,
    Tag,
    canonicalise,
    check,
    check_canonical,
    diagnostic,
    dumps,
    is_canonical,
    item_ends,
    loads,
    same,
)
from ._files import canonicalise_items, dump, items, load
from ._refused import Refused, path_of
from ._streams import Event, check_stream, events
from ._values import Encoded, undefined

Mapping.register(FrozenDict)
Sequence.register(FrozenList)

__version__: str = VERSION

__all__ = [
    "Checker",
    "Encoded",
    "Event",
    "FrozenDict",
    "FrozenList",
    "Refused",
    "Simple",
    "Tag",
    "canonicalise",
    "canonicalise_items",
    "check",
    "check_canonical",
    "check_stream",
    "diagnostic",
    "dump",
    "dumps",
    "events",
    "is_canonical",
    "item_ends",
    "items",
    "load",
    "loads",
    "path_of",
    "same",
    "undefined",
]
