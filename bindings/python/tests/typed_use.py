"""Uses of the package as a type checker sees them: `mypy --strict` accepts this file, and each error that it expects is one."""

import array
import mmap
from collections.abc import Iterator

import naltvigo
from naltvigo import Encoded, Event, FrozenDict, Refused, Simple, Tag


def buffers(file: int) -> list[bytes]:
    mapped = mmap.mmap(file, 0, access=mmap.ACCESS_READ)
    return [
        naltvigo.canonicalise(b"\x00"),
        naltvigo.canonicalise(bytearray(b"\x00")),
        naltvigo.canonicalise(memoryview(b"\x00")),
        naltvigo.canonicalise(array.array("B", b"\x00")),
        naltvigo.canonicalise(mapped, order="length", keys="basic", depth=3, max_bytes=9),
    ]


def sequences(mapped: mmap.mmap) -> int:
    whole: Iterator[bytes] = naltvigo.items(mapped)
    pairs: Iterator[tuple[int, int]] = naltvigo.items(mapped, offsets=True)
    ends: "array.array[int]" = naltvigo.item_ends(mapped, canonical=True)
    data, canonical_ends = naltvigo.canonicalise_items(mapped)
    return sum(map(len, whole)) + sum(end - begin for begin, end in pairs) + ends[0] + canonical_ends[0] + len(data)


def values() -> bytes:
    frozen: FrozenDict[int, str] = FrozenDict({1: "a"})
    value = [Tag(1, Simple(3).number), naltvigo.undefined, Encoded(b"\x00"), {frozen: 1}]
    found = naltvigo.loads(naltvigo.dumps(value, default=str), canonical=True)
    assert isinstance(found, list)
    return naltvigo.dumps(found)


def events() -> list[Event]:
    return [*naltvigo.events([b"\x82", bytearray(b"\x01")]), *naltvigo.events(mmap.mmap(-1, 1))]


def streams(file: int, parts: Iterator[bytes]) -> int:
    checker = naltvigo.Checker(order="length", keys="basic", depth=3, max_bytes=9)
    for part in parts:
        if checker.feed(part) or checker.feed(bytearray(part)):
            break
    checker.restart()
    with open(file, "rb") as opened:
        length: int = naltvigo.check_stream(opened) + naltvigo.check_stream(parts) + naltvigo.check_stream(b"\x00", depth=3)
    return checker.used + checker.consumed + checker.end() + checker.complete + length


def refusals() -> tuple[int, str, int, str | None]:
    try:
        naltvigo.check(b"")
    except Refused as refused:
        return refused.reason, refused.name, refused.offset, refused.side
    known: bool = naltvigo.is_canonical(b"") or naltvigo.same(b"", b"")
    return int(known), naltvigo.__version__, 0, None


naltvigo.canonicalise("text")  # type: ignore[arg-type]
naltvigo.canonicalise(b"", order="shortest")  # type: ignore[arg-type]
naltvigo.canonicalise(b"", deep=3)  # type: ignore[call-arg]
naltvigo.Checker().feed("text")  # type: ignore[arg-type]
naltvigo.Checker().used = 3  # type: ignore[misc]
naltvigo.check_stream("some.cbor")  # type: ignore[arg-type]
naltvigo.Tag(1, 2).number = 3  # type: ignore[misc]
