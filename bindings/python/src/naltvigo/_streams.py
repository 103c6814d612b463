"""One item whose bytes come in chunks: its events, and its strict check."""

from __future__ import annotations

from collections.abc import Iterable, Iterator
from typing import TYPE_CHECKING, Any, NamedTuple

from ._files import Reader, is_buffer
from ._native import EVENT, MORE, OK, TRAILING, TRUNCATED, Checker, Machine, check_canonical, refusal, start_machine

if TYPE_CHECKING:
    from _typeshed import ReadableBuffer

    from ._files import Keys, Order, Source

KINDS = ("unsigned", "negative", "bytes", "text", "array", "map", "tag", "simple", "chunk", "piece", "break")


class Event(NamedTuple):
    """An event of an item.

    offset    of its first byte, from the first byte of the item
    kind      'unsigned', 'negative', 'bytes', 'text', 'array', 'map', 'tag', 'simple': the head of an item;
              'chunk': the head of a chunk of a string of indefinite length; 'piece': some bytes of a payload;
              'break': the end of an item of indefinite length
    number    the argument (a negative number is -1 minus the argument), the tag or simple value, or the number of
              bytes, members or pairs; None for an indefinite length, and for a break
    width     the number of bytes of the argument: 0, 1, 2, 4 or 8; None as above
    data      the bytes of a piece
    """

    offset: int
    kind: str
    number: int | None
    width: int | None
    data: bytes


def events(chunks: ReadableBuffer | Iterable[ReadableBuffer], *, depth: int = 64, max_bytes: int = 1 << 20) -> Iterator[Event]:
    """The events of the one item whose bytes arrive in these chunks, each as soon as its bytes have arrived.

    It checks only that the item is well-formed, and not UTF-8 or repeated keys. It raises Refused after the events before the
    fault. It also refuses a byte after the item, and an item that is not complete after the last chunk. A buffer is one chunk.

    >>> for event in events([b"\\x82\\x18", b"\\x64\\x43a", b"bc"]):      # [100, h'616263']
    ...     print(*event)
    0 array 2 0 b''
    1 unsigned 100 1 b''
    3 bytes 3 0 b''
    4 piece 1 0 b'a'
    5 piece 2 0 b'bc'
    """
    machine = start_machine(depth=depth, max_bytes=max_bytes)
    parts = (chunks,) if is_buffer(chunks) else chunks
    return _events(machine, parts)  # type: ignore[arg-type]


def _events(machine: Machine, chunks: Iterable[ReadableBuffer]) -> Iterator[Event]:
    status = MORE
    for chunk in _and_nothing(chunks):
        part = chunk if type(chunk) is bytes else bytes(memoryview(chunk))
        status, at = EVENT, 0
        while status == EVENT:
            status, used, reported, refused = machine.take(part, at)
            at += used
            for offset, kind, number, width, data in reported:
                yield Event(offset, KINDS[kind], number, width, data)
        if refused:
            raise refused
        if status == OK and at < len(part):
            raise refusal(TRAILING, machine.consumed)
    if status == MORE:
        raise refusal(TRUNCATED, machine.consumed)


def _and_nothing(chunks: Iterable[ReadableBuffer]) -> Iterator[ReadableBuffer]:
    # after the last chunk a machine still reports that the byte limit was reached
    yield from chunks
    yield b""


def check_stream(
    source: Source, *, order: Order = "bytewise", depth: int = 64, max_bytes: int = 1 << 20, keys: Keys = "any"
) -> int:
    """Returns the number of bytes in a source, if they are one valid item in its canonical bytes. Raises Refused otherwise.

    `source` is a file that was opened to read bytes, or an iterable of buffers that have parts of any length. A refusal has the
    reason and the offset that `check_canonical` reports for all bytes, and no path. It is raised at the first wrong byte, and
    nothing more is read. At most `max_bytes` + 1 bytes are read from a file. In memory are at most 64 KiB of a file or one
    buffer of an iterable, and the keys that a Checker stores. If `source` is one buffer, `check_canonical` checks it.

    >>> import io
    >>> check_stream(io.BytesIO(b"\\x82\\x18\\x64\\x01"))      # [100, 1]
    4
    >>> check_stream([b"\\x82\\x18", b"\\x64\\x01", b"\\x00"])
    Traceback (most recent call last):
      ...
    naltvigo.Refused: refused 12 Trailing at 4: ...
    """
    options: Any = dict(order=order, depth=depth, max_bytes=max_bytes, keys=keys)
    if is_buffer(source):
        length = memoryview(source).nbytes  # type: ignore[arg-type]
        check_canonical(source, **options)  # type: ignore[arg-type]
        return length
    checker, reader = Checker(**options), Reader(source)
    while part := reader.next(max_bytes + 1 - checker.consumed):
        if checker.feed(part) and checker.used < len(part):
            raise refusal(TRAILING, checker.consumed)
    return checker.end()
