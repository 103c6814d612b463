"""Items in files and in bytes that come in chunks."""

from __future__ import annotations

from array import array
from collections.abc import Callable, Iterable, Iterator
from os import PathLike
from typing import TYPE_CHECKING, Any, Literal, Protocol, Union, overload

from . import _native
from ._native import TRUNCATED, Tag
from ._refused import Refused

if TYPE_CHECKING:
    from _typeshed import ReadableBuffer

    class Readable(Protocol):
        """A file that was opened to read bytes."""

        def read(self, size: int, /) -> bytes: ...

    class Writable(Protocol):
        """A file that was opened to write bytes."""

        def write(self, data: bytes, /) -> object: ...

    Source = Union[ReadableBuffer, Readable, Iterable[ReadableBuffer]]
    Order = Literal["bytewise", "length"]
    Keys = Literal["any", "basic"]

PART = 1 << 16


def load(
    file: Readable,
    *,
    canonical: bool = False,
    order: Order = "bytewise",
    depth: int = 64,
    max_bytes: int = 1 << 20,
    keys: Keys = "any",
    tag_hook: Callable[[Tag], Any] | None = None,
    map_hook: Callable[[dict[Any, Any]], Any] | None = None,
) -> Any:
    """The value of a file that is one item: `loads` of its bytes, from the position of the file to its end.

    At most one byte more than `max_bytes` is read.

    >>> import io
    >>> load(io.BytesIO(b"\\x82\\x01\\x02"))
    [1, 2]
    """
    data = Reader(file).take(max_bytes + 1)
    options: Any = dict(canonical=canonical, order=order, depth=depth, max_bytes=max_bytes, keys=keys)
    return _native.loads(data, tag_hook=tag_hook, map_hook=map_hook, **options)


def dump(
    value: Any,
    file: Writable,
    *,
    order: Order = "bytewise",
    depth: int = 64,
    max_bytes: int = 1 << 20,
    keys: Keys = "any",
    default: Callable[[Any], Any] | None = None,
) -> None:
    """Writes the canonical bytes of a value to a file, all of them or, if `dumps` raises an exception, none.

    >>> import io
    >>> file = io.BytesIO()
    >>> dump([1, 2], file)
    >>> file.getvalue()
    b'\\x82\\x01\\x02'
    """
    file.write(_native.dumps(value, order=order, depth=depth, max_bytes=max_bytes, keys=keys, default=default))


@overload
def items(
    data: Source, *, canonical: bool = False, offsets: Literal[False] = False, order: Order = "bytewise", depth: int = 64,
    max_bytes: int = 1 << 20, keys: Keys = "any",
) -> Iterator[bytes]: ...  # fmt: skip
@overload
def items(
    data: Source, *, canonical: bool = False, offsets: Literal[True], order: Order = "bytewise", depth: int = 64,
    max_bytes: int = 1 << 20, keys: Keys = "any",
) -> Iterator[tuple[int, int]]: ...  # fmt: skip
@overload
def items(
    data: Source, *, canonical: bool = False, offsets: bool, order: Order = "bytewise", depth: int = 64,
    max_bytes: int = 1 << 20, keys: Keys = "any",
) -> Iterator[bytes] | Iterator[tuple[int, int]]: ...  # fmt: skip
def items(
    data: Source,
    *,
    canonical: bool = False,
    offsets: bool = False,
    order: Order = "bytewise",
    depth: int = 64,
    max_bytes: int = 1 << 20,
    keys: Keys = "any",
) -> Iterator[bytes] | Iterator[tuple[int, int]]:
    """An iterator over the items of a sequence (RFC 8742), each as a bytes object with the bytes of the item.

    With `canonical` each item must be in its canonical bytes. With `offsets` the iterator yields the offsets at which an
    item begins and ends. The limits are for each item. If an item is refused, Refused is raised after the items before
    it: its `item` is the number of the item, counted from 1, `start` the offset at which the item begins, and `offset`
    counts from there.

    `data` is a buffer, a file that was opened to read bytes, or an iterable of buffers, cut anywhere. Of a file or an
    iterable no more is kept than 64 KiB and two items of `max_bytes`. A file that is mapped with mmap.ACCESS_READ is
    read where it is, and must not change until the iterator ends. Other memory that may change is copied first.

    >>> [canonicalise(item) for item in items(b"\\x18\\x00\\x61a\\x9f\\xff")]
    [b'\\x00', b'aa', b'\\x80']
    >>> list(items([b"\\x18", b"\\x00\\x61", b"a\\x9f\\xff"], offsets=True))
    [(0, 2), (2, 4), (4, 6)]
    """
    options: Any = dict(canonical=canonical, order=order, depth=depth, max_bytes=max_bytes, keys=keys)
    if is_buffer(data):
        return _native.items(data, offsets=offsets, **options)  # type: ignore[arg-type]
    _native.items(b"", offsets=offsets, **options)  # wrong options are refused at once
    return _items(Reader(data), offsets, options)


@overload
def canonicalise_items(  # type: ignore[misc]  # a bytes object is an iterable too, of integers
    data: ReadableBuffer, *, order: Order = "bytewise", depth: int = 64, max_bytes: int = 1 << 20, keys: Keys = "any"
) -> tuple[bytes, array[int]]: ...
@overload
def canonicalise_items(
    data: Readable | Iterable[ReadableBuffer], *, order: Order = "bytewise", depth: int = 64, max_bytes: int = 1 << 20,
    keys: Keys = "any",
) -> Iterator[tuple[bytes, array[int]]]: ...  # fmt: skip
def canonicalise_items(
    data: Source, *, order: Order = "bytewise", depth: int = 64, max_bytes: int = 1 << 20, keys: Keys = "any"
) -> tuple[bytes, array[int]] | Iterator[tuple[bytes, array[int]]]:
    """The canonical bytes of all items of a sequence, joined in one bytes object, and the offset at which each ends.

    For a file or an iterable of buffers, it returns an iterator over such pairs, each for some of the items. Buffers, files,
    limits and Refused are as with `items`.

    >>> canonicalise_items(b"\\x18\\x00\\x61a\\x9f\\xff")
    (b'\\x00aa\\x80', array('Q', [1, 3, 4]))
    >>> import io
    >>> b"".join(part for part, ends in canonicalise_items(io.BytesIO(b"\\x18\\x00\\x61a\\x9f\\xff")))
    b'\\x00aa\\x80'
    """
    options: Any = dict(order=order, depth=depth, max_bytes=max_bytes, keys=keys)
    if is_buffer(data):
        return _native.canonicalise_items(data, **options)  # type: ignore[arg-type]
    _native.canonicalise_items(b"", **options)
    return _canonical_parts(Reader(data), options)


def _bytes_of(chunk: ReadableBuffer) -> bytes:
    if isinstance(chunk, str):
        raise TypeError("bytes are needed, and not a str: open a file with mode 'rb'")
    return chunk if type(chunk) is bytes else bytes(memoryview(chunk))


def is_buffer(data: object) -> bool:
    try:
        memoryview(data)  # type: ignore[arg-type]
    except TypeError:
        return False
    return True


class Reader:
    """The bytes of a file, or of chunks."""

    def __init__(self, source: Any) -> None:
        if isinstance(source, (str, PathLike)):
            raise TypeError(f"an open file is needed, and not a {type(source).__name__}: with open(.., 'rb') as file")
        self._file = source if hasattr(source, "read") else None
        self._chunks = iter(()) if self._file else iter(source)

    def next(self, most: int) -> bytes:
        """Some bytes: at most this number from a file, a whole chunk from an iterable; b"" at the end."""
        if self._file:
            return _bytes_of(self._file.read(min(most, PART)))
        return next((data for data in map(_bytes_of, self._chunks) if data), b"")

    def take(self, count: int) -> bytes:
        """This number of bytes, or more if chunks have more; fewer only at the end."""
        parts, length = [], 0
        while length < count and (part := self.next(count - length)):
            parts.append(part)
            length += len(part)
        return b"".join(parts)


class _Windows:
    """A sequence in parts. What a part does not end is read again with the next one, which has at least as many bytes, so
    an item is read at most twice as often as its bytes come."""

    def __init__(self, reader: Reader) -> None:
        self.reader, self.pending, self.start, self.count = reader, b"", 0, 0

    def next(self) -> tuple[bytes, bool]:
        """The bytes that are not used yet, and whether there are more."""
        more = self.reader.take(max(PART, len(self.pending)))
        self.pending += more
        return self.pending, bool(more)

    def use(self, length: int, count: int) -> None:
        self.pending, self.start, self.count = self.pending[length:], self.start + length, self.count + count

    def refusal(self, refused: Refused) -> Refused:
        """The same, counted in the whole sequence."""
        return refused.at(self.count + (refused.item or 1), self.start + (refused.start or 0))


def _items(reader: Reader, offsets: bool, options: Any) -> Iterator[Any]:
    windows, has_more = _Windows(reader), True
    while has_more:
        part, has_more = windows.next()
        count = end = 0
        try:
            for begin, end in _native.items(part, offsets=True, **options):
                count += 1
                yield (windows.start + begin, windows.start + end) if offsets else part[begin:end]
        except Refused as refused:
            if refused.reason != TRUNCATED or not has_more:
                raise windows.refusal(refused) from None
        windows.use(end, count)


def _canonical_parts(reader: Reader, options: Any) -> Iterator[tuple[bytes, array[int]]]:
    windows, has_more = _Windows(reader), True
    while has_more:
        part, has_more = windows.next()
        length, refusal = len(part), None
        try:
            found = _native.canonicalise_items(part, **options)
        except Refused as refused:
            length = refused.start or 0
            found = _native.canonicalise_items(memoryview(part)[:length], **options)
            if refused.reason != TRUNCATED or not has_more:
                refusal = windows.refusal(refused)
        windows.use(length, len(found[1]))
        if found[1]:
            yield found
        if refusal:
            raise refusal
