"""The extension (src/native)."""

from array import array
from collections.abc import Callable, Iterable, Iterator, Mapping, Sequence
from types import GenericAlias
from typing import Any, Literal, TypeVar, final, overload

from _typeshed import ReadableBuffer

from ._refused import Refused

_Order = Literal["bytewise", "length"]
_Keys = Literal["any", "basic"]

VERSION: str
OK: int
EVENT: int
MORE: int
TRUNCATED: int
TRAILING: int

_Key = TypeVar("_Key")
_Value = TypeVar("_Value", covariant=True)

@final
class Simple:
    __match_args__ = ("number",)
    def __init__(self, number: int) -> None: ...
    @property
    def number(self) -> int: ...
    def __hash__(self) -> int: ...

@final
class FrozenList(Sequence[Any]):
    @overload
    def __getitem__(self, index: int) -> Any: ...
    @overload
    def __getitem__(self, index: slice) -> tuple[Any, ...]: ...
    def __len__(self) -> int: ...
    def __hash__(self) -> int: ...

@final
class FrozenDict(Mapping[_Key, _Value]):
    @overload
    def __init__(self, mapping: Mapping[_Key, _Value] = ..., /) -> None: ...
    @overload
    def __init__(self, pairs: Iterable[tuple[_Key, _Value]], /) -> None: ...
    @overload
    def __init__(self: FrozenDict[str, _Value], /, **named: _Value) -> None: ...
    def __getitem__(self, key: _Key, /) -> _Value: ...
    def __iter__(self) -> Iterator[_Key]: ...
    def __reversed__(self) -> Iterator[_Key]: ...
    def __class_getitem__(cls, types: Any, /) -> GenericAlias: ...
    def __len__(self) -> int: ...
    def __hash__(self) -> int: ...

@final
class Tag:
    __match_args__ = ("number", "content")
    def __init__(self, number: int, content: Any) -> None: ...
    @property
    def number(self) -> int: ...
    @property
    def content(self) -> Any: ...
    def __hash__(self) -> int: ...

@final
class Machine:
    @property
    def consumed(self) -> int: ...
    def take(
        self, part: bytes, at: int
    ) -> tuple[int, int, list[tuple[int, int, int | None, int | None, bytes]], Refused | None]: ...

@final
class Checker:
    def __init__(self, *, order: _Order = "bytewise", depth: int = 64, max_bytes: int = 1 << 20, keys: _Keys = "any") -> None: ...
    @property
    def complete(self) -> bool: ...
    @property
    def consumed(self) -> int: ...
    @property
    def used(self) -> int: ...
    def feed(self, part: ReadableBuffer, /) -> bool: ...
    def end(self) -> int: ...
    def restart(self) -> None: ...

def refusal(reason: int, offset: int) -> Refused: ...
def start_machine(*, depth: int = 64, max_bytes: int = 1 << 20) -> Machine: ...
def dumps(
    value: Any,
    *,
    order: _Order = "bytewise",
    depth: int = 64,
    max_bytes: int = 1 << 20,
    keys: _Keys = "any",
    default: Callable[[Any], Any] | None = None,
) -> bytes: ...
def loads(
    data: ReadableBuffer,
    *,
    canonical: bool = False,
    order: _Order = "bytewise",
    depth: int = 64,
    max_bytes: int = 1 << 20,
    keys: _Keys = "any",
    tag_hook: Callable[[Tag], Any] | None = None,
    map_hook: Callable[[dict[Any, Any]], Any] | None = None,
) -> Any: ...
def canonicalise(
    data: ReadableBuffer, *, order: _Order = "bytewise", depth: int = 64, max_bytes: int = 1 << 20, keys: _Keys = "any"
) -> bytes: ...
def check(data: ReadableBuffer, *, depth: int = 64, max_bytes: int = 1 << 20, keys: _Keys = "any") -> None: ...
def check_canonical(
    data: ReadableBuffer, *, order: _Order = "bytewise", depth: int = 64, max_bytes: int = 1 << 20, keys: _Keys = "any"
) -> None: ...
def is_canonical(
    data: ReadableBuffer, *, order: _Order = "bytewise", depth: int = 64, max_bytes: int = 1 << 20, keys: _Keys = "any"
) -> bool: ...
def same(left: ReadableBuffer, right: ReadableBuffer, *, depth: int = 64, max_bytes: int = 1 << 20, keys: _Keys = "any") -> bool: ...
def diagnostic(data: ReadableBuffer, *, depth: int = 64, max_bytes: int = 1 << 20, keys: _Keys = "any") -> str: ...
@overload
def items(
    data: ReadableBuffer,
    *,
    canonical: bool = False,
    offsets: Literal[False] = False,
    order: _Order = "bytewise",
    depth: int = 64,
    max_bytes: int = 1 << 20,
    keys: _Keys = "any",
) -> Iterator[bytes]: ...
@overload
def items(
    data: ReadableBuffer,
    *,
    canonical: bool = False,
    offsets: Literal[True],
    order: _Order = "bytewise",
    depth: int = 64,
    max_bytes: int = 1 << 20,
    keys: _Keys = "any",
) -> Iterator[tuple[int, int]]: ...
@overload
def items(
    data: ReadableBuffer,
    *,
    canonical: bool = False,
    offsets: bool,
    order: _Order = "bytewise",
    depth: int = 64,
    max_bytes: int = 1 << 20,
    keys: _Keys = "any",
) -> Iterator[bytes] | Iterator[tuple[int, int]]: ...
def item_ends(
    data: ReadableBuffer,
    *,
    canonical: bool = False,
    order: _Order = "bytewise",
    depth: int = 64,
    max_bytes: int = 1 << 20,
    keys: _Keys = "any",
) -> array[int]: ...
def canonicalise_items(
    data: ReadableBuffer, *, order: _Order = "bytewise", depth: int = 64, max_bytes: int = 1 << 20, keys: _Keys = "any"
) -> tuple[bytes, array[int]]: ...
