"""Values that Python has no type for and that need no code in C: undefined, and items in bytes."""

from typing import Any


class Undefined:
    """The type of `undefined`, the simple value 23. There is one such value."""

    __slots__ = ()
    __module__ = "naltvigo"

    def __repr__(self) -> str:
        return "undefined"

    def __bool__(self) -> bool:
        return False

    def __reduce__(self) -> str:
        return "undefined"


undefined = Undefined()


class Encoded(bytes):
    """An item in bytes, which `dumps` puts in its place: it is checked, and becomes canonical.

    >>> from naltvigo import Encoded, dumps
    >>> dumps([Encoded(b"\\x9f\\x18\\x01\\xff"), 2])
    b'\\x82\\x81\\x01\\x02'
    """

    __slots__ = ()
    __module__ = "naltvigo"

    def __repr__(self) -> str:
        return f"Encoded({super().__repr__()})"
