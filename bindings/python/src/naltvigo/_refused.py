"""The refusal of an input, as an exception."""

from __future__ import annotations


class Refused(ValueError):
    """An input is refused: it is not what the call requires.

    reason, name      the number and the name of the reason, as in naltvigo.h
    offset            of the byte at which the item is wrong, from the first byte of the item
    consumed          the number of its bytes that were read
    sentence, advice  what is wrong, and what to do about it
    path              the path to the offset: `$` is the item, `[2]` a member of an array, counted from 0, `."a"` the value
                      of a key, `(24)` the content of a tag, and `, key 2 of the map at 9` a key
    side              of `same`: 'left' or 'right', the input that is refused; else None
    item, start       of calls on sequences: the number of the item, counted from 1, and its offset; else None

    >>> import naltvigo
    >>> try:
    ...     naltvigo.check(b"\\xa1\\x61a\\x82\\x01")
    ... except naltvigo.Refused as refused:
    ...     print(refused.reason, refused.name, refused.offset, refused.consumed, refused.path)
    1 Truncated 5 5 $."a"[1]
    """

    __module__ = "naltvigo"

    def __init__(
        self,
        reason: int,
        offset: int,
        consumed: int,
        name: str,
        sentence: str,
        advice: str,
        path: str,
        side: str | None = None,
        item: int | None = None,
        start: int | None = None,
    ) -> None:
        super().__init__(reason, offset, consumed, name, sentence, advice, path, side, item, start)
        self.reason, self.offset, self.consumed, self.name = reason, offset, consumed, name
        self.sentence, self.advice, self.path = sentence, advice, path
        self.side, self.item, self.start = side, item, start

    def __str__(self) -> str:
        of = f"{self.side} " if self.side else f"item {self.item} " if self.item else ""
        where = f"{self.offset} ({self.path})" if self.path != "$" else self.offset
        return f"{of}refused {self.reason} {self.name} at {where}: {self.sentence} {self.advice}"

    def at(self, item: int, start: int) -> Refused:
        """The same refusal of another item of a sequence."""
        texts = self.name, self.sentence, self.advice, self.path
        return Refused(self.reason, self.offset, self.consumed, *texts, item=item, start=start)


def path_of(error: BaseException) -> str | None:
    """The path to the faulty part of a value or an item, or None if the exception has no path.

    The form of a path is described at Refused. Every exception that `dumps` or `loads` raises has one.

    >>> from naltvigo import Tag, dumps
    >>> try:
    ...     dumps([0, {"at": Tag(1, 2.5)}])
    ... except TypeError as error:
    ...     print(path_of(error))
    $[1]."at"(1)
    """
    path: str | None = getattr(error, "path", None)
    return path
