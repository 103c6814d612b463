"""Random values, and their bytes as RFC 8949 describes them: what the tests compare the package with."""

import itertools

from naltvigo import FrozenDict, FrozenList, Simple, Tag, undefined

WIDTHS = ((24, 1), (25, 2), (26, 4), (27, 8))


def head(kind, n):
    """The shortest head (section 4.2.1)."""
    if n < 24:
        return bytes([kind << 5 | n])
    for low, size in WIDTHS:
        if n < 1 << 8 * size:
            return bytes([kind << 5 | low]) + n.to_bytes(size, "big")
    raise ValueError(n)


def encoded(value, order="bytewise"):
    """The canonical bytes of a value (section 4.2)."""
    if value is False or value is True or value is None or value is undefined:
        return bytes([0xF4 + [False, True, None, undefined].index(value)])
    if isinstance(value, int):
        return head(0, value) if value >= 0 else head(1, -1 - value)
    if isinstance(value, bytes):
        return head(2, len(value)) + value
    if isinstance(value, str):
        return head(3, len(value.encode())) + value.encode()
    if isinstance(value, (list, tuple, FrozenList)):
        return head(4, len(value)) + b"".join(encoded(one, order) for one in value)
    if isinstance(value, (dict, FrozenDict)):
        by = (lambda pair: pair[0]) if order == "bytewise" else (lambda pair: (len(pair[0]), pair[0]))
        pairs = sorted(((encoded(k, order), encoded(v, order)) for k, v in value.items()), key=by)
        return head(5, len(value)) + b"".join(itertools.chain(*pairs))
    if isinstance(value, Tag):
        return head(6, value.number) + encoded(value.content, order)
    return head(7, value.number) if value.number < 24 else bytes([0xF8, value.number])


def any_head(kind, n, rng):
    """A head of any width that holds the number."""
    heads = [bytes([kind << 5 | n])] if n < 24 else []
    heads += [bytes([kind << 5 | low]) + n.to_bytes(size, "big") for low, size in WIDTHS if n < 1 << 8 * size]
    return rng.choice(heads)


def any_string(kind, value, rng):
    if rng.random() < 0.5:
        raw = value if kind == 2 else value.encode()
        return any_head(kind, len(raw), rng) + raw
    cuts = sorted(rng.randrange(len(value) + 1) for _ in range(rng.randrange(4)))
    chunks = [value[begin:end] for begin, end in zip([0, *cuts], [*cuts, len(value)])]
    raw = [chunk if kind == 2 else chunk.encode() for chunk in chunks]
    return bytes([kind << 5 | 31]) + b"".join(any_head(kind, len(one), rng) + one for one in raw) + b"\xff"


def any_encoding(value, rng):
    """The same value in some encoding: heads too long, indefinite lengths, chunks, pairs in any order."""
    if isinstance(value, bool) or value is None or value is undefined or isinstance(value, Simple):
        return encoded(value)
    if isinstance(value, int):
        return any_head(0, value, rng) if value >= 0 else any_head(1, -1 - value, rng)
    if isinstance(value, (bytes, str)):
        return any_string(2 if isinstance(value, bytes) else 3, value, rng)
    if isinstance(value, Tag):
        return any_head(6, value.number, rng) + any_encoding(value.content, rng)
    kind, members = 4, [any_encoding(one, rng) for one in value]
    if isinstance(value, (dict, FrozenDict)):
        pairs = list(value.items())
        rng.shuffle(pairs)
        kind, members = 5, [any_encoding(k, rng) + any_encoding(v, rng) for k, v in pairs]
    if rng.random() < 0.5:
        return any_head(kind, len(members), rng) + b"".join(members)
    return bytes([kind << 5 | 31]) + b"".join(members) + b"\xff"


EDGES = [0, 1, 23, 24, 255, 256, 65535, 65536, 2**32 - 1, 2**32, 2**63 - 1, 2**63, 2**64 - 1]


def some_leaf(rng, which, is_key):
    if which == 0:
        return rng.choice(EDGES[2:]) if is_key else rng.choice(EDGES)
    if which == 1:
        return -1 - rng.choice(EDGES)
    if which == 2:
        return rng.randbytes(rng.choice((0, 1, 23, 24, 300)))
    if which in (3, 4):
        return "".join(rng.choice(("a", "\0", "é", "漢", "😀")) for _ in range(rng.randrange(30)))
    if which == 5:
        return rng.choice((None, undefined)) if is_key else rng.choice((None, undefined, True, False))
    return Simple(rng.choice((0, 19, 32, 255)))


def some_value(rng, depth, is_key=False):
    """A value of at most this depth; as a key one with a hash, and none of 0, 1, False, True, which are equal in Python."""
    which = rng.randrange(12 if depth else 7)
    if which < 7:
        return some_leaf(rng, which, is_key)
    if which in (7, 8):
        members = [some_value(rng, depth - 1, is_key) for _ in range(rng.randrange(5))]
        return tuple(members) if is_key else members
    if which in (9, 10):
        pairs = {some_value(rng, depth - 1, True): some_value(rng, depth - 1, is_key) for _ in range(rng.randrange(5))}
        return FrozenDict(pairs) if is_key else pairs
    return Tag(rng.choice(EDGES), some_value(rng, depth - 1, is_key))
