"""Large maps whose pairs are out of order: within one another, in keys, next to one another in arrays whose head has one
or two bytes, with few bytes for each pair and with many."""


def head(major, number):
    if number < 24:
        return bytes([32 * major + number])
    width = next(it for it in (1, 2, 4, 8) if number < 256**it)
    return bytes([32 * major + 24 + (1, 2, 4, 8).index(width)]) + number.to_bytes(width, "big")


def content(size):
    return head(2, size) + size * b"\x07"


def container(major, members, count, definite):
    if definite:
        return head(major, count) + members
    return bytes([32 * major + 31]) + members + b"\xff"


def nest(depth, size, definite=True):
    """This many maps {1: the next, 0: bytes} around 5."""
    item = b"\x05"
    for _ in range(depth):
        item = container(5, b"\x01" + item + b"\x00" + content(size), 2, definite)
    return item


def falling(size):
    """40 pairs with keys from 63 to 24, and this many bytes each."""
    return head(5, 40) + b"".join(head(0, 87 - key) + content(size) for key in range(24, 64))


def large_maps():
    for definite in (True, False):
        for size in (300, 2041, 2042):
            for depth in (1, 2, 9, 200):
                yield nest(depth, size, definite)
            keys = nest(3, size, definite) + b"\x00" + nest(2, size, definite) + b"\x00"
            yield container(5, keys, 2, definite)
            for zeros in (21, 22):
                members = nest(2, size, definite) + zeros * b"\x00" + nest(3, size, definite)
                array = container(4, members, zeros + 2, definite)
                yield container(5, b"\x01" + array + b"\x00" + nest(4, size, definite), 2, definite)
            again = b"".join(head(0, key) + nest(2, size, definite) for key in (2, 1, 0, 1))
            yield container(5, again, 4, definite)
        yield container(4, b"".join(b"\xa1" + nest(2, 2042, definite) + b"\x00" for _ in range(40)), 40, definite)
        for size in (59, 60, 61):
            yield container(5, b"\x01" + falling(size) + b"\x00" + falling(size), 2, definite)
