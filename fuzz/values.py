"""Values: their canonical bytes, when two are the same, and their diagnostic text, computed from RFC 8949 alone.

Deterministic encoding by sections 4.2.1 and 4.2.3. A value is a tuple that begins with its major type.
"""

BYTEWISE, LENGTH_FIRST = 0, 1
UNSIGNED, NEGATIVE, BYTES, TEXT, ARRAY, MAP, TAG, SIMPLE = range(8)


def head(major, argument):
    """The shortest head (RFC 8949, section 4.2.1)."""
    if argument < 24:
        return bytes([major << 5 | argument])
    size = next(size for size in (1, 2, 4, 8) if argument < 1 << 8 * size)
    return bytes([major << 5 | {1: 24, 2: 25, 4: 26, 8: 27}[size]]) + argument.to_bytes(size, "big")


def key_of(order, encoded):
    """What keys are sorted by."""
    return (len(encoded), encoded) if order == LENGTH_FIRST else encoded


def canonical(order, value):
    """The canonical bytes of a value."""
    kind = value[0]
    if kind in (UNSIGNED, NEGATIVE, SIMPLE):
        # a simple value of 32 or more has a second byte
        return head(kind, value[1])
    if kind in (BYTES, TEXT):
        return head(kind, len(value[1])) + value[1]
    if kind == ARRAY:
        return head(ARRAY, len(value[1])) + b"".join(canonical(order, it) for it in value[1])
    if kind == TAG:
        return head(TAG, value[1]) + canonical(order, value[2])
    pairs = [(canonical(order, key), canonical(order, content)) for key, content in value[1]]
    pairs.sort(key=lambda pair: key_of(order, pair[0]))
    return head(MAP, len(pairs)) + b"".join(key + content for key, content in pairs)


def meaning(value):
    """Equal for two values exactly if they are the same: the pairs of a map in any order (section 5.6.1)."""
    kind = value[0]
    if kind == ARRAY:
        return (kind, tuple(meaning(it) for it in value[1]))
    if kind == TAG:
        return (kind, value[1], meaning(value[2]))
    if kind == MAP:
        return (kind, frozenset((meaning(key), meaning(content)) for key, content in value[1]))
    return value


def diagnostic(value):
    """The diagnostic text (section 8), on one line, in UTF-8."""
    kind = value[0]
    if kind == UNSIGNED:
        return b"%d" % value[1]
    if kind == NEGATIVE:
        return b"%d" % (-1 - value[1])
    if kind == BYTES:
        return b"h'" + value[1].hex().encode() + b"'"
    if kind == TEXT:
        return b'"' + b"".join(letter(it) for it in value[1]) + b'"'
    if kind == ARRAY:
        return b"[" + b", ".join(diagnostic(it) for it in value[1]) + b"]"
    if kind == MAP:
        return b"{" + b", ".join(diagnostic(key) + b": " + diagnostic(it) for key, it in value[1]) + b"}"
    if kind == TAG:
        return b"%d(" % value[1] + diagnostic(value[2]) + b")"
    return {20: b"false", 21: b"true", 22: b"null", 23: b"undefined"}.get(value[1], b"simple(%d)" % value[1])


def letter(byte):
    if byte in b'"\\':
        return b"\\" + bytes([byte])
    return b"\\u00%02x" % byte if byte < 0x20 or byte == 0x7F else bytes([byte])
