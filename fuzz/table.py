"""The rows of the conformance tables of cbor_reader: inputs with their limits, and what was worked out by hand."""

import glob
import os
import sys
from collections import namedtuple

from reference import KEYS, Limits, Refusal

ROOT = os.path.dirname(os.path.dirname(os.path.abspath(__file__)))
sys.path.append(f"{ROOT}/c")
import rows as columns  # noqa: E402

TABLES = f"{ROOT}/crates/cbor_reader_tests/src/tests/*_table.rt"

# By the two orders: the canonical bytes or a refusal, and how many bytes the strict reader takes or a refusal.
Row = namedtuple("Row", "given limits canonical strict")

# Inputs, in bytewise order: what is requested from a reader that returns at most this many bytes a read, and what each call
# reports. Worked out by hand, in the words of crates/fuzz_readers.
CALLS = [
    # [0, 0] stores nothing
    (
        bytes.fromhex("820000"),
        4096,
        "array,2,0,0,1,1,0,0,0;unsigned,0,1,0,2,1,0,0,0;unsigned,0,2,0,3,0,0,0,0;" + 3 * "none,3,0,0,0,0;" + ":1+1+1+:0",
    ),
    # {{1: 1}: 0, {1: 0}: 0}: the second key falls
    (
        bytes.fromhex("a2a1010100a1010000"),
        1,
        "map,2,0,0,1,1,1,0,0;map,1,1,0,2,2,2,1,0;unsigned,1,2,0,3,2,2,2,0;unsigned,1,3,0,4,1,1,3,0;"
        + "unsigned,0,4,0,5,1,1,3,0;map,1,5,0,6,2,2,4,0;unsigned,1,6,0,7,2,2,5,0;"
        + 3 * "!16,5,8,8,1,0,0,0;"
        + ":1+1+1+1+1+1+1+1+:1",
    ),
    # {"hello": 1000}, and a byte that nothing requests
    (
        bytes.fromhex("a16568656c6c6f1903e800"),
        3,
        "map,1,0,0,1,1,1,0,0;text,5,1,0,2,1,1,1,0;piece,3,2,0,68656c,5,1,1,4,3;piece,2,5,0,6c6f,7,1,1,6,2;"
        + "unsigned,1000,7,2,10,0,0,0,2;"
        + 3 * "none,10,0,0,0,2;"
        + ":1+1+5+2+1+2+:1",
    ),
    # {0: "a", 0: ..}: the piece is no longer held
    (
        bytes.fromhex("a20061610000"),
        4096,
        "map,2,0,0,1,1,1,0,0;unsigned,0,1,0,2,1,1,1,0;text,1,2,0,3,1,1,1,0;piece,1,3,0,61,4,1,1,1,1;"
        + 3 * "!16,4,5,5,1,0,0,0;"
        + ":1+1+1+1+1+:1",
    ),
    # a break where a member is expected: the array is open
    (bytes.fromhex("81ff"), 1, "array,1,0,0,1,1,0,0,0;" + 3 * "!7,1,2,2,1,0,0,0;" + ":1+1+:0"),
    # a string of 600 bytes, of which 515 are present
    (
        bytes.fromhex("590258") + bytes(515),
        4096,
        f"bytes,600,0,2,3,0,0,0,0;piece,512,3,0,{bytes(512).hex()},515,0,0,0,512;"
        + "piece,3,515,0,000000,518,0,0,0,3;"
        + 3 * "!1,518,518,518,0,0,0,0;"
        + ":1+2+512+88+85+:0",
    ),
]


def refusal(text):
    found = columns.refusal_of(text)
    return Refusal(*found) if found else None


def limits_of(column):
    depth, most, keys = columns.limits_of(column)
    return Limits(depth, most, KEYS.index(keys))


def row_of(line):
    given, limits, becomes, strict = (it.strip() for it in line.split("|")[:4])
    given = bytes.fromhex(columns.hex_of(given))

    def canonical(text):
        return refusal(text) or (given if text == "same" else bytes.fromhex(columns.hex_of(text)))

    def taken(text):
        return refusal(text) or (len(given) if text == "same" else int(text.removeprefix("taken ")))

    by_order = [canonical(it) for it in columns.by_order(becomes)]
    return Row(given, limits_of(limits), by_order, [taken(it) for it in columns.by_order(strict or becomes)])


def rows():
    return [row_of(line) for line in columns.lines_of(sorted(glob.glob(TABLES))) if line.count("|") >= 4]


def chunk_rows():
    """Each byte after the opener of a string in chunks: a chunk of the string's type, whose length or bytes or break are
    missing, or the break; any other byte is not a chunk."""
    limits, indefinite = limits_of(""), [Refusal(15, 0, 1)] * 2
    found = []
    for opener, empty in ((0x5F, 0x40), (0x7F, 0x60)):
        for byte in range(256):
            if byte == 0xFF:
                becomes = bytes([empty])
            elif empty <= byte <= empty + 27:
                becomes = Refusal(1, 2, 2)
            else:
                becomes = Refusal(8, 1, 2)
            found.append(Row(bytes([opener, byte]), limits, [becomes] * 2, indefinite))
    return found
