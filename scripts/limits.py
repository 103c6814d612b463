#!/usr/bin/env python3
"""Writes limits and other numbers into every file that states them, from the one file that declares each.

    scripts/limits.py            writes them
    scripts/limits.py --check    fails if a file states another number, or does not state it as the table says

DECLARED says where each number is declared: a file, and the piece of its text with NUMBER in it. A row of STATED is such a pair
for a file that repeats the number. POWER in place of NUMBER is 2 to the power of the number, and OTHER is any other number.
Tests have numbers of their own, so that they notice a change.
"""

import re
import sys
from pathlib import Path

ROOT = Path(__file__).resolve().parent.parent

# Where each number is declared.
DECLARED = {
    "greatest depth": ("crates/cbor_head/src/limits.rt", "pub const MAX_DEPTH: u16 = NUMBER;"),
    "greatest exponent of bytes": ("crates/cbor_head/src/limits.rt", "bytes <= 1 << NUMBER"),
    "default depth of the library": ("include/naltvigo.h", "= {UINT64_C(1) << OTHER, NUMBER, NALTVIGO_BYTEWISE"),
    "default exponent of bytes": ("include/naltvigo.h", "= {UINT64_C(1) << NUMBER, "),
    "default depth of the program": ("crates/cborc_words/src/cli.rt", '.default_value("NUMBER")'),
    "depth in databases": ("bindings/sql/rules.h", "CBOR_DEPTH = NUMBER,"),
    "exponent of bytes in databases": ("bindings/sql/rules.h", "CBOR_BYTES = 1 << NUMBER }"),
    "first simple value that does not exist": ("crates/cbor_head/src/simple.rt", "    number < NUMBER ||"),
    "first simple value in two bytes": ("crates/cbor_head/src/simple.rt", "pub const FIRST_SIMPLE_IN_TWO_BYTES: u64 = NUMBER;"),
    "bytes in the page": ("web/index.html", 'id="bytes" type="number" min="0" max="NUMBER"'),
}

STATED = {
    "greatest depth": [
        ("include/naltvigo.h", "#define NALTVIGO_DEPTH_MAX UINT32_C(NUMBER)"),
        ("include/naltvigo.h", " *  - NALTVIGO_DEPTH_MAX is NUMBER."),
        ("crates/cbor_head/specs/Limits.antt", "a depth up to the greatest, NUMBER, and"),
        ("crates/cbor_head/src/limits.rt", "may nest, from 0 to NUMBER, how"),
        ("crates/cbor_head/src/limits.rt", "for a depth above NUMBER or"),
        ("crates/cbor_head/src/limits.rt", "(depth ≤ NUMBER)"),
        ("crates/cbor_head/wrong-bodies/greatest_depth_600.edit", "old: pub const MAX_DEPTH: u16 = NUMBER;"),
        ("crates/cbor_diag/specs/Sentences.antt", "the depth limit, which can be at most NUMBER."),
        ("crates/cbor_diag/src/sentences.rt", "the depth limit, which can be at most NUMBER."),
        ("crates/cborc_words/src/cli.rt", "Limits: depth 0 to NUMBER, bytes"),
        ("crates/cborc_words/src/cli.rt", "tags may nest, 0 to NUMBER\""),
        ("bindings/rust/src/raw.rs", "pub const DEPTH_MAX: usize = NUMBER;"),
        ("bindings/rust/src/options.rs", "and tags may nest, 0 to NUMBER,"),
        ("bindings/rust/src/options.rs", "depth limit, in levels, 0 to NUMBER."),
        ("bindings/rust/src/options.rs", "and tags may nest, 0 to NUMBER."),
        ("bindings/rust/README.md", "limits are NUMBER levels and"),
        ("bindings/go/options.go", "\tMaxDepth = NUMBER\n"),
        ("bindings/js/src/numbers.js", "export const DEPTH_MAX = NUMBER;"),
        ("bindings/js/src/load.d.ts", "may nest: 0 to NUMBER, and"),
        ("bindings/python/src/naltvigo/__init__.py", "may nest (0 to NUMBER), and"),
        ("web/src/inspection.js", "const DEPTH_MAX = NUMBER;"),
        ("web/src/main.js", "the depth is 0 to NUMBER, the"),
        ("web/index.html", 'id="depth" type="number" min="0" max="NUMBER"'),
        ("share/cborc.1", "may nest, 0 to NUMBER. The default"),
        ("scripts/run_limited.py", "DEEPEST = NUMBER"),
        ("fuzz/languages.py", "LIMITS = Limits(NUMBER, "),
        ("README.md", "you can choose | 2^OTHER bytes | NUMBER levels"),
        ("docs/COMPARED.md", "depth 0 to NUMBER ("),
        ("docs/CONTRACTS.md", "`MAX_DEPTH` (NUMBER)"),
        ("docs/CONTRACTS.md", "(depth ≤ NUMBER) ×"),
        ("docs/PERFORMANCE.md", "of stack at depth NUMBER"),
        ("crates/cbor_parser/src/lib.rt", "grows from 16 to NUMBER entries"),
        ("crates/cbor_parser/specs/inner/Rules.antt", "CellsFitInMemory K = NUMBER * size"),
        ("bindings/rust/README.md", "options.with_depth(NUMBER).expect("),
        ("bindings/rust/README.md", 'expect("at most NUMBER levels")'),
        ("bindings/rust/README.md", ".depth(), NUMBER);"),
        ("bindings/rust/src/options.rs", "options.with_depth(NUMBER).unwrap().with_order"),
        ("bindings/rust/src/options.rs", "deeper.bytes()), (NUMBER, "),
        ("scripts/test_c.sh", "'s/MAX UINT32_C(NUMBER)/MAX"),
    ],
    "greatest exponent of bytes": [
        ("include/naltvigo.h", "#define NALTVIGO_BYTES_MAX (UINT64_C(1) << NUMBER)"),
        ("crates/cbor_head/src/limits.rt", "from 0 to 2^NUMBER, and"),
        ("crates/cbor_head/src/limits.rt", "/// limit above 2^NUMBER."),
        ("crates/cbor_head/src/limits.rt", "(bytes ≤ 2 ^ NUMBER)"),
        ("crates/cbor_head/specs/Limits.antt", "and up to 2^NUMBER bytes"),
        ("crates/cborc_words/src/byte_counts.rt", "const MOST: u64 = 1 << NUMBER;"),
        ("crates/cborc_words/specs/ByteCount.antt", "gives at most 2^NUMBER"),
        ("crates/cborc_words/src/cli.rt", "bytes 0 to POWER"),
        ("crates/cborc_words/src/cli.rt", "may have, 0 to POWER; K"),
        ("crates/cborc_words/src/command_line.rt", "from 0 to POWER, with"),
        ("share/cborc.1", "may have, 0 to POWER. The"),
        ("bindings/go/options.go", "\tMaxBytes = 1 << NUMBER\n"),
        ("bindings/js/src/options.js", "BYTES_MAX = 1n << NUMBERn;"),
        ("bindings/js/src/options.js", "'0 to 2 ** NUMBER'"),
        ("bindings/rust/src/options.rs", "bytes > 1 << NUMBER {"),
        ("bindings/rust/src/options.rs", "    bytes: 1 << NUMBER,\n};"),
        ("bindings/rust/src/options.rs", "canonical bytes may have, 0 to 2^NUMBER."),
        ("bindings/rust/src/options.rs", "byte limit, 0 to 2^NUMBER."),
        ("bindings/rust/README.md", "levels and 2^NUMBER\nbytes."),
        ("bindings/js/src/load.d.ts", "may have: 0 to 2 ** NUMBER, and"),
        ("bindings/python/src/naltvigo/__init__.py", "may have (0 to 2 ** NUMBER)"),
        ("README.md", "you can choose | 2^NUMBER bytes"),
        ("docs/COMPARED.md", "bytes 0 to 2^NUMBER ("),
        ("docs/CONTRACTS.md", "number of bytes is at most 2^NUMBER"),
        ("docs/CONTRACTS.md", "(bytes ≤ 2 ^ NUMBER)"),
    ],
    "default depth of the library": [
        ("include/naltvigo.h", "tags may nest; default NUMBER */"),
        ("share/cborc.1", "that of the library is NUMBER."),
        ("docs/C.md", "the limits are NUMBER levels"),
        ("docs/COMPARED.md", "(NUMBER by default, "),
        ("docs/DECISIONS.md", "The default depth is NUMBER in the library"),
        ("docs/SCALE.md", "the Python package, NUMBER levels and"),
        ("README.md", "JavaScript and Go | 2^OTHER bytes | NUMBER levels"),
        ("bindings/js/src/load.d.ts", "0 to OTHER, and NUMBER by default."),
        ("bindings/js/src/options.js", " depth: NUMBER, maxBytes"),
        ("bindings/python/src/naltvigo/_files.py", "depth: int = NUMBER,"),
        ("bindings/python/src/naltvigo/_native.pyi", "depth: int = NUMBER,"),
        ("bindings/python/src/naltvigo/_streams.py", "depth: int = NUMBER,"),
        ("bindings/python/src/native/documentation.c", "depth=NUMBER, max_bytes"),
        ("bindings/go/options.go", "Depth: NUMBER, Order: Bytewise"),
        ("bindings/go/options.go", "2^OTHER bytes, NUMBER levels,"),
        ("bindings/rust/src/options.rs", "            depth: NUMBER,\n"),
        ("bindings/rust/src/options.rs", "any kind, NUMBER levels,"),
        ("bindings/go/README.md", "keys of any kind, NUMBER levels,"),
        ("bindings/rust/README.md", "keys of any kind, NUMBER levels,"),
        ("bindings/js/README.md", "`depth` (NUMBER by\ndefault)"),
        ("bindings/python/README.md", "arguments `depth=NUMBER` and"),
        ("docs/SIGNING.md", "| C, Python, Rust, JavaScript, Go | NUMBER | 2^"),
    ],
    "default exponent of bytes": [
        ("include/naltvigo.h", "may have; default 2^NUMBER */"),
        ("docs/C.md", "(OTHER in `cborc`) and 2^NUMBER bytes"),
        ("docs/COMPARED.md", "(2^NUMBER by default)"),
        ("docs/SCALE.md", "levels and 2^NUMBER bytes"),
        ("README.md", "JavaScript and Go | 2^NUMBER bytes"),
        ("bindings/js/src/load.d.ts", "2 ** OTHER, and 2 ** NUMBER by default."),
        ("crates/cborc_words/src/cli.rt", '.default_value("POWER")\n        .help(\n            "How many bytes'),
        ("share/cborc.1", "The default is POWER. The number"),
        ("README.md", "program `cborc` | 2^NUMBER bytes"),
        ("bindings/js/src/options.js", "maxBytes: 1n << NUMBERn,"),
        ("bindings/python/src/naltvigo/_files.py", "max_bytes: int = 1 << NUMBER"),
        ("bindings/python/src/naltvigo/_native.pyi", "max_bytes: int = 1 << NUMBER"),
        ("bindings/python/src/naltvigo/_streams.py", "max_bytes: int = 1 << NUMBER"),
        ("bindings/python/src/native/documentation.c", "max_bytes=POWER"),
        ("bindings/go/options.go", "Bytes: 1 << NUMBER, Depth"),
        ("bindings/go/options.go", "are 2^NUMBER bytes,"),
        ("bindings/rust/src/options.rs", "            bytes: 1 << NUMBER,\n"),
        ("bindings/rust/src/options.rs", "OTHER levels, 2^NUMBER bytes"),
        ("bindings/go/README.md", "levels, 2^NUMBER bytes"),
        ("bindings/rust/README.md", "levels, 2^NUMBER bytes"),
        ("bindings/js/README.md", "`maxBytes` (2 ** NUMBER)"),
        ("bindings/python/README.md", "`max_bytes=1 << NUMBER`, and"),
        ("docs/SIGNING.md", "| C, Python, Rust, JavaScript, Go | OTHER | 2^NUMBER |"),
        ("docs/SIGNING.md", "| `cborc` | OTHER | 2^NUMBER |"),
    ],
    "default depth of the program": [
        ("share/cborc.1", "The default is NUMBER; that of the library"),
        ("docs/C.md", "levels (NUMBER in `cborc`)"),
        ("docs/COMPARED.md", "by default, NUMBER in the program"),
        ("docs/DECISIONS.md", "It is NUMBER in the program"),
        ("README.md", "program `cborc` | 2^OTHER bytes | NUMBER levels"),
        ("web/index.html", 'id="depth" type="number" min="0" max="OTHER" value="NUMBER"'),
        ("docs/SIGNING.md", "| `cborc` | NUMBER | 2^"),
    ],
    "depth in databases": [
        ("bindings/sqlite/README.md", "may have at most NUMBER levels"),
        ("bindings/postgresql/README.md", "may have at most NUMBER levels"),
        ("docs/DECISIONS.md", "fixed limits (NUMBER levels"),
        ("README.md", "PostgreSQL (fixed) | 2^OTHER bytes | NUMBER levels"),
    ],
    "exponent of bytes in databases": [
        ("bindings/sqlite/README.md", "levels and 2^NUMBER bytes"),
        ("bindings/postgresql/README.md", "levels and 2^NUMBER bytes"),
        ("docs/DECISIONS.md", "(OTHER levels, 2^NUMBER"),
        ("README.md", "PostgreSQL (fixed) | 2^NUMBER bytes"),
    ],
    "first simple value that does not exist": [
        ("crates/cbor_head/src/simple.rt", "and NUMBER to 31 do not exist."),
        ("crates/cbor_head/src/simple.rt", "none for NUMBER to 31, which"),
        ("crates/cbor_head/specs/Head.antt", "(NUMBER ≤ n → "),
        ("crates/cbor_diag/specs/Sentences.antt", "the values NUMBER to 31 do not exist."),
        ("crates/cbor_diag/src/sentences.rt", "the values NUMBER to 31 do not exist."),
        ("include/naltvigo.h", "a simple value (kind 7) of NUMBER to 31"),
        ("include/naltvigo_writer.h", "The numbers NUMBER to 31 do not exist"),
        ("bindings/rust/src/value.rs", "if number < NUMBER ||"),
        ("bindings/rust/src/value.rs", "None for NUMBER to 31, which"),
        ("bindings/rust/src/builder.rs", "no simple value is NUMBER to 31"),
        ("bindings/rust/src/item.rs", "no simple value is NUMBER to 31"),
        ("bindings/python/src/native/native.h", "Python has, and NUMBER to 31"),
        ("bindings/go/value.go", "a Simple is NUMBER to 31"),
    ],
    "first simple value in two bytes": [
        ("crates/cbor_head/src/simple.rt", "from 0 to 23 or from NUMBER to 255"),
        ("crates/cbor_head/wrong-bodies/two_bytes_from_31.edit", "old: pub const FIRST_SIMPLE_IN_TWO_BYTES: u64 = NUMBER;"),
        ("crates/cbor_head/specs/Head.antt", "0 to 23 or NUMBER to 255"),
        ("crates/cbor_head/specs/Head.antt", "(24 ≤ n → NUMBER ≤ n)"),
        ("crates/cbor_head/src/simple.rt", "0 to 23, or NUMBER to 255."),
        ("crates/cbor_diag/specs/Sentences.antt", "A simple value below NUMBER must"),
        ("crates/cbor_diag/src/sentences.rt", "A simple value below NUMBER must"),
        ("include/naltvigo.h", "a simple value below NUMBER in two bytes"),
        ("include/naltvigo_writer.h", "0 to 23 or NUMBER to 255."),
        ("bindings/rust/src/value.rs", "|| number >= NUMBER {"),
        ("bindings/rust/src/value.rs", "0 to 23, or NUMBER to 255."),
        ("bindings/python/src/native/native.h", "number >= 20 && number < NUMBER;"),
        ("bindings/python/src/native/simple.c", "0 to 19, or NUMBER to 255"),
        ("bindings/python/src/native/documentation.c", "0 to 19, or NUMBER to 255."),
        ("bindings/js/src/values.js", "(number < 20 || number >= NUMBER);"),
        ("bindings/js/src/values.js", "0 to 19, or NUMBER to 255."),
        ("bindings/js/src/values.js", "0 to 19, or NUMBER to 255, and"),
        ("bindings/js/src/load.d.ts", "0 to 19, or NUMBER to 255."),
        ("bindings/go/value.go", "0 to 23 or NUMBER to 255."),
        ("docs/C.md", "from 0 to 23 or NUMBER to 255."),
        ("docs/TRUST.md", "0 to 23 and NUMBER to 255."),
        ("docs/TRUST.md", "by a number below NUMBER is refused"),
        ("docs/DECISIONS.md", "0 to 23 or NUMBER to 255."),
        ("crates/cbor_head/src/reason.rt", "A simple value below NUMBER in a second byte"),
        ("crates/cbor_head/src/head.rt", "a simple value below NUMBER in a second"),
        ("crates/cbor_builder/src/canon_builder.rt", "0 to 23 or NUMBER to 255."),
    ],
    "bytes in the page": [
        ("web/src/main.js", "the bytes 0 to NUMBER."),
    ],
}


def pattern(text):
    """A piece of text as a regular expression, with the number in a group of its own."""
    before, after = (re.escape(it).replace("OTHER", "[0-9]+") for it in re.split("NUMBER|POWER", text))
    return re.compile(f"({before})([0-9]+(?:,[0-9]{{3}})*)({after})")


def declared(name):
    file, text = DECLARED[name]
    return int(pattern(text).search((ROOT / file).read_text(encoding="utf-8"))[2])


def stated(number, like):
    """The number, with a comma for thousands if the text has one."""
    return f"{number:,}" if "," in like else str(number)


def main():
    faults = 0
    for name, rows in STATED.items():
        for file, text in rows:
            number = 1 << declared(name) if "POWER" in text else declared(name)
            path, form = ROOT / file, pattern(text)
            now = path.read_text(encoding="utf-8")
            new, count = form.subn(lambda found: found[1] + stated(number, found[2]) + found[3], now)
            if not count:
                print(f"{file} does not state the {name} as: {text}")
            elif new != now and "--check" in sys.argv:
                print(f"{file}: the {name} is {number}, and the text states another number: {text}")
            elif new != now:
                path.write_text(new, encoding="utf-8")
            faults += not count or (new != now and "--check" in sys.argv)
    return 1 if faults else 0


if __name__ == "__main__":
    sys.exit(main())
