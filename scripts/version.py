#!/usr/bin/env python3
"""The version: the file VERSION, and the places that repeat it.

    scripts/version.py          fails if a place has another version, and names it
    scripts/version.py 2.1.0    sets it everywhere, except in CHANGELOG.md, whose entry you write
"""

import re
import sys
from pathlib import Path

ROOT = Path(__file__).resolve().parent.parent

# A place: a file, or a pattern of files of which one has it, and the text before and after the version there.
PLACES = [
    ("crates/cborc_words/src/cli.rt", r'const VERSION: &str = "\\\n', r"\n"),
    ("crates/cborc_words/src/cli.rt", r'\.version\("', r'"\)'),
    ("crates/cborc_tests/src/tests/*.rt", r'const VERSION: &str = "\\\ncborc ', r"\n"),
    ("crates/cborc_tests/src/tests/*.rt", r'"-V", "cborc ', r'\\n"'),
    ("share/cborc.1", r'(?m:^)\.TH CBORC 1 "[^"]*" "cborc ', r'"'),
    ("include/naltvigo.h", r'#define NALTVIGO_VERSION "', r'"'),
    ("bindings/python/pyproject.toml", r'(?m:^)version = "', r'"'),
    ("bindings/rust/Cargo.toml", r'(?m:^)version = "', r'"'),
    ("bindings/js/package.json", r'(?m:^)  "version": "', r'"'),
]

# One of the three numbers alone: a file, the text before it, and which number.
NUMBERS = [
    ("include/naltvigo.h", r"#define NALTVIGO_VERSION_MAJOR ", 0),
    ("include/naltvigo.h", r"#define NALTVIGO_VERSION_MINOR ", 1),
    ("include/naltvigo.h", r"#define NALTVIGO_VERSION_PATCH ", 2),
]


def places(version):
    """Each place, and what must be there."""
    numbers = [int(number) for number in version.split(".")]
    for file, before, after in PLACES:
        yield file, f"({before})([0-9.]+)({after})", version
    for file, before, which in NUMBERS:
        yield file, f"({before})([0-9]+)()", str(numbers[which])
    # one byte each
    yield "crates/naltvigo/src/naming.rt", "(pub const VERSION: u32 = )(0x[0-9a-f_]+)(;)", "0x%02x_%02x_%02x" % tuple(numbers)


def main():
    version = sys.argv[1] if len(sys.argv) > 1 else (ROOT / "VERSION").read_text().strip()
    if not re.fullmatch(r"\d+\.\d+\.\d+", version):
        sys.exit(f"not a version: {version}")
    if len(sys.argv) > 1:
        (ROOT / "VERSION").write_text(version + "\n")
    faults = []
    for file, pattern, wanted in places(version):
        texts = {path: path.read_text(encoding="utf-8") for path in sorted(ROOT.glob(file))}
        found = [(path, match[1]) for path, text in texts.items() for match in re.findall(pattern, text)]
        if len(found) != 1:
            faults.append(f"{file}: {len(found)} places have the version after {pattern}, and not one")
        elif found[0][1] != wanted and len(sys.argv) > 1:
            path = found[0][0]
            path.write_text(re.sub(pattern, rf"\g<1>{wanted}\g<3>", texts[path]), encoding="utf-8")
        elif found[0][1] != wanted:
            faults.append(f"{file}: {found[0][1]}, and not {wanted}")
    if not re.search(rf"(?m)^## {re.escape(version)}\b", (ROOT / "CHANGELOG.md").read_text()):
        faults.append(f"CHANGELOG.md: no entry for {version}")
    for fault in faults:
        print(f"version: {fault}")
    return 1 if faults else 0


if __name__ == "__main__":
    sys.exit(main())
