#!/usr/bin/env python3
"""Checks the documents: links lead to files, files that prose names exist, scripts that they name as commands are executable,
quoted code is in the sources, width, and generated parts.

    scripts/documents.py [FOLDER]    prints what is wrong, and fails if something is; of a folder of installed documents,
                                     only whether links lead to files
"""

import os
import re
import subprocess
import sys
from pathlib import Path

ROOT = Path(__file__).resolve().parent.parent

# Scripts that write a document or a part of one, and compare it by --check.
WRITERS = ["ways.py", "reasons.py", "limits.py"]
# The document that quotes contracts, and the least number of quotations in it.
QUOTING, LEAST_QUOTED = "docs/CONTRACTS.md", 15
# A file of a crate, or of another folder here, that a document names.
IN_CRATES = re.compile(r"(?:crates/)?(?:cborc?|naltvigo|example|fuzz_readers)\w*/(?:src|specs|proofs|must-fail|wrong-bodies)/[\w/.-]*")
IN_FOLDERS = re.compile(r"(?:bench|bindings|c|docs|examples|fuzz|include|platform|scripts|share|web|\.ci)/[\w/.-]*[\w/]")
# A command in backticks or in a line of code, without the variables that are set for it.
COMMAND = re.compile(r"(?m)(?:`|^\s*(?:\$ )?)(?:\w+=\S+ )*(?:\./)?([\w.-]+/[\w./-]+)(?= |$)")
# The width of prose. Tables and code may be wider.
WIDTH = 130


def files(*patterns):
    listed = subprocess.run(["git", "ls-files", "--", *patterns], cwd=ROOT, capture_output=True, text=True, check=True).stdout
    return [ROOT / line for line in listed.splitlines()]


def text_of(path):
    return path.read_text(encoding="utf-8")


def lines_outside_code(text):
    """The lines of a document outside blocks of code, with their numbers."""
    inside = False
    for number, line in enumerate(text.splitlines(), 1):
        if line.lstrip().startswith("```"):
            inside = not inside
        elif not inside and not line.startswith("    "):
            yield number, line


def broken_links(path, name):
    for number, line in lines_outside_code(text_of(path)):
        for target in re.findall(r"\]\(([^)#\s]+)(?:#[^)]*)?\)", line):
            if "://" not in target and not (path.parent / target).exists():
                yield f"{name}:{number}: {target} does not exist"


def wide_lines(path, name):
    for number, line in lines_outside_code(text_of(path)):
        if len(line) > WIDTH and not line.startswith("|"):
            yield f"{name}:{number}: {len(line)} characters, more than {WIDTH}"


def lines_of_code(text):
    """The lines of a source without indentation, blank lines and whole-line comments."""
    lines = (line.strip() for line in text.splitlines())
    return [line for line in lines if line and not line.startswith(("//", "--"))]


def stale_quotations():
    """Blocks of Rattle and antt in the document of contracts that are not in the file that their first line names."""
    blocks = re.findall(r"(?ms)^```(?:rust|antt)\n(.*?)^```$", text_of(ROOT / QUOTING))
    if len(blocks) < LEAST_QUOTED:
        yield f"{QUOTING}: {len(blocks)} quotations; at least {LEAST_QUOTED} are expected"
    for block in blocks:
        first, _, quoted = block.partition("\n")
        path = ROOT / first.lstrip("/- ")
        if not path.is_file():
            yield f"{QUOTING}: the first line of a quotation names no file: {first}"
            continue
        wanted, found = lines_of_code(quoted), lines_of_code(text_of(path))
        starts = range(len(found) - len(wanted) + 1)
        if not wanted or not any(found[i : i + len(wanted)] == wanted for i in starts):
            yield f"{QUOTING}: this is not in {path.relative_to(ROOT)}:\n{quoted}"


def missing_files(path, name):
    """Files that a document names in backticks, and that do not exist."""
    for number, line in enumerate(text_of(path).splitlines(), 1):
        for word in re.findall(r"`([^`\s]+)[^`]*`", line):
            if IN_CRATES.fullmatch(word) and not (ROOT / "crates" / word.removeprefix("crates/")).exists():
                yield f"{name}:{number}: {word} does not exist"
            if IN_FOLDERS.fullmatch(word) and not (ROOT / word).exists():
                yield f"{name}:{number}: {word} does not exist"


def is_script(path):
    with open(path, "rb") as file:
        return file.read(2) == b"#!"


def wrong_modes():
    """Scripts that cannot be run by their names, and what is executable without being a script."""
    for path in files():
        if is_script(path) != os.access(path, os.X_OK):
            name = path.relative_to(ROOT)
            yield f"{name} is not executable" if is_script(path) else f"{name} is executable, and its first line names no program"


def commands_that_fail(path, name):
    """Commands that begin with a file here which is not executable."""
    for word in COMMAND.findall(text_of(path)):
        if (ROOT / word).is_file() and not os.access(ROOT / word, os.X_OK):
            yield f"{name}: {word} is not executable"


def faults():
    for path in files("*.md"):
        name = path.relative_to(ROOT).as_posix()
        yield from broken_links(path, name)
        yield from wide_lines(path, name)
        yield from commands_that_fail(path, name)
        if name.startswith("docs/") or "/" not in name:
            yield from missing_files(path, name)
    yield from wrong_modes()
    yield from stale_quotations()
    for script in WRITERS:
        if subprocess.run([sys.executable, ROOT / "scripts" / script, "--check"]).returncode != 0:
            yield f"scripts/{script} --check fails"


def faults_below(folder):
    for path in sorted(folder.rglob("*.md")):
        yield from broken_links(path, path.relative_to(folder).as_posix())


if __name__ == "__main__":
    found = list(faults_below(Path(sys.argv[1])) if sys.argv[1:] else faults())
    for fault in found:
        print(f"documents: {fault}")
    sys.exit(1 if found else 0)
