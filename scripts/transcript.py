#!/usr/bin/env python3
"""Writes what a run of the gate proved, and the SHA-256 of what was built: the evidence that goes into the packages.

    scripts/transcript.py LOG FOLDER

LOG is the output of `.ci/run` or `rt ci`. FOLDER is where scripts/install.sh put the
program and the library. The transcript has no times: two runs that prove the same files from nothing write the same. If the
run failed, or proved only some crates, there is no transcript and the status is 1. docs/TRUST.md says what the transcript shows.
"""

import hashlib
import re
import subprocess
import sys
from collections import defaultdict
from pathlib import Path

ROOT = Path(__file__).resolve().parent.parent
FILES = ["bin/cborc", "include/*.h", "lib/libnaltvigo.a", "lib/libnaltvigo.so.*.*.*"]

CRATE = re.compile(r"== (\w+)(: its tests)?")
LOGIC = re.compile(r"logic \S+: (.*\bsum=\w+)")
DETAIL = re.compile(r"empty contracts: .*|axioms \w+: (?!none reached).*")
VERDICT = re.compile(r"logic=proved .*\bsum=\w+.*")
KEPT = re.compile(r"rt: (\w+) is kept: .*")
EDIT = re.compile(r"rt: must-fail (\w+)/[\w.-]+\.edit: refused, as it must be.*")
TESTS = re.compile(r"test result: ok\. (\d+) passed; 0 failed.*")
TESTED = re.compile(r"rt: (\w+): its tests passed")
RAN = re.compile(r"rt: (\w+) ran\b.*")
WELL = re.compile(r"rt: (ok; .*)")
COUNT = re.compile(r"\d+ passed, \d+ failed")
SECONDS = re.compile(r"^ *\d+ (?=\D)")


class Crate:
    """What the log says about one crate: about the crate itself, and about its tests."""

    def __init__(self):
        self.proof, self.test_proof, self.kept = [], [], ""
        self.edits = self.tests = 0
        self.ran = False

    def lines(self):
        yield from (f"proof: {it}" for it in self.proof or [self.kept])
        yield from (f"proof of its tests: {it}" for it in self.test_proof)
        if self.edits:
            yield f"wrong bodies refused: {self.edits}"
        if self.tests:
            yield f"tests passed: {self.tests}"
        if self.ran:
            yield "the program ran, and wrote what it must"

    def is_proved(self):
        return bool(self.kept) or any(VERDICT.fullmatch(it) for it in self.proof)


class Run:
    """What the log says: the crates, the logic that they rest on, the closing sentence of rt ci and its count. The sentence and
    the count are empty if not all crates passed."""

    def __init__(self, log):
        self.crates, self.logic, self.sentence, self.count = defaultdict(Crate), set(), "", ""
        self.current, self.of_tests, self.passed = None, False, 0
        for line in log.splitlines():
            if COUNT.fullmatch(line):
                self.count = self.count or (line if self.sentence else "")
            else:
                self.take(SECONDS.sub("", line))

    def take(self, line):
        if found := CRATE.fullmatch(line):
            self.current, self.of_tests = self.crates[found[1]], bool(found[2])
        elif found := KEPT.fullmatch(line):
            self.crates[found[1]].kept = line.removeprefix(f"rt: {found[1]} is ")
        elif found := LOGIC.fullmatch(line):
            self.logic.add(found[1])
        elif self.current and (VERDICT.fullmatch(line) or DETAIL.fullmatch(line)):
            (self.current.test_proof if self.of_tests else self.current.proof).append(line)
        elif found := EDIT.fullmatch(line):
            self.crates[found[1]].edits += 1
        elif found := TESTS.fullmatch(line):
            self.passed = int(found[1])
        elif found := TESTED.fullmatch(line):
            self.crates[found[1]].tests = self.passed
        elif found := RAN.fullmatch(line):
            self.crates[found[1]].ran = True
        elif found := WELL.fullmatch(line):
            self.sentence = found[1]

    def faults(self):
        """Why the log is not evidence."""
        if not self.count.endswith(" passed, 0 failed"):
            yield "the log does not end as a gate that passed"
        if len(self.logic) > 1:
            yield f"the crates rest on more than one logic: {', '.join(sorted(self.logic))}"
        for name, crate in self.crates.items():
            if not crate.is_proved():
                yield f"{name} has no verdict"


def output(*words):
    return subprocess.run(words, cwd=ROOT, capture_output=True, text=True, check=True).stdout.strip()


def source():
    """The commit, and the checksum of the tree, which names the contents of all files."""
    try:
        changed = output("git", "status", "--porcelain", "--untracked-files=no")
        yield "commit " + output("git", "rev-parse", "HEAD") + (", with changes that are not committed" if changed else "")
        yield "tree " + output("git", "rev-parse", "HEAD^{tree}")
    except (OSError, subprocess.CalledProcessError):
        yield "not known to git where this was written"


def kit():
    """The kit's name and checksums, as it reports them."""
    try:
        folder = Path(output("rt", "doc")).parent
        yield from ((folder / "KIT-ID").read_text() + (folder / "WHAT").read_text()).splitlines()
    except OSError:
        yield "not there when this was written; the checksums of the logic are with each proof"


def sums(folder):
    for pattern in FILES:
        for path in sorted(folder.glob(pattern)):
            yield f"{hashlib.sha256(path.read_bytes()).hexdigest()}  {path.relative_to(folder).as_posix()}"


def transcript(run, folder):
    version = (ROOT / "VERSION").read_text().strip()
    yield f"Naltvigo {version}: what a run of the gate proved. docs/TRUST.md says what this shows."
    parts = [("Source", source()), ("Kit", [*kit(), *(f"logic {it}" for it in run.logic)]), ("Result", [run.count, run.sentence])]
    parts += [(f"Crate {name}", crate.lines()) for name, crate in sorted(run.crates.items())]
    for title, lines in parts:
        yield from ["", title, *(f"  {line}" for line in lines)]
    yield from ["", "Files, as sha256sum --check reads them", *sums(folder)]


def main():
    if len(sys.argv) != 3 or sys.argv[1].startswith("-"):
        print(__doc__)
        return 0 if {"-h", "--help"} & set(sys.argv[1:]) else 2
    run = Run(Path(sys.argv[1]).read_text(encoding="utf-8", errors="replace"))
    found = list(run.faults())
    for fault in found:
        print(f"transcript: {fault}", file=sys.stderr)
    if not found:
        print(*transcript(run, Path(sys.argv[2])), sep="\n")
    return 1 if found else 0


if __name__ == "__main__":
    sys.exit(main())
