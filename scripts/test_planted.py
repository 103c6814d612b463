#!/usr/bin/env python3
"""Plants bugs in a binding, one at a time, and shows that its tests fail for each.

    scripts/test_planted.py [--check] [--all] BINDING [NAME ..]

BINDING is c, the headers for C, or rust, sqlite or postgresql. Its bugs are files NAME.edit in folders planted/, in the form
of edit_files.py. Without a NAME a few are tried, by the number of commits, so that the gate tries each of them in turn.
--check only checks that the texts are there. PREFIX is where the library is installed, for Rust NALTVIGO_LIB. For SQLite
PYTHON is a Python that loads extensions; for PostgreSQL DESTDIR, PG_CONFIG and PGHOST are those of the server
(scripts/test_databases.sh).

A line `tests:` before the first file of an edit names the tests that find it; else they are all but those of time. For Rust
it is a file of tests/ and one of its tests, for databases `time`.
"""

import os
import resource
import shutil
import signal
import subprocess
import sys
import tempfile
import time
from pathlib import Path

import edit_files

ROOT = Path(__file__).resolve().parent.parent
# The folder whose tests are run, and the one next to it that it needs. Both may have bugs; the paths in them begin in the first.
FOLDERS = {
    "c": ["c", "include"],
    "rust": ["bindings/rust"],
    "sqlite": ["bindings/sqlite", "bindings/sql"],
    "postgresql": ["bindings/postgresql", "bindings/sql"],
}
A_TURN = 3
# those that compare no times, and read no table of rows by each call
RUST_TESTS = ["calls", "capacity", "checker", "checker_io", "items", "maps", "reader", "refused_memory", "thresholds", "values"]
MEMORY = 4 << 30

LIBRARY = f"NALTVIGO={os.environ.get('PREFIX', '')}"
ROWS = "python3 rows.py ../crates/cbor_reader_tests/src/tests/*_table.rt >rows.h"
# A bug that does not compile is not found.
HEADERS = """for name in cursor writer round_trips damaged checker; do
    ${CC:-cc} -O1 -w -I../include $name.c "$PREFIX/lib/libnaltvigo.a" -o test || exit 0
    ./test 1 2000 || exit 1
done"""
# A database of its own. If a client is ended here, what the server does for it ends too.
TIMES = """set -e; PGDATABASE=template1 psql -qc "CREATE DATABASE planted_$$"; export PGDATABASE=planted_$$
PGOPTIONS='-c client_connection_check_interval=1s' psql -Xq -v ON_ERROR_STOP=1 -f test/time.sql"""


def commands(binding, tests):
    """What builds a binding and what tests it, in a copy of its folder. `tests` are the names of some, or None."""
    if binding == "c":
        return ["sh", "-c", ROWS], ["sh", "-c", HEADERS]
    if binding == "rust":
        names = tests[:1] if tests else RUST_TESTS
        run = ["cargo", "test", "--offline", "-q", *(f"--test={it}" for it in names)]
        return [*run, "--no-run"], [*run, *(tests or [])[1:]]
    if binding == "sqlite":
        names = ["Time.test_a_mebibyte_of_chosen_keys"] if tests == ["time"] else ["Tests", "Tables"]
        return ["make", "-s", LIBRARY], [os.environ.get("PYTHON", "python3"), "test_sqlite.py", *names]
    return ["make", "-s", LIBRARY, "all", "install"], ["sh", "-c", TIMES] if tests == ["time"] else ["make", "-s", LIBRARY, "installcheck"]


def tests_of(edit):
    """The names of the tests that find an edit, or None."""
    return edit_files.read_edit(edit)[0].get("tests", "").split() or None


def applied(folder, edit):
    """The texts of the files that an edit changes, by path; or None and why it cannot be applied."""
    try:
        return edit_files.apply(folder, edit_files.read_edit(edit)[1]), None
    except edit_files.BadEdit as bad:
        return None, f"planted: {edit.stem}: {bad}"


def chosen(edits):
    """The edits whose turn it is."""
    run = subprocess.run(["git", "rev-list", "--count", "HEAD"], cwd=ROOT, capture_output=True, text=True)
    turn = int(run.stdout) if run.returncode == 0 else 0
    return [edits[(turn * A_TURN + at) % len(edits)] for at in range(min(A_TURN, len(edits)))]


def limit_memory():
    """A limit on the memory of each process: a bug that takes memory without an end fails too."""
    resource.setrlimit(resource.RLIMIT_AS, (MEMORY, MEMORY))


def outcome(binding, folder, scratch, tests, seconds):
    """'does not build', 'fails' or 'passes', and the seconds of the tests. A bug without an end fails after these seconds."""
    words = {**os.environ, "CARGO_TARGET_DIR": f"{scratch}/target", "CARGO_PROFILE_TEST_OPT_LEVEL": "0", "NALTVIGO_SQLITE": f"{folder}/naltvigo_sqlite"}
    build, run = commands(binding, tests)
    if subprocess.run(build, cwd=folder, env=words, capture_output=True).returncode:
        return "does not build", 0
    begin = time.monotonic()
    quiet = {"stdout": subprocess.DEVNULL, "stderr": subprocess.DEVNULL}
    running = subprocess.Popen(run, cwd=folder, env=words, **quiet, start_new_session=True, preexec_fn=limit_memory)
    try:
        status = running.wait(seconds)
    except subprocess.TimeoutExpired:
        # with the processes that it began
        os.killpg(running.pid, signal.SIGKILL)
        status = running.wait()
    return "fails" if status else "passes", time.monotonic() - begin


def copied(folders, scratch, edit):
    """A copy of a binding, with what it reads of the repository, and with an edit if there is one."""
    for it in folders:
        shutil.rmtree(scratch / it, ignore_errors=True)
        shutil.copytree(ROOT / it, scratch / it, ignore=shutil.ignore_patterns("target", "planted", "*.so", "*.o"))
    copy = scratch / folders[0]
    if not (scratch / "crates").exists():
        for it in ("crates", "portable"):
            (scratch / it).symlink_to(ROOT / it)
        os.chmod(scratch, 0o755)
    for file, text in applied(copy, edit)[0].items() if edit else ():
        (copy / file).write_text(text, encoding="utf-8")
    return copy


def main(words):
    options = [it for it in words if it.startswith("--")]
    binding, *names = [it for it in words if not it.startswith("--")] or [""]
    if binding not in FOLDERS or set(options) - {"--check", "--all"}:
        sys.exit(__doc__)
    folders = FOLDERS[binding]
    edits = [edit for it in folders for edit in sorted((ROOT / it / "planted").glob("*.edit"))]
    found = [why for edit in edits if (why := applied(ROOT / folders[0], edit)[1])]
    if found or "--check" in options:
        print("\n".join(found) or f"planted: {binding}: the texts of {len(edits)} bugs are there")
        return 1 if found or not edits else 0
    tried = [it for it in edits if it.stem in names] if names else edits if "--all" in options else chosen(edits)
    missed, limits = 0, {}
    with tempfile.TemporaryDirectory() as scratch:
        for edit in tried:
            tests = tests_of(edit)
            # first without a bug; with one, they may take a few times as long
            for it in [edit] if str(tests) in limits else [None, edit]:
                result, seconds = outcome(binding, copied(folders, Path(scratch), it), scratch, tests, limits.get(str(tests), 3600))
                print(f"planted: {binding}: {it.stem if it else 'nothing'}: {result}, {seconds:.0f} s", flush=True)
                missed += result != ("fails" if it else "passes")
                limits.setdefault(str(tests), 30 + 3 * seconds)
    print(f"planted: {binding}: {len(tried)} of {len(edits)} bugs tried, {missed} not as expected")
    return 1 if missed else 0


if __name__ == "__main__":
    sys.exit(main(sys.argv[1:]))
