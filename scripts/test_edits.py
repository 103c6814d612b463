#!/usr/bin/env python3
"""Makes each edit of fuzz/edits on a copy, and runs the test that it names, which must fail.

These are wrong bodies that no clause excludes: a failed read is tried again, single bytes are read, memory is requested
by the length in a head. The tests are built without a proof, some at a time, and each must pass without the edit,
unless --passed says that scripts/test.sh has just run them. An edit has the form of those of the crates, after lines
with its crate, its test and the crate of the test. One that the compiler refuses before the prover sees it has the
name of that error in a line 'refused', and must be refused with it.

    scripts/test_edits.py [--check | --passed] [NAME ..]

The test of an edit must exist, and the text that it replaces must exist once. --check tries no more than that.
"""

import os
import re
import shutil
import subprocess
import sys
import tempfile
from concurrent.futures import ThreadPoolExecutor

import edit_files

ROOT = os.path.dirname(os.path.dirname(os.path.abspath(__file__)))
EDITS = os.path.join(ROOT, "fuzz", "edits")
# Other stages of the gate run at the same time.
SIDE_BY_SIDE = 2


def read_edit(name):
    """The crate, the crate of the test, the test, the compiler's error if it is to refuse it, and the (file, old, new)."""
    words, changes = edit_files.read_edit(os.path.join(EDITS, name + ".edit"))
    return words["crate"], words["tests"], words["test"], words.get("refused"), changes


def change(path, edit):
    with open(path, encoding="utf-8") as file:
        text = file.read()
    with open(path, "w", encoding="utf-8") as file:
        file.write(edit(text))


def keep_test(folder, test):
    """Marks all tests except one as ignored."""
    name = test.rpartition("::")[2]
    for place, _, files in os.walk(os.path.join(folder, "src")):
        for file in files:
            change(os.path.join(place, file), lambda text: re.sub(rf"#\[test\](?!\n *fn {name}\()", "#[test]\n#[ignore]", text))


def try_tests(folder):
    """The output about the tests."""
    ended = subprocess.run(["rt", "try", "--test"], cwd=folder, capture_output=True, text=True)
    return ended.stdout + ended.stderr


def run_test(folder, test):
    """Whether the test passed, and its output."""
    said = try_tests(folder)
    result = re.search(r"(?m)^test result: \w+\. (\d+) passed; (\d+) failed;", said)
    if not result or f"test {test} ... " not in said or int(result[1]) + int(result[2]) != 1 or "no-answer" in said:
        sys.exit(f"edits: {test} was to be run to its end, alone:\n{said[-2000:]}")
    return result[1] == "1", said


def is_refused(name, tests, error):
    """Whether the compiler has this error, and no test ran."""
    said = try_tests(tests)
    if f"error[{error}]" not in said or "test result:" in said:
        print(f"edits: {name}: the compiler was to say {error}:\n{said[-2000:]}")
        return False
    print(f"edits: {name}: {error}")
    return True


def passes(name, tests, test):
    """Whether the test passes without the edit."""
    is_passed, said = run_test(tests, test)
    if not is_passed:
        print(f"edits: {name}: {test} fails without the edit:\n{said[-2000:]}")
    return is_passed


def refuses(name, folder, tests, test, error, changes):
    """Whether the test fails with the edit, or is not compiled."""
    for file, text in edit_files.apply(folder, changes).items():
        change(os.path.join(folder, file), lambda _, text=text: text)
    if error:
        return is_refused(name, tests, error)
    is_passed, said = run_test(tests, test)
    if is_passed:
        print(f"edits: {name}: {test} passes with the edit")
        return False
    print(f"edits: {name}: {test} fails")
    return True


def is_caught(name, is_passed):
    """Whether an edit of a copy of the crates is refused as it says."""
    crate, tests, test, error, changes = read_edit(name)
    with tempfile.TemporaryDirectory() as scratch:
        for part in ("crates", "crates.txt", "HANDLES"):
            source, to = os.path.join(ROOT, part), os.path.join(scratch, part)
            if os.path.isdir(source):
                shutil.copytree(source, to, ignore=shutil.ignore_patterns("out", "must-fail", "wrong-bodies", "proofs"))
            else:
                shutil.copy(source, to)
        folder, tests = (os.path.join(scratch, "crates", it) for it in (crate, tests))
        keep_test(tests, test)
        return (is_passed or passes(name, tests, test)) and refuses(name, folder, tests, test, error, changes)


def count_in(path, text):
    """How often a text is in a file; 0 if there is no file."""
    if not os.path.exists(path):
        return 0
    with open(path, encoding="utf-8") as file:
        return file.read().count(text)


def stale_parts(name):
    """What an edit names and the crates do not have."""
    crate, tests, test, _, changes = read_edit(name)
    *modules, function = test.split("::")
    path = os.path.join(tests, "src", *modules) + ".rt"
    count = count_in(os.path.join(ROOT, "crates", path), f"fn {function}(")
    if count != 1:
        yield f"edits: {name}: its test is {count} times in crates/{path}, and not once"
    try:
        edit_files.apply(os.path.join(ROOT, "crates", crate), changes)
    except edit_files.BadEdit as error:
        yield f"edits: {name}: {error}"


def main():
    words = sys.argv[1:]
    names = [it for it in words if it not in ("--check", "--passed")] or sorted(it.removesuffix(".edit") for it in os.listdir(EDITS))
    stale = [line for name in names for line in stale_parts(name)]
    if stale or "--check" in words:
        print("\n".join(stale) or f"edits: the tests and the text of {len(names)} are there")
        sys.exit(1 if stale else 0)
    with ThreadPoolExecutor(SIDE_BY_SIDE) as scratch:
        caught = list(scratch.map(lambda name: is_caught(name, "--passed" in words), names))
    sys.exit(0 if all(caught) else 1)


if __name__ == "__main__":
    main()
