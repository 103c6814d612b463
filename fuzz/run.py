#!/usr/bin/env python3
"""Tries the calls of the library for C, and the program, on random inputs against the definitions of reference.py.

    fuzz/run.py --library dist/lib/libnaltvigo.so [--program crates/cborc/out/cborc]
                [--readers crates/fuzz_readers/out/fuzz_readers] [--seconds 10] [--seed 1] [--every 1]

Each input goes through the calls that must agree on it: canonicalise, in both orders, and once more on its result;
check_canonical, check_valid, compare, diagnostic; and a checker, in parts that are cut at random. With the program every tenth
goes through show, events, canon, compare, and check and check --strict over a sequence, and each row of the tables through
canon, check and check --strict; with the readers each goes through read_tree and then encode, read_strict, StrictReader call by
call with what it requests from its reader, and Sequence, over readers that return 1, 2, 3 or 4096 bytes a read, through
StrictMachine in parts of 1, 3 or 4096 bytes, and through read_view, its tree and then encode. One half is read for keys of any kind, the other for integers and texts. First come the rows
of the conformance tables, whose results were worked out by hand, and large maps out of order (large.py). With --every N only
every Nth row goes through the program, for one that starts slowly; the seed says which. The first disagreement is reported
with its input and the seed, and the status is 1. The run ends after the given seconds, and at least 100 inputs; a seed always
gives the same inputs.
"""

import argparse
import os
import random
import subprocess
import sys
import tempfile
import time
from collections import Counter

from calls import TRUNCATED, Strictly
from expected import Disagreement, expect
from items import Items
from large import large_maps
from library import DIFFERENT, OK, Library
from reference import ANY_KEYS, INTEGERS_AND_TEXTS, KEY_KIND, KEYS, REASONS, Limits, Results, listing
from table import CALLS, chunk_rows, rows
from values import BYTEWISE, LENGTH_FIRST, canonical, diagnostic, meaning

# The limits of inputs that are not for limits.
USUAL = Limits(256, 1 << 20, ANY_KEYS)

# The least number of inputs, of which each verdict has its share.
LEAST = 100

# The most bytes that a read returns.
PARTS = (1, 3, 4096)

ORDERS = ((BYTEWISE, "bytewise"), (LENGTH_FIRST, "length"))


class Program:
    """The built program on files of a folder."""

    def __init__(self, path, folder):
        self.path, self.folder = os.path.abspath(path), folder

    def run(self, *words, **files):
        """The status and both outputs; the words name the files."""
        for name, data in files.items():
            with open(os.path.join(self.folder, name), "wb") as file:
                file.write(data)
        ended = subprocess.run([self.path, *words], cwd=self.folder, capture_output=True)
        return ended.returncode, ended.stdout, ended.stderr


class Readers:
    """The calls over readers, many inputs at a time."""

    def __init__(self, path):
        self.path, self.waiting = os.path.abspath(path), []

    def add(self, results):
        self.waiting.append(results)
        if len(self.waiting) == 500:
            self.flush()

    def flush(self):
        lines = "".join(driver_line(it.given, it.limits) for it in self.waiting)
        ended = subprocess.run([self.path], input=lines.encode(), capture_output=True, check=True)
        for results, found in zip(self.waiting, ended.stdout.decode().split("\n"), strict=False):
            expect(f"readers of {results.given.hex()}, {results.limits}", read(results), found)
        self.waiting = []


def driver_line(given, limits):
    """The input line of the driver of the readers: see crates/fuzz_readers."""
    return f"{KEYS[limits.keys]} {limits.depth} {limits.most} {given.hex()}\n"


def reported(refusal):
    return "!%d,%d,%d" % refusal


def machine_word(results, order, word):
    """What the strict machine returns, of which `end` returns what `read_strict` does: this word."""
    refused = results.strict[order]
    if refused is None:
        return f"done;{word}"
    return f"{'more' if refused.reason == TRUNCATED else reported(refused)};{word}"


def read(results):
    """The output line of the driver of the readers: see crates/fuzz_readers."""
    words = []
    for refused in (results.plain, results.strict[BYTEWISE], results.strict[LENGTH_FIRST]):
        count = refused.read if refused else results.size
        words.append(f"{reported(refused) if refused else count}:{len(results.given) - count}")
    if not results.plain:
        both = ",".join(canonical(order, results.value).hex() for order in (BYTEWISE, LENGTH_FIRST))
        words[0] = words[0].replace(":", f",{both}:")
    words += [machine_word(results, order, words[1 + order]) for order in (BYTEWISE, LENGTH_FIRST)]
    strictly = Strictly(results)
    parts = [it for part in PARTS for it in words + [strictly.word(order, part) for order in (BYTEWISE, LENGTH_FIRST)]]
    items, rest = "", results.given
    while rest or results.limits.most == 0:
        it = Results(rest, results.limits)
        items += reported(it.plain) if it.plain else canonical(BYTEWISE, it.value).hex() + ","
        if it.plain:
            break
        rest = rest[it.size :]
    # the view has the same result as the tree
    return " ".join([*parts, words[0], items])


def line(refusal, before=""):
    return f"{before}refused {refusal.reason} {REASONS[refusal.reason]} at {refusal.place}\n".encode()


def parts_of(given, seed):
    """The bytes cut at random, also into parts of none, or into single bytes."""
    chance, places = random.Random(given + bytes([seed])), range(len(given) + 1)
    count = chance.choice([0, 1, 2, 3, 8, len(given)])
    cuts = sorted(chance.choices(places, k=count)) if count < len(given) else places
    return [given[start:end] for start, end in zip([0, *cuts], [*cuts, len(given)], strict=True)]


def try_library(library, results, space):
    given, limits = results.given, results.limits
    for order in (BYTEWISE, LENGTH_FIRST):
        wanted = results.canonicalised(order)
        found = library.canonicalise(given, order, limits, space)
        expect(f"canonicalise, order {order}", wanted, found)
        strict = results.whole(results.strict[order])
        expect(f"check_canonical, order {order}", strict, library.check_canonical(given, order, limits))
        expect(f"unchanged if canonical, order {order}", strict is None, found == given)
        first = results.strict[order] or results.size
        expect(f"next_canonical, order {order}", first, library.next_canonical(given, order, limits))
        expect(f"a checker, order {order}", first, library.in_parts(parts_of(given, order), order, limits))
        if isinstance(found, bytes):
            expect(f"canonicalise once more, order {order}", found, library.canonicalise(found, order, limits, len(found)))
    plain = results.whole(results.plain)
    expect("check_valid", plain, library.check_valid(given, limits))
    expect("next_valid", results.plain or results.size, library.next_valid(given, limits))
    expect("diagnostic", plain or diagnostic(results.value), library.diagnostic(given, limits, space))


def compared(left, right):
    """OK or DIFFERENT, or the side that is refused and its refusal."""
    for side, results in (("left", left), ("right", right)):
        refused = results.whole(results.plain)
        if refused:
            return side, refused
    return OK if meaning(left.value) == meaning(right.value) else DIFFERENT


def sequence(inputs, limits, order=None):
    """What `check --seq` prints for the inputs one after another; strict, if there is an order."""
    rest, count = b"".join(inputs), 0
    while rest or limits.most == 0:
        count += 1
        results = Results(rest, limits)
        refused = results.plain if order is None else results.strict[order]
        if refused:
            return 1, b"", line(refused, f"item {count} ")
        rest = rest[results.size :]
    return 0, b"accepted %d items\n" % count, b""


def words_of(limits):
    return "--depth", str(limits.depth), "--bytes", str(limits.most), "--keys", KEYS[limits.keys]


def try_canon(program, results, order, name):
    found = results.canonicalised(order)
    wanted = (0, found, b"") if isinstance(found, bytes) else (1, b"", line(found))
    words = words_of(results.limits)
    expect(f"canon --order {name}", wanted, program.run("canon", "--order", name, *words, "given", "-", given=results.given))


def try_row(program, results):
    """The subcommands that judge one item, on a row."""
    words = words_of(results.limits)
    checks = [((), results.plain)]
    for order, name in ORDERS:
        checks.append((("--strict", "--order", name), results.strict[order]))
        try_canon(program, results, order, name)
    for options, verdict in checks:
        refused = results.whole(verdict)
        wanted = (1, b"", line(refused)) if refused else (0, b"accepted %d bytes\n" % results.size, b"")
        expect(f"check {' '.join(options)}", wanted, program.run("check", *options, *words, "given", given=results.given))


def try_program(program, results, others):
    given, words = results.given, words_of(results.limits)
    plain = results.whole(results.plain)
    shown = (1, b"", line(plain)) if plain else (0, diagnostic(results.value) + b"\n", b"")
    expect("show", shown, program.run("show", *words, "given", given=given))
    form = results.whole(results.form.broken)
    listed = (1 if form else 0, listing(results.form.events), line(form) if form else b"")
    expect("events", listed, program.run("events", *words, "given", given=given))
    inputs = [it for it in others if it] + [given]
    checked = program.run("check", "--seq", *words, "given", given=b"".join(inputs))
    expect("check --seq", sequence(inputs, results.limits), checked)
    for order, name in ORDERS:
        wanted = sequence(inputs, results.limits, order)
        checked = program.run("check", "--strict", "--seq", "--order", name, *words, "given", given=b"".join(inputs))
        expect(f"check --strict --seq --order {name}", wanted, checked)
        try_canon(program, results, order, name)


def try_compare(program, left, right):
    wanted = compared(left, right)
    if wanted == OK:
        wanted = 0, b"same\n", b""
    elif wanted == DIFFERENT:
        wanted = 1, b"different\n", b""
    else:
        wanted = 1, b"", line(wanted[1], f"{wanted[0]} ")
    found = program.run("compare", *words_of(left.limits), "left", "right", left=left.given, right=right.given)
    expect("compare of the program", wanted, found)


def verdict_of(results):
    if results.plain is None:
        return "accepted"
    return "kind" if results.plain.reason == KEY_KIND else "other"


class Tries:
    """Inputs from a seed, tried one after another."""

    def __init__(self, library, program, readers, seed, every):
        self.library, self.program, self.readers = library, program, readers
        self.every, self.first = every, seed % every
        self.chance = random.Random(seed)
        self.items = Items(self.chance)
        self.last = Results(b"\x00", USUAL)
        self.count = 0
        # the number of inputs of each verdict, by the kinds of keys
        self.verdicts = Counter()
        self.tried = None

    def results(self, given, limits):
        """The results that the definitions require; a disagreement from now on is about this input."""
        self.tried = Results(given, limits)
        return self.tried

    def table(self):
        """The rows, on which the definitions of reference.py are tried too."""
        for number, row in enumerate(rows()):
            self.row(row, self.program if number % self.every == self.first else None)
        for row in chunk_rows():
            self.row(row, None)
        for given, part, word in CALLS:
            results = self.results(given, USUAL)
            expect("the calls by hand", word, Strictly(results).word(BYTEWISE, part))
            if self.readers:
                self.readers.add(results)
        if self.readers:
            self.readers.flush()

    def row(self, row, program):
        results = self.results(row.given, row.limits)
        for order in (BYTEWISE, LENGTH_FIRST):
            expect("the row's canonical bytes", row.canonical[order], results.canonicalised(order))
            expect("the row by the strict rules", row.strict[order], results.strict[order] or results.size)
        try_library(self.library, results, len(row.given))
        if program:
            try_row(program, results)
        if self.readers:
            self.readers.add(results)

    def large(self):
        for given in large_maps():
            try_library(self.library, self.results(given, USUAL), len(given))

    def go_on(self, ends):
        while time.monotonic() < ends or self.count < LEAST:
            self.count += 1
            results = self.results(*self.items.given())
            self.verdicts[results.limits.keys, verdict_of(results)] += 1
            self.one(results)
        if self.readers:
            self.readers.flush()

    def one(self, results):
        chance, items = self.chance, self.items
        space = chance.choice([0, 1, len(results.given), 3 * len(results.given) + 16])
        is_tenth = self.program and self.count % 10 == 0
        try_library(self.library, results, space)
        if chance.random() < 0.5:
            if results.value:
                self.last = Results(items.spell(items.like(results.value), 0.4), results.limits)
            found = self.library.compare(results.given, self.last.given, results.limits)
            expect("compare", compared(results, self.last), found)
            if is_tenth:
                try_compare(self.program, results, self.last)
        others = [items.item() for _ in range(chance.randrange(3))]
        if is_tenth:
            try_program(self.program, results, others)
        if self.readers:
            if others and chance.random() < 0.3:
                results = Results(b"".join(others) + results.given, results.limits)
            self.readers.add(results)

    def hardly_tried(self):
        """The kinds of keys and verdicts that came less than once in twenty inputs of these kinds."""
        for keys in (ANY_KEYS, INTEGERS_AND_TEXTS):
            names = ("accepted", "other") if keys == ANY_KEYS else ("accepted", "kind", "other")
            counts = {name: self.verdicts[keys, name] for name in names}
            yield from (f"{KEYS[keys]} {name}" for name, count in counts.items() if count * 20 < sum(counts.values()))


def main():
    words = argparse.ArgumentParser(description=__doc__, formatter_class=argparse.RawDescriptionHelpFormatter)
    words.add_argument("--library", required=True)
    words.add_argument("--program")
    words.add_argument("--readers")
    words.add_argument("--seconds", type=float, default=10)
    words.add_argument("--seed", type=int, default=1)
    words.add_argument("--every", type=int, default=1)
    given = words.parse_args()
    sys.setrecursionlimit(10_000)
    with tempfile.TemporaryDirectory() as folder:
        program = Program(given.program, folder) if given.program else None
        readers = Readers(given.readers) if given.readers else None
        tries = Tries(Library(given.library), program, readers, given.seed, given.every)
        try:
            tries.table()
            tries.large()
            tries.go_on(time.monotonic() + given.seconds)
        except Disagreement as it:
            tried = tries.tried
            sys.exit(f"fuzz: seed {given.seed}, input {tries.count}: {tried.given.hex() or 'empty'}, {tried.limits}\nfuzz: {it}")
    hardly = ", ".join(tries.hardly_tried())
    if hardly:
        sys.exit(f"fuzz: of {tries.count} inputs hardly any were of these verdicts: {hardly}")
    reported = ", ".join(f"{KEYS[keys]} {name} {count}" for (keys, name), count in sorted(tries.verdicts.items()))
    print(f"fuzz: {tries.count} inputs (by kinds of keys: {reported}), and every call returned what it must")


if __name__ == "__main__":
    main()
