#!/usr/bin/env python3
"""Refuses each request for memory in turn, and counts what is requested after heads with large lengths. Then it checks
what a view stores in its arena (arena.py).

    fuzz/memory.py [--program crates/cborc/out/cborc] [--readers crates/fuzz_readers/out/fuzz_readers]

A library between the program and the C library (counting.c), built here with `cc`, lists the requests and refuses
one of them. Whichever it refuses, this must hold:

- `cborc` reports `out of memory` with status 3, writes no more to standard output than the first bytes of its usual
  output, leaves OUT unchanged and leaves no other file; or all is as usual. This is tried with each command on some
  documents, and with `canon`, `check` and `compare` on the rows of the conformance tables.
- Of the calls on readers and `read_view`, on the rows, one returns Memory, with an offset before the end of its usual
  result, and the bytes consumed are as many as it reports. Every other call returns its usual result. The strict reader
  then returns Memory again, and reads nothing more.
- The strict readers request no more on items of a megabyte without keys than on shorter ones.
- A head alone requests no memory: after a head for 2^64 - 1, 2^32 or 2^20 bytes, members or pairs, followed by little
  or nothing, no more is requested than after a zero, except a constant and a fixed amount for each byte present.

Ends with status 1 if anything else happens.

An input is skipped if an earlier one makes the same requests with the same command: of the same kinds and sizes, and
from the same calls, as far as the stack shows. The requests that all inputs of a command begin with, while its words
are read, are refused for the first input only.
"""

import argparse
import itertools
import os
import re
import subprocess
import sys
import tempfile
from collections import namedtuple

from arena import look_into_arenas
from refused import refuse_calls
from run import PARTS, driver_line, words_of
from side_by_side import of_all, unlike
from table import rows

# Valid items, and inputs for each other way to end, in hex.
DOCUMENTS = {
    "a map": "bf6346756ef563416d7421ff",
    "keys in keys": "a2a2186400200000a1a1010000a10080",
    "eight keys": "a8626161010a021864032004617a0581186406812007f408",
    "strings": "845f42010243030405ff7f657374726561646d696e67ff5818" + "07" * 24 + "c249010000000000000000",
    "an array": "9f01820203820405ff",
    "a long key": "a25820" + "07" * 32 + "005821" + "07" * 33 + "00",
    "a repeated key": "a2616100616101",
    "no text": "a161ff00",
    "cut short": "8201",
    "two items": "0000",
}
COMMANDS = [
    ["canon", "FILE", "OUT"],
    ["canon", "--order", "length", "FILE", "OUT"],
    ["canon", "--seq", "FILE", "OUT"],
    ["check", "FILE"],
    ["check", "--strict", "FILE"],
    ["check", "--seq", "FILE"],
    ["check", "--seq", "--strict", "FILE"],
    ["show", "FILE"],
    ["show", "--indent", "FILE"],
    ["events", "FILE"],
    ["compare", "FILE", "FILE"],
    ["check", "--hex", "HEX"],
]
# The commands that judge an item, on the rows of the conformance tables.
JUDGING = [["canon", "FILE", "OUT"], ["check", "FILE"], ["compare", "FILE", "FILE"]]
BEFORE = b"what was there"
# What may be requested beyond the requests for a zero: a number of bytes, and a number for each byte present.
CONSTANT = 4096
A_BYTE = 256


# The input of a run: the file, the words, and standard input.
Case = namedtuple("Case", "file words given", defaults=[b""])


def build_library(folder):
    """Builds the library that counts and refuses."""
    source = os.path.join(os.path.dirname(os.path.abspath(__file__)), "counting.c")
    library = f"{folder}/counting.so"
    subprocess.run(["cc", "-shared", "-fPIC", "-O1", "-fno-builtin", "-o", library, source, "-ldl"], check=True)
    return library


class Program:
    """A program on files of a folder, with the library between it and the C library."""

    def __init__(self, program, library, folder):
        self.program = os.path.abspath(program)
        self.library = os.path.abspath(library)
        self.folder = os.path.abspath(folder)
        os.makedirs(self.folder, exist_ok=True)

    def put(self, name, content):
        with open(f"{self.folder}/{name}", "wb") as file:
            file.write(content)

    def get(self, name):
        with open(f"{self.folder}/{name}", "rb") as file:
            return file.read()

    def run(self, case, refused=0):
        """The result of a run (status, outputs, the file OUT, None if another file is left), its requests and their bytes."""
        self.put("FILE", case.file)
        self.put("HEX", case.file.hex().encode())
        self.put("OUT", BEFORE)
        self.put("counts", b"")
        env = {"LD_PRELOAD": self.library, "REFUSED_REQUEST": str(refused), "COUNTS": f"{self.folder}/counts"}
        words = [self.program, *case.words]
        ran = subprocess.run(words, cwd=self.folder, env=env, input=case.given, capture_output=True)
        size, *asked = self.get("counts").split()
        is_alone = set(os.listdir(self.folder)) == {"FILE", "HEX", "OUT", "counts"}
        return (ran.returncode, ran.stdout, ran.stderr, self.get("OUT") if is_alone else None), asked, int(size)


def refuse_all(programs, cases, judge):
    """Refuses the requests of cases, each a case and the first to refuse: the number of runs that reported it, the number
    that continued or ended otherwise as they may, and what went wrong."""

    def refuse(program, case):
        case, first = case
        usual, asked, _ = program.run(case)
        found = [(refused, program.run(case, refused)[0]) for refused in range(first, len(asked) + 1)]
        return [(judge(case, it, usual), case, refused, it, usual) for refused, it in found]

    runs = list(itertools.chain.from_iterable(of_all(refuse, programs, cases)))
    verdicts = [it[0] for it in runs]
    wrong = [
        f"{case.file[:20].hex()}, {' '.join(case.words)}, request {refused}: {found} in place of {usual}"
        for verdict, case, refused, found, usual in runs
        if verdict == "wrong"
    ]
    return verdicts.count("reported"), verdicts.count("may"), wrong


def is_memory(given, usual):
    """Whether a run that was refused memory says so, and did nothing else."""
    status, out, err, kept = given
    is_told = status == 3 and err == b"out of memory\n"
    return is_told and usual[1].startswith(out) and kept == BEFORE


def judge_program(_, given, usual):
    return "reported" if is_memory(given, usual) else "may" if given == usual else "wrong"


def documents_of(command):
    for digits in DOCUMENTS.values():
        yield Case(bytes.fromhex(digits), command)


# Deeper items make the same requests, only more of them.
DEEP = 256


def requests_of(program, case):
    """The requests that a run makes."""
    return program.run(case)[1]


def rows_to_try():
    return [row for row in rows() if row.limits.depth <= DEEP]


def rows_of(command):
    for row in rows_to_try():
        yield Case(row.given, [*command, *words_of(row.limits)])


def promises():
    """Heads with great lengths, followed by little or nothing, alone and in one another."""
    pairs = b"".join(bytes([key, 0]) for key in range(24))
    for major in (0x40, 0x60, 0x80, 0xA0):
        for count in (2**64 - 1, 2**40, 2**32, 2**20):
            head = bytes([major | 27]) + count.to_bytes(8, "big")
            for following in (b"", b"\0", pairs):
                yield head + following
            yield b"\x81" + head
            yield b"\xa1" + head
            if major in (0x40, 0x60):
                yield bytes([major | 31]) + head
            else:
                yield head * 255 + b"\0"
        # in their shortest heads, as the strict rules require
        head = bytes([major | 26]) + (2**20).to_bytes(4, "big")
        yield head
        if major in (0x80, 0xA0):
            yield head * 255 + b"\0"


def is_refused(given, command):
    """Whether such a head is refused as it must be."""
    reasons = [b"1 Truncated"]
    if "--strict" in command:
        reasons += [b"14 NotShortest", b"15 Indefinite"]
    return given[0] == 1 and any(it in given[2] for it in reasons)


def count_promises(program):
    """The most that was requested beyond a zero, for each byte present, and what went wrong."""
    most, wrong = 0, []
    for command in COMMANDS:
        if "HEX" in command:
            continue
        _, _, least = program.run(Case(b"\0", command))
        for document in promises():
            given, _, size = program.run(Case(document, command))
            more = size - least
            most = max(most, (more - CONSTANT) / len(document))
            is_small = more <= CONSTANT + A_BYTE * len(document)
            if not is_small or not is_refused(given, command):
                at = f"{' '.join(command)}, {document[:20].hex()} ({len(document)} bytes)"
                wrong.append(f"{at}: {more} more bytes, {given}")
    return most, wrong


# ---- the calls on readers


def is_word(found, usual, length):
    """Whether a call returned Memory before the end of its usual result, with the rest left to its reader."""
    memory = re.fullmatch(r"!19,(\d+),(\d+):(\d+)", found)
    left = int(usual.rpartition(":")[2])
    return memory and memory[1] == memory[2] and int(memory[1]) + int(memory[3]) == length and int(memory[3]) >= left


def is_machine(found, usual, length):
    """Whether the strict machine returned Memory, and then the same at the end."""
    said, end = found.split(";")
    return end.startswith(f"{said}:") and is_word(end, usual.split(";")[1], length)


def reads(asked, part, length):
    """The number of bytes that these reads return."""
    taken = 0
    for count in asked:
        taken += min(count, part, length - taken)
    return taken


def calls_of(word):
    """The calls, what was requested and the number of bytes left."""
    calls, asked, left = word.split(":")
    return calls.split(";")[:-1], [int(it) for it in asked.split("+")[:-1]], int(left)


def is_calls(found, usual, part, length):
    """Whether the strict reader returned the first of its usual results, then Memory, and then the same, with no read."""
    calls, asked, left = calls_of(found)
    usual_calls, usual_asked, _ = calls_of(usual)
    first = len(calls) - 3
    memory = re.fullmatch(r"!19,(\d+),(\d+),(\d+),\d+,0,0,0", calls[first])
    if not memory or len(set(memory.groups())) > 1 or calls[first:] != 3 * [calls[first]]:
        return False
    taken = int(memory[1])
    is_front = calls[:first] == usual_calls[:first] and asked == usual_asked[: len(asked)]
    return is_front and taken + left == length and taken == reads(asked, part, length)


def is_sequence(found, usual):
    """Whether a sequence gave the first of its usual items, then Memory, and then no more."""
    items, bar, refused = found.rpartition("!")
    memory = re.fullmatch(r"19,(\d+),(\d+)", refused)
    return bar and usual.startswith(items) and memory and memory[1] == memory[2]


def is_view(found, usual, length):
    """Whether read_view returned this, or its tree was refused."""
    return is_word(found, usual, length) or found == re.sub(",.*:", ",!19,0,0:", usual)


def is_line(found, usual, length):
    """Whether one call was refused memory, and all others returned their usual results."""
    found, usual = found.split(" "), usual.split(" ")
    others = [place for place, pair in enumerate(zip(found, usual, strict=True)) if pair[0] != pair[1]]
    if len(others) != 1:
        return not others
    found, usual = found[others[0]], usual[others[0]]
    # three words, the machine and the calls in both orders for each part, the view and the sequence
    part, word = divmod(others[0], 7)
    if part == len(PARTS):
        return is_sequence(found, usual) if word else is_view(found, usual, length)
    if word < 3:
        return is_word(found, usual, length)
    return is_machine(found, usual, length) if word < 5 else is_calls(found, usual, PARTS[part], length)


def lines():
    """The input of the driver of the readers, one row for each run."""
    for row in rows_to_try():
        yield Case(row.given, [], driver_line(row.given, row.limits).encode())


def judge_reader(case, given, usual):
    (status, out, _, _), usual = given, usual[1]
    if status == 1 and usual.startswith(out):
        # the driver's own memory, or that of canonical bytes
        return "may"
    is_told = status == 0 and is_line(out.decode()[:-1], usual.decode()[:-1], len(case.file))
    return "reported" if is_told else "wrong"


def count_long(program):
    """What the strict readers request on long items without keys, and what is wrong with it."""
    found = []
    for count in (1 << 16, 1 << 20):
        given, asked, size = program.run(Case(b"", [], f"long {count:07}\n".encode()))
        read = f"{count + 5},{count + 5},0 ".encode()
        if given[0] != 0 or given[1] != 3 * read + b"\n":
            return size, [f"long items of {count} bytes: {given}"]
        found.append((size, asked))
    if found[0] != found[1]:
        return found[1][0], [f"long items of 2^16 bytes: {found[0]}; of 2^20 bytes: {found[1]}"]
    return found[0][0], []


def main():
    words = argparse.ArgumentParser(description=__doc__, formatter_class=argparse.RawDescriptionHelpFormatter)
    words.add_argument("--program")
    words.add_argument("--readers")
    given = words.parse_args()
    sys.setrecursionlimit(10_000)
    wrong = []
    with tempfile.TemporaryDirectory() as folder:
        library = build_library(folder)

        def several(program):
            return [Program(program, library, f"{folder}/{place}") for place in range(os.cpu_count() or 1)]

        if given.program:
            programs = several(given.program)
            for name, commands, inputs in (("documents", COMMANDS, documents_of), ("rows", JUDGING, rows_of)):
                cases = [it for command in commands for it in unlike(requests_of, programs, inputs(command))]
                reported, usually, found = refuse_all(programs, cases, judge_program)
                print(f"a request refused on {name}: {reported} runs out of memory, {usually} as usual, {len(found)} else")
                wrong += found
            most, found = count_promises(programs[0])
            print(f"heads that promise much: at most {CONSTANT} bytes and {most:.0f} for each that came")
            wrong += found
        if given.readers:
            readers = several(given.readers)
            reported, ended, found = refuse_all(readers, unlike(requests_of, readers, lines()), judge_reader)
            print(f"a request of the readers refused: {reported} reported or as usual, {ended} ended, {len(found)} else")
            wrong += found
            reported, found = refuse_calls(given.readers, library, folder, rows_to_try())
            print(f"memory refused to calls over whole items: {reported} reported, {len(found)} else")
            wrong += found
            size, found = count_long(readers[0])
            print(f"long items of the strict readers: {size} bytes requested, whatever the length, {len(found)} else")
            wrong += found
            read, found = look_into_arenas(given.readers, rows())
            print(f"strings in one piece of {read} views: {len(found)} in the arena")
            wrong += found
    for line in wrong[:20]:
        print(line)
    sys.exit(1 if wrong else 0)


if __name__ == "__main__":
    main()
