"""Times one process, a long sequence of small items and files of 1 GiB, and prints Markdown.

    python3 streams.py CBORC FOLDER

The folder has what inputs.py writes. All other inputs are written there: 300 MB of claims sets, with keys out of order
and once more as their canonical bytes, and files of 1 GiB that need almost no space on the disk. Ends with status 1
if a run returns something else than it should.
"""

import filecmp
import os
import random
import shutil
import sys

import program
from inputs import SEED, Map, encode, shuffled
from program import faults, mebibytes, run, run_measured

# For one process: the least of this many runs.
STARTS = 300
# Claims sets: the bytes in all, the number of different ones, and how often these are repeated.
SIZE = 75
UNLIKE = 10_000
TIMES = 400
GIB = 1 << 30


def measure(name, words, folder, wanted, to="stdout", piped=None):
    """The quickest of some runs, each compared with the expected status and output."""
    runs = []
    while len(runs) < program.TURNS and all(it.processor <= program.LONG for it in runs):
        runs.append(run_measured(words, folder, to, piped))
        found = (runs[-1].status, program.contents(os.path.join(folder, to)), program.contents(f"{folder}/stderr"))
        if found != wanted:
            faults.append(f"{name}: wanted {wanted}, found {found}")
    return min(runs, key=lambda it: it.processor)


def print_start(cborc, folder):
    with open(f"{folder}/zero", "wb") as file:
        file.write(b"\x00")
    rows = {
        "`cborc check` of the integer 0": ([cborc, "check", f"{folder}/zero"], b"accepted 1 bytes\n"),
        "`/bin/true`": (["/bin/true"], b""),
    }
    for title, (words, said) in rows.items():
        measure(title, words, folder, (0, said, b""))
    # In turns, and with no output on a disk, whose flush would be most of the time.
    runs = [[run(words, folder, "/dev/null") for words, _ in rows.values()] for _ in range(STARTS)]
    print(f"\n| one process, least of {STARTS} | processor time, ms | wall time, ms |\n| --- | ---: | ---: |")
    for title, of_one in zip(rows, zip(*runs)):
        print(f"| {title} | {1000 * min(it.processor for it in of_one):.2f} | {1000 * min(it.wall for it in of_one):.2f} |")


def claims(chance):
    """The claims of a token (RFC 8392)."""
    issued = chance.randrange(1 << 30, 1 << 31)
    subject = "".join(chance.choices("abcdefghijklmnopqrstuvwxyz", k=6))
    words = {1: "coap://as.example.com", 2: subject, 3: "coaps://example.com"}
    return Map({**words, 4: issued + 86_400, 5: issued, 6: issued, 7: chance.randbytes(2)}.items())


def write_claims(folder):
    chance = random.Random(SEED)
    sets = [shuffled(chance, claims(chance)) for _ in range(UNLIKE)]
    for ending, order in (("cbor", None), ("bytewise", "bytewise")):
        block = b"".join(encode(it, order) for it in sets)
        assert len(block) == SIZE * UNLIKE
        with open(f"{folder}/claims.{ending}", "wb") as file:
            file.writelines(block for _ in range(TIMES))


def print_sequences(cborc, folder):
    write_claims(folder)
    count = UNLIKE * TIMES
    accepted = b"accepted %d items\n" % count
    ordered, unordered, array = f"{folder}/claims.bytewise", f"{folder}/claims.cbor", f"{folder}/claims.array"
    with open(ordered, "rb") as members, open(array, "wb") as file:
        file.write(b"\x9a" + count.to_bytes(4, "big"))
        shutil.copyfileobj(members, file)
    size = os.path.getsize(array)
    accepted_whole, strict = b"accepted %d bytes\n" % size, ["check", "--strict", "--bytes", "400000000"]
    rows = [
        ("`check --seq`, in order", ["check", "--seq", ordered], accepted, "stdout"),
        ("`check --seq`, out of order", ["check", "--seq", unordered], accepted, "stdout"),
        ("`check --strict --seq`, in order", ["check", "--strict", "--seq", ordered], accepted, "stdout"),
        ("`check --strict --bytes 400000000` of an array of them", [*strict, array], accepted_whole, "stdout"),
        ("the same, from a pipe", strict, accepted_whole, "stdout", array),
        ("`canon --seq`, out of order, to a file", ["canon", "--seq", unordered, f"{folder}/out"], b"", "stdout"),
        ("`show --seq`, in order, to `/dev/null`", ["show", "--seq", ordered], b"", "/dev/null"),
    ]
    title = f"{SIZE * count // 1_000_000} MB, {count:,} claims sets of {SIZE} bytes each, keys in order or not"
    print(f"\n| {title} | MB/s | peak memory, MiB |\n| --- | ---: | ---: |")
    for name, words, out, to, *piped in rows:
        ran = measure(name, [cborc, *words], folder, (0, out, b""), to, *piped)
        print(f"| {name} | {program.speed(ran.processor, SIZE * count)} | {mebibytes(ran.peak)} |", flush=True)
    records = program.speed(program.least_time(cborc, folder, "records", "check"), os.path.getsize(f"{folder}/records.cbor"))
    print(f"\nFor comparison, `check` made {records} MB/s of records.")
    # It is made here if `canon` made none.
    with open(f"{folder}/out", "ab") as written:
        if not filecmp.cmp(written.name, ordered, shallow=False):
            faults.append("canon --seq: other bytes than the canonical ones")
    for name in (ordered, unordered, array, f"{folder}/out"):
        os.remove(name)


def print_long(cborc, folder):
    string = b"\x5a" + GIB.to_bytes(4, "big")
    within = ["--bytes", "4000000000"]
    rows = [
        ("zeros: `check --bytes 4000000000`", ["check", *within], b"", 1, b"", b"refused 12 Trailing at 1\n"),
        ("one byte string: `check --bytes 4000000000`", ["check", *within], string, 0, b"accepted %d bytes\n" % (GIB + 5), b""),
        ("one byte string: `check --strict --bytes 4000000000`", ["check", "--strict", *within], string, 0, b"accepted %d bytes\n" % (GIB + 5), b""),
        ("the same, from a pipe", ["check", "--strict", *within], string, 0, b"accepted %d bytes\n" % (GIB + 5), b""),
        ("zeros: `check --seq`", ["check", "--seq"], b"", 0, b"accepted %d items\n" % GIB, b""),
    ]
    print("\n| a file of 1 GiB | result | processor time, s | wall time, s | peak memory, MiB |\n| --- | --- | ---: | ---: | ---: |")
    for name, words, head, status, out, err in rows:
        with open(f"{folder}/long", "wb") as file:
            file.write(head)
            file.truncate(len(head) + GIB)
        file, piped = ([], f"{folder}/long") if name.endswith("from a pipe") else ([f"{folder}/long"], None)
        ran = measure(name, [cborc, *words, *file], folder, (status, out, err), piped=piped)
        result = (out or err).decode().strip()
        print(f"| {name} | `{result}` | {ran.processor:.3f} | {ran.wall:.3f} | {mebibytes(ran.peak)} |", flush=True)
    os.remove(f"{folder}/long")


def main():
    cborc, folder = os.path.abspath(sys.argv[1]), sys.argv[2]
    for print_tables in (print_start, print_sequences, print_long):
        print_tables(cborc, folder)
    return program.end()


if __name__ == "__main__":
    sys.exit(main())
