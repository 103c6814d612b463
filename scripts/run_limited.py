#!/usr/bin/env python3
"""Runs the built program with little memory, stack or disk: its messages, and the files that it leaves.

    scripts/run_limited.py [PROGRAM]

run_program.py does this too.
"""

import filecmp
import os
import re
import subprocess
import tempfile
import time

from running import BEFORE, CLAIMS, PROGRAM, Place, end, expect, faults, limited, low, short

MEMORY = b"out of memory\n"


# ---- memory


def start():
    """The KiB of memory that the program has requested when it waits for its input."""
    words = [PROGRAM, "check", "-"]
    with subprocess.Popen(words, stdin=subprocess.PIPE, stdout=subprocess.DEVNULL, stderr=subprocess.DEVNULL) as child:

        def reported(name):
            with open(f"/proc/{child.pid}/{name}") as file:
                return file.read()

        while reported("stat").rpartition(") ")[2][0] not in "SZ":
            time.sleep(0.001)
        return int(re.search(r"VmPeak:\s+(\d+) kB", reported("status"))[1])


def small_items(place):
    """64 MB of small items, within 2 MiB more than the program starts with."""
    count = 64_000_000 // len(CLAIMS)
    place.put("long", CLAIMS * count)
    few = limited(start() + 2 * 1024)
    for words in (["check"], ["check", "--strict"]):
        name = f"{' '.join(words)} --seq of 64 MB"
        expect(name, place.run([*words, "--seq", "long"], preexec_fn=few), 0, b"accepted %d items\n" % count)
    for words in (["show", "--seq", "long"], ["events", "--seq", "long"], ["canon", "--seq", "long", "-"]):
        ended = place.run(words, preexec_fn=few, stdout=subprocess.DEVNULL)
        expect(f"{words[0]} --seq of 64 MB to standard output", ended, 0, None)
    name = "canon --seq of 64 MB to a file"
    expect(name, place.run(["canon", "--seq", "long", "out"], preexec_fn=few), 0)
    if not os.path.exists(place.path("out")) or not filecmp.cmp(place.path("long"), place.path("out"), shallow=False):
        faults.append(f"{name}: OUT holds something else")


def long_item(place):
    """A canonical item of 64 MB is checked as it is read, within 3 MiB more than the program starts with."""
    count = 64_000_000 // len(CLAIMS)
    item = b"\x9a" + count.to_bytes(4, "big") + CLAIMS * count
    # The keys of its last map are out of order: 0 after 7.
    unsorted = item[:-4] + b"\x00\x42\x0b\x71"
    size = len(item)
    few = limited(start() + 3 * 1024)
    words = ["check", "--strict", "--bytes", "100000000"]
    rows = [
        ("", item, 0, b"accepted %d bytes\n" % size, b""),
        (", without its last byte", item[:-1], 1, b"", b"refused 1 Truncated at %d\n" % (size - 1)),
        (", with a byte after it", item + b"\x00", 1, b"", b"refused 12 Trailing at %d\n" % size),
        (", its last map unsorted", unsorted, 1, b"", b"refused 16 KeyOrder at %d\n" % (size - 4)),
    ]
    for what, given, status, out, err in rows:
        place.put("long", given)
        expect(f"check --strict of 64 MB{what}", place.run([*words, "long"], preexec_fn=few), status, out, err)
        expect(f"check --strict of 64 MB{what}, from a pipe", place.run([*words, "-"], given=given, preexec_fn=few), status, out, err)
    place.put("hex", item.hex().encode())
    expect("check --strict --hex of 64 MB", place.run([*words, "--hex", "hex"], preexec_fn=limited(start() + 8 * 1024)), 0, rows[0][3])


def one_item(place):
    """A byte string of 100 MB is stored once, in a vector with capacity for half as many bytes more."""
    size = 100_000_000
    place.wide("wide", size)
    ended = place.run(["check", "--bytes", "200000000", "wide"], preexec_fn=limited(start() + size // 1024 * 16 // 10))
    expect("check of 100 MB", ended, 0, b"accepted %d bytes\n" % (size + 5))


def too_little(place):
    """Items for which memory runs out: the reason for that, and no file left."""
    size = 40_000_000
    place.wide("wide", size)
    # The same with its length in eight bytes, which is not canonical.
    place.put("long", b"\x5b" + size.to_bytes(8, "big"), size)
    place.put("second", b"\x00" + place.get("wide"))
    place.put("out", BEFORE)
    files = ["wide", "long", "second", "out"]
    within = ["--bytes", "100000000"]
    # The second is enough for the item, but not for its canonical bytes or its text too; the last is enough for all.
    few, more, most = (limited(start() + scratch // 1024) for scratch in (16 << 20, 2 * size, 8 * size))
    expect("check within more", place.run(["check", *within, "wide"], preexec_fn=more), 0, b"accepted 40000005 bytes\n")
    # Canonical input is written as it is.
    expect("canon within more", place.run(["canon", *within, "wide", "same"], preexec_fn=more), 0)
    if place.get("same") != place.get("wide"):
        faults.append("canon within more: OUT holds something else")
    place.remove("same")
    shown = place.run(["show", *within, "wide"], preexec_fn=most)
    if (shown.returncode, shown.stdout) != (0, b"h'" + b"00" * size + b"'\n"):
        faults.append(f"show within most: status {shown.returncode}, {len(shown.stdout)} bytes")
    rows = [
        (few, ["check", *within, "wide"], MEMORY),
        (few, ["check", "--explain", *within, "wide"], MEMORY + b"  Use a lower --bytes to need less memory.\n"),
        (few, ["check", "--seq", *within, "second"], MEMORY),
        (few, ["show", *within, "wide"], MEMORY),
        (more, ["show", *within, "wide"], MEMORY),
        (few, ["events", *within, "wide"], MEMORY),
        (few, ["compare", *within, "wide", "wide"], MEMORY),
        (few, ["canon", *within, "wide", "out"], MEMORY),
        (few, ["canon", *within, "wide", "new"], MEMORY),
        (more, ["canon", *within, "long", "out"], MEMORY),
        (few, ["canon", "--seq", *within, "second", "out"], MEMORY),
        (few, ["canon", "--seq", *within, "second", "new"], MEMORY),
    ]
    for memory, words, reported in rows:
        name = f"too little memory: {' '.join(words)}"
        expect(name, place.run(words, preexec_fn=memory), 3, b"", reported)
        place.keeps(name, "out", files)


# ---- disks

# On a private disk of 64 KiB and $1 files, the folder itself one of them: runs the rest of the words, and prints
# the status, the files and the content of OUT.
ON_A_SMALL_DISK = """
mount -t tmpfs -o "size=64k,nr_inodes=$1" tmpfs disk || exit 99
printf '\\200' >disk/out
shift
"$@"
echo "status $?"
ls -A disk
od -An -tx1 disk/out
"""


def on_a_small_disk(place, files, words):
    alone = ["unshare", "--user", "--map-root-user", "--mount", "sh", "-c", ON_A_SMALL_DISK, "sh", str(files)]
    return subprocess.run([*alone, *words], cwd=place.folder, capture_output=True)


def small_disks(place):
    """Disks that are full: OUT is unchanged, and there is no other file."""
    os.mkdir(place.path("disk"))
    place.wide("wide", 200_000)
    place.put("long", CLAIMS * 5_000)
    place.put("one", b"\x00")
    try:
        is_had = on_a_small_disk(place, 9, ["true"]).stdout == b"status 0\nout\n 80\n"
    except FileNotFoundError:
        is_had = False
    if not is_had:
        print("limited: no disk for a test is to be had here")
        return
    full = b"cannot write disk/%s\n  The disk is full.\n"
    new_file = b"cannot write disk/%s\n  A new file next to it could not be created. The disk is full.\n"
    rows = [(9, ["wide"], "out", full), (9, ["wide"], "new", full), (9, ["--seq", "long"], "out", full)]
    rows += [(9, ["--seq", "long"], "new", full), (2, ["one"], "out", new_file), (2, ["one"], "new", new_file)]
    for files, words, out, reported in rows:
        ended = on_a_small_disk(place, files, [PROGRAM, "canon", "--explain", *words, f"disk/{out}"])
        expect(f"a full disk: {words} to {out}", ended, 0, b"status 3\nout\n 80\n", reported % out.encode())


def short_files(place):
    """Files and outputs that accept no more, as on a full disk."""
    place.put("long", CLAIMS * 100_000)
    place.put("out", BEFORE)
    for out in ("out", "new"):
        ended = place.run(["canon", "--seq", "long", out], restore_signals=False, preexec_fn=short(1 << 20))
        expect(f"no scratch for a sequence: {out}", ended, 3, b"", b"cannot write %s\n" % out.encode())
        place.keeps(f"no scratch for a sequence: {out}", "out", ["long", "out"])
    with open("/dev/full", "wb") as full:
        for words in (["show", "--seq", "long"], ["events", "--seq", "long"], ["canon", "--seq", "long", "-"]):
            expect(f"{words} to a full device", place.run(words, stdout=full), 3, None, b"cannot write standard output\n")


DEEPEST = 1024
TOWERS = [
    (b"\x81", b""),
    (b"\xa1\x00", b""),
    (b"\xa1", b"\x00"),
    (b"\xc1", b""),
    (b"\x9f", b"\xff"),
    (b"\xbf\x00", b"\xff"),
    (b"\xbf", b"\x00\xff"),
]
OVER_AN_ITEM = ["check item", "show item", "show --indent item", "events item", "canon item out", "canon item -", "compare item item"]
OVER_ITEMS = ["check --seq item", "show --seq item", "events --seq item", "canon --seq item out", "check --strict --seq item"]


def deep(place):
    """Items of the greatest depth, and one level deeper, within 64 KiB of stack."""
    for opens, closes in TOWERS:
        for levels, status in ((DEEPEST, 0), (DEEPEST + 1, 1)):
            place.put("item", opens * levels + b"\0" + closes * levels)
            reported = b"refused 9 TooDeep at %d" % (DEEPEST * len(opens)) if status else b""
            for words in OVER_AN_ITEM + OVER_ITEMS + ["check --strict item"]:
                if "strict" in words and opens[0] in (0x9F, 0xBF):
                    continue
                for more in ("", " --explain") if status else ("",):
                    command = [*f"{words}{more}".split(), "--depth", str(DEEPEST)]
                    ended = place.run(command, preexec_fn=low(64), env={})
                    if ended.returncode != status or reported not in ended.stderr:
                        faults.append(f"{opens!r}, {levels} deep: {command}: {ended.returncode} {ended.stderr[:200]!r}")


TESTS = (small_items, long_item, one_item, too_little, small_disks, short_files, deep)


def test():
    for it in TESTS:
        with tempfile.TemporaryDirectory() as folder:
            it(Place(folder))


if __name__ == "__main__":
    test()
    end("limited")
