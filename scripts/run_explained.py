#!/usr/bin/env python3
"""Runs the built program with --explain: what it says about refusals and files.

    scripts/run_explained.py [PROGRAM]

run_program.py does this too.
"""

import os

from running import FOLDER, end, expect, run, write


def explained():
    ended = run(["check", "--explain", "-"], b"\xa1\x61a\x82\x00\xf9\x00\x00")
    lines = b"""refused 5 Float at 5
  in standard input
  A floating-point number begins here; floats are not accepted.
  Encode it as an integer, as a text, or as a tag that contains integers.
  bytes from 0: a1 61 61 82 00 f9 00 00
"""
    wanted = lines + b" " * 31 + b'^^\n  at $."a"[1]\n'
    expect("an explanation", ended, 1, b"", wanted)


def places():
    """Refusals after and within strings in chunks, and far into their input."""
    chunk = b"A chunk of a string must be a string of the same type and of definite length."
    chunk += b"\n  End the string with a break (ff), or fix the type of the chunk."
    cut = b"The input ends within the item.\n  Check whether the input was cut off, or a length is too large."
    float_ = b"A floating-point number begins here; floats are not accepted."
    float_ += b"\n  Encode it as an integer, as a text, or as a tag that contains integers."
    # The bytes, the refusal, its sentences, the bytes that are shown, how many of them are before the offset, and the path.
    rows = [
        ("82007f4100ff", b"8 BadChunk at 3", chunk, b"0: 82 00 7f 41 00 ff", 3, b"$[1]"),
        ("82007f61616261", b"1 Truncated at 7", cut, b"0: 82 00 7f 61 61 62 61", 7, b"$[1]"),
        ("9864" + 90 * "00" + "f90000", b"5 Float at 92", float_, b"84:" + 8 * b" 00" + b" f9 00 00", 8, b"$[90]"),
    ]
    for digits, refused, text, shown, before, path in rows:
        mark = b" " * (len("  bytes from ") + shown.index(b":") + 2 + 3 * before) + b"^^"
        lines = [b"refused " + refused, b"  in standard input", b"  " + text, b"  bytes from " + shown, mark, b"  at " + path, b""]
        expect(f"an explanation of {digits[:12]}", run(["check", "--explain", "-"], bytes.fromhex(digits)), 1, b"", b"\n".join(lines))
    reported = b"not hex: -\n  With --hex, the input must consist of hex digits, two for each byte, and white space.\n"
    reported += b"  line 1, column 70001: not a hex digit (byte 67)\n"
    expect("a fault far along a line", run(["check", "--hex", "--explain", "-"], b"0" * 70_000 + b"g"), 3, b"", reported)


def causes():
    os.mkdir(os.path.join(FOLDER, "folder"))
    item = write("item", b"\x00")
    new_file = b"  A new file next to it could not be created."
    absent, folder = b"  There is no such file or folder.\n", b"  It is a folder.\n"
    expect("why: no file", run(["check", "--explain", "absent"]), 3, b"", b"cannot read absent\n" + absent)
    expect("why: a folder", run(["show", "--explain", "folder"]), 3, b"", b"cannot read folder\n" + folder)
    expect("a folder", run(["show", "folder"]), 3, b"", b"cannot read folder\n")
    expect("why: no folder", run(["canon", "--explain", "-", "absent/out"], b"\x00"), 3, b"", b"cannot write absent/out\n" + new_file + b" There is no such file or folder.\n")
    expect("why: OUT is a folder", run(["canon", "--explain", "-", "folder"], b"\x00"), 3, b"", b"cannot write folder\n" + folder)
    expect("why: the path has a file in it", run(["check", "--explain", "item/x"]), 3, b"", b"cannot read item/x\n  A part of the path is not a folder.\n")
    expect("why: a path with an escape", run(["check", "--explain", "a\x1b[0m"]), 3, b"", b"cannot read a\\u001b[0m\n" + absent)
    if os.geteuid() != 0:
        os.chmod(item, 0)
        expect("why: not permitted", run(["check", "--explain", "item"]), 3, b"", b"cannot read item\n  It is not permitted.\n")
        write("folder/out", b"")
        os.chmod(os.path.join(FOLDER, "folder"), 0o555)
        reported = b"cannot write folder/out\n" + new_file + b" It is not permitted.\n"
        expect("why: the folder is not to be written", run(["canon", "--explain", "-", "folder/out"], b"\x00"), 3, b"", reported)
        os.chmod(os.path.join(FOLDER, "folder"), 0o755)


def test():
    for part in (explained, places, causes):
        part()


if __name__ == "__main__":
    test()
    end("explained")
