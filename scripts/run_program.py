#!/usr/bin/env python3
"""Runs the built program as a user does, and compares the man page and the completions with its help.

    scripts/run_program.py [PROGRAM [PART ..]]

builds crates/cborc/out/cborc with `rt run` if no program is given. With PARTs it runs only these, for a program that runs
slowly, as under qemu: words, files, sequences, leftovers, links; and parts, if it needs no more than 8 MiB of memory.
"""

import os
import re
import signal
import stat
import subprocess
import sys

import completions
import run_explained
import run_killed
import run_limited
import run_timed
from running import FOLDER, PROGRAM, ROOT, end, expect, faults, limited, run, short, write

COMMANDS = ["show", "events", "check", "canon", "compare"]


def holds(name, data, files):
    with open(os.path.join(FOLDER, name), "rb") as file:
        found = file.read()
    if found != data:
        faults.append(f"{name} holds {found!r}, and not {data!r}")
    if sorted(os.listdir(FOLDER)) != sorted(files):
        faults.append(f"files are {sorted(os.listdir(FOLDER))}, and not {sorted(files)}")


def words():
    if run([]).returncode != 2 or run([]).stdout != b"":
        faults.append("no word: status 2 and no output wanted")
    expect("no FILE", run(["check"], b"\x18\x00"), 0, b"accepted 2 bytes\n")
    expect("a unit", run(["check", "--bytes", "1K"], b"\x59\x03\xfd" + bytes(1021)), 0, b"accepted 1024 bytes\n")
    expect("past the unit", run(["check", "--bytes", "1K"], b"\x59\x03\xfe" + bytes(1022)), 1, b"", b"refused 2 TooLong at 1024\n")
    if run(["check", "--bytes", "x", "-"]).returncode != 2:
        faults.append("a wrong word: status 2 wanted")
    if run(["check", "--keys", "none", "-"]).returncode != 2:
        faults.append("keys of no such kinds: status 2 wanted")
    if run(["compare", "-", "-"]).returncode != 2:
        faults.append("standard input twice: status 2 wanted")
    if run(["check", "-", "a", "-"]).returncode != 2:
        faults.append("standard input among several files twice: status 2 wanted")
    for word in (b"x\xff", b"a" * 5000 + b"\xff"):
        expect("a word that is not UTF-8", run(["check", "-", word, b"\xff"]), 2, b"", b"argument 3 is not UTF-8; to read a file of such a name, use '- < FILE'\n")
    version = run(["--version"])
    with open(os.path.join(ROOT, "VERSION"), "rb") as file:
        wanted = b"cborc " + file.read()
    if version.returncode != 0 or not version.stdout.startswith(wanted):
        faults.append("--version")


def streams():
    expect("check of a stream", run(["check", "-"], b"\x18\x00"), 0, b"accepted 2 bytes\n")
    expect("canon through", run(["canon", "-", "-"], b"\x9f\x18\x00\xff"), 0, b"\x81\x00")
    expect("hex out", run(["canon", "--hex-out", "-", "-"], b"\xbf\xff"), 0, b"a0\n")
    expect("quiet", run(["check", "--quiet", "-"], b"\xff"), 1)
    expect("quiet canon", run(["canon", "--quiet", "-", "-"], b"\x18\x00"), 0, b"\x00")
    expect("refused", run(["show", "-"], b"\xf9"), 1, b"", b"refused 5 Float at 0\n")
    expect("a key of another kind", run(["check", "--keys", "basic", "-"], b"\xa1\x80\x00"), 1, b"", b"refused 20 KeyKind at 1\n")
    few = limited(8 * 1024)
    with open("/dev/zero", "rb") as endless:
        # An item is read only as far as it is decided, whatever the limit is.
        for command, printed in (["check"], b""), (["events"], b"0 unsigned 0 0\n"):
            words = [PROGRAM, *command, "--bytes", "1000000000", "-"]
            ended = subprocess.run(words, stdin=endless, capture_output=True, timeout=300, preexec_fn=few)
            expect(f"no end: {command[0]}", ended, 1, printed, b"refused 12 Trailing at 1\n")
        for command in (["check"], ["events", "--seq"], ["check", "--seq"], ["show", "--seq"]):
            words = [PROGRAM, *command, "--hex", "-"]
            ended = subprocess.run(words, stdin=endless, capture_output=True, timeout=300, preexec_fn=few)
            expect("no end, and no hex", ended, 3, b"", b"not hex: -\n")
    following = b"00 " * 2_000_000
    words = ["check", "--hex", "--bytes", "1", "-"]
    expect("digits after the limit", run(words, following, preexec_fn=few), 1, b"", b"refused 12 Trailing at 1\n")
    expect("no digit after the limit", run(words, following + b"g", preexec_fn=few), 3, b"", b"not hex: -\n")
    with open(write("kept", b"x"), "ab") as end:
        subprocess.run([PROGRAM, "canon", "-", "-"], input=b"\x18\x00", stdout=end)
    holds("kept", b"x\x00", ["kept"])
    os.remove(os.path.join(FOLDER, "kept"))


def outputs_that_fail():
    line = b"cannot write standard output\n"
    with open("/dev/full", "wb") as full:
        for command in (["check", "-"], ["canon", "-", "-"], ["canon", "--seq", "-", "-"]):
            ended = subprocess.run([PROGRAM, *command], input=b"\x00", stdout=full, stderr=subprocess.PIPE)
            expect(f"{command} to a full device", ended, 3, None, line)
    reported = b"cannot write /dev/full\n"
    expect("OUT is a full device", run(["canon", "-", "/dev/full"], b"\x00"), 3, b"", reported)
    for count in (1, 100_000):
        expect("OUT is a full device", run(["canon", "--seq", "-", "/dev/full"], b"\x00" * count), 3, b"", reported)
    expect("why: a full device", run(["canon", "--seq", "--explain", "-", "/dev/full"], b"\x00"), 3, b"", reported + b"  The disk is full.\n")
    reading, writing = os.pipe()
    os.close(reading)
    ended = subprocess.run([PROGRAM, "check", "-"], input=b"\x00", stdout=writing, stderr=subprocess.PIPE)
    os.close(writing)
    # If the system ends a program at a closed pipe, it ends as other tools do.
    if (ended.returncode, ended.stderr) not in ((3, b""), (-signal.SIGPIPE, b"")):
        faults.append(f"a closed pipe: found {(ended.returncode, ended.stderr)}")


def files():
    expect("no such file", run(["check", "absent"]), 3, b"", b"cannot read absent\n")
    expect("a path with a line feed", run(["check", "a\nb"]), 3, b"", b"cannot read a\\u000ab\n")
    expect("no such folder", run(["canon", "-", "absent/out"], b"\x00"), 3, b"", b"cannot write absent/out\n")
    several_files()
    path = write("item", b"\x18\x00")
    os.chmod(path, 0o640)
    os.symlink("item", os.path.join(FOLDER, "link"))
    here = ["item", "link"]
    expect("IN is OUT", run(["canon", "item", "item"]), 0)
    holds("item", b"\x00", here)
    expect("OUT is a link", run(["canon", "-", "link"], b"\x9f\xff"), 0)
    holds("item", b"\x80", here)
    if not os.path.islink(os.path.join(FOLDER, "link")):
        faults.append("the link was replaced")
    if stat.S_IMODE(os.stat(path).st_mode) != 0o640:
        faults.append(f"permissions are {os.stat(path).st_mode:o}")
    expect("a refusal", run(["canon", "-", "item"], b"\xff"), 1, b"", b"refused 7 StrayBreak at 0\n")
    holds("item", b"\x80", here)
    # A file of more than one byte is refused by the system, as on a full disk.
    ended = run(
        ["canon", "-", "item"],
        b"\x82\x00\x00",
        restore_signals=False,
        preexec_fn=short(1),
    )
    expect("no scratch", ended, 3, b"", b"cannot write item\n")
    holds("item", b"\x80", here)
    expect("a new file", run(["canon", "-", "new"], b"\x00"), 0)
    holds("new", b"\x00", here + ["new"])


def several_files():
    paths = [write("one", b"\x18\x00"), write("two\n", b"\xff")]
    accepted = b"one: accepted 2 bytes\n-: accepted 1 bytes\n"
    refused = b"two\\u000a: refused 7 StrayBreak at 0\n"
    expect("several files", run(["check", "one", "-"], b"\x00"), 0, accepted)
    expect("one of several files refused", run(["check", "one", "two\n", "-"], b"\x00"), 1, accepted, refused)
    expect("several files, quietly", run(["check", "--quiet", "two\n", "absent", "one"]), 3)
    # Verdicts and messages to one file are in the order of the files.
    words = [PROGRAM, "check", "two\n", "one", "absent", "one"]
    ended = subprocess.run(words, cwd=FOLDER, stdout=subprocess.PIPE, stderr=subprocess.STDOUT)
    line = b"one: accepted 2 bytes\n"
    expect("several files, in order", ended, 3, refused + line + b"absent: cannot read absent\n" + line, None)
    with open("/dev/full", "wb") as full:
        ended = subprocess.run([PROGRAM, "check", "--explain", "one", "one"], cwd=FOLDER, stdout=full, stderr=subprocess.PIPE)
    expect("several files to a full device", ended, 3, None, b"cannot write standard output\n  Standard output is closed or full.\n")
    for path in paths:
        os.remove(path)


def sequences():
    expect("canon of a sequence", run(["canon", "--seq", "-", "-"], b"\x18\x00\x9f\xff"), 0, b"\x00\x80")
    expect("a sequence shown", run(["show", "--seq", "-"], b"\x00\x81\x01"), 0, b"0\n[1]\n")
    refused = b"item 3 refused 1 Truncated at 1\n"
    expect("a sequence shown in part", run(["show", "--seq", "-"], b"\x00\x81\x01\x18"), 1, b"0\n[1]\n", refused)
    listed = b"0 unsigned 0 0\n\n1 array 1 0\n2 unsigned 1 0\n"
    expect("a sequence listed", run(["events", "--seq", "-"], b"\x00\x81\x01"), 0, listed)
    expect("a sequence listed in part", run(["events", "--seq", "-"], b"\x00\x81\x01\x18"), 1, listed + b"\n", refused)
    annotated = b"       0  00                                unsigned integer 0\n"
    expect("an item annotated", run(["events", "--annotate", "-"], b"\x00"), 0, annotated)
    annotated += b"""
       1  61                                text string, 1 byte
       2  41                                  "A"
"""
    expect("a sequence annotated", run(["events", "--annotate", "--seq", "-"], b"\x00aA"), 0, annotated)
    expect("a sequence canonised in part", run(["canon", "--seq", "-", "-"], b"\x18\x00\x81\x01\x18"), 1, b"\x00\x81\x01", refused)
    item = write("sequence", b"\x00\x81\x01\x18")
    here = os.listdir(FOLDER)
    expect("a sequence refused", run(["canon", "--seq", "sequence", "sequence"]), 1, b"", refused)
    holds("sequence", b"\x00\x81\x01\x18", here)
    write("sequence", b"\x18\x00\x9f\xff")
    expect("a sequence in its own place", run(["canon", "--seq", "sequence", "sequence"]), 0)
    holds("sequence", b"\x00\x80", here)
    expect("no item", run(["canon", "--seq", "-", "sequence"]), 0)
    holds("sequence", b"", here)
    reported = b"cannot read absent\n  There is no such file or folder.\n"
    expect("no sequence", run(["canon", "--seq", "--explain", "absent", "sequence"]), 3, b"", reported)
    reported = b"cannot write absent/out\n  A new file next to it could not be created. There is no such file or folder.\n"
    expect("no folder for a sequence", run(["canon", "--seq", "--explain", "-", "absent/out"], b"\x00"), 3, b"", reported)
    holds("sequence", b"", here)
    # After 100,000 items: one that is refused, and no space.
    write("sequence", b"\x00" * 100_000 + b"\xff")
    write("kept", b"\x80")
    here.append("kept")
    refused = b"item 100001 refused 7 StrayBreak at 0\n"
    expect("a long sequence refused", run(["canon", "--seq", "sequence", "kept"]), 1, b"", refused)
    holds("kept", b"\x80", here)
    ended = run(
        ["canon", "--seq", "--explain", "sequence", "kept"],
        restore_signals=False,
        preexec_fn=short(50_000),
    )
    if (ended.returncode, ended.stdout) != (3, b"") or not ended.stderr.startswith(b"cannot write kept\n"):
        faults.append(f"no scratch for a sequence: found {(ended.returncode, ended.stdout, ended.stderr)}")
    holds("kept", b"\x80", here)
    os.remove(os.path.join(FOLDER, "kept"))
    os.remove(item)


def long_items():
    """Items of more bytes than are read at first: whole, truncated, with a byte after them, refused within."""
    members = 3_000_000
    whole = b"\x9a" + members.to_bytes(4, "big") + bytes(members)
    size = len(whole)
    for data, refused in (
        (whole, b""),
        (whole[:-1], b"refused 1 Truncated at %d\n" % (size - 1)),
        (whole + b"\x00", b"refused 12 Trailing at %d\n" % size),
        (whole[:2_000_000] + b"\x1c" + whole, b"refused 3 Reserved at 2000000\n"),
    ):
        path = write("long", data)
        for words in (["check", "long"], ["check", "--strict", "long"], ["show", "long"], ["events", "long"], ["events", "--annotate", "long"], ["canon", "long", "-"]):
            ended = run([*words, "--bytes", "1000000000"])
            if (ended.returncode, ended.stderr) != (1 if refused else 0, refused):
                faults.append(f"{words} of a long item: found {(ended.returncode, ended.stderr)}, and not {refused}")
        os.remove(path)


def parts():
    """Sequences longer than what is stored of them, inputs without end, and files longer than memory."""
    item = b"\x58\x49" + bytes(range(73))
    count = 300_000
    path = write("long", item * count)
    few = limited(8 * 1024)
    with open(path, "rb") as file:
        ended = subprocess.run([PROGRAM, "check", "--seq", "-"], stdin=file, capture_output=True, preexec_fn=few)
    expect("a long stream", ended, 0, b"accepted %d items\n" % count)
    with subprocess.Popen(["cat", path], stdout=subprocess.PIPE) as pipe:
        ended = subprocess.run([PROGRAM, "check", "--seq", "-"], stdin=pipe.stdout, capture_output=True, preexec_fn=few)
    expect("a long sequence from a pipe", ended, 0, b"accepted %d items\n" % count)
    expect("a long sequence to a file", run(["canon", "--seq", "long", "copy"], preexec_fn=few), 0)
    with open(os.path.join(FOLDER, "copy"), "rb") as file:
        if file.read() != item * count:
            faults.append("a long sequence is another in its copy")
    os.remove(os.path.join(FOLDER, "copy"))
    with open(path, "ab") as file:
        file.write(b"\x00\x18")
    ended = run(["canon", "--seq", "long", "-"], preexec_fn=few)
    if (ended.returncode, ended.stdout) != (1, item * count + b"\x00"):
        faults.append(f"canon of a long sequence: status {ended.returncode}, {len(ended.stdout)} bytes")
    refused = b"item %d refused 1 Truncated at 1\n" % (count + 2)
    for command in ("show", "events", "check"):
        ended = run([command, "--seq", "long"], preexec_fn=few)
        if (ended.returncode, ended.stderr) != (1, refused):
            faults.append(f"{command} of a long sequence: found {(ended.returncode, ended.stderr)}")
        lines = {"show": count + 1, "events": 2 * count + 2, "check": 0}[command]
        if ended.stdout.count(b"\n") != lines:
            faults.append(f"{command} of a long sequence: {ended.stdout.count(chr(10).encode())} lines, and not {lines}")
    last = b"\n\n%d bytes 73 1\n\n%d unsigned 0 0\n\n" % (75 * count - 75, 75 * count)
    if not run(["events", "--seq", "long"]).stdout.endswith(last):
        faults.append("events of a long sequence: the last lines are others")
    reported = run(["check", "--seq", "--explain", "long"], preexec_fn=few).stderr
    if b"; the item starts at %d\n" % (75 * count + 1) not in reported or b"bytes from 0: 18\n" not in reported:
        faults.append(f"an explanation of a long sequence: {reported}")
    os.remove(path)
    hex_parts(item, count, few)
    # A byte string of 200,000 bytes over the ends of parts, and items without end.
    wide = b"\x5a\x00\x03\x0d\x40" + bytes(200_000)
    expect("wide items", run(["canon", "--seq", "--hex-out", "-", "-"], wide * 3 + b"\x18\x00"), 0, b"".join([wide.hex().encode() + b"\n"] * 3) + b"00\n")
    for byte, line in ((0x1C, b"3 Reserved at 0"), (0x9F, b"9 TooDeep at 256")):
        feed = f"import sys\nwhile True: sys.stdout.buffer.write(bytes([{byte}]) * 65536)"
        with subprocess.Popen([sys.executable, "-c", feed], stdout=subprocess.PIPE, stderr=subprocess.DEVNULL) as pipe:
            words = [PROGRAM, "check", "--seq", "-"]
            ended = subprocess.run(words, stdin=pipe.stdout, capture_output=True, timeout=300, preexec_fn=few)
            pipe.stdout.close()
        expect("a sequence without end", ended, 1, b"", b"item 1 refused " + line + b"\n")
    path = write("zeros", b"")
    os.truncate(path, 1 << 31)
    for command in (["check"], ["check", "--strict"], ["show"], ["canon", "--quiet"]):
        rest = ["-"] if command[0] == "canon" else []
        ended = run([*command, "--bytes", "4000000000", "zeros", *rest], preexec_fn=few)
        reported = b"" if "--quiet" in command else b"refused 12 Trailing at 1\n"
        expect(f"{command} of 2 GiB", ended, 1, b"", reported)
    os.remove(path)


def hex_parts(item, count, few):
    """The same in hex text, whose parts end between two digits of a byte."""
    lines = (item.hex() + "\n").encode() * count
    path = write("digits", lines)
    expect("a long hex sequence", run(["check", "--seq", "--hex", "digits"], preexec_fn=few), 0, b"accepted %d items\n" % count)
    shown = run(["show", "--seq", "--hex", "digits"], preexec_fn=few)
    if shown.returncode != 0 or shown.stdout.count(b"\n") != count:
        faults.append(f"show of a long hex sequence: {shown.returncode}, {shown.stderr}")
    ended = run(["canon", "--seq", "--hex", "digits", "-"], preexec_fn=few)
    if (ended.returncode, ended.stdout) != (0, item * count):
        faults.append(f"canon of a long hex sequence: status {ended.returncode}, {len(ended.stdout)} bytes")
    for front, following, status, reported, written in (
        (b"", b"00 18", 1, b"item %d refused 1 Truncated at 1\n" % (count + 2), item * count + b"\x00"),
        (b"ff", b"", 1, b"item 1 refused 7 StrayBreak at 0\n", b""),
        (b"ff", b"g", 3, b"not hex: digits\n", b""),
        (b"00" + b"\n" * 200_001, b"0", 3, b"not hex: digits\n", b"\x00" + item * count),
    ):
        with open(path, "wb") as file:
            file.write(front + lines + following)
        for command in (["check"], ["show"], ["events"], ["canon", "-"]):
            ended = run([command[0], "--seq", "--hex", "digits", *command[1:]], preexec_fn=few)
            if (ended.returncode, ended.stderr) != (status, reported):
                faults.append(f"{command} of a hex sequence, {front[:4]} and {following}: {(ended.returncode, ended.stderr)}")
        # By canon: if the text is not hex, the items of the parts before that.
        if not written.startswith(ended.stdout) or (status == 1 and ended.stdout != written):
            faults.append(f"canon of a hex sequence, {front[:4]} and {following}: {len(ended.stdout)} bytes")
    with open(path, "wb") as file:
        file.write(lines + b"00 18")
    reported = run(["check", "--seq", "--hex", "--explain", "digits"], preexec_fn=few).stderr
    if b"; the item starts at %d\n" % (75 * count + 1) not in reported or b"bytes from 0: 18\n" not in reported:
        faults.append(f"an explanation of a long hex sequence: {reported}")
    with open(path, "ab") as file:
        file.write(b"\n0g")
    reported = run(["check", "--seq", "--hex", "--explain", "digits"], preexec_fn=few).stderr
    if b"  line %d, column 2: not a hex digit (byte 67)\n" % (count + 2) not in reported:
        faults.append(f"an explanation of other bytes in a long hex sequence: {reported}")
    os.remove(path)


def leftovers():
    """What an interrupted run leaves, and that it does not hinder a later run."""
    path = write("out", b"\x80")
    before = set(os.listdir(FOLDER))
    ended = run(["canon", "-", "out"], b"\x82\x00\x00", preexec_fn=short(1))
    left = set(os.listdir(FOLDER)) - before
    if ended.returncode != -signal.SIGXFSZ or len(left) != 1:
        faults.append(f"ended by a signal: status {ended.returncode}, left {sorted(left)}")
    for name in left:
        if not re.fullmatch(r"out\.[0-9a-f]{16}\.tmp", name):
            faults.append(f"a run that was ended left {name}")
    for number in range(3000):
        write(f"out.{number:016x}.tmp", b"")
        write(f".cborc-{number}.tmp", b"")
    among = len(os.listdir(FOLDER))
    expect("next to leftovers", run(["canon", "-", "out"], b"\x18\x00"), 0)
    with open(path, "rb") as file:
        if file.read() != b"\x00" or len(os.listdir(FOLDER)) != among:
            faults.append("next to leftovers OUT was not written, or there is one more")
    longest = "n" * 255
    expect("the longest name", run(["canon", "-", longest], b"\x00"), 0)
    for name in os.listdir(FOLDER):
        if name.endswith(".tmp") or name in ("out", longest):
            os.remove(os.path.join(FOLDER, name))


def links():
    """Links to a file that does not exist: the file is made, and the links stay."""
    os.mkdir(os.path.join(FOLDER, "deep"))
    os.symlink("deep/first", os.path.join(FOLDER, "dangling"))
    os.symlink("second", os.path.join(FOLDER, "deep", "first"))
    expect("OUT is a dangling link", run(["canon", "-", "dangling"], b"\x18\x00"), 0)
    for link in ("dangling", "deep/first"):
        if not os.path.islink(os.path.join(FOLDER, link)):
            faults.append(f"the link {link} was replaced")
    with open(os.path.join(FOLDER, "deep", "second"), "rb") as file:
        if file.read() != b"\x00" or sorted(os.listdir(os.path.join(FOLDER, "deep"))) != ["first", "second"]:
            faults.append("what a dangling link leads to was not made")
    os.symlink("round", os.path.join(FOLDER, "round"))
    reported = b"cannot write round\n  Symbolic links form a loop.\n"
    expect("a circle of links", run(["canon", "--explain", "-", "round"], b"\x00"), 3, b"", reported)
    os.symlink("nowhere/file", os.path.join(FOLDER, "astray"))
    reported = b"cannot write astray\n  A new file next to it could not be created. There is no such file or folder.\n"
    expect("a link into no folder", run(["canon", "--explain", "-", "astray"], b"\x00"), 3, b"", reported)


def options_of(command):
    """The long options that the program's own help names."""
    text = run([command, "--help"] if command else ["--help"]).stdout.decode()
    return set(re.findall(r"^ +(?:-\w, )?(--[a-z-]+)", text, re.M))


def pages():
    def text(name):
        with open(os.path.join(ROOT, "share", name)) as file:
            return file.read().replace("\\-", "-")

    known = options_of(None).union(*(options_of(command) for command in COMMANDS))
    for name in ("cborc.1", "cborc.bash", "_cborc", "cborc.fish"):
        page = text(name)
        found = set(re.findall(r"(?<![\w-])--[a-z][a-z-]*", page))
        if name == "cborc.fish":
            found = {"--" + word for word in re.findall(r"^complete.* -l ([a-z-]+)", page, re.M)}
        if found != known:
            faults.append(f"share/{name}: options differ by {sorted(found ^ known)}")
        for command in COMMANDS:
            if not re.search(rf"\b{command}\b", page):
                faults.append(f"share/{name} lacks {command}")
    for shell in ("bash", "zsh", "fish"):
        name = {"bash": "cborc.bash", "zsh": "_cborc", "fish": "cborc.fish"}[shell]
        path = os.path.join(ROOT, "share", name)
        if any(os.access(os.path.join(at, shell), os.X_OK) for at in os.environ["PATH"].split(":")):
            if subprocess.run([shell, "-n", path], capture_output=True).returncode != 0:
                faults.append(f"share/{name}: {shell} cannot read it")


chosen = [globals()[name] for name in sys.argv[2:]]
for part in chosen or (words, streams, outputs_that_fail, files, sequences, long_items, parts, leftovers, links, pages):
    part()
if not chosen:
    run_explained.test()
    run_limited.test()
    run_killed.test()
    run_timed.test()
    faults += completions.faults()
end("program")
