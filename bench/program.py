"""Times `cborc` on the inputs of inputs.py, and prints Markdown.

    python3 program.py CBORC FOLDER

Times are processor time, the least of some runs. What `canon` writes is compared with the canonical
bytes that inputs.py wrote. Ends with status 1 if a run returns something else than it should.
"""

import os
import shutil
import subprocess
import sys
from collections import namedtuple
from time import perf_counter

TURNS = 5
# A run of this many seconds is not repeated.
LONG = 2.0
MIB = 1 << 20
COMMANDS = {
    "canon": (["canon"], "cbor", "bytewise"),
    "canon length first": (["canon", "--order", "length"], "cbor", "length"),
    "check": (["check"], "cbor", None),
    "check of canonical": (["check"], "bytewise", None),
    "check --strict of canonical": (["check", "--strict"], "bytewise", None),
}
# The inputs whose peak memory is reported.
MEASURED = ["canon", "check --strict of canonical"]
TITLES = {
    "one": "the integer 0: the start of the program",
    "records": "records, shuffled text keys",
    "map_10000": "map of 10,000 shuffled texts",
    "map_100000": "map of 100,000 shuffled texts",
    "integers": "integers of all widths",
    "wide_integers": "small integers in 8 bytes each",
    "zeros": "array of zeros",
    "text": "one text",
    "chunks": "one text in chunks of 1 byte",
    "nested": "256 unsorted maps, as values",
    "nested_many": "an array of 255 unsorted maps, as values, again and again",
    "nested_keys": "256 unsorted maps, as keys",
    "keys_around_bytes": "256 unsorted maps, as keys, around 1 MiB of bytes",
    "keys_around_map": "255 unsorted maps, as keys, around 170,000 shuffled integers",
    "keys_around_zeros": "255 unsorted maps, as keys, around an array of zeros",
    "bytes_16_mib": "one byte string of 16 MiB",
    "texts": "texts past ASCII",
    "small_chunks": "small maps of a byte string or a text, in chunks",
    "chains": "chains of arrays, maps and tags, 20 to 250 deep",
}
# For the other subcommands: instructions a byte, next to those of `check`.
COUNTED = {
    "check": (["check"], "cbor"),
    "show": (["show"], "cbor"),
    "events": (["events"], "cbor"),
    "compare with canonical": (["compare"], "cbor"),
    "check of canonical": (["check"], "bytewise"),
    "check --seq of members": (["check", "--seq"], "sequence"),
    "check --strict of canonical": (["check", "--strict"], "bytewise"),
    "check --strict --seq of members": (["check", "--strict", "--seq"], "sequence"),
}
# How a run ended, the seconds that it took, and its peak of resident memory in bytes, if that is known.
Ran = namedtuple("Ran", "status processor wall peak", defaults=[None])
faults = []


def words_of(cborc, folder, name, command):
    words, ending, *_ = COMMANDS.get(command) or COUNTED[command]
    words = [cborc, *words, "--bytes", str(32 * MIB), f"{folder}/{name}.{ending}"]
    if command.startswith("compare"):
        return [*words, f"{folder}/{name}.bytewise"]
    return [*words, f"{folder}/out"] if command.startswith("canon") else words


def instructions(words):
    """Returns the number of instructions of a run, or None if there is no callgrind."""
    valgrind = shutil.which("valgrind")
    if not valgrind:
        return None
    ran = subprocess.run([valgrind, "--tool=callgrind", "--callgrind-out-file=/dev/null", *words],
                         stdout=subprocess.DEVNULL, stderr=subprocess.PIPE, text=True)
    counts = [line.split()[-1] for line in ran.stderr.splitlines() if "Collected" in line]
    return int(counts[-1]) if ran.returncode == 0 and counts else None


def print_instructions(cborc, folder):
    """Prints the instructions a byte of the other subcommands, minus those of the integer 0."""
    names = ["records", "integers", "zeros", "text", "map_10000", "map_100000"]
    print(f"\n| instructions a byte | {' | '.join(f'`{it}`' for it in COUNTED)} |")
    print("| --- |" + " ---: |" * len(COUNTED))
    for name in names:
        cells = []
        for command, (_, ending) in COUNTED.items():
            path, start = f"{folder}/{name}.{ending}", None
            count = instructions(words_of(cborc, folder, name, command)) if os.path.exists(path) else None
            if count is not None:
                start = instructions(words_of(cborc, folder, "one", command.replace(" --seq of members", " of canonical")))
            cells.append("" if start is None else f"{(count - start) / os.path.getsize(path):.1f}")
        print(f"| {TITLES[name]} | {' | '.join(cells)} |", flush=True)


def run(words, folder, out="stdout", piped=None):
    """Runs the command, with its output in files of the folder. It reads PIPED, a file, from a pipe."""
    flags = os.O_WRONLY | os.O_CREAT | os.O_TRUNC
    file = lambda number, name: (os.POSIX_SPAWN_OPEN, number, os.path.join(folder, name), flags, 0o600)
    actions = [file(1, out), file(2, "stderr")]
    began = perf_counter()
    source = subprocess.Popen(["cat", piped], stdout=subprocess.PIPE) if piped else None
    if source:
        actions.append((os.POSIX_SPAWN_DUP2, source.stdout.fileno(), 0))
    child = os.posix_spawn(words[0], words, {}, file_actions=actions)
    _, status, used = os.wait4(child, 0)
    wall = perf_counter() - began
    if source:
        source.stdout.close()
        source.wait()
    return Ran(os.waitstatus_to_exitcode(status), used.ru_utime + used.ru_stime, wall)


def run_measured(words, folder, out="stdout", piped=None):
    """The same with the peak of memory, if GNU time is installed, whose own millisecond is counted too."""
    tool = shutil.which("time")
    if not tool:
        return run(words, folder, out, piped)
    ran = run([tool, "-q", "-o", f"{folder}/peak", "-f", "%M", *words], folder, out, piped)
    return ran._replace(peak=1024 * int(contents(f"{folder}/peak")))


def least_time(cborc, folder, name, command):
    """Returns the least time of some runs, or a sentence why there is none."""
    words, wanted = words_of(cborc, folder, name, command), COMMANDS[command][2]
    least = None
    for _ in range(TURNS):
        ran = run(words, folder)
        if ran.status == 2:
            return "not there"
        if ran.status:
            with open(f"{folder}/stderr", errors="replace") as said:
                faults.append(f"{command} of {name}: status {ran.status}, {said.read().strip()}")
            return f"status {ran.status}"
        least = ran.processor if least is None else min(least, ran.processor)
        if ran.processor > LONG:
            break
    if wanted and contents(f"{folder}/out") != contents(f"{folder}/{name}.{wanted}"):
        faults.append(f"{command} of {name}: other bytes than the canonical ones")
    return least


def contents(path):
    with open(path, "rb") as file:
        return file.read()


def speed(time, size):
    """Returns MB/s, or nothing for an input so small that most of the time is the program's start."""
    if isinstance(time, str):
        return time
    return f"{size / 1e6 / time:.1f}" if size > MIB // 16 else ""


def mebibytes(size):
    return "" if size is None else f"{size / MIB:.1f}"


def milliseconds(time):
    return time if isinstance(time, str) else f"{1000 * time:.1f}"


def size_of(folder, name, command):
    return os.path.getsize(f"{folder}/{name}.{COMMANDS[command][1]}")


def print_tables(cborc, folder):
    print(f"Processor time, least of {TURNS}. The columns `of canonical` read the canonical bytes of the input, the others the input itself.\n")
    speeds = " | ".join(f"`{it}`, MB/s" for it in COMMANDS)
    peaks = " | ".join(f"`{it}`, peak memory, MiB" for it in MEASURED)
    print(f"| input | bytes | `canon`, ms | {speeds} | {peaks} |")
    print("| --- |" + " ---: |" * (len(COMMANDS) + len(MEASURED) + 2))
    times = {}
    for name, title in TITLES.items():
        for command in COMMANDS:
            times[name, command] = least_time(cborc, folder, name, command)
        cells = [title, f"{size_of(folder, name, 'canon'):,}", milliseconds(times[name, "canon"])]
        cells += [speed(times[name, it], size_of(folder, name, it)) for it in COMMANDS]
        cells += [mebibytes(run_measured(words_of(cborc, folder, name, it), folder).peak) for it in MEASURED]
        print(f"| {' | '.join(cells)} |", flush=True)
    return times


def print_bounds(times, folder):
    ratios = []
    for command in COMMANDS:
        small, large = times["map_10000", command], times["map_100000", command]
        is_known = not isinstance(small, str) and not isinstance(large, str)
        ratios.append(f"`{command}` {f'{large / small:.1f}' if is_known else 'not there'}")
    print(f"\nOf 100,000 keys against 10,000, at most 13 times the time: {', '.join(ratios)}.")
    small_ones = {it: time for it, time in times.items() if size_of(folder, *it) <= MIB and not isinstance(time, str)}
    if small_ones:
        name, command = max(small_ones, key=small_ones.get)
        time = milliseconds(small_ones[name, command])
        print(f"\nThe slowest of the inputs of at most 1 MiB, within 1,000 ms: `{command}` of {TITLES[name]}, {time} ms.")


def end():
    """Prints unexpected results, and returns the exit status."""
    for fault in faults:
        print(f"fault: {fault}", file=sys.stderr)
    return 1 if faults else 0


def main():
    cborc, folder = os.path.abspath(sys.argv[1]), sys.argv[2]
    print_bounds(print_tables(cborc, folder), folder)
    print_instructions(cborc, folder)
    return end()


if __name__ == "__main__":
    sys.exit(main())
