"""Counts the instructions and the memory of `read_view`, `check_valid` and `read_tree`, and prints Markdown.

    python3 views.py PROGRAM FOLDER NAME..

PROGRAM is views.rattle, the files are NAME.cbor of inputs.py. Instructions are callgrind's, minus those of the integer 0,
for one byte; memory is the most that dhat sees in use, minus that for reading the file, for one item. An item in a map counts
as key and as value. The last table is about two fields of each record of records.sequence. Ends with status 1 if a
file is refused.
"""

import os
import re
import sys

from strict import instructions, run_under


def items_of(data):
    """The number of items, at every depth: heads, except those of breaks and chunks."""
    place = count = 0
    is_in_chunks = False
    while place < len(data):
        major, info = divmod(data[place], 32)
        width = {24: 1, 25: 2, 26: 4, 27: 8}.get(info, 0)
        argument = int.from_bytes(data[place + 1 : place + 1 + width], "big") if width else info
        place += 1 + width
        is_break, is_string = (major, info) == (7, 31), major in (2, 3)
        count += not is_break and not is_in_chunks
        if is_string and info < 31:
            place += argument
        is_in_chunks = not is_break and (is_in_chunks or (is_string and info == 31))
    return count


def in_use(*words):
    """The most memory in use at a time, and the size of the arena."""
    wrote, said = run_under("dhat", *words)
    return int(re.search(r"At t-gmax: ([\d,]+) bytes", said)[1].replace(",", "")), int(wrote.split()[1])


def print_instructions(program, folder, names):
    calls = ("valid", "view", "tree")
    starts = {it: instructions(program, it, f"{folder}/one.cbor") for it in calls}
    print("| a view | `check_valid` | `read_view` | ratio | `read_tree` | ratio |\n| --- |" + " ---: |" * 5)
    for name in names:
        path = f"{folder}/{name}.cbor"
        valid, view, tree = ((instructions(program, it, path) - starts[it]) / os.path.getsize(path) for it in calls)
        print(f"| {name} | {valid:.2f} | {view:.2f} | {view / valid:.2f} | {tree:.2f} | {tree / valid:.2f} |", flush=True)


def print_memory(program, folder, names):
    print("\n| bytes an item | items | arena of a view | most, while it is made | most of `read_tree` |\n| --- |" + " ---: |" * 4)
    for name in names:
        path = f"{folder}/{name}.cbor"
        with open(path, "rb") as file:
            count = items_of(file.read())
        file_alone, _ = in_use(program, "none", path)
        view, arena = in_use(program, "view", path)
        tree, _ = in_use(program, "tree", path)
        cells = (arena, view - file_alone, tree - file_alone)
        print(f"| {name} | {count:,} | " + " | ".join(f"{it / count:.1f}" for it in cells) + " |", flush=True)


def print_fields(program, folder):
    path = f"{folder}/records.sequence"
    wrote, _ = run_under("callgrind", program, "fields", path)
    count, start = int(wrote.split()[0]), instructions(program, "none", path)
    views, trees = ((instructions(program, it, path) - start) / count for it in ("fields", "tree-fields"))
    print("\n| two fields of a record | by views | by `Sequence::next` | ratio |\n| --- | ---: | ---: | ---: |")
    print(f"| instructions a record | {views:,.0f} | {trees:,.0f} | {views / trees:.2f} |", flush=True)


def main():
    program, folder, *names = sys.argv[1:]
    print_instructions(program, folder, names)
    print_memory(program, folder, names)
    print_fields(program, folder)


if __name__ == "__main__":
    main()
