#!/usr/bin/env python3
"""Formats the imports of specs/ and proofs/; with --check it names the files that are formatted otherwise.

The imports from one crate are together, lower crates first. A line has as many modules as fit, if the file imports one or
two names of each; each name then has its path from the module that they share.
"""

import os
import re
import sys

from sources import CRATES, ROOT, split_names
from written import write_or_compare

WIDTH, FEW = 160, 2
IMPORT = re.compile(r"^use (Rattle\.[^\s{]+)\.\{(.*)\}$")


def ranks():
    """The crates, each after those that it depends on; std and the kit's crates come first."""
    lines = [it.partition("#")[0].partition(":") for it in (ROOT / "crates.txt").read_text().splitlines()]
    depends_on = {name.split()[0]: libraries.split() for name, colon, libraries in lines if colon}
    order = []

    def visit(crate):
        for below in depends_on.get(crate, []):
            visit(below)
        if crate in depends_on and crate not in order:
            order.append(crate)

    for crate in depends_on:
        visit(crate)
    return {it: at for at, it in enumerate(order)}


def one_line(taken):
    """The import of (module, names), each name with its path from the module that all share."""
    shared = os.path.commonprefix([module.split(".") for module, _ in taken])
    ways = [module.split(".")[len(shared):] + [name] for module, names in taken for name in names]
    return f"use {'.'.join(shared)}.{{{', '.join('.'.join(it) for it in ways)}}}"


def taken_by(line):
    """The names that an import brings in, by module; none if it renames, or if a name is directly in a crate."""
    match = IMPORT.match(line)
    names = split_names(match[2]) if match else []
    taken = {}
    for name in names:
        module, _, item = f"{match[1]}.{name}".rpartition(".")
        taken.setdefault(module, []).append(item)
    return {} if any(" as " in it for it in names) or any(it.count(".") < 3 for it in taken) else taken


def of_crate(lines):
    """A file's imports from one crate, those of few names in as few lines as fit."""
    by_line, of_module = {it: taken_by(it) for it in lines}, {}
    for taken in by_line.values():
        for module, names in taken.items():
            of_module.setdefault(module, []).extend(names)
    few = {module: names for module, names in of_module.items() if len(names) <= FEW}
    kept, packs = [], []
    for line, taken in by_line.items():
        rest = [it for it in taken.items() if it[0] not in few]
        if rest or not taken:
            kept.append(line if len(rest) == len(taken) else one_line(rest))
    for taken in few.items():
        if packs and len(one_line(packs[-1] + [taken])) <= WIDTH:
            packs[-1].append(taken)
        else:
            packs.append([taken])
    return kept + [one_line(it) for it in packs]


def laid_out(text, rank):
    done, run = [], {}
    for line in [*text.split("\n"), None]:
        if line is not None and line.startswith("use Rattle."):
            run.setdefault(re.split(r"[. ]", line)[2], []).append(line)
            continue
        for crate in sorted(run, key=lambda it: rank.get(it, -1)):
            done += of_crate(run[crate])
        run = {}
        done.append(line)
    return "\n".join(done[:-1])


def main():
    rank = ranks()
    paths = [*CRATES.glob("*/specs/**/*.antt"), *CRATES.glob("*/proofs/**/*.antt")]
    return write_or_compare({path: laid_out(path.read_text(), rank) for path in sorted(paths)})


if __name__ == "__main__":
    sys.exit(main())
