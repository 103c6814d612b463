#!/usr/bin/env python3
"""Checks that each call with a twin is one call of it. The twin records whether a request for memory was refused.

    scripts/twins.py            prints each call with its twin, and what is wrong
    scripts/twins.py --check    prints what is wrong; fails if something is

A twin of NAME is NAME_in with a parameter `&mut Memory`, in the same file or type. For an export, it is a function of its file
with such a parameter, with which its body begins; docs/TRUST.md lists these exports. The body of the call passes a new `Memory`
for each such parameter, and its own parameters for the others. What the twin's contract says of a new `Memory` then holds for the
call. The prover does not check this: the contract of the call also allows a body that reports `Memory` without a request.
"""

import re
import sys

from proved import ROOT
from ways import Sources

MEMORY = re.compile(r"&(?:'\w+ )?mut (?:\w+::)*Memory\b")
SELF = re.compile(r"\(\s*&?(?:'\w+ )?(?:mut )?self\b")


def squeezed(text):
    """A text without spaces, and without a comma after the last argument."""
    return re.sub(r"\s+", "", text).replace(",)", ")")


def parameters(file, key):
    """The parameters of a function in their order, without `self`: the name, and whether it is a `&mut Memory`."""
    text = re.split(r"->|\b(?:requires|ensures|ghost)\b", re.sub(r"^\s*<[^(]*", "", file.heads[key]))[0]
    return [(name, bool(MEMORY.match(of))) for name, of in re.findall(r"(\w+)\s*:(?!:)\s*([^,]*)", text)]


def twins(sources):
    """The calls with a twin by name: the file and the function, and those of the twin. A twin without a call has no file."""
    for file in sources.files.values():
        for (owner, name), head in file.heads.items():
            key = (owner, name.removesuffix("_in"))
            if key[1] != name and MEMORY.search(head):
                holders = [it for it in sources.files.values() if it.crate == file.crate and key in it.bodies]
                yield from ((it, key, file, (owner, name)) for it in ([file] if file in holders else holders or [None]))


def listed():
    """The exports that the document lists."""
    text = (ROOT / "docs" / "TRUST.md").read_text(encoding="utf-8")
    found = re.search(r"exports\s+for\s+C:([^.]*)\.", text)
    return re.findall(r"`(\w+)`", found[1] if found else "")


def exports(sources):
    """The exports with a twin, likewise."""
    for file in (it for it in sources.files.values() if it.crate == "naltvigo"):
        for key in (it for it in file.bodies if it[1].endswith("_raw")):
            called = (None, re.match(r"\{\s*(\w*)", file.bodies[key])[1])
            if MEMORY.search(file.heads.get(called, "")):
                yield file, key, file, called


def fault(file, key, of, twin):
    """What is wrong with the body of a call, or None."""
    if not file:
        return f"there is no {key[1]} for it"
    own, passed = parameters(file, key), parameters(of, twin)
    memories = [name for name, is_memory in passed if is_memory]
    if own != [it for it in passed if not it[1]] or not memories:
        return f"its parameters are not those of {twin[1]} without the Memories"
    if not re.search(r"\bensures request\s*\{[^}]*\bIsTrue\b", of.heads[twin]):
        return f"{twin[1]} has no clause `request`"
    new = {it: "&mut Memory::new()" for it in memories}
    paths = ["self."] if SELF.search(file.heads[key]) else ["Self::", f"{key[0]}::"] if key[0] else [""]
    call = f"{twin[1]}({', '.join(new.get(name, name) for name, _ in passed)})"
    bodies = [f"{{ {path}{call} }}" for path in paths]
    return None if squeezed(file.bodies[key]) in map(squeezed, bodies) else f"its body is not {bodies[-1]}"


def main():
    sources = Sources()
    by_name, by_list = list(twins(sources)), list(exports(sources))
    faults = [] if by_name and by_list else ["no call, or no export, has a twin"]
    found = {key[1] for _, key, _, _ in by_list}
    faults += [f"docs/TRUST.md does not list {it}, or it is not one call" for it in sorted(found ^ set(listed()))]
    for file, key, of, twin in by_name + by_list:
        if wrong := fault(file, key, of, twin):
            faults.append(f"{of.path.relative_to(ROOT)}: {twin[1] if not file else key[1]}: {wrong}")
        elif "--check" not in sys.argv:
            print(f"{file.crate}: {key[1]} is one call of {twin[1]}")
    said = f"{len(by_name)} calls and {len(by_list)} exports are one call each"
    print("\n".join(f"twins: {it}" for it in faults or [said]))
    return 1 if faults else 0


if __name__ == "__main__":
    sys.exit(main())
