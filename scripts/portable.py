#!/usr/bin/env python3
"""Makes the assembly in portable/ from the proved library and program.

    scripts/portable.py [--modules FOLDER] [--into FOLDER] [TARGET ..]    makes the files, or those of some targets
    scripts/portable.py --check [--modules FOLDER]                        fails if one is not what it would make

Each file names the checksum of the sources that it was made from, and the kit. --check compares both; with --modules it
makes the files again whose modules are there, and compares their bytes. FOLDER of --modules has what scripts/modules.sh
keeps; what it lacks is made, but not by --check. Making needs the kit's rt on the path, in a clone in which `rt ci` was the
last command of rt: two proofs of two minutes, and nine compilations.

A module is retargeted (scripts/retarget.py), gets its memory functions (platform/heap.ll) and, for x86-64, the choice between
plain code and that for x86-64-v2 (scripts/choice.py), and is compiled by the kit's clang for the target.
"""

import argparse
import hashlib
import lzma
import os
import re
import subprocess
import sys
import tempfile
from concurrent.futures import ThreadPoolExecutor
from pathlib import Path
from typing import NamedTuple

import choice
import retarget

ROOT = Path(__file__).resolve().parent.parent
PORTABLE = ROOT / "portable"


class Target(NamedTuple):
    crate: str
    name: str
    triple: str
    module: str
    has_choice: bool = False
    words: tuple = ()

    def modules(self):
        return list(dict.fromkeys([self.module, *(X86 if self.has_choice else ())]))


# The library for plain x86-64, and for x86-64-v2.
X86 = ("x86-64", "x86-64-v2")
RISCV = ("-march=rv64gc", "-mabi=lp64d")
# MinGW's assembler does not know how clang writes a section for each function.
WINDOWS = ("-fno-function-sections", "-fno-data-sections")
TARGETS = [
    Target("naltvigo", "x86_64-elf", "x86_64-unknown-linux-gnu", "x86-64", True),
    Target("naltvigo", "aarch64-elf", "aarch64-unknown-linux-gnu", "aarch64"),
    Target("naltvigo", "riscv64-elf", "riscv64-unknown-linux-gnu", "x86-64", words=RISCV),
    Target("naltvigo", "x86_64-windows", "x86_64-w64-windows-gnu", "x86-64", True, WINDOWS),
    Target("naltvigo", "x86_64-macos", "x86_64-apple-macosx11", "x86-64", True),
    Target("naltvigo", "aarch64-macos", "arm64-apple-macosx11", "aarch64"),
    Target("cborc", "x86_64", "x86_64-unknown-linux-gnu", "cborc", True),
    Target("cborc", "aarch64", "aarch64-unknown-linux-gnu", "cborc"),
    Target("cborc", "riscv64", "riscv64-unknown-linux-gnu", "cborc", words=RISCV),
]
# The options with which the kit's compiler itself calls clang, except the target.
WORDS = (
    "-mllvm -no-trap-after-noreturn -mllvm -trap-unreachable -mllvm -no-x86-call-frame-opt -mllvm -disable-machine-licm "
    "-mllvm -disable-postra-machine-licm -mllvm -sink-common-insts=false --no-default-config -fno-crash-diagnostics -Werror -Wno-override-module "
    "-ffunction-sections -fdata-sections -fPIC"
).split()
# For any assembler, and no larger than necessary.
PLAIN = "-fno-addrsig -fno-ident -fno-verbose-asm -S -x ir -".split()
# What the program calls of the C library, and what portable/cborc.c has for it under a name of its own.
SYSTEM = "close fchmod fdatasync flock fsync ftruncate getentropy lseek read readlink realpath rename unlink write memcmp".split()
OF_SHIM = {it: f"cborc_{it}" for it in "main open statx rattle_arg rattle_env rattle_env_at rattle_errno rattle_set_errno".split()}
OF_SHIM["__sysv_signal"] = "cborc_signal"


def kit():
    """The kit's folder, or none."""
    try:
        return Path(subprocess.run(["rt", "doc"], check=True, stdout=subprocess.PIPE, text=True).stdout.strip()).parent
    except (OSError, subprocess.CalledProcessError):
        return None


def path_of(target, folder):
    return folder / (f"naltvigo-{target.name}.S" if target.crate == "naltvigo" else f"cborc-{target.name}.S.xz")


# ---- what the files are made from


def crates_below(crate):
    """The repository's crates that a crate is made of, itself too, and the libraries of each, by crates.txt."""
    lines = [it.partition("#")[0].partition(":") for it in (ROOT / "crates.txt").read_text(encoding="utf-8").splitlines()]
    below = {name.split()[0]: libraries.split() for name, colon, libraries in lines if colon}
    found, todo = {}, [crate]
    while todo:
        name = todo.pop()
        if name in below and name not in found:
            found[name] = below[name]
            todo += below[name]
    return found


def checksum(crate):
    """One of all sources of a crate and the crates below it, and of what makes assembly of them."""
    crates = crates_below(crate)
    files = [it for name in crates for it in (ROOT / "crates" / name / "src").rglob("*.rt") if "tests" not in it.parts]
    files += [ROOT / it for it in ("platform/heap.ll", "platform/choice.ll", "scripts/choice.py", "scripts/retarget.py", "scripts/portable.py")]
    sums = [f"{hashlib.sha256(it.read_bytes()).hexdigest()} {it.relative_to(ROOT)}" for it in sorted(files)]
    sums += [f"{name}: {' '.join(crates[name])}" for name in sorted(crates)]
    return hashlib.sha256("\n".join(sums).encode()).hexdigest()


def heading(target, identity):
    """The first lines of a file. Those of the program define what portable/cborc.c adds to its --version."""
    version = (ROOT / "VERSION").read_text(encoding="utf-8").strip()
    sources = checksum(target.crate)
    text = (
        f"/* {target.crate} {version} for {target.name}: made by scripts/portable.py, from proved code. MIT OR Apache-2.0.\n"
        f" * Sources {sources}.\n * Kit {identity}. */\n"
    )
    if target.crate == "cborc":
        text += f'\t.section\t.rodata\n\t.globl\tcborc_made_from\ncborc_made_from:\n\t.asciz\t"Assembly: of the sources {sources}, by {identity}"\n'
    return text


def kit_identity(folder):
    return (folder / "KIT-ID").read_text(encoding="utf-8").strip()


# ---- making


def each(do, targets):
    """What a function returns for each target, in their order; as many run at a time as there are processors, up to four."""
    with ThreadPoolExecutor(int(os.environ.get("JOBS") or min(4, os.cpu_count()))) as pool:
        return list(pool.map(do, targets))


def shortened(text):
    """The module with short names for what is its own; portable/README.md says how to find the long ones."""
    own = re.findall(r'(?m)^(?:define internal [^\n]*?|)@("[^"\n]*"|[\w.$-]+)(?=\(| = (?:internal|private))', text)
    short = {name: f"naltvigo.{i}" for i, name in enumerate(dict.fromkeys(own))}
    return choice.NAME.sub(lambda it: "@" + short.get(it[1], it[1]), text)


def retargeted(target, modules):
    """The whole module for a target."""
    calls = retarget.KNOWN_CALLS
    if target.crate == "cborc":
        calls += "|" + "|".join([*SYSTEM, *OF_SHIM])
    text = retarget.retargeted((modules / f"{target.module}.ll").read_text(encoding="utf-8"), target.triple, calls)
    if target.has_choice:
        base, newer = (retarget.retargeted((modules / f"{it}.ll").read_text(encoding="utf-8"), target.triple) for it in X86)
        text, _ = choice.with_choice(text, base, newer, (ROOT / "platform/choice.ll").read_text(encoding="utf-8"))
    text = re.sub(r"(?m)^declare .*@rattle_(alloc|realloc|dealloc)\(.*\n", "", text)
    text += (ROOT / "platform/heap.ll").read_text(encoding="utf-8")
    if target.crate == "cborc":
        text = choice.NAME.sub(lambda it: "@" + OF_SHIM.get(it[1], it[1]), text)
    return shortened(text)


def assembly(target, modules, folder):
    """The text of a target's file."""
    level = "-O3" if target.crate == "naltvigo" else "-O2"
    command = [folder / "toolchain/bin/clang", f"--target={target.triple}", level, *WORDS, *target.words, *PLAIN, "-o", "-"]
    made = subprocess.run(command, input=retargeted(target, modules), stdout=subprocess.PIPE, text=True, check=True).stdout
    # The names of extensions that an older assembler does not know, and what no user needs.
    made = re.sub(r"(?m)^\t\.(attribute\t5|file|build_version|weak_definition_none).*\n", "", made)
    return heading(target, kit_identity(folder)) + made


def make(targets, modules, into, folder):
    needed = sorted({it for target in targets for it in target.modules()})
    subprocess.run([ROOT / "scripts/modules.sh", modules, *needed], check=True)

    def write(target):
        text, path = assembly(target, modules, folder).encode(), path_of(target, into)
        path.write_bytes(text if path.suffix == ".S" else lzma.compress(text, preset=9 | lzma.PRESET_EXTREME))
        print(f"{path.name}: {len(text)} bytes" + ("" if path.suffix == ".S" else f", {path.stat().st_size} compressed"), flush=True)

    each(write, targets)


# ---- comparing


def text_of(path):
    found = path.read_bytes()
    return (found if path.suffix == ".S" else lzma.decompress(found)).decode()


def is_current(target, modules, folder):
    """Whether a target's file is what would be made; says what is wrong, or how it was compared."""
    path = path_of(target, PORTABLE)
    if not path.exists():
        print(f"portable: {path.name} is missing")
        return False
    text = text_of(path)
    identity = re.search(r"(?m)^ \* Kit (.*)\. \*/$", text[:1000])
    if not identity or not text.startswith(heading(target, identity[1])):
        print(f"portable: {path.name} was made from other sources: run scripts/portable.py")
        return False
    if folder and kit_identity(folder) != identity[1]:
        print(f"portable: {path.name} was made by another kit, {identity[1]}: run scripts/portable.py")
        return False
    needed = [modules / f"{it}.ll" for it in target.modules()] if modules else []
    if not folder or not needed or not all(it.exists() for it in needed):
        print(f"portable: {path.name} has the checksum of these sources")
        return True
    is_same = assembly(target, modules, folder) == text
    print(f"portable: {path.name} " + ("was made again, with equal bytes" if is_same else "is not what is made now: run scripts/portable.py"))
    return is_same


def main():
    words = argparse.ArgumentParser(description=__doc__, formatter_class=argparse.RawDescriptionHelpFormatter)
    words.add_argument("--check", action="store_true")
    words.add_argument("--modules", type=Path)
    words.add_argument("--into", type=Path, default=PORTABLE)
    words.add_argument("targets", nargs="*", metavar="TARGET")
    given = words.parse_args()
    folder = kit()
    targets = [it for it in TARGETS if not given.targets or f"{it.crate}-{it.name}" in given.targets]
    if not targets:
        sys.exit("portable.py: the targets are " + ", ".join(f"{it.crate}-{it.name}" for it in TARGETS))
    if given.check:
        return 0 if all(each(lambda it: is_current(it, given.modules, folder), targets)) else 1
    if not folder:
        sys.exit("portable.py: the kit's rt is not on the path")
    with tempfile.TemporaryDirectory() as scratch:
        make(targets, (given.modules or Path(scratch)).resolve(), given.into, folder)
    return 0


if __name__ == "__main__":
    sys.exit(main())
