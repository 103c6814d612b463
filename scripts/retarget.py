#!/usr/bin/env python3
"""Retargets a module of LLVM's assembly language: scripts/retarget.py TRIPLE < MODULE > RETARGETED

MODULE is as scripts/compile_library.sh --module keeps it, for x86-64 or aarch64. Removes the data layout and the triple,
which clang takes from --target=TRIPLE then, and the attributes that name the processor or the system. Refuses, with status
1, a module in which anything else could depend on its processor: assembler, an intrinsic or a type of the processor, a
call of what is not known here, an attribute that is not. Where TRIPLE has the module's own processor, its intrinsics and
the attributes that follow from it stay.
"""

import re
import sys

# What the module may call: the memory's functions, which are added to it later, and intrinsics of every processor.
KNOWN_CALLS = (
    r"rattle_(alloc|realloc|dealloc)"
    r"|llvm\.(memset\.p0\.i64|memmove\.p0\.p0\.i64|memcpy\.p0\.p0\.i64)"
    r"|llvm\.(cttz|ctlz|ctpop)\.i(8|16|32|64)|llvm\.trap|llvm\.arithmetic\.fence\.f64"
)
OF_A_PROCESSOR = re.compile(r"(?<![.\w])(asm|x86_fp80|x86_mmx|x86_amx|fp128|ppc_fp128|va_arg|fence|atomicrmw|cmpxchg|addrspace|section|comdat|gc)(?![.\w])|\btarget\(")
# Attributes that name the processor or follow from its convention for calls, and how the stack is probed, which Windows and
# WebAssembly do otherwise. Each is dropped if it would be wrong. A module with an attribute of another name is refused.
OF_PROCESSOR = "target-cpu|target-features|frame-pointer"
OF_SYSTEM = "probe-stack|stack-probe-size"


def dropped(names, attributes):
    return re.sub(rf' "({names})"(="[^"]*")?', "", attributes)


def kept(names, attributes):
    """The same, without groups that have no attribute."""
    return dropped(names, attributes).replace("{ }", '{ "retargeted" }')


def without_strings(text):
    return re.sub(r'"[^"\n]*"', '""', text)


def processor_of(text):
    triple = re.search(r'(?m)^target triple = "(x86_64|aarch64)-', text)
    return triple and triple[1]


def faults(text, is_own, known_calls=KNOWN_CALLS):
    """What in the module depends on its processor; is_own says that it stays on it."""
    if is_own:
        known_calls += rf"|llvm\.{'x86' if processor_of(text) == 'x86_64' else 'aarch64'}\.[\w.]+"
    for found in sorted({found[0] for found in OF_A_PROCESSOR.finditer(without_strings(text))}):
        yield f"it has {found}, which may be of its processor alone"
    for attributes in re.findall(r"(?m)^attributes #.*$", text):
        if '"' in dropped(f"{OF_PROCESSOR}|{OF_SYSTEM}", attributes):
            yield f"it has {attributes}"
    for line in re.findall(r"(?m)^declare .*$", text):
        name = re.search(r"@([\w.]+)\(", line)
        if not name or not re.fullmatch(known_calls, name[1]):
            yield f"it calls what is not known here: {line}"
    layout = re.search(r'(?m)^target datalayout = "(.*)"$', text)
    if not layout or not layout[1].startswith("e-m:e-") or "p:32" in layout[1].split("-"):
        yield "its data layout is not little-endian with 64-bit pointers"
    if not processor_of(text):
        yield "it is not for x86-64 or aarch64"


def retargeted(text, triple, known_calls=KNOWN_CALLS):
    """The module for the triple, without a data layout and a triple; ends with status 1 if that is not possible."""
    is_own = triple.split("-")[0].replace("arm64", "aarch64") == processor_of(text)
    found = list(faults(text, is_own, known_calls))
    if found:
        sys.exit("\n".join(f"retarget.py: the module cannot be retargeted: {fault}" for fault in found))
    text = re.sub(r"(?m)^target (datalayout|triple) = .*\n", "", text)
    names = [it for it, is_wrong in ((OF_PROCESSOR, not is_own), (OF_SYSTEM, re.search("windows|wasm", triple))) if is_wrong]
    return re.sub(r"(?m)^attributes #.*$", lambda line: kept("|".join(names) or "none", line[0]), text)


def main():
    if len(sys.argv) != 2 or sys.argv[1].startswith("-"):
        print(__doc__.strip())
        return 0 if sys.argv[1:] in (["-h"], ["--help"]) else 2
    sys.stdout.write(retargeted(sys.stdin.read(), sys.argv[1]))
    return 0


if __name__ == "__main__":
    sys.exit(main())
