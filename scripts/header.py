#!/usr/bin/env python3
"""Compares include/naltvigo.h with crates/naltvigo: the constants, structs and exports' signatures. Compares with the header what
the bindings repeat: numbers, and in Rust's raw.rs the structs and signatures, with the parameters' names.

    scripts/header.py [ROOT]    prints what differs, and fails if something does
"""

import re
import sys
from pathlib import Path

ROOT = Path(sys.argv[1] if len(sys.argv) > 1 else Path(__file__).resolve().parent.parent)
CRATE = ROOT / "crates" / "naltvigo" / "src"

# A parameter's type in Rattle, and in C.
TYPES = {
    "Global": [],
    "u32": ["uint32_t"],
    "u64": ["uint64_t"],
    "usize": ["size_t"],
    "i64": ["int64_t"],
    "&[u8]": ["const uint8_t *", "size_t"],
    "&mut [u8]": ["uint8_t *", "size_t"],
    "&mut u32": ["uint32_t *"],
    "&mut usize": ["size_t *"],
    "&mut u64": ["uint64_t *"],
    "&mut i64": ["int64_t *"],
    "&mut NaltvigoRefusal": ["struct naltvigo_refusal *"],
    "&mut [NaltvigoEvent]": ["struct naltvigo_event *", "size_t"],
    "&mut SavedMachine": ["struct naltvigo_machine *"],
    "&mut Checker": ["struct naltvigo_checker *"],
    "*mut u8": ["void *"],
    "&PlacedItem": ["const struct naltvigo_item *"],
    "&mut PlacedItem": ["struct naltvigo_item *"],
    "&mut [PlacedItem]": ["struct naltvigo_item *", "size_t"],
    "u8": ["uint8_t"],
    "u16": ["uint16_t"],
    "[u64; MOST_OPEN]": ["uint64_t[NALTVIGO_DEPTH_MAX]"],
    "[u8; MOST_OPEN]": ["uint8_t[NALTVIGO_DEPTH_MAX]"],
}

# The fields of SavedMachine that have another name in C.
FIELDS = {"place": "offset", "taken": "consumed", "lefts": "remaining"}

# A struct of the crates, and its name in C.
STRUCTS = {
    "naltvigo_refusal": (CRATE / "status.rt", "NaltvigoRefusal"),
    "naltvigo_event": (CRATE / "streaming.rt", "NaltvigoEvent"),
    "naltvigo_item": (ROOT / "crates" / "cbor_cursor" / "src" / "placed.rt", "PlacedItem"),
    "naltvigo_machine": (ROOT / "crates" / "cbor_machine" / "src" / "machine" / "saved.rt", "SavedMachine"),
    "naltvigo_checker": (ROOT / "crates" / "cbor_checker" / "src" / "checker.rt", "Checker"),
}


def snake(name):
    return re.sub(r"(?<!^)(?=[A-Z])", "_", name).upper()


def constants_of_crate():
    found = {}
    for path in CRATE.glob("*.rt"):
        found |= {n: int(v) for n, v in re.findall(r"(?m)^pub const (\w+): u32 = (\d+);", path.read_text())}
    found["VERSION_NUMBER"] = int(re.search(r"pub const VERSION: u32 = (0x[0-9a-f_]+);", (CRATE / "naming.rt").read_text())[1], 16)
    reasons = (ROOT / "crates" / "cbor_head" / "src" / "reason.rt").read_text()
    found |= {snake(n): int(v) for n, v in re.findall(r"(?m)^    (\w+) = (\d+),", reasons)}
    settings = (CRATE / "settings.rt").read_text()
    found |= {snake(n): int(v) for v, n in re.findall(r"(\d+) => Some\(KeyOrder::(\w+)\)", settings)}
    kinds = re.findall(r"(\d+) => Some\(Keys::(\w+)\)", settings)
    found |= {"ANY_KEYS" if n == "Any" else snake(n): int(v) for v, n in kinds}
    limits = (ROOT / "crates" / "cbor_head" / "src" / "limits.rt").read_text()
    found["DEPTH_MAX"] = int(re.search(r"MAX_DEPTH: u16 = (\d+);", limits)[1])
    found["BYTES_MAX"] = 1 << int(re.search(r"bytes <= 1 << (\d+)", limits)[1])
    names = (ROOT / "crates" / "cbor_head" / "specs" / "Printed.antt").read_text()
    # with a zero byte at the end
    found["NAME_MAX"] = 1 + max(len(name) for name in re.findall(r'^reason_name \w+ = codes "(\w+)"', names, re.M))
    return found


def constants_of_header(text):
    found = {n: int(v) for n, v in re.findall(r"NALTVIGO_(\w+) = (\d+)\b", text)}
    found["DEPTH_MAX"] = int(re.search(r"#define NALTVIGO_DEPTH_MAX UINT32_C\((\d+)\)", text)[1])
    found["BYTES_MAX"] = 1 << int(re.search(r"#define NALTVIGO_BYTES_MAX \(UINT64_C\(1\) << (\d+)\)", text)[1])
    found["NAME_MAX"] = int(re.search(r"#define NALTVIGO_NAME_MAX (\d+)", text)[1])
    parts = [int(re.search(rf"#define NALTVIGO_VERSION_{part} (\d+)", text)[1]) for part in ("MAJOR", "MINOR", "PATCH")]
    found["VERSION_NUMBER"] = parts[0] << 16 | parts[1] << 8 | parts[2]
    return found


def exports_of_crate():
    found = {}
    for path in CRATE.glob("*.rt"):
        for name, given, result in re.findall(r'pub extern "C" fn (\w+)\(([^)]*)\) -> (\w+)', path.read_text()):
            kinds = [it.split(":")[1].strip() for it in given.split(",") if it.strip()]
            found[name] = TYPES[result] + [c for kind in kinds for c in TYPES[kind]]
    return found


def exports_of_header(text):
    found = {}
    for result, name, given in re.findall(r"(?m)^(\w+) (naltvigo_\w+)\(([^)]*)\);", text):
        kinds = [re.sub(r"\w+$", "", " ".join(it.split())).strip() for it in given.split(",") if it != "void"]
        found[name] = [result] + kinds
    return found


def struct_of_crate(name):
    path, of_crate = STRUCTS[name]
    body = re.search(r"pub struct %s \{(.*?)\n\}" % of_crate, path.read_text(), re.S)[1]
    fields = re.findall(r"(?m)^    (?:pub )?(\w+): ([^,{}]+),$", body)
    return [(FIELDS.get(field, field), kind_in_c) for field, kind in fields for kind_in_c in TYPES[kind][:1]]


def struct_of_header(name, text):
    body = re.search(r"struct %s \{(.*?)\};" % name, text, re.S)[1]
    found = re.findall(r"([\w ]+? \*?)(\w+)(\[\w+\])?;", body)
    return [(field, kind.strip() + (size or "")) for kind, field, size in found]


def numbers_of_bindings():
    """What the bindings repeat of the header, by file."""
    files = {
        "bindings/rust/src/raw.rs": r"^pub const (\w+): \w+ = (\d+);$",
        "bindings/js/src/numbers.js": r"^export const (\w+) = (\d+);$",
    }
    for file, pattern in files.items():
        path = ROOT / file
        if path.exists():
            text = path.read_text(encoding="utf-8")
            yield from ((file, name, int(value)) for name, value in re.findall(f"(?m){pattern}", text))


# A type of raw.rs, and its name in C.
RUST_TYPES = {
    "u8": "uint8_t",
    "u16": "uint16_t",
    "u32": "uint32_t",
    "u64": "uint64_t",
    "usize": "size_t",
    "*const u8": "const uint8_t *",
    "*mut u8": "uint8_t *",
    "*mut u32": "uint32_t *",
    "*mut u64": "uint64_t *",
    "*mut usize": "size_t *",
    "[u64; DEPTH_MAX]": "uint64_t[NALTVIGO_DEPTH_MAX]",
    "[u8; DEPTH_MAX]": "uint8_t[NALTVIGO_DEPTH_MAX]",
    "*mut c_void": "void *",
    **{f"*mut {name.title()}": f"struct naltvigo_{name} *" for name in ("refusal", "event", "item", "machine", "checker")},
}

# A parameter whose name is a keyword of Rust.
RUST_NAMES = {"input": "in", "input_length": "in_length"}


def parameters_of_header(text):
    """Each export's result and parameters, with their names."""
    for result, name, given in re.findall(r"(?m)^(\w+) (naltvigo_\w+)\(([^)]*)\);", text):
        words = [" ".join(it.split()) for it in given.split(",") if it != "void"]
        yield name, [result, *(re.sub(r"\b(\w+)$", r": \1", it).replace(" : ", ": ") for it in words)]


def in_c(fields):
    """The fields or parameters of raw.rs, as in C: type and name."""
    for name, kind in re.findall(r"(\w+): ([^,;\n]+(?:; \w+\])?),?", fields):
        yield RUST_TYPES[kind], RUST_NAMES.get(name, name)


def differences_in_rust(rust, text):
    header = dict(parameters_of_header(text))
    exports = re.findall(r"pub fn (naltvigo_\w+)\(([^)]*)\) -> (\w+);", rust)
    for name, given, result in exports:
        found = [RUST_TYPES[result], *(f"{kind}: {it}" for kind, it in in_c(given))]
        if found != header.get(name):
            yield f"raw.rs has {name} {found}, the header {header.get(name)}"
    for name in STRUCTS:
        fields = re.search(r"#\[repr\(C\)\]\n[^{}]*pub struct %s \{(.*?)\n\}" % name.removeprefix("naltvigo_").title(), rust, re.S)
        if not fields and f"*mut {name.removeprefix('naltvigo_').title()}" not in rust:
            continue  # no export there uses it
        found = [(it, kind) for kind, it in in_c(fields[1])] if fields else None
        if found != struct_of_header(name, text):
            yield f"raw.rs has the fields {found} of {name}, the header {struct_of_header(name, text)}"
    if not exports or rust.count("fn naltvigo_") != len(exports):
        yield f"of the exports in raw.rs {len(exports)} were read"


def differences(what, crate, header):
    crate, header = dict(crate), dict(header)
    for name in sorted(crate.keys() | header.keys()):
        if crate.get(name) != header.get(name):
            yield f"{what} {name}: the crate has {crate.get(name)}, the header {header.get(name)}"


def main():
    text = re.sub(r"/\*.*?\*/", "", (ROOT / "include" / "naltvigo.h").read_text(), flags=re.S)
    found = [
        *differences("constant", constants_of_crate(), constants_of_header(text)),
        *differences("export", exports_of_crate(), exports_of_header(text)),
    ]
    for name in STRUCTS:
        found += differences(f"field of {name}", struct_of_crate(name), struct_of_header(name, text))
        if struct_of_crate(name) != struct_of_header(name, text):
            found.append(f"struct {name}: the fields or their order differ")
    for file, name, value in numbers_of_bindings():
        if name in constants_of_header(text) and constants_of_header(text)[name] != value:
            found.append(f"{file} has {value} for {name}")
    rust = ROOT / "bindings" / "rust" / "src" / "raw.rs"
    if rust.exists():
        found += differences_in_rust(rust.read_text(encoding="utf-8"), text)
    for line in found:
        print(f"naltvigo.h: {line}")
    return 1 if found else 0


if __name__ == "__main__":
    sys.exit(main())
