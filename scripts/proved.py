#!/usr/bin/env python3
"""Writes PROVED.md, the contract of each public call, and CALLS.md, the documentation of each.

    scripts/proved.py FOLDER    writes both to FOLDER, from crates/*/src and crates/*/specs

There are two documents because a contract is proved, and a sentence of documentation is not.
"""

import re
import sys
from itertools import takewhile
from pathlib import Path

ROOT = Path(__file__).resolve().parent.parent
CRATES = ROOT / "crates"

PROVED = """# What is proved

Written by `scripts/docs.sh` from the sources. This page has the contract of each public call, word for word.
[CONTRACTS.md](CONTRACTS.md) explains the notation. Each contract is proved for every input that meets its `requires`. It
is also proved that each call is safe and returns. For a call without a clause nothing else is proved.

After the contracts of a crate are the records of its `specs/` that contracts use. A field of a record is a clause, or a part
of a value. The table after them explains the words of `specs/` that contracts use. The explanation is the comment of the
definition. What counts is the definition itself: [READING.md](READING.md) lists the definitions in the order in which to
read them. [CALLS.md](CALLS.md) has the documentation of the calls, and [TRUST.md](TRUST.md) says what no contract states.

A call that allocates may return the reason `Memory`, one that reads `Read`, and one that writes `Write`. Unless a clause
excludes it, expect that at any time.
"""

CALLS = """# The public calls

Written by `scripts/docs.sh` from the documentation in the sources: the first paragraph of each public call. A sentence
on this page is an explanation. What is proved is the contract of the call in [PROVED.md](PROVED.md). What is only tested
is in [TRUST.md](TRUST.md).
"""

# An item of a source file that a caller may see, or that holds what one may see.
ITEM = re.compile(
    r"(?P<docs>(?:^[ \t]*///[^\n]*\n)*)(?P<marks>(?:^[ \t]*#\[[^\n]*\n)*)"
    r"^[ \t]*(?:(?P<impl>(?:unsafe )?impl\b[^;{]*)\{|pub trait (?P<trait>\w+)[^;{]*\{"
    r"|(?:pub\([^)]*\) )?(?P<public>pub )?(?:final )?(?:const )?(?:unsafe )?(?:extern \"C\" )?fn (?P<name>\w+))",
    re.M,
)
# An array type has a semicolon of its own.
CLAUSE = re.compile(r"\b(requires|ensures)\b\*?\s*(\w+)?\s*\{|\bghost\b[^;{]*[;{]|\[[^\[\]{};]*;|\{|;")
NAME = re.compile(r"[^\s(){}\[\],;.]+")
# What a file imports of the definitions of a crate.
USED = re.compile(r"ghost use Rattle\.(\w+)\.specs\.[^;]*\{([^;]*)\};")


class Call:
    """A public call: its owner and name, documentation, signature, and clauses (kind, name, text)."""

    def __init__(self, owner, name, docs, signature, clauses, imported):
        self.shown = f"{owner}::{name}" if owner else name
        self.docs, self.signature, self.clauses, self.imported = docs, signature, clauses, imported

    def contract(self):
        """The signature and the clauses, as text."""
        lines = [f"{self.shown}{self.signature}"]
        for kind, name, text in self.clauses:
            lines.append(f"    {kind} {name} {{ {text} }}" if name else f"    {kind} {{ {text} }}")
        if not self.clauses:
            lines.append("    no clause")
        return "\n".join(lines)


def after_partner(text, place):
    """The offset after the brace that matches the one at this offset."""
    depth = 0
    for place in range(place, len(text)):
        depth += {"{": 1, "}": -1}.get(text[place], 0)
        if depth == 0:
            return place + 1
    return place


def joined(text):
    return re.sub(r"\s+", " ", text).strip()


def public_of(crate):
    """The names and the public modules that lib.rt exports; of a program, None for everything."""
    library = CRATES / crate / "src" / "lib.rt"
    if not library.exists():
        return None, set()
    text = re.sub(r"(?m)^\s*//.*$", "", library.read_text(encoding="utf-8"))
    names = set()
    for used in re.findall(r"pub use (?!cbor_|cborc)([^;]+);", text):
        inner = re.search(r"\{(.*)\}", used, re.S)
        for item in (inner[1] if inner else used).split(","):
            names.add(item.split("::")[-1].split(" as ")[-1].strip())
    return names, {name for name in re.findall(r"pub mod (\w+);", text) if name != "inner"}


def record_at(lines, place):
    """The record that begins at this line, as text; nothing if the line begins another definition."""
    if not lines[place].startswith("pub record "):
        return ""
    fields = takewhile(lambda line: line.startswith("  "), lines[place + 1 :])
    return "\n".join([lines[place].removeprefix("pub "), *(line.replace("  pub ", "  ", 1) for line in fields)])


def definitions_of(crate):
    """The definitions in a crate's specs except specs/inner, in order: name to file, comment, and the text of a record."""
    found = {}
    for path in sorted((CRATES / crate / "specs").glob("*.antt")):
        comment, lines = [], path.read_text(encoding="utf-8").splitlines()[1:]
        for place, line in enumerate(lines):
            stripped = line.strip()
            if stripped.startswith("--"):
                comment.append(stripped.lstrip("- "))
                continue
            match = re.match(r"(?:abbrev |unfoldable )?pub (?:record |data )?([^\s:(){}]+)", stripped)
            if match and not line.startswith("  ") and match[1] not in ("mod", "use"):
                found[match[1]] = (path.stem, " ".join(comment), record_at(lines, place))
            comment = []
    return found


def first_sentence(text):
    match = re.match(r"(.*?[.;])(?:\s|$)", text)
    return (match[1] if match else text).rstrip(".;")


def paragraph(docs):
    """The first paragraph of doc lines, on one line, as a cell of a table."""
    lines = [line.strip()[3:].strip() for line in docs.splitlines()]
    text = " ".join(lines[: lines.index("")] if "" in lines else lines)
    return re.sub(r"\[(`[^`]*`)\](\([^)]*\))?", r"\1", text).replace("|", "\\|")


def contract_at(text, place):
    """The rest of a signature that begins here, and its clauses: kind, name and text."""
    start, end, found = place, None, []
    while True:
        match = CLAUSE.search(text, place)
        if not match:
            return joined(text[start : end if end is not None else start]), found
        if match[0].startswith("["):
            place = match.end()
            continue
        end = match.start() if end is None else end
        if not match[1]:
            if match[0].startswith("ghost"):
                place = match.end() if match[0].endswith(";") else after_partner(text, match.end() - 1)
                continue
            return joined(text[start:end]), found
        place = after_partner(text, match.end() - 1)
        found.append((match[1], match[2] or "", joined(text[match.end() : place - 1])))


def calls_of(crate):
    """The public calls of a crate."""
    names, modules = public_of(crate)
    for path in sorted((CRATES / crate / "src").rglob("*.rt")):
        parts = path.relative_to(CRATES / crate / "src").with_suffix("").parts
        if any("test" in part for part in parts):
            continue
        # A comment among the clauses may have a semicolon, which would end them.
        text = re.sub(r"(?m)^[ \t]*//(?!/).*\n", "", path.read_text(encoding="utf-8"))
        imported = {word: used[0] for used in USED.findall(text) for word in re.findall(r"\w+", used[1])}
        place, owner, end, is_trait = 0, None, -1, False
        while True:
            match = ITEM.search(text, place)
            if not match:
                break
            place = match.end()
            if match.start() >= end:
                owner, is_trait = None, False
            if match["impl"] or match["trait"]:
                end = after_partner(text, match.end() - 1)
                of = re.sub(r"^(unsafe )?impl\s*(<[^{]*?>)?\s*", "", (match["impl"] or "").replace("\n", " "))
                # The contract of a method of a trait is the trait's.
                owner = match["trait"] or (None if " for " in of else re.match(r"\w+", of)[0])
                is_trait = bool(match["trait"])
                if owner is None:
                    place = end
                continue
            if owner:
                seen = (names is None or owner in names) and (is_trait or bool(match["public"]))
            else:
                seen = bool(match["public"]) and (names is None or match["name"] in names or parts[0] in modules)
            if seen:
                yield Call(owner, match["name"], paragraph(match["docs"]), *contract_at(text, match.end()), imported)


def cited_by(call, words_of):
    """The words of specs that a call's clauses cite, with their crates."""
    cited = {word for _, _, text in call.clauses for word in NAME.findall(text)}
    return {(crate, word) for word, crate in call.imported.items() if word in cited and word in words_of.get(crate, ())}


def contracts_of(crate, words, calls, reached):
    """The section of a crate in PROVED.md."""
    lines = [f"## `{crate}`", ""]
    if calls:
        lines += ["```text", "\n\n".join(call.contract() for call in calls), "```", ""]
    cited = [(word, *words[word]) for word in words if (crate, word) in reached]
    if records := [text for _, _, _, text in cited if text]:
        lines += ["```text", "\n\n".join(records), "```", ""]
    explained = [(word, file, comment) for word, file, comment, _ in cited if comment]
    if explained:
        lines += ["| Word | In `specs/` | Meaning |", "|---|---|---|"]
        lines += [f"| `{word}` | {file} | {first_sentence(comment)} |".replace("\\", "\\\\") for word, file, comment in explained]
        lines.append("")
    return "\n".join(lines) if calls or explained else ""


def documentation_of(crate, calls):
    """The section of a crate in CALLS.md."""
    if not calls:
        return ""
    source = CRATES / crate / "src"
    root = source / "lib.rt" if (source / "lib.rt").exists() else source / "main.rt"
    about = paragraph(re.match(r"(?://![^\n]*\n)*", root.read_text(encoding="utf-8"))[0])
    rows = [f"| `{call.shown}` | {call.docs} |" for call in calls]
    return "\n".join([f"## `{crate}`", "", about, "", "| Call | Documentation |", "|---|---|", *rows, ""])


def crates():
    """The crates of crates.txt except those of tests."""
    names = re.findall(r"(?m)^(\w+)(?: staticlib)?:", (ROOT / "crates.txt").read_text())
    return [name for name in names if not name.endswith("_tests")]


def main():
    if len(sys.argv) != 2 or sys.argv[1].startswith("-"):
        print(__doc__)
        return 0 if {"-h", "--help"} & set(sys.argv[1:]) else 2
    words_of = {crate: definitions_of(crate) for crate in crates()}
    calls = {crate: list(calls_of(crate)) for crate in crates()}
    reached = {word for of in calls.values() for call in of for word in cited_by(call, words_of)}
    contracts = (contracts_of(crate, words_of[crate], calls[crate], reached) for crate in crates())
    documentation = (documentation_of(crate, calls[crate]) for crate in crates())
    folder = Path(sys.argv[1])
    folder.mkdir(parents=True, exist_ok=True)
    (folder / "PROVED.md").write_text(PROVED + "\n" + "\n".join(filter(None, contracts)), encoding="utf-8")
    (folder / "CALLS.md").write_text(CALLS + "\n" + "\n".join(filter(None, documentation)), encoding="utf-8")
    return 0


if __name__ == "__main__":
    sys.exit(main())
