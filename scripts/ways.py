#!/usr/bin/env python3
"""Writes the table of docs/ARCHITECTURE.md that says which files each call goes through, from the sources.

    scripts/ways.py            writes it, between its two marks
    scripts/ways.py --check    fails if the table there differs

Calls of functions are followed by the names that a file imports. A call of a method is followed if exactly one type in
scope has a method of that name; so a method that several types have is not followed. A method of a trait in scope is
followed into those of its impls in the crate whose types the files so far name.
"""

import re
import sys

import proved
from proved import CRATES, ROOT, after_partner, crates
from written import write_or_compare

# An item, also of a trait that only its crate sees; of an export without "C", since strings are left out.
ITEM = re.compile(proved.ITEM.pattern.replace("pub trait", r"pub(?:\(\w+\))? trait").replace(r"\"C\"", ""), re.M)

# The calls of the table. Their crates are not named here, since calls move between crates.
CALLS = [
    "canonicalise", "check_valid", "check_canonical", "canonical_prefix", "same_meaning", "read_tree", "read_view", "read_strict", "Sequence::next",
    "StrictReader::next", "Parser::parse_item", "item_at", "find", "fill_table", "Machine::step", "EventReader::next", "Tree::of", "encode",
    "CanonBuilder::end", "TreeBuilder::end", "diagnostic", "diagnostic_view", "TextBuffer::diagnostic_prefix", "listing", "explain", "read_item", "write_items", "perform", "run",
]

# Every call uses heads, limits and reasons, so their crate is left out.
EVERYWHERE = "cbor_head"

BEGIN, END = "<!-- written by scripts/ways.py -->", "<!-- end -->"


class File:
    """A source file: its functions and types, and what its names mean."""

    def __init__(self, crate, path):
        self.crate, self.path = crate, path
        self.parts = path.relative_to(CRATES / crate / "src").with_suffix("").parts
        self.text = path.read_text(encoding="utf-8")
        self.plain = re.sub(r"//[^\n]*|\"(?:[^\"\\]|\\[\s\S])*\"", "", self.text)
        self.types = set(re.findall(r"(?m)^(?:pub(?:\(crate\))? )?(?:struct|enum|trait) (\w+)", self.plain))
        self.bodies, self.brings, self.bare, self.impls, self.wanted = {}, {}, set(), set(), {}
        # What is between the name of a function and its body.
        self.heads = {}
        self.read_functions()
        for used in re.findall(r"(?m)^(?:pub(?:\(\w+\))? )?use ([^;]+);", self.plain):
            self.bring(re.sub(r"\s+", " ", used))

    def bring(self, used):
        head, _, inner = used.partition("{")
        for item in inner.rstrip("} ").split(",") if inner else [used.rpartition("::")[2]]:
            item = item.strip()
            name, _, alias = item.partition(" as ")
            if name:
                self.brings[alias or name.rpartition("::")[2]] = (head if inner else used.rpartition("::")[0] + "::") + name

    def read_functions(self):
        place, owner, end, arguments = 0, None, -1, set()
        while True:
            match = ITEM.search(self.plain, place)
            if not match:
                return
            place = match.end()
            if match.start() >= end:
                owner = None
            if match["impl"] or match["trait"]:
                end = after_partner(self.plain, match.end() - 1)
                of = re.sub(r"^(unsafe )?impl\s*(<[^{]*?>)?\s*", "", (match["impl"] or "").replace("\n", " "))
                trait, _, of = of.rpartition(" for ")
                owner = match["trait"] or re.match(r"&?(?:mut )?(\w+)", of)[1]
                arguments = set(re.findall(r"\w+", of)) - {owner}
                trait = re.search(r"(\w+)\s*(?:<[^<>]*>)?\s*$", trait)
                if trait:
                    self.impls.add((trait[1], owner))
                continue
            start = self.body_from(match.end())
            if start is not None:
                place = after_partner(self.plain, start)
                # of several functions of one name, the first counts
                self.bodies.setdefault((owner, match["name"]), self.plain[start:place])
                self.heads.setdefault((owner, match["name"]), self.plain[match.end():start])
                self.wanted.setdefault((owner, match["name"]), arguments if owner else set())
            else:
                self.bare.add((owner, match["name"]))

    def body_from(self, place):
        """The offset of the body of a function whose signature continues here, after its clauses."""
        # an array type has a semicolon of its own
        clause = re.compile(r"\b(?:requires|ensures)\b\*?\s*\w*\s*\{|\bghost\b[^;{]*[;{]|\[[^\[\]{};]*;|\{|;")
        while True:
            match = clause.search(self.plain, place)
            if not match or match[0] == ";":
                return None
            if match[0] == "{":
                return match.end() - 1
            place = match.end() if match[0].endswith(";") else after_partner(self.plain, match.end() - 1)


class Sources:
    def __init__(self):
        self.files = {}
        for crate in crates():
            for path in sorted((CRATES / crate / "src").rglob("*.rt")):
                file = File(crate, path)
                if not any("test" in part for part in file.parts):
                    self.files[crate, file.parts] = file

    def named(self, file, name):
        """The file that declares a name, or none."""
        if name in file.types or (None, name) in file.bodies:
            return file
        return self.at(file, file.brings[name]) if name in file.brings else None

    def at(self, file, path):
        """The file of a path."""
        words = [word for word in path.replace(" ", "").split("::") if word]
        if (file.crate, (words[0],)) in self.files:
            words.insert(0, "crate")
        crate = file.crate if words[0] in ("crate", "super", "self") else words[0]
        if crate not in {key[0] for key in self.files}:
            return None
        name, modules = words[-1], tuple(words[1:-1])
        if words[0] == "super":
            modules = file.parts[:-2] + modules
        found = self.files.get((crate, modules)) or self.files.get((crate, ("lib",)))
        return self.named(found, name) if found and found is not file else None

    def having(self, file, owner, name):
        """The file that has a method of a type, among the type's file, its modules and what imports the type, or none."""
        ours = [it for it in self.files.values() if it.crate == file.crate]
        inside = [it for it in ours if it.parts[:len(file.parts)] == file.parts]
        nearby = [it for it in ours if owner in it.brings and self.named(it, owner) is file]
        return next((it for it in [file, *inside, *nearby] if (owner, name) in it.bodies), None)

    def way(self, file, owner, name):
        """The files of its crate, in the order in which a function and what it calls reach them; and what these use of other
        crates."""
        crate, order, others, seen, types, waiting = file.crate, [], [], set(), set(), [(file, owner, name)]
        while waiting:
            file, owner, name = waiting.pop()
            if (file.path, owner, name) in seen:
                continue
            seen.add((file.path, owner, name))
            if file.crate != crate:
                other = (file.crate, owner or name)
                others += [other] if other not in others and file.crate != EVERYWHERE else []
                continue
            if file not in order:
                order.append(file)
                types |= {*file.brings, *file.types}
            waiting += reversed(self.called(file, owner, file.bodies[owner, name], types))
        return order, others

    def is_for(self, file, owner, name, types):
        """Whether a method is for these types. If only an instance of its type has it, the instance's arguments are among them."""
        return all(word in types for word in file.wanted[owner, name] if self.named(file, word))

    def implementing(self, crate, trait, name, types):
        """The methods of a name in the crate's impls of a trait for these types."""
        files = [it for it in self.files.values() if it.crate == crate]
        return [(it, owner, name) for it in files for of, owner in sorted(it.impls) if of == trait and owner in types and (owner, name) in it.bodies]

    def called(self, file, owner, body, types):
        in_sight = {word: self.named(file, word) for word in {*file.brings, *file.types}}
        found = []
        for dot, path, name in re.findall(r"(\.)?((?:\w+::)*)(\w+)(?:::<[^>]*>)?\(", body):
            if dot:
                on_self = re.search(rf"\bself\.{name}\(", body) and self.having(in_sight.get(owner) or file, owner, name)
                others = [(self.having(of, word, name), word) for word, of in in_sight.items() if of and word != owner]
                holders = [(on_self, owner)] if on_self else [(of, word) for of, word in others if of and self.is_for(of, word, name, types)]
                if len(holders) == 1:
                    found.append((holders[0][0], holders[0][1], name))
                elif not holders:
                    traits = [word for word, of in in_sight.items() if of and of.crate == file.crate and (word, name) in of.bare]
                    found += [it for trait in traits for it in self.implementing(file.crate, trait, name, types)]
                continue
            if path:
                word = path.split("::")[-2]
                word = owner if word == "Self" else word
                of = self.named(file, word) if word else None
                if of and (word, name) in of.bodies:
                    found.append((of, word, name))
                continue
            of = self.named(file, name)
            if of and (None, name) in of.bodies:
                found.append((of, None, name))
        return found

    def start(self, call):
        owner, _, name = call.rpartition("::")
        for file in self.files.values():
            if (owner or None, name) in file.bodies and re.search(rf"pub fn {name}\b", file.plain):
                return file, owner or None, name
        return None


def shown(order, others):
    """A row: the files of the crate, and what is used of each other crate."""
    by_crate = {}
    for crate, name in others:
        by_crate.setdefault(crate, []).append(f"`{name}`")
    files = ", ".join("/".join(file.parts) for file in order)
    return f"`{order[0].crate}`: {files} | {'; '.join(f'{crate}: ' + ', '.join(names) for crate, names in by_crate.items())}"


def main():
    sources = Sources()
    lines = [BEGIN, "", "| Call | Files, in the order of calls | Other crates |", "|---|---|---|"]
    for call in CALLS:
        start = sources.start(call)
        if start:
            lines.append(f"| `{call}` | {shown(*sources.way(*start))} |")
    path = ROOT / "docs" / "ARCHITECTURE.md"
    text = path.read_text(encoding="utf-8")
    before, _, rest = text.partition(BEGIN)
    _, _, after = rest.partition(END)
    made = before + "\n".join(lines) + "\n\n" + END + after
    return write_or_compare({path: made})


if __name__ == "__main__":
    sys.exit(main())
