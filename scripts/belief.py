#!/usr/bin/env python3
"""Counts which definitions must be believed to believe the public contracts, and what crates use of each other's internals.

A definition in `crates/*/specs/` must be believed if a public contract or a public law reaches it, directly or through
other definitions. What only private functions cite belongs in `specs/inner/`, and what nothing reaches belongs nowhere.
The readers of engines and theory are other crates here, so `specs/` of those holds what other crates cite too. The script
computes the closure from the clauses in `src/` and the definitions in `specs/`. For each crate it also counts the names
that it takes from `specs/inner/` and the lemmas that it takes from `proofs/` of other crates, also through a name for the
module. Lemmas of theory crates are made to be taken, and do not count.

    scripts/belief.py           prints what must be believed, by file and in lines, and the names and lemmas taken
    scripts/belief.py --check   prints the totals, and fails if a definition is in the wrong folder or if docs/READING.md or
                                docs/ARCHITECTURE.md disagrees
    scripts/belief.py --write   writes the counts into docs/READING.md, which are the ceilings of what may be taken, and
                                prints which of them rose
    scripts/belief.py --why X   prints how a public contract reaches the definition X
    scripts/belief.py --taken X prints the names and lemmas that the crate X takes

A counted line is a line of a definition or of its comments; blank lines and imports do not count.
"""

import re
import sys
from collections import deque

import reading
from sources import CRATES, IMPORT, NAME, OF_MODELS, ROOT, Exports, Module, Source, ghost_uses, parse_spec

# The calls of the headline, each with a crate that exports it.
HEADLINE = [("cbor_reader", "canonicalise"), ("cbor_reader", "read_strict")]
# Engines that only our crates use: what they export is public only if another crate re-exports it.
MACHINERY = {"cbor_machine", "cbor_memory", "cbor_parser", "cbor_strict", "cbor_tree_reader"}
# Crates of specs, proofs and laws, whose lemmas are meant for other crates; and those of their files that have code.
THEORY = {"theory_values", "theory_automaton", "theory_verdicts"}
THEORY_CODE = {("theory_values", it) for it in ("key_kind", "key_order", "prefix_number")}
# Files of proofs that are theory in a crate with code: what the state of a machine means.
THEORY_PROOFS = {
    f"Rattle.cbor_machine.proofs.{it}"
    for it in ("Buffers", "Feeding", "Form", "MachineStates", "NextEvents", "NextRefusals", "Positions", "Reported")
}
# Where docs/ARCHITECTURE.md lists these: the groups of its map.
GROUPS = {"Users call first", "Engines", "Theory", "Examples and tests"}


class Tree:
    """All definitions and functions, and what resolves a word of the one or the other."""

    def __init__(self):
        self.modules, self.sources = {}, []
        self.crates = sorted(it.name for it in CRATES.iterdir() if (it / "src").is_dir())
        for crate in self.crates:
            for path in sorted((CRATES / crate / "specs").rglob("*.antt")):
                module = parse_spec(path, crate)
                self.modules[module.name] = module
            for path in sorted((CRATES / crate / "src").rglob("*.rt")):
                if not any("test" in part for part in path.relative_to(CRATES).with_suffix("").parts):
                    self.sources.append(Source(path, crate))
        self.functions = [it for source in self.sources for it in source.functions]
        self.exports = Exports(self.sources)
        self.programs = {it for it in self.crates if (CRATES / it / "src" / "main.rt").exists()}
        users = set(self.crates) - MACHINERY
        self.handed_out = {it for crate in users for it in self.exports.of_crate(crate).values()}

    def is_public(self, function):
        """Whether users see the function's contract. Of a program, `main` and what its public modules export count."""
        if function.crate in self.programs and not function.module:
            return True
        owner = function.owner
        if owner is None:
            return function.is_pub and (function.crate, function.module, function.name) in self.handed_out
        if (function.crate, owner.name) not in {(crate, name) for crate, _, name in self.handed_out}:
            return False
        if owner.of_trait:
            # a method of a trait is public if the trait is; a trait that no crate of ours declares is std's
            is_ours = any(f"trait {owner.of_trait}" in it.text for it in self.sources)
            is_seen = not is_ours or owner.of_trait in {name for _, _, name in self.handed_out}
            return is_seen and function.name not in OF_MODELS
        return function.is_pub or owner.is_trait

    def definitions(self):
        return [d for m in self.modules.values() for d in m.definitions.values()]

    def origin(self, path, name):
        """The module and name of what a module re-exports under a name."""
        module = self.modules.get(path)
        while module is not None and name in module.handed_on:
            path, name = module.handed_on[name]
            module = self.modules.get(path)
        return path, name

    def resolve(self, scope, token):
        """The definition that a token names in a file, if it is one of specs/."""
        for part in (token, token.split(".", 1)[0]):
            if part in scope.names:
                found = self.find(*scope.names[part])
                if found:
                    return found
            if part in scope.definitions:
                return scope.definitions[part]
            if f"◌{part}◌" in scope.definitions:
                return scope.definitions[f"◌{part}◌"]
            if part in scope.owners:
                return scope.definitions[scope.owners[part]]
        base, _, rest = token.partition(".")
        if base in scope.modules and rest:
            return self.find(scope.modules[base], rest.split(".")[0])
        return None

    def find(self, path, name):
        path, name = self.origin(path, name)
        module = self.modules.get(path)
        if module is None:
            return None
        if name in module.definitions:
            return module.definitions[name]
        if name in module.owners:
            return module.definitions[module.owners[name]]
        return None

    def named(self, scope, text):
        found = (self.resolve(scope, token.strip(".")) for token in NAME.findall(text))
        return [it for it in found if it is not None]

    def text(self, definition, opened):
        """A definition's text. A field `inner`, of an inner type or of an engine's, is left out unless it is opened: calls
        pass it on, and no reader opens it."""
        if opened:
            return "\n".join(definition.lines)
        kept, skipping = [], None
        for line in definition.lines:
            indent = len(line) - len(line.lstrip())
            if skipping is not None and indent > skipping:
                continue
            skipping = indent if self.is_inner_field(definition, line) else None
            if skipping is None:
                kept.append(line)
        return "\n".join(kept)

    def is_inner_field(self, definition, line):
        if not line.strip().startswith("pub inner :"):
            return False
        kind = self.named(self.modules[definition.module], line.partition(":")[2].split()[0])
        return bool(kind) and (kind[0].inner() or kind[0].module.split(".")[1] in MACHINERY)

    def closure(self, functions, opened=False, proved=()):
        """Each definition that the contracts reach, with what it was reached from; fields `inner` opened or not. If names
        used by proofs are given, also what those reach."""
        named = [it for it in self.definitions() if it.key in proved]
        came, queue = {it.key: "proofs" for it in named}, deque(named)
        for function in functions:
            for clause in function.clauses:
                for definition in self.named(function.scope, clause):
                    if definition.key not in came:
                        owner = f"{function.owner.name}::" if function.owner else ""
                        came[definition.key] = f"{function.crate}::{owner}{function.name}"
                        queue.append(definition)
        while queue:
            definition = queue.popleft()
            for other in self.named(self.modules[definition.module], self.text(definition, opened)):
                if other.key not in came:
                    came[other.key] = definition.key
                    queue.append(other)
        return came

    def headline(self):
        """The functions of the headline, and a message for each that no crate exports."""
        found, lacking = [], []
        for crate, call in HEADLINE:
            item = self.exports.of_crate(crate).get(call)
            of_call = [it for it in self.functions if it.owner is None and (it.crate, it.module, it.name) == item]
            found += of_call
            lacking += [] if of_call else [f"{crate} does not export {call}, a call of the headline"]
        return found, lacking


# ---- what a crate takes of other crates' insides


def lemmas_of(path):
    """The names that a file of proofs/ declares."""
    return set(re.findall(r"(?m)^\s*(?:(?:pub|abbrev|unfoldable|opaque|data|record)\s+)*([^\s:(){},]+)\s[^\n]*:", path.read_text()))


class Takings:
    """The names that crates take from `specs/inner/` and from `proofs/` of other crates."""

    def __init__(self, tree):
        self.tree, self.declared, self.files = tree, {}, {}
        for crate in tree.crates:
            for folder in ("specs", "proofs"):
                for path in (CRATES / crate / folder).rglob("*.antt"):
                    parts = path.relative_to(CRATES / crate).with_suffix("").parts
                    self.files[".".join(("Rattle", crate) + parts)] = path

    def declares(self, module, name):
        if module not in self.declared:
            known = self.tree.modules.get(module)
            self.declared[module] = {*known.definitions, *known.owners} if known else lemmas_of(self.files[module])
        return name in self.declared[module]

    def of_crate(self, crate):
        """The inner names and the lemmas of other crates that its src, specs and proofs take, and of which crates."""
        names = set()
        for path in sorted((CRATES / crate).glob("src/**/*.rt")):
            text = re.sub(r"(?m)^\s*//.*$", "", path.read_text())
            names |= self.of_file(crate, ghost_uses(text), text)
        for folder in ("specs", "proofs"):
            for path in (CRATES / crate / folder).rglob("*.antt"):
                text = re.sub(r"(?m)^\s*--.*$", "", path.read_text())
                found = (IMPORT.match(it.strip()) for it in text.splitlines())
                names |= self.of_file(crate, [it for it in found if it], text)
        inner = {it for it in names if ".specs.inner." in it[0]}
        return inner, {it for it in names if it[0].split(".")[2] == "proofs"}

    def of_file(self, crate, imports, text):
        scope = Module("file")
        for it in imports:
            scope.take(it)
        found = {it for it in scope.names.values() if ".".join(it) not in self.files}
        aliases = {it: path for it, path in scope.modules.items() if path in self.files}
        for token in NAME.findall(text) if aliases else []:
            parts = token.strip(".").split(".")
            if len(parts) > 1 and parts[0] in aliases:
                module = aliases[parts[0]]
                while len(parts) > 2 and f"{module}.{parts[1]}" in self.files:
                    module, parts = f"{module}.{parts[1]}", parts[1:]
                if self.declares(module, parts[1]):
                    found.add((module, parts[1]))
        found = {self.tree.origin(*it) for it in found}
        # a crate of tests belongs to the crate that it tests
        others = set(self.tree.crates) - {crate, crate.removesuffix("_tests")} - THEORY
        return {it for it in found if it[0].split(".")[1] in others and it[0] not in THEORY_PROOFS}


# ---- faults


def faults_of_places(tree, public, private, proved):
    """Definitions in the wrong folder, or that nothing reaches."""
    for definition in tree.definitions():
        is_users = definition.module.split(".")[1] not in MACHINERY | THEORY
        if definition.key not in private and definition.key not in proved:
            yield f"{definition.at()}: nothing reaches it; remove it"
        elif definition.inner() and definition.key in public:
            yield f"{definition.at()}: a public contract reaches it ({public[definition.key]}); move it out of specs/inner/"
        elif is_users and not definition.inner() and definition.key not in public:
            reached = "private functions" if definition.key in private else "proofs"
            yield f"{definition.at()}: only {reached} reach it; move it to specs/inner/"
        for line in definition.lines:
            if line.strip().startswith("pub inner :") and not tree.is_inner_field(definition, line):
                yield f"{definition.at()}: the type of its field inner is neither in specs/inner/ nor an engine's"


def map_of_crates():
    """The crates of the map in docs/ARCHITECTURE.md, with the groups that they are in; and messages for other groups."""
    found, messages, group = {}, [], None
    text = (ROOT / "docs" / "ARCHITECTURE.md").read_text().partition("\n## The map\n")[2].partition("\n## ")[0]
    for row in text.splitlines():
        heading = re.match(r"\| \*\*([^:*]+)(?::[^*]*)?\*\* \|", row)
        if heading:
            group = heading[1]
            messages += [] if group in GROUPS else [f"the map in docs/ARCHITECTURE.md has a group {group}"]
        elif row.startswith("| `"):
            found.update({crate: group for crate in re.findall(r"`(\w+)`", row.split("|")[1])})
    return found, messages


def faults_of_map(tree):
    """Where the map in docs/ARCHITECTURE.md disagrees with crates.txt or with the lists here."""
    lines = [it.partition("#")[0].partition(":") for it in (ROOT / "crates.txt").read_text().splitlines()]
    listed = {crate.split()[0] for crate, colon, _ in lines if colon}
    found, messages = map_of_crates()
    yield from messages
    for crate in sorted(listed - found.keys()):
        yield f"the map in docs/ARCHITECTURE.md does not have {crate}, which crates.txt lists"
    for crate in sorted(found.keys() - listed):
        yield f"the map in docs/ARCHITECTURE.md has {crate}, which crates.txt does not list"
    for crate in sorted(MACHINERY & set(tree.crates)):
        if found.get(crate) != "Engines":
            yield f"the map in docs/ARCHITECTURE.md does not have {crate} among the engines, and scripts/belief.py does"
    for crate in sorted({it for it, group in found.items() if group == "Theory"} ^ (THEORY & set(tree.crates))):
        yield f"{crate}: the map in docs/ARCHITECTURE.md and scripts/belief.py disagree whether it is theory"
    for function in tree.functions:
        is_law = any(part.endswith("laws") for part in function.module)
        if function.crate in THEORY and not is_law and (function.crate, *function.module[:1]) not in THEORY_CODE:
            yield f"{function.crate} is theory, and {'/'.join(function.module)} has the function {function.name}"


def main():
    tree = Tree()
    word = sys.argv[1] if len(sys.argv) > 1 else ""
    takings = Takings(tree)
    if word == "--taken":
        for names in takings.of_crate(sys.argv[2]):
            print("\n".join(sorted(f"{module}.{name}" for module, name in names)), end="\n\n")
        return 0
    public = tree.closure([it for it in tree.functions if tree.is_public(it)])
    private = tree.closure(tree.functions, opened=True)
    calls, faults = tree.headline()
    headline = tree.closure(calls)
    if word == "--why":
        for definition in [it for it in tree.definitions() if it.name == sys.argv[2]]:
            came = next((it for it in (public, private) if definition.key in it), {})
            key, way = definition.key, []
            while isinstance(key, tuple):
                way.append(".".join(key))
                key = came.get(key, "nothing")
            print(" <- ".join([*way, key]))
        return 0
    in_proofs = {it for module, file in takings.files.items() if ".proofs." in module for it in imported(tree, file)}
    faults += [*faults_of_places(tree, public, private, tree.closure([], True, in_proofs)), *faults_of_map(tree)]
    counts = reading.Counts(tree.definitions(), headline, public, {it: takings.of_crate(it) for it in tree.crates}, THEORY)
    if word == "--write":
        counts.write()
        counts.print_totals()
        return 0
    if word != "--check":
        counts.print_files()
    counts.print_totals()
    faults += counts.faults()
    for fault in faults:
        print(f"belief: {fault}")
    return 1 if word == "--check" and faults else 0


def imported(tree, path):
    """What a file of proofs/ imports by name, or names through a module."""
    scope = Module("file")
    text = path.read_text()
    for match in (IMPORT.match(it.strip()) for it in text.splitlines()):
        if match:
            scope.take(match)
    found = {tree.origin(*it) for it in scope.names.values()}
    return found | {it.key for it in tree.named(scope, text)}


if __name__ == "__main__":
    sys.exit(main())
