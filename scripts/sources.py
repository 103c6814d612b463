"""What the sources say: the definitions of specs/, the clauses of src/, and what a crate exports.

`scripts/belief.py` computes from this what must be believed. Modules are named as `use` names them
(Rattle.cbor_head.specs.Head); those of `src/` by their crate and path.
"""

import re
from pathlib import Path

ROOT = Path(__file__).resolve().parent.parent
CRATES = ROOT / "crates"

NAME = re.compile(r"[^\s(){}\[\],;]+")
IMPORT = re.compile(r"^(pub )?use (Rattle\.[^\s.{]+(?:\.[^\s.{]+)*)(?:\.\{(.*)\}| as (\S+))?$")
HEAD = re.compile(r"^\s*(?:abbrev |unfoldable )?(?:pub )?(?:(record|data) )?([^\s:(){}]+)")
ITEM = re.compile(r"(?m)^pub (?:(?:const|unsafe|final|ghost|extern \"C\") )*(?:fn|struct|enum|union|trait|type|const|static) (\w+)")
# Ghost members that relate a type to its model, and are not a clause of a call.
OF_MODELS = ("view", "invariant", "inverse", "coded", "hlevel")


def split_names(items):
    return [item.strip() for item in items.split(",") if item.strip()]


def short(path):
    return str(path.relative_to(CRATES))


# ---- the definitions of specs/


class Definition:
    """A definition of specs/: its name, its text, and the constructors that it declares."""

    def __init__(self, module, name, path):
        self.module, self.name, self.path = module, name, path
        self.lines, self.comments = [], 0

    @property
    def key(self):
        return (self.module, self.name)

    def at(self):
        return f"{short(self.path)}: {self.name}"

    def inner(self):
        return ".specs.inner" in self.module


class Module:
    """What a file's names mean: `names` an item of a module, `modules` a module."""

    def __init__(self, name):
        self.name, self.names, self.modules, self.handed_on = name, {}, {}, {}
        self.definitions, self.owners = {}, {}

    def take(self, match):
        is_public, path, items, alias = match.groups()
        if items is None:
            self.modules[alias or path.rsplit(".", 1)[1]] = path
            return
        for item in split_names(items):
            # an item may be named by its path from the module in front of the braces
            way, _, there = item.partition(" as ")
            below, _, here = way.rpartition(".")
            module = f"{path}.{below}" if below else path
            self.names[there or here] = (module, here)
            # a module may be imported as an item is
            self.modules[there or here] = f"{module}.{here}"
            if is_public:
                self.handed_on[there or here] = (module, here)


def parse_spec(path, crate):
    parts = path.relative_to(CRATES / crate / "specs").with_suffix("").parts
    module = Module(".".join(("Rattle", crate, "specs") + parts))
    current, waiting = None, 0
    for line in path.read_text().splitlines()[1:]:
        stripped = line.strip()
        if stripped.startswith("--"):
            waiting += 1
        if not stripped or stripped.startswith("--") or stripped.startswith("pub mod "):
            continue
        match = IMPORT.match(stripped)
        if match and not line.startswith("  "):
            module.take(match)
            continue
        if stripped in ("mutual", "abbrev mutual", "unfoldable mutual"):
            continue
        started = starts(line, stripped, current)
        if started:
            kind, name = started
            current = Definition(module.name, name, path)
            current.kind, current.indent = kind, len(line) - len(line.lstrip())
            module.definitions[name] = current
        elif current is not None and current.kind == "data":
            constructor = re.match(r"^(?:pub )?([^\s:]+) :", stripped)
            if constructor:
                module.owners[constructor.group(1)] = current.name
        if current is not None:
            current.lines.append(line)
            current.comments, waiting = current.comments + waiting, 0
    return module


def starts(line, stripped, current):
    """The kind and name of the definition that begins on this line."""
    if re.match(r"^(abbrev |unfoldable )?pub (record|data) ", stripped) or re.match(r"^(record|data) ", stripped):
        match = HEAD.match(stripped)
        return match.group(1), match.group(2)
    indent = len(line) - len(line.lstrip())
    if current is not None and current.kind in ("record", "data") and indent > current.indent:
        return None
    match = re.match(r"^(?:abbrev |unfoldable )?pub ([^\s:(){}]+) :", stripped)
    if match:
        return "function", match.group(1)
    return None


# ---- the functions of src/, and their clauses


class Function:
    """A function or a ghost member of a type; `owner` has the type of a method, and the trait that it implements."""

    def __init__(self, crate, module, name, is_pub, owner, scope):
        self.crate, self.module, self.name, self.is_pub = crate, module, name, is_pub
        self.owner, self.scope, self.clauses = owner, scope, []


class Owner:
    """The type or trait in whose block a function is."""

    def __init__(self, name, of_trait=None, is_trait=False):
        self.name, self.of_trait, self.is_trait = name, of_trait, is_trait


class Source:
    """A file of src/: its functions, what it declares `pub`, and what it passes on."""

    def __init__(self, path, crate):
        self.crate = crate
        parts = path.relative_to(CRATES / crate / "src").with_suffix("").parts
        self.module = () if parts in (("lib",), ("main",)) else parts
        self.text = re.sub(r"(?m)^\s*//.*$", "", path.read_text())
        self.items = set(ITEM.findall(self.text))
        self.modules = set(re.findall(r"(?m)^pub mod (\w+);", self.text))
        self.passed_on = [it for used in re.findall(r"(?m)^pub use ([^;]+);", self.text) for it in paths_of(used)]
        self.scope = Module("source")
        for used in ghost_uses(self.text):
            self.scope.take(used)
        self.functions = list(functions_of(self))


def paths_of(used):
    """The paths that a `pub use` names, each with the name that it gets."""
    front, braces, items = used.partition("{")
    for item in split_names(items.rstrip("} \n")) if braces else [used]:
        path, _, name = (front.strip() + item if braces else item).partition(" as ")
        path = [it.strip() for it in path.split("::")]
        yield path, name.strip() or path[-1]


def ghost_uses(text):
    found = (IMPORT.match("use " + re.sub(r"\s+", " ", it.strip())) for it in re.findall(r"ghost use ([^;]+);", text))
    return [it for it in found if it]


def blocks(text, start):
    """The text between the brace at `start` and the matching brace, and the offset after it."""
    depth, place = 0, start
    while True:
        if text[place] == "{":
            depth += 1
        elif text[place] == "}":
            depth -= 1
            if depth == 0:
                return text[start + 1:place], place + 1
        place += 1


PART = re.compile(
    r"(?P<impl>\bimpl\b[^;{]*\{)|(?P<trait>\bpub trait (?P<traitname>\w+)[^;{]*\{)"
    r"|(?P<fn>(?P<pub>pub (?:const )?)?(?:final )?(?:const )?(?:extern \"C\" )?\bfn (?P<name>\w+))"
    r"|(?P<ghost>\bghost (?P<ghostname>\w+)\s*(?:=|:)\s*\{)"
)


def functions_of(source):
    text, place = source.text, 0
    owner, owner_end = None, -1
    while True:
        match = PART.search(text, place)
        if not match:
            return
        if match.start() >= owner_end:
            owner = None
        if match.group("impl") or match.group("trait"):
            owner = owner_of(match.group("impl")) if match.group("impl") else Owner(match.group("traitname"), is_trait=True)
            owner_end = blocks(text, match.end() - 1)[1]
            place = match.end()
        elif match.group("ghost"):
            kind = match.group("ghostname")
            shown = kind not in OF_MODELS
            function = Function(source.crate, source.module, kind, shown, owner, source.scope)
            body, place = blocks(text, match.end() - 1)
            function.clauses.append(body)
            yield function
        else:
            function = Function(source.crate, source.module, match.group("name"), bool(match.group("pub")), owner, source.scope)
            place = clauses_of(text, match.end(), function)
            yield function


def owner_of(head):
    head = re.sub(r"^impl\s*", "", head.replace("\n", " "))
    if head.startswith("<"):
        depth, end = 1, 1
        while depth:
            depth += {"<": 1, ">": -1}.get(head[end], 0)
            end += 1
        head = head[end:].lstrip()
    of_trait, _, target = head.rpartition(" for ")
    name = re.match(r"&?(?:mut )?(\w+)", target.strip()).group(1)
    return Owner(name, re.match(r"(?:\w+::)*(\w+)", of_trait.strip()).group(1) if of_trait else None)


def clauses_of(text, place, function):
    """Collects the clauses between a signature and its body; returns the offset of the body."""
    # an array type has a semicolon of its own
    pattern = re.compile(r"(?P<array>\[[^\[\]{};]*;)|\b(?P<word>requires|ensures|ghost)\b\*?\s*(\w+)?\s*:?\s*\{|\{|;")
    while True:
        match = pattern.search(text, place)
        if not match:
            return len(text)
        if match.group("array"):
            place = match.end()
            continue
        if not match.group("word"):
            return match.end()
        body, place = blocks(text, match.end() - 1)
        function.clauses.append(body)


# ---- what a crate exports


class Exports:
    """What the crates export: (crate, module, name) of the item itself, found through each `pub use`."""

    def __init__(self, sources):
        self.sources = {(it.crate, it.module): it for it in sources}
        self.crates = {it.crate for it in sources}

    def of_crate(self, crate):
        """Each item that a crate exports, by the name that it has outside."""
        return self.of_module(crate, ())

    def of_module(self, crate, module):
        source = self.sources.get((crate, module))
        if source is None:
            return {}
        found = {it: (crate, module, it) for it in source.items}
        for path, name in source.passed_on:
            for its_name, item in self.named(crate, module, path).items():
                found[name if its_name == path[-1] else its_name] = item
        for below in source.modules:
            found.update({f"{below}::{name}": it for name, it in self.of_module(crate, module + (below,)).items()})
        return found

    def named(self, crate, module, path):
        """What a path names in a module: an item, or all that a module exports."""
        if path[0] in ("crate", "self", "super"):
            module = {"crate": (), "self": module, "super": module[:-1]}[path[0]]
        elif (crate, module + (path[0],)) in self.sources:
            module = module + (path[0],)
        elif path[0] in self.crates:
            crate, module = path[0], ()
        else:
            return {}
        for part in path[1:-1]:
            module = module + (part,)
        found = self.of_module(crate, module)
        if path[-1] in found:
            return {path[-1]: found[path[-1]]}
        below = self.of_module(crate, module + (path[-1],))
        return {f"{path[-1]}::{name}": it for name, it in below.items()} if len(path) > 1 else found
