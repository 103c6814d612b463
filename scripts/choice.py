"""Puts functions of a second module of the same code, for x86-64-v2, into the one for plain x86-64.

The two modules have the same functions by the same names; few differ, since few use what x86-64-v2 adds. Where such a
function, or one into which it is inlined, is called, the module then chooses by the processor which of the two to call
(platform/choice.ll). All other code is that of plain x86-64.
"""

import re
from typing import NamedTuple

FUNCTION = re.compile(r"(?m)^define [^\n]*\{\n(?:.*\n)*?\}\n")
NAME = re.compile(r'@("[^"\n]*"|[\w.$-]+)')
GROUP = re.compile(r"(?m)^attributes (#\d+) = (\{.*\})\n")
CONSTANT = re.compile(r'(?m)^@("[^"\n]*"|[\w.$-]+) = (.*)\n')
NODE = re.compile(r"(?m)^(!\d+) = (.*)\n")
# The words before a type that are not part of it.
OF_RESULT = re.compile(r"\b(noundef|zeroext|signext|nonnull|noalias) ")


class Module(NamedTuple):
    functions: dict  # the text of each, by its name
    constants: dict  # what each is, by its name
    groups: dict  # attributes by number
    nodes: dict  # metadata by number


def parsed(text):
    functions = {NAME.search(it)[1]: it for it in FUNCTION.findall(text)}
    return Module(functions, dict(CONSTANT.findall(text)), dict(GROUP.findall(text)), dict(NODE.findall(text)))


def plain_words(module, text):
    """A function without numbers that depend on the rest of its module, and without the processor's name."""
    text = re.sub(r"#\d+", lambda it: re.sub(r'"target-cpu"="[^"]*"', "", module.groups.get(it[0], it[0])), text)
    text = re.sub(r"!\d+\b", lambda it: module.nodes.get(it[0], it[0]), text)
    return NAME.sub(lambda it: module.constants.get(it[1], it[0]), text)


def calls(text):
    """What a function names after its own name."""
    return set(NAME.findall(text)[1:])


def is_inlined(module, text):
    group = re.search(r"(#\d+) \{\n", text)
    return group and "alwaysinline" in module.groups[group[1]]


def chosen(plain, base, newer):
    """The names of the functions that are called by choice, and of all that are copied for them."""

    def is_same(name):
        return name in plain.functions and name in base.functions and plain_words(plain, plain.functions[name]) == plain_words(base, base.functions[name])

    differ = {it for it in base.functions.keys() & newer.functions.keys() if plain_words(base, base.functions[it]) != plain_words(newer, newer.functions[it])}
    todo, copied, by_choice = sorted(differ & plain.functions.keys()), set(), set()
    while todo:
        name = todo.pop()
        if name in copied:
            continue
        if not is_same(name):
            raise ValueError(f"{name} is another function in the module for plain x86-64")
        if calls(newer.functions[name]) & newer.constants.keys():
            raise ValueError(f"{name} names a constant, whose name may be another one in the module for plain x86-64")
        copied.add(name)
        if is_inlined(newer, newer.functions[name]):
            todo += [it for it, text in newer.functions.items() if it in plain.functions and name in calls(text)]
        else:
            by_choice.add(name)
    more = list(copied)
    while more:
        new = {it for it in calls(newer.functions[more.pop()]) if it in newer.functions and it not in plain.functions} - copied
        copied |= new
        more += new
    return by_choice, copied


def named(prefix, name):
    return f'"{prefix}:{name.strip(chr(34))}"'


class Copies:
    """The newer functions, with the numbers of the plain module."""

    def __init__(self, plain, newer, names):
        self.plain, self.newer, self.names = plain, newer, names
        self.number = 1 + max(int(it[1:]) for it in [*plain.groups, *plain.nodes])
        self.made = {}

    def renumbered(self, number, mine, others):
        """The number of the newer module's attributes or metadata in the plain module, under which they may be new."""
        content = others[number]
        found = next((it for it, known in [*mine.items(), *self.made.items()] if known == content and it[0] == number[0]), None)
        if not found:
            found = f"{number[0]}{self.number}"
            self.number += 1
            self.made[found] = content
        return found

    def copy(self, name):
        text = re.sub(r"#\d+", lambda it: self.renumbered(it[0], self.plain.groups, self.newer.groups), self.newer.functions[name])
        text = re.sub(r"!\d+\b", lambda it: self.renumbered(it[0], self.plain.nodes, self.newer.nodes), text)
        text = NAME.sub(lambda it: "@" + (named("v2", it[1]) if it[1] in self.names else it[1]), text)
        return re.sub(r"^define (internal )?", "define internal ", text)

    def rest(self):
        return "".join(f"attributes {it} = {text}\n" if it[0] == "#" else f"{it} = {text}\n" for it, text in self.made.items())


def by_choice(name, text):
    """The function that calls one of the two."""
    head = text[: text.index("\n")].removesuffix(" {")
    found = re.fullmatch(r"define (?:internal )?(.*?)@(?:\"[^\"]*\"|[\w.$-]+)\((.*)\)( #\d+)?", head)
    result, parameters = found[1].strip(), found[2]
    returned = OF_RESULT.sub("", result + " ").strip()
    lines = [head + " {", "  %has = call i1 @processor_has_v2()", "  br i1 %has, label %newer, label %plain"]
    for label, prefix in (("newer", "v2"), ("plain", "plain")):
        target = f"call {result} @{named(prefix, name)}({parameters})"
        lines += [f"{label}:"] + ([f"  {target}", "  ret void"] if returned == "void" else [f"  %{label}.result = {target}", f"  ret {returned} %{label}.result"])
    return "\n".join([*lines, "}", ""])


def with_choice(plain_text, base_text, newer_text, choice):
    """The plain module's text, with the newer functions and the choice, and the names of those that are called by it.

    The base and the newer module are made of the same crate; the plain one may be of a crate that shares functions with it.
    """
    plain, base, newer = parsed(plain_text), parsed(base_text), parsed(newer_text)
    names, copied = chosen(plain, base, newer)
    copies = Copies(plain, newer, copied)
    added = []
    for name in sorted(names):
        text = plain.functions[name]
        plain_text = plain_text.replace(text, by_choice(name, text))
        renamed = text.replace(f"@{name}(", f"@{named('plain', name)}(", 1)
        added.append(re.sub(r"^define (internal )?", "define internal ", renamed))
    added += [copies.copy(name) for name in sorted(copied)]
    called = set().union(*(calls(newer.functions[it]) for it in copied)) if copied else set()
    known = set(re.findall(r"(?m)^declare .*?@([\w.]+)\(", plain_text))
    declared = [it for it in re.findall(r"(?m)^declare .*\n", newer_text) if NAME.search(it)[1] in called - known]
    declared = [re.sub(r"#\d+", lambda it: copies.renumbered(it[0], plain.groups, newer.groups), it) for it in declared]
    return "\n".join([plain_text, *added, *declared, copies.rest(), choice]), names
