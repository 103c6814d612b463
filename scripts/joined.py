"""Tries many wrong bodies of a crate in one check: exactly the edited functions must fail by themselves.

The prover continues after a failure, and reports which functions fail by themselves ('`search` did not prove ..', or an
error in their own proof file) and which only call one that is not proved. So edits of different functions can share a
copy of the crate. An edit that the shared check does not settle is tried alone, as `rt must-fail` does it: one of a
constant, a specification or a signature, one of functions that share a proof, one that the check does not reach.
"""

import os
import re
import signal
from collections import Counter

import sources
from edit_files import BadEdit, apply, read_edit

FUNCTION = re.compile(r"(?m)^( *)(?:pub(?:\([a-z]+\))? )?(?:final )?(?:const )?(?:unsafe )?(?:extern \"C\" )?fn (\w+)")
OWNER = re.compile(r"(?m)^(?:unsafe )?(?:(impl\b[^{;]*)\{|(?:pub )?trait (\w+))")
SAID = re.compile(r"(?m)^fn (\S+): (.*)")
ERROR = re.compile(r"(?m)^(?:\./)?proofs/(\S+)/\w+\.antt:\d+:\d+: error: (.*)")
# The error of a proof file that names what an edit removed: the contract has refused nothing.
LOST_NAME = re.compile(r"has no field|is not in scope|has no `|was not admitted")


class Edit:
    """A wrong body: its path, its changes, and the functions that it changes, none if something else is changed."""

    def __init__(self, folder, path):
        self.path, self.name = path, os.path.basename(path).removesuffix(".edit")
        _, self.changes = read_edit(path)
        apply(folder, self.changes)
        found = [function_at(folder, file, old) for file, old, _ in self.changes]
        self.functions = set(found) if all(found) else set()


def short(path):
    """A function as it is matched: without its module, if it is a method. The prover names that of the type, not of the impl."""
    *_, owner, name = ("", *path.split("::"))
    return f"{owner}::{name}" if owner[:1].isupper() else path


def function_at(folder, file, old):
    """The function whose body has this text, if one has: its path, or that of a method below its type."""
    if not file.startswith("src/"):
        return None
    with open(os.path.join(folder, file), encoding="utf-8") as it:
        text = it.read()
    at, head = text.index(old), None
    for head in FUNCTION.finditer(text, 0, at):
        pass
    if not head:
        return None
    # Formatted code: the body begins where a line at the function's own indent ends in a brace, and ends likewise.
    begin = re.compile(rf"(?m)^{head[1]}(?! ).*\{{$").search(text, head.start())
    end = text.find(f"\n{head[1]}}}\n", head.start())
    if not begin or not begin.end() < at < end:
        return None
    module = re.sub(r"^src/|\.rt$", "", file).removesuffix("/mod").replace("/", "::")
    owner = owner_of(text, head.start()) if head[1] else ""
    return short("::".join(it for it in ("" if module in ("lib", "main") else module, owner, head[2]) if it))


def owner_of(text, at):
    """The type in whose block a function is, as the prover names it: with the name of the trait after it."""
    head = None
    for head in OWNER.finditer(text, 0, at):
        pass
    if not head or head[2]:
        return head[2] if head else ""
    owner = sources.owner_of(head[1])
    return owner.name + (owner.of_trait or "")


def read_edits(folder, paths):
    """The edits, and by name why others cannot be applied."""
    edits, bad = [], {}
    for path in paths:
        try:
            edits.append(Edit(folder, path))
        except BadEdit as error:
            bad[os.path.basename(path).removesuffix(".edit")] = str(error)
    return edits, bad


class Round:
    """Edits of different functions, and the texts of the files with all of them."""

    def __init__(self, edits=(), texts=None):
        self.edits, self.texts = list(edits), texts or {}

    def takes(self, folder, edit):
        """Whether an edit can be tried with the others; if so, adds it."""
        if any(edit.functions & it.functions for it in self.edits):
            return False
        try:
            self.texts = apply(folder, edit.changes, self.texts)
        except BadEdit:
            # its text is changed by another
            return False
        self.edits.append(edit)
        return True


def rounds_of(folder, edits):
    """The rounds in which these edits are tried, as few as can be found one after another."""
    rounds = []
    for edit in edits:
        if not any(it.takes(folder, edit) for it in rounds):
            rounds.append(Round())
            rounds[-1].takes(folder, edit)
    return rounds


def own_failures(crate, said):
    """The functions that fail by themselves, by the output of a check; no method if two have the same short name."""
    found = {name.removeprefix(f"{crate}::"): what for name, what in SAID.findall(said)}
    in_files = {path.replace("/", "::") for path, what in ERROR.findall(said) if not LOST_NAME.search(what)}
    own = in_files & found.keys() | {name for name, what in found.items() if "did not prove" in what}
    count = Counter(map(short, found))
    return {short(it) if count[short(it)] == 1 else it for it in own}


class Trial:
    """The edits of one crate, tried with what the folder `over` has of its proof. The rounds add to it what they prove."""

    def __init__(self, rt, crate, flags, over, tell):
        self.rt, self.crate, self.flags, self.over, self.tell = rt, crate, flags, over, tell
        self.failed, self.refused = {}, 0

    def check(self, texts):
        ran = self.rt.checked(self.crate, texts, self.flags, self.over)
        if ran.returncode == -signal.SIGKILL:
            # most likely because memory ran out
            ran = self.rt.checked(self.crate, texts, ["--jobs", "1"], self.over)
        return ran

    def is_proved(self):
        """Whether the crate is proved without an edit."""
        return self.check({}).returncode == 0

    def try_together(self, edits):
        """Tries edits of different functions in one check; returns those that it does not settle."""
        together = Round()
        if len(edits) < 2 or not all(together.takes(self.crate.folder, it) for it in edits):
            return edits
        ran = self.check(together.texts)
        own = own_failures(self.crate.name, ran.stdout)
        unsettled = [it for it in edits if not it.functions & own]
        strange = own - {it for edit in edits for it in edit.functions}
        is_judged = ran.stdout.rstrip("\n").rpartition("\n")[2].startswith("logic=not-proved")
        if not is_judged or len(strange) > len(unsettled):
            # it does not compile, or an edit makes a function fail that it does not change: which one, half by half
            half = len(edits) // 2
            return self.try_together(edits[:half]) + self.try_together(edits[half:])
        self.refused += len(edits) - len(unsettled)
        return unsettled

    def try_alone(self, edit):
        """Tries one edit; if that has no result, tries it once more from nothing."""
        kind, said = self.rt.must_fail(self.crate, edit.path, self.flags, self.over)
        if kind not in self.rt.SETTLED:
            kind, said = self.rt.must_fail(self.crate, edit.path, self.flags)
        if kind in (self.rt.REFUSED, self.rt.AT_LIMIT):
            self.refused += 1
        else:
            self.failed[edit.name] = said.partition(".edit: ")[2] or said
            self.tell(f"{edit.name}: {self.failed[edit.name]}")

    def run(self, edits):
        alone = [it for it in edits if not it.functions]
        for together in rounds_of(self.crate.folder, [it for it in edits if it.functions]):
            alone += self.try_together(together.edits)
        for edit in alone:
            self.try_alone(edit)
        return len(alone)
