"""Edits as files, in the form that `rt must-fail` reads: a line 'file: PATH', then pairs of lines 'old: TEXT' and 'new: TEXT'.

Each old text is in its file exactly once. Lines with other words may come first: fuzz/edits has 'crate: NAME' and more.
"""

import os


class BadEdit(Exception):
    """An edit that cannot be applied, with the reason."""


def read_edit(path):
    """The other words of an edit, by their names, and its (file, old, new)."""
    with open(path, encoding="utf-8") as it:
        lines = [line.partition(":") for line in it.read().splitlines()]
    words, old, changes = {}, None, []
    for word, _, text in lines:
        text = text.removeprefix(" ")
        if word == "old":
            old = text
        elif word == "new":
            if not old or "file" not in words:
                raise BadEdit("a 'new:' line is before any 'file:' or 'old:' line")
            changes.append((words["file"], old, text))
            old = None
        else:
            words[word] = text
    if not changes:
        raise BadEdit("it has no 'old:' and 'new:' pair")
    return words, changes


def apply(folder, changes, texts=None):
    """The texts of a crate's files after these changes, by path; the given texts, if any, are the ones changed."""
    made = dict(texts or {})
    for file, old, new in changes:
        if file not in made:
            path = os.path.join(folder, file)
            if not os.path.isfile(path):
                raise BadEdit(f"there is no file {file}")
            with open(path, encoding="utf-8") as it:
                made[file] = it.read()
        count = made[file].count(old)
        if count != 1:
            raise BadEdit(f"its text is {count} times in {file}, and not once: {old.strip()}")
        made[file] = made[file].replace(old, new)
    return made
