#!/usr/bin/env python3
"""Writes web/ as one HTML file, which needs no other file: scripts/bundle_page.py FILE

The styles, the scripts and both modules of bindings/js/wasm are in the file, and its policy (CSP) lets it load and
send nothing. Each ES module becomes a function that returns its exports, so that names do not clash. What the bundler does
not know, such as a default export, a cycle or an import that it would lose, is an error.
"""

import base64
import hashlib
import json
import re
import sys
from pathlib import Path

ROOT = Path(__file__).resolve().parent.parent
WEB = ROOT / "web"
WASM = ROOT / "bindings/js/wasm"

# Files of which a built page has its own form.
INLINED = {WEB / "src" / path.name: path for path in (WEB / "inlined").glob("*.js")}

IMPORT = re.compile(r"^import \{([\w,\s]+)\} from '(\.[\w./-]+)';$", re.MULTILINE)
PASSED_ON = re.compile(r"^export \{([\w,\s]+)\} from '(\.[\w./-]+)';$", re.MULTILINE)
EXPORTED = re.compile(r"^export ((?:const|class|(?:async )?function\*?) (\w+))", re.MULTILINE)
LEFT_OVER = re.compile(r"^(?:import|export)\b.*|\bimport\(.*|import\.meta.*", re.MULTILINE)


def fail(text):
    sys.exit(f"bundle_page.py: {text}")


def names_in(text):
    """The names of `a, b as c`: each as the other module has it, and as this one does."""
    for part in filter(None, (it.strip() for it in text.split(","))):
        name, _, own = part.partition(" as ")
        yield name, own or name


class Bundle:
    """The modules that one script needs, each after those that it imports."""

    def __init__(self):
        self.numbers = {}
        self.parts = []
        self.begun = []

    def add(self, path):
        """Adds a module, unless it was added; returns the name of its exports."""
        path = INLINED.get(path, path)
        if path in self.numbers:
            return self.numbers[path]
        if path in self.begun:
            fail(f"{path.relative_to(ROOT)} imports itself by others")
        self.begun.append(path)
        body = self.body_of(path)
        self.numbers[path] = f"module{len(self.parts)}"
        self.parts.append(f"// {path.relative_to(ROOT)}\nconst {self.numbers[path]} = (() => {{\n{body}\n}})();\n")
        return self.numbers[path]

    def body_of(self, path):
        text, passed = path.read_text(encoding="utf-8"), []

        def source(name):
            return self.add((path.parent / name).resolve())

        def take_import(found):
            names = ", ".join(f"{name}: {own}" for name, own in names_in(found[1]))
            return f"const {{ {names} }} = {source(found[2])};"

        def take_passed(found):
            passed.extend(f"{own}: {source(found[2])}.{name}" for name, own in names_in(found[1]))
            return ""

        text = PASSED_ON.sub(take_passed, IMPORT.sub(take_import, text))
        exported = [found[2] for found in EXPORTED.finditer(text)]
        text = EXPORTED.sub(r"\1", text)
        left = LEFT_OVER.search(text)
        if left:
            fail(f"{path.relative_to(ROOT)} has what is not bundled: {left[0]}")
        return f"{text}return {{ {', '.join(exported + passed)} }};"

    def script(self):
        return '"use strict";\n' + "".join(self.parts)


def script_of(name):
    bundle = Bundle()
    bundle.add(WEB / "src" / name)
    return bundle.script()


def constant(name, value):
    """A constant for a script within HTML, where `</script` and `<!--` would end or change it."""
    return f"const {name} = {json.dumps(value)};\n".replace("<", "\\u003c")


def modules():
    encoded = {}
    for path in (WASM / "naltvigo64.wasm", WASM / "naltvigo32.wasm"):
        if not path.exists():
            fail(f"{path.relative_to(ROOT)} is missing; scripts/build_web.sh makes it")
        encoded[path.name] = base64.b64encode(path.read_bytes()).decode("ascii")
    return encoded


def replaced(text, old, new):
    if text.count(old) != 1:
        fail(f"web/index.html does not have this once: {old}")
    return text.replace(old, new)


def allowed(text):
    return "'sha256-" + base64.b64encode(hashlib.sha256(text.encode("utf-8")).digest()).decode("ascii") + "'"


def page():
    worker = constant("MODULES", modules()) + script_of("worker.js")
    script = constant("WORKER", worker) + script_of("main.js")
    if re.search(r"</script|<!--", script, re.IGNORECASE):
        fail("a script has what would end it within HTML")
    style = (WEB / "style.css").read_text(encoding="utf-8")
    policy = (
        f"default-src 'none'; script-src {allowed(script)} 'wasm-unsafe-eval'; style-src {allowed(style)}; "
        "worker-src blob:; img-src data:; base-uri 'none'; form-action 'none'"
    )
    text = (WEB / "index.html").read_text(encoding="utf-8")
    text = replaced(text, re.search(r'http-equiv="Content-Security-Policy" content="([^"]*)"', text)[1], policy)
    text = replaced(text, '<link rel="stylesheet" href="style.css">', f"<style>{style}</style>")
    text = replaced(text, '<script type="module" src="src/main.js"></script>\n', "")
    # after the elements that it looks for
    return replaced(text, "</body>", f"<script>{script}</script>\n</body>")


def main(words):
    if len(words) != 1:
        fail("give the file to write")
    Path(words[0]).write_text(page(), encoding="utf-8")


if __name__ == "__main__":
    main(sys.argv[1:])
