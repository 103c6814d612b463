#!/usr/bin/env python3
"""Runs each block of README.md, docs/SIGNING.md and docs/TUTORIAL.md, and compares what it prints with the document.

    scripts/test_signing.py PROGRAM DIST

PROGRAM is the built cborc, DIST the library for C as scripts/build_c.sh makes it. Each document gets a new folder. Its
blocks of shell run in order, in one bash with `set -euo pipefail`. A block of text after a block of shell is the output
of that block. A block of shell that no block of text follows prints nothing. A block in another language is a file, and
its first line has the file's name. The packages for Python, JavaScript and Rust are those of bindings/. The last line
begins 'signing: ok' and names the tools that are missing, whose blocks did not run. If something is wrong, the status is
not 0.

No document, man page or help text may show `canon` in a pipe: a refusal would be hashed or signed as zero bytes. The one
pipe that SIGNING.md shows as a warning is in quotes.
"""

import importlib.util
import os
import re
import shutil
import subprocess
import sys
import tempfile
from pathlib import Path

ROOT = Path(__file__).resolve().parent.parent
GUIDES = [ROOT / "README.md", ROOT / "docs" / "SIGNING.md", ROOT / "docs" / "TUTORIAL.md"]
FENCE = re.compile(r"(?ms)^```(\w+)\n(.*?)^```$")
PIPE = re.compile(r"\bcborc canon\b[^|`'\n]*\|(?!\|)")

# What a block of shell needs, by the command that shows it, and what this machine has besides commands.
TOOLS = {
    "openssl": ["openssl"],
    "xxd": ["xxd"],
    "cc": ["cc", "pkg-config", "OpenSSL's headers"],
    "python3": ["the Python package", "the Python package cryptography"],
    "node": ["node", "the JavaScript package"],
    "cargo": ["cargo", "librust-cc-dev"],
}
HERE = {"librust-cc-dev"} if Path("/usr/share/cargo/registry").is_dir() else set()


def blocks(text):
    """The language, the text and the line of each block."""
    for found in FENCE.finditer(text):
        yield found[1], found[2], text.count("\n", 0, found.start()) + 1


def missing_for(script):
    """What a block needs and this machine lacks."""
    commands = [name for name in TOOLS if re.search(rf"(?m)(?:^|[|&;(] *|\s){name}\s", script)]
    return {tool for name in commands for tool in TOOLS[name] if tool not in HERE and not shutil.which(tool)}


def named(guide, language, text, line):
    """The file that a block is: its name is in a comment on the first line."""
    found = re.match(r"(?://|/\*|#) (?:[\w-]+/)*[\w.-]+\.\w+", text)
    if not found:
        sys.exit(f"{guide.name}:{line}: a block of {language} whose first line names no file")
    return re.sub(r"^\S+ ", "", found[0])


def environment(scratch, program, dist):
    """The program on the path, the library where pkg-config, the loader, Python and cargo look, and nothing of the caller's."""
    tools = scratch / "bin"
    tools.mkdir()
    (tools / "cborc").symlink_to(program)
    (tools / "python3").symlink_to(sys.executable)
    (scratch / "naltvigo").symlink_to(ROOT)
    (scratch / "cargo").mkdir()
    shutil.copy(ROOT / "scripts" / "lib" / "debian_crates.toml", scratch / "cargo" / "config.toml")
    return {
        **os.environ,
        "PATH": f"{tools}:{os.environ['PATH']}",
        "LC_ALL": "C.UTF-8",
        "TMPDIR": str(scratch),
        "PKG_CONFIG_PATH": str(dist / "lib" / "pkgconfig"),
        "LD_LIBRARY_PATH": str(dist / "lib"),
        "NALTVIGO_LIB": str(dist / "lib"),
        "PYTHONPATH": str(scratch / "site"),
        "PYTHONDONTWRITEBYTECODE": "1",
        "CARGO_TARGET_DIR": str(scratch / "target"),
        "CARGO_HOME": str(scratch / "cargo"),
    }


def install_python(scratch, env):
    """Builds the wheel, and unpacks it where `import naltvigo` finds it."""
    build = [sys.executable, ROOT / "bindings" / "python" / "build_wheel.py", scratch]
    done = subprocess.run(build, env=env, capture_output=True, text=True)
    if done.returncode != 0:
        print(f"signing: no Python package: {done.stderr.strip()}")
        return
    shutil.unpack_archive(scratch / done.stdout.split()[-1], scratch / "site", "zip")
    HERE.add("the Python package")
    if importlib.util.find_spec("cryptography"):
        HERE.add("the Python package cryptography")


def install_others(scratch):
    """The package for JavaScript, if scripts/build_web.sh has made its modules; where cargo finds the crate cc; the headers of
    OpenSSL's library."""
    package = ROOT / "bindings" / "js"
    if (package / "wasm" / "naltvigo32.wasm").exists():
        modules = scratch / "node_modules"
        modules.mkdir()
        (modules / "naltvigo").symlink_to(package)
        HERE.add("the JavaScript package")
    if Path("/usr/share/cargo/registry").is_dir():
        (scratch / "cargo").mkdir(exist_ok=True)
        shutil.copy(ROOT / "scripts" / "lib" / "debian_crates.toml", scratch / "cargo" / "config.toml")
        HERE.add("Debian's librust-cc-dev")
    if shutil.which("pkg-config") and subprocess.run(["pkg-config", "--exists", "libcrypto"]).returncode == 0:
        HERE.add("OpenSSL's headers")


def plan(guide, folder):
    """The blocks of shell to run, each with its line and what it prints, and the tools that others lack; writes the files."""
    found = list(blocks(guide.read_text(encoding="utf-8")))
    runs, lacking = [], set()
    for (language, block, line), (next_language, expected, _) in zip(found, [*found[1:], ("", "", 0)]):
        if language not in ("sh", "text"):
            path = folder / named(guide, language, block, line)
            path.parent.mkdir(parents=True, exist_ok=True)
            path.write_text(block, encoding="utf-8")
        elif language == "sh" and missing_for(block):
            lacking.update(missing_for(block))
        elif language == "sh":
            runs.append((line, block, expected if next_language == "text" else ""))
    return runs, lacking


def run_guide(guide, runs, folder, env):
    """Runs the blocks in one shell, and yields what differs from the document."""
    name = guide.relative_to(ROOT).as_posix()
    with tempfile.TemporaryDirectory() as outputs:
        script = "set -euo pipefail\n" + "".join(f"{{\n{block}}} >{outputs}/{line} 2>&1\n" for line, block, _ in runs)
        done = subprocess.run(["bash", "-c", script], cwd=folder, env=env, stdin=subprocess.DEVNULL)
        for line, _, expected in runs:
            output = Path(outputs, str(line))
            if not output.exists():
                yield f"{name}:{line}: not reached, since a block before it ended with status {done.returncode}"
                return
            printed = output.read_text(encoding="utf-8", errors="replace")
            if printed != expected:
                yield f"{name}:{line}: printed\n{printed}and not\n{expected}"
        if done.returncode != 0:
            yield f"{name}: the last block ended with status {done.returncode}"


def pipes(program):
    """Each place where a text for users pipes `canon` into another command."""
    listed = subprocess.run(["git", "ls-files", "--", "*.md", "share", "include"], cwd=ROOT, capture_output=True, text=True, check=True)
    texts = {name: (ROOT / name).read_text(encoding="utf-8") for name in listed.stdout.splitlines()}
    for words in ([], ["canon"]):
        reported = subprocess.run([program, *words, "--help"], capture_output=True, text=True, check=True)
        texts[" ".join(["cborc", *words, "--help"])] = reported.stdout
    for name, text in texts.items():
        for number, line in enumerate(text.splitlines(), 1):
            if PIPE.search(line) and not (name == "docs/SIGNING.md" and line.startswith("bash -c '")):
                yield f"{name}:{number}: canon in a pipe: {line.strip()}"


def main():
    if len(sys.argv) != 3 or sys.argv[1] in ("-h", "--help"):
        print(__doc__)
        return 0 if {"-h", "--help"} & set(sys.argv[1:]) else 2
    program, dist = (Path(word).resolve() for word in sys.argv[1:])
    faults = list(pipes(program))
    with tempfile.TemporaryDirectory() as scratch:
        scratch = Path(scratch)
        env = environment(scratch, program, dist)
        install_python(scratch, env)
        install_others(scratch)
        count, missing = 0, set()
        for guide in GUIDES:
            folder = scratch / guide.stem
            folder.mkdir()
            runs, lacking = plan(guide, folder)
            count += len(runs)
            missing |= lacking
            faults += run_guide(guide, runs, folder, env)
    for fault in faults:
        print(f"signing: {fault}")
    if not faults:
        left = f"; not run, because these are missing: {', '.join(sorted(missing))}" if missing else ""
        print(f"signing: ok: {count} blocks of shell{left}")
    return 1 if faults else 0


if __name__ == "__main__":
    sys.exit(main())
