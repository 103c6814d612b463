#!/usr/bin/env python3
"""Shows that the languages read the same values and write the same bytes: scripts/test_languages.py DIST

DIST is what scripts/build_c.sh makes. It builds c/values.c, the package for Python and the examples `values` of the crate for
Rust and of the package for Go, and tries them and the package for JavaScript with fuzz/languages.py on the rows of the
conformance tables and on random items. It needs a C compiler and Python's headers; the last line, which begins
'languages: all well', names what else was missing: cargo, Go, or Node and the modules of scripts/build_web.sh. Otherwise the
status is not 0.
"""

import os
import shutil
import subprocess
import sys
import tempfile
import zipfile
from pathlib import Path

ROOT = Path(__file__).resolve().parent.parent


def done(*words, **more):
    """The output of a command; ends if it fails."""
    ended = subprocess.run(words, capture_output=True, text=True, **more)
    if ended.returncode != 0:
        sys.exit(f"languages: FAILED: {' '.join(map(str, words))}\n{ended.stdout}{ended.stderr}")
    return ended.stdout


def in_c(dist, scratch):
    compiler = os.environ.get("CC", "cc")
    done(compiler, "-O2", ROOT / "c" / "values.c", f"-I{dist}/include", f"{dist}/lib/libnaltvigo.a", "-o", scratch / "values")
    return str(scratch / "values")


def in_python(dist, scratch):
    package = ROOT / "bindings" / "python"
    own = os.environ | {"NALTVIGO_LIB": f"{dist}/lib", "PYTHONDONTWRITEBYTECODE": "1"}
    wheel = done(sys.executable, package / "build_wheel.py", scratch, env=own).split()[-1]
    zipfile.ZipFile(scratch / wheel).extractall(scratch / "site")
    return f"env PYTHONPATH={scratch}/site {sys.executable} {package}/tests/values_cli.py"


def in_rust(dist, scratch):
    own = os.environ | {"NALTVIGO_LIB": f"{dist}/lib", "CARGO_TARGET_DIR": str(scratch / "target"), "CARGO_HOME": str(scratch / "cargo")}
    (scratch / "cargo").mkdir()
    shutil.copy(ROOT / "scripts" / "lib" / "debian_crates.toml", scratch / "cargo" / "config.toml")
    crate = ROOT / "bindings" / "rust"
    done("cargo", "build", "--offline", "-q", "--example", "values", cwd=crate, env=own)
    (crate / "Cargo.lock").unlink(missing_ok=True)
    return str(scratch / "target" / "debug" / "examples" / "values")


def in_go(scratch):
    own = os.environ | {"GOCACHE": str(scratch / "cache"), "GOPROXY": "off"}
    done("go", "build", "-o", scratch / "go_values", "./examples/values", cwd=ROOT / "bindings" / "go", env=own)
    return str(scratch / "go_values")


def in_javascript():
    return f"node {ROOT}/bindings/js/examples/values.mjs"


def main():
    dist = Path(sys.argv[1]).resolve()
    with tempfile.TemporaryDirectory() as folder:
        scratch = Path(folder)
        programs = {"C": in_c(dist, scratch), "Python": in_python(dist, scratch)}
        if shutil.which("cargo") and Path("/usr/share/cargo/registry").is_dir():
            programs["Rust"] = in_rust(dist, scratch)
        if shutil.which("go") and (ROOT / "portable" / "naltvigo-x86_64-elf.S").exists():
            programs["Go"] = in_go(scratch)
        if shutil.which("node") and (ROOT / "bindings/js/wasm/naltvigo32.wasm").exists():
            programs["JavaScript"] = in_javascript()
        words = [f"{name}={command}" for name, command in programs.items()]
        print(done(sys.executable, ROOT / "fuzz" / "languages.py", "--library", dist / "lib" / "libnaltvigo.so", "--inputs", "2000", *words), end="")
    tools = {"Rust": "cargo and librust-cc-dev", "Go": "go, or the assembly in portable/", "JavaScript": "node, or the modules of scripts/build_web.sh"}
    missing = ", ".join(tool for name, tool in tools.items() if name not in programs)
    print("languages: all well" + (f"; not tried, since not there: {missing}" if missing else ""))


if __name__ == "__main__":
    main()
