"""Builds the wheel and the source archive: the backend that pyproject.toml names.

    build_wheel.py [FOLDER]           the wheel
    build_wheel.py --sdist [FOLDER]   the source archive

It needs Python with its C headers and a C compiler (CC, or cc). The library for C is libnaltvigo.a in the folder that
NALTVIGO_LIB names; without that it is the assembly in portable/, which the source archive has too; without that
dist/lib/libnaltvigo.a (scripts/build_c.sh makes it). Nothing is downloaded. CFLAGS is added to the arguments of the compiler. Two builds of the same files with the
same compiler make equal bytes.
"""

import base64
import gzip
import hashlib
import io
import os
import re
import shlex
import subprocess
import sys
import sysconfig
import tarfile
import tempfile
import zipfile
from pathlib import Path

HERE = Path(__file__).resolve().parent
ROOT = HERE.parent.parent

EXTENSION = "_native.abi3.so"
COMPILE = ["-std=c11", "-O3", "-DNDEBUG", "-fPIC", "-fno-plt", "-fvisibility=hidden", "-Wall", "-Wextra"]
COMPILE += ["-Werror=implicit-function-declaration"]  # only the stable ABI
HARDEN = ["-fstack-protector-strong", "-D_FORTIFY_SOURCE=2"]
LINK = ["-shared", "-Wl,--gc-sections", "-Wl,-z,relro", "-Wl,-z,now", "-Wl,-z,noexecstack"]
EXPORTS = "{ global: PyInit__native; local: *; };"
PLAIN = ["-Wl,--build-id=none", "-s"]


def field(name):
    return re.search(rf'(?m)^{name} = "(.*)"$', (HERE / "pyproject.toml").read_text())[1]


def listed(name):
    body = re.search(rf"(?ms)^{name} = \[(.*?)\]$", (HERE / "pyproject.toml").read_text())[1]
    return re.findall(r'"([^"]*)"', body)


def shared(name):
    """A file of the repository, or of the source archive; None if it does not exist."""
    return next((folder / name for folder in (HERE, ROOT) if (folder / name).exists()), None)


def assembly():
    """The files of the library in assembly; none if scripts/portable.py has not made them."""
    folder = shared("portable")
    made = sorted(folder.glob("naltvigo-*.S")) if folder else []
    return [folder / "naltvigo.S", *made] if made else []


def library():
    """What contains the library for C: an archive, or the assembly, of which the compiler includes the part for its target."""
    given = os.environ.get("NALTVIGO_LIB")
    if assembly() and not given:
        return assembly()[0]
    archive = Path(given or ROOT / "dist" / "lib") / "libnaltvigo.a"
    if not archive.exists():
        raise SystemExit(f"{archive} does not exist: run scripts/build_c.sh, or set NALTVIGO_LIB to the folder that has it")
    return archive


def include_folder():
    """The folder of naltvigo.h: next to the archive, where build_c.sh puts it, or ours."""
    installed = library().parent.parent / "include"
    return installed if (installed / "naltvigo.h").exists() else shared("include")


def headers():
    folder = Path(sysconfig.get_path("include"))
    if sysconfig.get_config_var("Py_GIL_DISABLED"):
        raise SystemExit("naltvigo needs the interpreter's lock: a Python without it (free-threaded) is not supported")
    if not (folder / "Python.h").exists():
        raise SystemExit(f"{folder}/Python.h does not exist: install Python's headers (python3-dev in Debian)")
    return folder


def configuration(folder):
    """Makes a folder of pyconfig.h as other machines have it, for a compiler for one of them. Debian's includes a file of each
    machine's own, and only this machine's is installed. For Linux on the machines of MACHINES they agree in what the stable
    ABI needs: the sizes of C's types."""
    theirs = f"python{sys.version_info.major}.{sys.version_info.minor}/pyconfig.h"
    own = headers().parent / f"{sysconfig.get_config_var('MULTIARCH')}" / theirs
    for machine in MACHINES.values() if own.exists() else ():
        path = folder / f"{machine}-linux-gnu" / theirs
        path.parent.mkdir(parents=True)
        path.write_bytes(own.read_bytes())
    return folder


def extension():
    """The bytes of the extension: src/native, and the library for C within it."""
    compiler = shlex.split(os.environ.get("CC", "cc"))
    more = shlex.split(os.environ.get("CFLAGS", ""))
    machine = subprocess.run([*compiler, "-dumpmachine"], stdout=subprocess.PIPE, text=True, check=True).stdout
    harden = [*HARDEN, "-fcf-protection"] if machine.startswith("x86_64") else HARDEN
    sources = sorted(str(path) for path in (HERE / "src" / "native").glob("*.c"))
    with tempfile.TemporaryDirectory() as folder:
        include = ["-isystem", str(headers()), "-isystem", str(include_folder()), "-isystem", str(configuration(Path(folder)))]
        out, exports = Path(folder) / EXTENSION, Path(folder) / "exports"
        exports.write_text(EXPORTS)
        link = [str(library()), *LINK, f"-Wl,--version-script={exports}", *([] if "-g" in more else PLAIN)]
        subprocess.run([*compiler, *COMPILE, *harden, *include, *sources, *link, *more, "-o", str(out)], check=True)
        return out.read_bytes()


def platform_tag(binary):
    """The platform that the extension runs on: by the greatest version of glibc among those that its symbols name, or musl 1.2."""
    machine = machine_of(binary)
    if b"\0libc.so\0" in binary:
        return f"musllinux_1_2_{machine}"
    versions = [(int(major), int(minor)) for major, minor in re.findall(rb"\0GLIBC_(\d+)\.(\d+)", binary)]
    # which older versions installers know differs by machine; all know 2.17
    return "manylinux_%d_%d_" % max(versions + [(2, 17)]) + machine if versions else f"linux_{machine}"


# By the number of the machine in an ELF header.
MACHINES = {62: "x86_64", 183: "aarch64", 243: "riscv64"}


def machine_of(elf):
    """The machine that a shared object is for, which need not be this one."""
    return MACHINES[int.from_bytes(elf[18:20], "little")]


def metadata():
    lines = ["Metadata-Version: 2.1", f"Name: {field('name')}", f"Version: {field('version')}", f"Summary: {field('description')}"]
    lines += ["Author: " + re.search(r'authors = \[\{ name = "(.*)" \}\]', (HERE / "pyproject.toml").read_text())[1]]
    lines += [f"License: {field('license')}", "License-File: LICENSE-MIT", "License-File: LICENSE-APACHE"]
    lines += ["Keywords: " + ",".join(listed("keywords")), *(f"Classifier: {it}" for it in listed("classifiers"))]
    lines += [f"Requires-Python: {field('requires-python')}", "Description-Content-Type: text/markdown", ""]
    return "\n".join(lines + [(HERE / "README.md").read_text(encoding="utf-8")]).encode()


def package():
    """The files of the package, except the extension."""
    found = sorted(path for path in (HERE / "src" / "naltvigo").iterdir() if path.suffix in (".py", ".pyi", ".typed"))
    return {f"naltvigo/{path.name}": path.read_bytes() for path in found}


def record(files, info):
    lines = []
    for name, data in files.items():
        digest = base64.urlsafe_b64encode(hashlib.sha256(data).digest()).rstrip(b"=").decode()
        lines.append(f"{name},sha256={digest},{len(data)}\n")
    return "".join([*lines, f"{info}/RECORD,,\n"]).encode()


def build_wheel(wheel_directory, config_settings=None, metadata_directory=None):
    binary = extension()
    tag = f"cp311-abi3-{platform_tag(binary)}"
    info = f"naltvigo-{field('version')}.dist-info"
    files = {**package(), f"naltvigo/{EXTENSION}": binary, f"{info}/METADATA": metadata()}
    files[f"{info}/WHEEL"] = f"Wheel-Version: 1.0\nGenerator: naltvigo\nRoot-Is-Purelib: false\nTag: {tag}\n".encode()
    for name in ("LICENSE-MIT", "LICENSE-APACHE"):
        files[f"{info}/{name}"] = shared(name).read_bytes()
    files[f"{info}/RECORD"] = record(files, info)
    wheel = f"naltvigo-{field('version')}-{tag}.whl"
    with zipfile.ZipFile(Path(wheel_directory) / wheel, "w", zipfile.ZIP_DEFLATED) as out:
        for name, data in files.items():
            entry = zipfile.ZipInfo(name, (1980, 1, 1, 0, 0, 0))
            entry.external_attr = (0o100755 if name.endswith(".so") else 0o100644) << 16
            out.writestr(entry, data, zipfile.ZIP_DEFLATED)
    return wheel


def sources():
    """The files of the source archive, with the assembly of the library if it was made."""
    paths = [HERE / name for name in ("README.md", "build_wheel.py", "pyproject.toml")]
    paths += sorted((HERE / "src" / "native").glob("*.[ch]"))
    files = {path.relative_to(HERE).as_posix(): path.read_bytes() for path in paths}
    files |= {f"src/{name}": data for name, data in package().items()}
    files |= {name: shared(name).read_bytes() for name in ("LICENSE-MIT", "LICENSE-APACHE", "include/naltvigo.h")}
    files |= {f"portable/{path.name}": path.read_bytes() for path in assembly()}
    return {**files, "PKG-INFO": metadata()}


def build_sdist(sdist_directory, config_settings=None):
    folder = f"naltvigo-{field('version')}"
    packed = io.BytesIO()
    with gzip.GzipFile(fileobj=packed, mode="wb", mtime=0) as zipped, tarfile.open(fileobj=zipped, mode="w") as out:
        for name, data in sorted(sources().items()):
            entry = tarfile.TarInfo(f"{folder}/{name}")
            entry.size, entry.mode = len(data), 0o644
            out.addfile(entry, io.BytesIO(data))
    (Path(sdist_directory) / f"{folder}.tar.gz").write_bytes(packed.getvalue())
    return f"{folder}.tar.gz"


if __name__ == "__main__":
    words = [word for word in sys.argv[1:] if word != "--sdist"]
    build = build_sdist if "--sdist" in sys.argv else build_wheel
    print(build(words[0] if words else "."))
