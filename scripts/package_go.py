#!/usr/bin/env python3
"""Makes the archive of the Go module: scripts/package_go.py [FOLDER]

FOLDER (default: packages) gets naltvigo-go-VERSION.zip, with the folder naltvigo@vVERSION: the package, the headers, the
assembly and the licences. Two runs make equal bytes. Its path is printed.
"""

import sys
import zipfile
from pathlib import Path

ROOT = Path(__file__).resolve().parent.parent
GO = ROOT / "bindings" / "go"


def files():
    """The files of the module, by their names in it."""
    for path in GO.rglob("*"):
        if path.is_file() and path.name != "naltvigo.S":
            yield str(path.relative_to(GO)), path.read_bytes()
    for path in [*(ROOT / "include").glob("*.h"), *ROOT.glob("LICENSE-*"), ROOT / "CHANGELOG.md"]:
        yield path.name, path.read_bytes()
    # Go assembles each file named .S, so those that one includes have another name.
    yield "naltvigo.S", (ROOT / "portable" / "naltvigo.S").read_bytes().replace(b'.S"', b'.inc"')
    parts = list((ROOT / "portable").glob("naltvigo-*.S"))
    if not parts:
        sys.exit("package_go.py: portable/ has no assembly: scripts/portable.py makes it")
    for path in parts:
        yield path.with_suffix(".inc").name, path.read_bytes()


def main():
    if sys.argv[1:2] in (["-h"], ["--help"]):
        print(__doc__.strip())
        return
    version = (ROOT / "VERSION").read_text(encoding="utf-8").strip()
    folder = Path(sys.argv[1]) if len(sys.argv) > 1 else ROOT / "packages"
    folder.mkdir(exist_ok=True)
    archive = folder / f"naltvigo-go-{version}.zip"
    with zipfile.ZipFile(archive, "w") as out:
        for name, data in sorted(files()):
            entry = zipfile.ZipInfo(f"naltvigo@v{version}/{name}", (1980, 1, 1, 0, 0, 0))
            entry.external_attr = 0o644 << 16
            out.writestr(entry, data, zipfile.ZIP_DEFLATED, 9)
    print(archive)


if __name__ == "__main__":
    main()
