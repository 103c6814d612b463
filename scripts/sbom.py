#!/usr/bin/env python3
"""Writes the SBOM of a release, in SPDX 2.3: scripts/sbom.py > naltvigo.spdx.json

It names the library and the program, and each crate of the kit that they are made of, with its version and licence: of a ported
crate those that its folder in the kit names, of the kit's own libraries the version of the kit. The time is SOURCE_DATE_EPOCH,
or that of the commit. The kit's rt must be on the path.
"""

import hashlib
import json
import os
import re
import subprocess
import sys
import time
from pathlib import Path

ROOT = Path(__file__).resolve().parent.parent


def output_of(*words):
    return subprocess.run(words, check=True, stdout=subprocess.PIPE, text=True, cwd=ROOT).stdout.strip()


# What is released, and its purpose.
OWN = {"naltvigo": "LIBRARY", "cborc": "APPLICATION"}


def kit_crates(kit, crate):
    """The kit's crates below one of the repository's, from its crates.txt and the kit's own libraries."""
    lines = [it.partition("#")[0].partition(":") for it in (ROOT / "crates.txt").read_text(encoding="utf-8").splitlines()]
    below = {name.split()[0]: libraries.split() for name, colon, libraries in lines if colon}
    found, seen, todo = set(), set(), [crate]
    while todo:
        name = todo.pop()
        if name in seen:
            continue
        seen.add(name)
        if name in below:
            todo += below[name]
            continue
        text = (kit / "rlibs" / f"{name}.rlib" / "format").read_text(encoding="utf-8", errors="replace")
        found.add(name)
        todo += re.findall(r"(?m)^dep (\w+)$", text)
    return sorted(found)


def version_of(folder, name):
    """The version of the Rust crate that it is a port of; none for the kit's own libraries."""
    readme = folder / "README.md"
    found = readme.exists() and re.search(rf"\b{name}\w*`? (\d+\.\d+\.\d+)", readme.read_text(encoding="utf-8"))
    return found[1] if found else None


def licence_of(folder):
    """The licence, from its files: both, or what the only one says."""
    texts = {it.name: it.read_text(encoding="utf-8") for it in folder.glob("LICENSE*")}
    readme = (folder / "README.md").read_text(encoding="utf-8") if (folder / "README.md").exists() else ""
    if len(texts) == 2 or re.search(r"\(MIT or Apache[- ]2\.0", readme):
        return "MIT OR Apache-2.0"
    return "MIT" if any("Permission is hereby granted, free of charge" in it for it in texts.values()) else "NOASSERTION"


def package(name, version, licence, **more):
    found = {
        "name": name,
        "versionInfo": version,
        "SPDXID": f"SPDXRef-{name.replace('_', '-')}",
        "downloadLocation": "NOASSERTION",
        "filesAnalyzed": False,
        "licenseConcluded": licence,
        "licenseDeclared": licence,
        "copyrightText": "NOASSERTION",
    }
    return found | more


def kit_package(kit, kit_name, name):
    folder = kit / "rattle" / name
    ported = version_of(folder, name)
    if not ported:
        return package(name, kit_name, licence_of(folder), comment="A library of the kit that compiles the library.")
    purl = {"referenceCategory": "PACKAGE-MANAGER", "referenceType": "purl", "referenceLocator": f"pkg:cargo/{name}@{ported}"}
    comment = "A port of this Rust crate, with proved contracts, in the kit that compiles the library."
    return package(name, ported, licence_of(folder), comment=comment, externalRefs=[purl])


def related(name, how, other):
    return {"spdxElementId": f"SPDXRef-{name}", "relationshipType": how, "relatedSpdxElement": f"SPDXRef-{other.replace('_', '-')}"}


def main():
    if len(sys.argv) > 1:
        print(__doc__.strip())
        return 0 if sys.argv[1] in ("-h", "--help") else 2
    kit = Path(output_of("rt", "doc")).parent
    version = (ROOT / "VERSION").read_text(encoding="utf-8").strip()
    kit_name = (kit / "KIT-ID").read_text(encoding="utf-8").split()[0]
    packages = [package(name, version, "MIT OR Apache-2.0", primaryPackagePurpose=purpose) for name, purpose in OWN.items()]
    below = {name: kit_crates(kit, name) for name in OWN}
    packages += [kit_package(kit, kit_name, it) for it in sorted({it for crates in below.values() for it in crates})]
    epoch = int(os.environ.get("SOURCE_DATE_EPOCH") or output_of("git", "log", "-1", "--format=%ct"))
    text = json.dumps(packages, sort_keys=True)
    document = {
        "spdxVersion": "SPDX-2.3",
        "dataLicense": "CC0-1.0",
        "SPDXID": "SPDXRef-DOCUMENT",
        "name": f"naltvigo-{version}",
        "documentNamespace": f"https://naltvigo.invalid/spdx/{version}/{hashlib.sha256(text.encode()).hexdigest()}",
        "creationInfo": {
            "created": time.strftime("%Y-%m-%dT%H:%M:%SZ", time.gmtime(epoch)),
            "creators": ["Tool: scripts/sbom.py", f"Tool: {kit_name}"],
        },
        "packages": packages,
        "relationships": [related("DOCUMENT", "DESCRIBES", name) for name in OWN]
        + [related(name, "STATIC_LINK", it) for name, crates in below.items() for it in crates],
    }
    print(json.dumps(document, indent=2))
    return 0


if __name__ == "__main__":
    sys.exit(main())
