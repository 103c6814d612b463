#!/usr/bin/env bash
# Makes a release: scripts/release.sh [FOLDER]
#
# FOLDER (default: packages) gets the source archive, archives of the library for C for each target, what package.sh makes for
# x86-64 and aarch64, wheels for riscv64 and musl, the sdist for Python, the crate, the npm package, the page, the Go module, an
# SBOM and the transcript, and SHA256SUMS of all. Everything but the npm package and the page is made from the assembly. Two runs on one
# commit make equal bytes. It refuses changes that are not committed, and assembly in portable/ that is not made from this
# commit's sources. The kit's rt must be on the path. GATE_LOG, DEBFULLNAME and DEBEMAIL are as with package.sh. NALTVIGO_MODULES is a
# folder of modules.sh; what it lacks for WebAssembly is proved first. What needs a missing tool is left out, and named at the
# end; then the status is 1.
set -euo pipefail
. "$(dirname "${BASH_SOURCE[0]}")/lib/options.sh"
. "$(dirname "${BASH_SOURCE[0]}")/lib/crate.sh"
take_options 1 "$@"
root=$(cd "$(dirname "${BASH_SOURCE[0]}")/.." && pwd)
folder=${1:-$root/packages}
mkdir -p "$folder"
folder=$(cd "$folder" && pwd)
version=$(cat "$root/VERSION")
scratch=$(mktemp -d)
trap 'rm -rf "$scratch"' EXIT
umask 022
fail() { echo "release: $*" >&2; exit 1; }
left_out=()
have() { # WHAT TOOL ..
    local tool
    for tool in "${@:2}"; do
        command -v "$tool" >/dev/null || { left_out+=("$1: $tool is missing"); return 1; }
    done
}

# ---- what is released

cd "$root"
[ -z "$(git status --porcelain)" ] || fail 'there are changes that are not committed'
python3 scripts/version.py || fail 'the version is not the same everywhere'
python3 scripts/portable.py --check ${NALTVIGO_MODULES:+--modules "$NALTVIGO_MODULES"} || fail 'the assembly is stale'
# The modes of files in a clone follow the umask of whoever made it, and npm packs them.
git ls-files -z | xargs -0 chmod a+rX,go-w
SOURCE_DATE_EPOCH=$(git log -1 --format=%ct)
export SOURCE_DATE_EPOCH
[ -z "$(find "$folder" -mindepth 1 -print -quit)" ] || fail "$folder is not empty"
packed() { # NAME: the folder $scratch/NAME as an archive
    tar -C "$scratch" --sort=name --mtime="@$SOURCE_DATE_EPOCH" --owner=0 --group=0 --numeric-owner --mode=go-w -cf - "$1" | gzip -9n >"$folder/$1.tar.gz"
}

git -c tar.umask=0022 archive --format=tar --prefix="naltvigo-$version/" HEAD | gzip -9n >"$folder/naltvigo-$version-source.tar.gz"

# ---- the library for C: headers and an archive, for each target

c_archive() { # NAME TRIPLE ARCHIVE [WORD ..]
    local to=$scratch/naltvigo-$version-c-$1
    mkdir -p "$to/include" "$to/lib"
    cp include/*.h "$to/include"
    cp LICENSE-* CHANGELOG.md "$to"
    cat >"$to/README.md" <<README
# Naltvigo $version for C: $1

\`include/\` has the headers, and \`lib/$3\` is the library, for example:

    $([ "${3##*.}" = a ] && echo "cc -Iinclude program.c lib/$3" || echo "cl /Iinclude program.c lib\\$3")

The source archive of this version has the documents: \`docs/C.md\` on how to use the library, \`portable/README.md\` on how it was
built from proved code, and \`docs/PLATFORMS.md\` on where it was tested.
README
    clang --target="$2" "${@:4}" -c portable/naltvigo.S -o "$scratch/naltvigo.o"
    llvm-ar --format="$(case $2 in *apple*) echo darwin ;; *) echo gnu ;; esac)" rcsD "$to/lib/$3" "$scratch/naltvigo.o"
    packed "${to##*/}"
}
if have 'the library for C' clang llvm-ar; then
    c_archive linux-x86_64 x86_64-linux-gnu libnaltvigo.a
    c_archive linux-aarch64 aarch64-linux-gnu libnaltvigo.a
    c_archive linux-riscv64 riscv64-linux-gnu libnaltvigo.a -march=rv64gc -mabi=lp64d
    c_archive macos-x86_64 x86_64-apple-macos11 libnaltvigo.a
    c_archive macos-arm64 arm64-apple-macos11 libnaltvigo.a
    c_archive windows-x86_64-mingw x86_64-w64-mingw32 libnaltvigo.a
    # MSVC's own assembler does not read the files; its linker takes what clang made of them. The function that touches the
    # stack has another name there.
    c_archive windows-x86_64-msvc x86_64-w64-mingw32 naltvigo.lib -D___chkstk_ms=__chkstk
fi

# ---- packages

unset PROGRAM DIST NALTVIGO_LIB
scripts/package.sh "$folder"
if have 'packages for aarch64' aarch64-linux-gnu-gcc; then
    scripts/package.sh --target aarch64-unknown-linux-gnu "$scratch/aarch64"
    for it in "$scratch"/aarch64/*; do
        case $it in *_all.deb) ;; *) mv "$it" "$folder" ;; esac
    done
fi
scripts/package_go.py "$folder" >/dev/null
export PYTHONDONTWRITEBYTECODE=1
python3 bindings/python/build_wheel.py --sdist "$folder" >/dev/null
for it in riscv64-linux-gnu-gcc musl-gcc; do
    ! have "the wheel by $it" "$it" || CC=$it python3 bindings/python/build_wheel.py "$folder" >/dev/null
done
if have 'the crate' cargo; then
    crate_folder "$scratch/crate"
    mkdir -p "$scratch/cargo"
    cp scripts/lib/debian_crates.toml "$scratch/cargo/config.toml"
    (cd "$scratch/crate" && CARGO_HOME=$scratch/cargo CARGO_TARGET_DIR=$scratch/target cargo package --offline --no-verify --allow-dirty -q)
    cp "$scratch"/target/package/*.crate "$folder"
fi
if have 'the npm package, and the page' node npm wasm-opt; then
    scripts/build_web.sh >/dev/null
    (cd bindings/js && npm pack --silent --pack-destination "$folder" >/dev/null)
    scripts/build_page.sh "$folder/inspector.html"
fi
scripts/sbom.py >"$folder/naltvigo-$version.spdx.json"
if [ -n "${GATE_LOG:-}" ]; then
    tar -xzOf "$folder/naltvigo-$version-linux-x86_64.tar.gz" "naltvigo-$version-linux-x86_64/share/doc/naltvigo/transcript.txt" >"$folder/transcript.txt"
else
    left_out+=('the transcript: GATE_LOG names no log of the gate')
fi
if have 'the check of the Debian packages' lintian; then
    lintian --fail-on error,warning --suppress-tags-from-file share/debian/explained.txt "$folder"/*.deb
fi

(cd "$folder" && sha256sum -- * >"$scratch/sums" && mv "$scratch/sums" SHA256SUMS)
ls -l "$folder"
for it in ${left_out[@]+"${left_out[@]}"}; do echo "release: left out: $it" >&2; done
[ ${#left_out[@]} = 0 ]
