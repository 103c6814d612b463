#!/usr/bin/env bash
# Makes the library as WebAssembly as the kit does, for a release: scripts/build_web_release.sh LIBRARIES [FOLDER]
#
# FOLDER (default: bindings/js/wasm) gets naltvigo64.wasm and naltvigo32.wasm as build_web.sh makes them, without vectors;
# but the verdict of the proof, which is the last line, names wasm64. For this, one attribute makes the kit's libc import its
# heap on wasm64 (platform/libc_on_wasm64.patch), and all that uses libc is proved again: the kit's libraries from libc to std,
# and ours. They are stored in LIBRARIES: about 90 minutes, and at most 13 GB. What an earlier run left there is used. The
# kit's compiler, the lowering and platform/heap_of_module.c are then trusted. The gate does not run this.
# It needs the kit's rt on the path, patch, and wasm-opt: Debian's binaryen. JOBS is how many checks run at once.
set -euo pipefail
. "$(dirname "${BASH_SOURCE[0]}")/lib/options.sh"
take_options 2 "$@"
[ $# != 0 ] || { echo 'build_web_release.sh: which LIBRARIES? --help says more' >&2; exit 2; }
root=$(cd "$(dirname "${BASH_SOURCE[0]}")/.." && pwd)
kit=$(dirname "$(rt doc)")
mkdir -p "$1"
libraries=$(realpath "$1")
folder=${2:-$root/bindings/js/wasm}
mkdir -p "$folder"
folder=$(realpath "$folder")
scratch=$(mktemp -d)
trap 'rm -rf "$scratch"' EXIT
for tool in patch wasm-opt; do
    command -v $tool >/dev/null || { echo "build_web_release.sh: $tool is missing" >&2; exit 1; }
done

is_built() { [ -e "$libraries/$1.rlib/format" ]; }

# Proves a library and stores it: prove NAME SOURCE DEPENDENCY ..
prove() {
    local name=$1 source=$2 words=() dep began=$SECONDS
    shift 2
    for dep in "$@"; do words+=(--extern "$dep=$libraries/$dep.rlib"); done
    words+=(-L "dependency=$libraries" --antt-project "$kit/rattle/logic/antt-project.json" --logic-built "$kit/logic_built")
    (cd "$source" && "$kit/bin/rattle" build --crate-name "$name" src/lib.rt "${words[@]}" --jobs "${JOBS:-1}" --statements \
        --links "$name=" -o "$libraries/$name.rlib") >"$scratch/log" 2>&1 || { cat "$scratch/log" >&2; exit 1; }
    echo "$name, $((SECONDS - began)) s: $(tail -1 "$scratch/log")"
}

# The libraries with which the kit proved one of its own libraries.
kit_dependencies() { sed -n 's/^dep //p' "$kit/rlibs/$1.rlib/format"; }

# The kit's libraries that do not depend on libc are used as they are; libc is changed, and the others are proved with that.
for name in core std_alloc std_collections; do
    ln -sfn "$kit/rlibs/$name.rlib" "$libraries/$name.rlib"
done
for name in libc std_heap io os std_io std; do
    ! is_built $name || continue
    cp -a "$kit/rattle/$name" "$scratch/$name"
    chmod -R u+w "$scratch/$name"
    [ $name != libc ] || patch -s -p1 -d "$scratch/libc" <"$root/platform/libc_on_wasm64.patch"
    # shellcheck disable=SC2046
    prove $name "$scratch/$name" $(kit_dependencies $name)
done

# A library below naltvigo, and the libraries that it needs, the kit's or ours.
needs() { sed -n "s/^$1\( staticlib\)\?: *//p" "$root/crates.txt"; }
build() {
    local name=$1 dep found
    ! is_built "$name" || return 0
    if [ -d "$root/crates/$name" ]; then found=$(needs "$name"); else found=$(kit_dependencies "$name"); fi
    for dep in $found; do build "$dep"; done
    # shellcheck disable=SC2086
    if [ -d "$root/crates/$name" ]; then
        prove "$name" "$root/crates/$name" std $found
    else
        prove "$name" "$kit/rattle/$name" $found
    fi
}
for name in $(needs naltvigo); do build "$name"; done

# ---- compiled, with its heap so that nothing is imported, and linked

"$root/scripts/compile_library.sh" --target wasm64-unknown-unknown --libraries "$libraries" "$scratch/naltvigo.a" >"$scratch/verdict"
"$kit/toolchain/bin/clang" --target=wasm64-unknown-unknown -mcpu=lime1 -O2 -ffreestanding -nostdinc -Wall -Wextra -Werror -DIMPORTS \
    -c "$root/platform/heap_of_module.c" -o "$scratch/heap.o"
"$kit/toolchain/bin/llvm-ar" r "$scratch/naltvigo.a" "$scratch/heap.o"
"$kit/bin/rattle-link" --target wasm64-unknown-unknown --toolchain "$kit/toolchain" --stack 131072 -o "$folder/naltvigo64.wasm" "$scratch/naltvigo.a"
"$root/scripts/lower_memory.sh" "$folder/naltvigo64.wasm" "$folder/naltvigo32.wasm"
ls -l "$folder"/naltvigo64.wasm "$folder"/naltvigo32.wasm
cat "$scratch/verdict"
