#!/usr/bin/env bash
# Makes the library for C and its shared object: scripts/build_c.sh [--target TRIPLE] [FOLDER [ARCHIVE]]
#
# FOLDER (default: dist, for aarch64 dist-aarch64) gets the headers, lib/libnaltvigo.a, lib/libnaltvigo.so with
# its version, and the files for pkg-config and CMake, in lib/pkgconfig and lib/cmake. Both libraries export only
# naltvigo_*. Two runs make equal bytes. ARCHIVE is what an earlier run compiled, crates/naltvigo/out/libnaltvigo.a; without
# one scripts/compile_library.sh makes it, for which the kit's rt must be on the path. ARCHIVE can also be the assembly,
# portable/naltvigo.S, for which the kit is not needed. TRIPLE is
# x86_64-unknown-linux-gnu, where only the linker of the C compiler (CC) is used, or aarch64-unknown-linux-gnu, which
# needs aarch64-linux-gnu-gcc (or CC) and its binutils: Debian's gcc-aarch64-linux-gnu and libc6-dev-arm64-cross.
set -euo pipefail
. "$(dirname "${BASH_SOURCE[0]}")/lib/options.sh"
takes=--target take_options 2 "$@"
set -- "${words[@]}"

target=${option[--target]:-x86_64-unknown-linux-gnu}
root=$(cd "$(dirname "${BASH_SOURCE[0]}")/.." && pwd)
case $target in
    x86_64-unknown-linux-gnu) tools='' own=dist built=out/libnaltvigo.a ;;
    aarch64-unknown-linux-gnu) tools=aarch64-linux-gnu- own=dist-aarch64 built=out/aarch64/libnaltvigo.a ;;
    *) echo "build_c.sh: no target $target" >&2; exit 2 ;;
esac
dist=${1:-$root/$own}
archive=${2:-}
version=$(cat "$root/VERSION")
major=${version%%.*}
cc=${CC:-${tools:+${tools}gcc}}
cc=${cc:-cc}

scratch=$(mktemp -d)
trap 'rm -rf "$scratch"' EXIT

if [ -z "$archive" ]; then
    archive=$root/crates/naltvigo/$built
    keep=()
    [ -z "${NALTVIGO_MODULES:-}" ] || [ -z "$tools" ] || keep=(--module "$NALTVIGO_MODULES/aarch64.ll")
    "$root/scripts/compile_library.sh" --target "$target" "${keep[@]}" "$archive" >&2
fi
archive=$(realpath "$archive")

# One object, in which all other names are local, also malloc, realloc and free as the kit calls them. The kit's code for these
# calls is for x86-64 only.
case $archive in
    *.S) "$cc" -c "$archive" -o "$scratch/naltvigo.o" ;;
    *)
        (cd "$scratch" && "${tools}ar" x "$archive")
        if [ -z "$tools" ]; then
            (cd "$scratch" && ar x "$(dirname "$(rt doc)")/c/liblibc_c.a" heap.pic.o)
        else
            "$cc" -O2 -fPIC -fstack-clash-protection -Wall -Wextra -Werror -c "$root/platform/heap_over_malloc.c" -o "$scratch/heap.pic.o"
        fi
        ;;
esac
"${tools}ld" -r -o "$scratch/all.o" "$scratch"/naltvigo*.o $(find "$scratch" -name heap.pic.o)
"${tools}objcopy" --wildcard --keep-global-symbol='naltvigo_*' "$scratch/all.o"
"${tools}strip" --strip-unneeded --remove-section=.comment "$scratch/all.o"

rm -rf "$dist"
mkdir -p "$dist/include" "$dist/lib/pkgconfig" "$dist/lib/cmake/naltvigo"
cp "$root"/include/*.h "$dist/include"
"${tools}ar" rcsD "$dist/lib/libnaltvigo.a" "$scratch/all.o"
echo '{ global: naltvigo_*; local: *; };' >"$scratch/exports"
"$cc" -shared -o "$dist/lib/libnaltvigo.so.$version" "$scratch/all.o" -Wl,-soname,"libnaltvigo.so.$major" \
    -Wl,--version-script="$scratch/exports" -Wl,--gc-sections -Wl,-z,defs -Wl,-z,relro -Wl,-z,now -Wl,-z,noexecstack
"${tools}strip" --strip-unneeded --remove-section=.comment "$dist/lib/libnaltvigo.so.$version"
ln -s "libnaltvigo.so.$version" "$dist/lib/libnaltvigo.so.$major"
ln -s "libnaltvigo.so.$major" "$dist/lib/libnaltvigo.so"
for file in pkgconfig/naltvigo.pc cmake/naltvigo/naltvigo-config.cmake cmake/naltvigo/naltvigo-config-version.cmake; do
    sed "s/@VERSION@/$version/; s/@MAJOR@/$major/; s|@UP@|../..|" "$root/share/${file##*/}.in" >"$dist/lib/$file"
done
