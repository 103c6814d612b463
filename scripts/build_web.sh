#!/usr/bin/env bash
# Makes the library as WebAssembly: scripts/build_web.sh [FOLDER]
#
# FOLDER (default: bindings/js/wasm) gets naltvigo64.wasm, with 64-bit memory and vectors, and naltvigo32.wasm, the same
# lowered to 32-bit memory, without vectors. It needs the kit's rt on the path, libraries as `rt ci` leaves them, and
# wasm-opt: Debian's binaryen. Two runs make equal bytes. NALTVIGO_MODULES is a folder of scripts/modules.sh, whose module is used.
#
# The kit's compiler does not compile code that allocates to wasm64. So naltvigo is proved and compiled for x86-64 without any
# later processor's instructions; the LLVM module that the compiler passes to clang is stored, retargeted, and compiled by
# the same clang for wasm64. Therefore the proof's verdict names x86-64, and this script and platform/heap_of_module.c are
# trusted. It refuses a module with anything of x86-64 in it. scripts/build_web_release.sh compiles as the kit does.
set -euo pipefail
. "$(dirname "${BASH_SOURCE[0]}")/lib/options.sh"
take_options 1 "$@"
root=$(cd "$(dirname "${BASH_SOURCE[0]}")/.." && pwd)
folder=${1:-$root/bindings/js/wasm}
kit=$(dirname "$(rt doc)")
clang=$kit/toolchain/bin/clang
scratch=$(mktemp -d)
trap 'rm -rf "$scratch"' EXIT
fail() { echo "build_web.sh: $*" >&2; exit 1; }
command -v wasm-opt >/dev/null || fail "wasm-opt is missing: Debian's binaryen has it"
mkdir -p "$folder"

# ---- the LLVM module, retargeted

modules=${NALTVIGO_MODULES:-$scratch}
"$root/scripts/modules.sh" "$modules" x86-64
"$root/scripts/retarget.py" wasm64-unknown-unknown <"$modules/x86-64.ll" >"$scratch/wasm.ll"
exports=$(sed -n 's/^define [^@]*@\(naltvigo_[a-z_]*\)(.*/--export=\1/p' "$scratch/wasm.ll")
[ -n "$exports" ] || fail 'the module exports nothing'

# ---- compiled and linked

# the options with which the kit's compiler itself calls clang for wasm64
target=(--target=wasm64-unknown-unknown -mcpu=lime1)
words=("${target[@]}" -mllvm -expand-div-rem-bits=64 -mllvm -expand-fp-convert-bits=64 -ffunction-sections -fdata-sections
    -mllvm -trap-unreachable -mllvm -disable-machine-licm -mllvm -disable-postra-machine-licm -mllvm -sink-common-insts=false
    --no-default-config -fno-crash-diagnostics -O3)
"$clang" "${target[@]}" -O2 -ffreestanding -nostdinc -Wall -Wextra -Werror -c "$root/platform/heap_of_module.c" -o "$scratch/heap.o"
link() { # OBJECT MODULE
    # shellcheck disable=SC2086
    "$kit/toolchain/bin/ld.lld" -flavor wasm -mwasm64 --no-entry --stack-first -z stack-size=131072 --gc-sections --strip-all $exports "$1" "$scratch/heap.o" -o "$2"
}
"$clang" "${words[@]}" -msimd128 -c -x ir "$scratch/wasm.ll" -o "$scratch/vectors.o"
link "$scratch/vectors.o" "$folder/naltvigo64.wasm"
"$clang" "${words[@]}" -c -x ir "$scratch/wasm.ll" -o "$scratch/plain.o"
link "$scratch/plain.o" "$scratch/plain.wasm"
"$root/scripts/lower_memory.sh" "$scratch/plain.wasm" "$folder/naltvigo32.wasm"
chmod 644 "$folder"/naltvigo64.wasm "$folder"/naltvigo32.wasm # the linker makes programs
ls -l "$folder"/naltvigo64.wasm "$folder"/naltvigo32.wasm
