#!/usr/bin/env bash
# Tests the library as WebAssembly and the package for JavaScript: scripts/test_web.sh [LIBRARY]
#
# The modules are in bindings/js/wasm, as scripts/build_web.sh makes them. The heap of the module alone, and the package:
# the tables, values, streams, hostile inputs, refused memory, and random calls, compared with LIBRARY, the x86-64 library; in
# Node, with the module of 32-bit memory, and once more with that of 64-bit memory. That retarget.py refuses what it must; the
# types; the package as npm installs it in an empty folder; planted bugs. It needs Node 20 or later, and the kit's rt on
# the path. The last line names what else is missing; it begins 'web: all well', or the status is not 0.
set -euo pipefail
. "$(dirname "${BASH_SOURCE[0]}")/lib/options.sh"
. "$(dirname "${BASH_SOURCE[0]}")/lib/testing.sh"
. "$(dirname "${BASH_SOURCE[0]}")/lib/web.sh"
take_options 1 "$@"
begin_tests web
package=$root/bindings/js
kit=$(dirname "$(rt doc)")

need_node_and_modules

# ---- in Node, which needs no flag for 64-bit memory in later versions

node_with() { # 32 | 64, WORD ..
    local flag=()
    if [ "$1" = 64 ] && ! node -e "$memory64" 2>/dev/null; then flag=(--experimental-wasm-memory64); fi
    node "${flag[@]}" "${@:2}"
}
memory64='process.exit(WebAssembly.validate(Uint8Array.of(0, 97, 115, 109, 1, 0, 0, 0, 5, 3, 1, 4, 1)) ? 0 : 1)'
tests() { # NAME 32 | 64, FILE ..
    run_tests "$1, $2-bit memory" node_with "$2" --test "${@:3}"
    [ "$(sed -n 's/^# skipped //p' "$scratch/log")" = 0 ] || [ -z "${VECTORS:-}" ] || fail "$1: a test was skipped"
}
widths=(32)
if node_with 64 -e "$memory64" 2>/dev/null; then widths+=(64); else missing+=('64-bit memory in Node'); fi
! node -e "$memory64" 2>/dev/null || widths=(64)

# ---- the heap of the module, alone

target=(--target=wasm64-unknown-unknown -mcpu=lime1 -O2 -ffreestanding -nostdinc -Wall -Wextra -Werror)
for name in heap_of_module heap_test; do
    "$kit/toolchain/bin/clang" "${target[@]}" -c "$root/platform/$name.c" -o "$scratch/$name.o"
done
"$kit/toolchain/bin/ld.lld" -flavor wasm -mwasm64 --no-entry --stack-first -z stack-size=131072 --gc-sections "$scratch"/heap_*.o -o "$scratch/heap64.wasm"
if command -v wasm-opt >/dev/null; then
    "$root/scripts/lower_memory.sh" "$scratch/heap64.wasm" "$scratch/heap32.wasm"
    HEAP=$scratch/heap32.wasm tests 'the heap' 32 "$root/platform/heap.test.mjs"
else
    missing+=("wasm-opt (Debian: binaryen)")
fi
[[ " ${widths[*]} " != *" 64 "* ]] || HEAP=$scratch/heap64.wasm tests 'the heap' 64 "$root/platform/heap.test.mjs"

# ---- what retarget.py refuses

printf '%s\n' 'target datalayout = "e-m:e-p270:32:32-i64:64-i128:128-f80:128-n8:16:32:64-S128"' 'target triple = "x86_64-unknown-linux-gnu"' \
    'define i64 @f(i64 %0) #0 { ret i64 %0 }' 'attributes #0 = { nounwind "target-cpu"="x86-64" }' >"$scratch/good.ll"
"$root/scripts/retarget.py" wasm64-unknown-unknown <"$scratch/good.ll" >"$scratch/retargeted.ll" || fail 'retarget.py refuses a plain module'
! grep -q x86 "$scratch/retargeted.ll" || fail 'retarget.py leaves something of x86-64'
for line in 'define void @g() { call void asm sideeffect "pause", ""() ret void }' 'declare i32 @llvm.x86.sse42.crc32.32.8(i32, i8)' \
    'declare void @exit(i32)' 'define x86_fp80 @g(x86_fp80 %0) { ret x86_fp80 %0 }' 'attributes #1 = { "thunk" }'; do
    { cat "$scratch/good.ll"; echo "$line"; } >"$scratch/bad.ll"
    ! "$root/scripts/retarget.py" wasm64-unknown-unknown <"$scratch/bad.ll" >/dev/null 2>&1 || fail "retarget.py lets pass: $line"
done
! sed 's/x86_64-/i686-/' "$scratch/good.ll" | "$root/scripts/retarget.py" wasm64-unknown-unknown >/dev/null 2>&1 || fail 'retarget.py lets another triple pass'
say 'retarget.py refuses assembler, intrinsics, unknown calls, types and attributes'

# ---- the package

if [ -n "${1:-}" ]; then
    python3 "$root/fuzz/vectors.py" "$1" 10000 >"$scratch/vectors"
    export VECTORS=$scratch/vectors
fi
for width in "${widths[@]}"; do
    tests 'the package' "$width" "$package"/tests/*.test.mjs
done
if command -v jsc >/dev/null; then
    [ "$(jsc "$package/tests/jsc.js" -- "$package/wasm/naltvigo32.wasm")" = 'the canonical bytes' ] || fail "Safari's engine"
    say "Safari's engine takes naltvigo32.wasm"
else
    missing+=("jsc (Debian: libjavascriptcoregtk-4.0-bin)")
fi
if command -v tsc >/dev/null; then
    tsc -p "$package/tests/tsconfig.json" >"$scratch/log" || { cat "$scratch/log"; fail 'the types'; }
    say 'the types hold'
else
    missing+=("tsc (Debian: node-typescript)")
fi

# ---- as it is installed, without a network

if command -v npm >/dev/null && command -v esbuild >/dev/null; then
    tarball=$(cd "$package" && npm pack --silent --offline --pack-destination "$scratch")
    mkdir "$scratch/project"
    cd "$scratch/project"
    echo '{ "private": true, "type": "module" }' >package.json
    npm install --silent --offline --no-audit --no-fund "$scratch/$tarball" >"$scratch/log" 2>&1 || { cat "$scratch/log"; fail 'npm install'; }
    echo "import { encode } from 'naltvigo'; console.log(Buffer.from(encode({ Amt: -2, Fun: true })).toString('hex'));" >program.js
    [ "$(node program.js)" = a263416d74216346756ef5 ] || fail 'the installed package'
    echo "const { encode } = require('naltvigo'); console.log(Buffer.from(encode({ Amt: -2, Fun: true })).toString('hex'));" >program.cjs
    [ "$(node program.cjs)" = a263416d74216346756ef5 ] || fail 'the installed package by require'
    [ "$(echo bf6346756ef563416d7421ff | node node_modules/naltvigo/examples/values.mjs)" = a263416d74216346756ef5 ] || fail 'the example of the installed package'
    PROJECT=$scratch/project tests "the README's programs and both kinds of modules, installed" 32 "$package"/tests/readme.test.mjs "$package"/tests/installed.mjs
    mkdir bundled
    cp -r node_modules bundled
    (cd bundled && "$root/scripts/run_readme.py" sh "$package/README.md" >"$scratch/log" 2>&1) || { cat "$scratch/log"; fail "the README's bundle"; }
    mkdir alone && mv bundled/bundle.mjs alone
    [ "$(node alone/bundle.mjs)" = "{ name: 'x' }" ] || fail "the README's bundle, alone"
    if command -v tsc >/dev/null; then
        cp "$package/tests/types.ts" types.mts
        cp "$package/tests/required.cts" "$package/tests/tsconfig.json" .
        sed -i 's/"types.ts"/"types.mts", "required.cts"/' tsconfig.json
        tsc -p tsconfig.json >"$scratch/log" || { cat "$scratch/log"; fail 'the types of the installed package'; }
        say 'the types of the installed package hold, for import and for require'
    fi
    say "npm installs $tarball in an empty folder, and it runs"
else
    command -v npm >/dev/null || missing+=(npm)
    command -v esbuild >/dev/null || missing+=("esbuild (Debian: esbuild)")
fi

# ---- bugs that are planted in the package, some at each commit

node "$package/tests/planted.mjs" || fail 'a planted bug is not found'
end_tests
