#!/usr/bin/env bash
# Lowers a WebAssembly module from 64-bit to 32-bit memory: scripts/lower_memory.sh MODULE LOWERED
#
# Addresses are cut to 32 bits where the memory is read and written; functions still take and return 64-bit ones. It needs
# wasm-opt, from Debian's binaryen.
set -euo pipefail
. "$(dirname "${BASH_SOURCE[0]}")/lib/options.sh"
take_options 2 "$@"
wasm-opt --enable-memory64 --enable-bulk-memory --enable-sign-ext --enable-mutable-globals --enable-nontrapping-float-to-int \
    --enable-multivalue --memory64-lowering "$1" -o "$2"
