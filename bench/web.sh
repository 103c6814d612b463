#!/usr/bin/env bash
# Compares the speed of the package for JavaScript with that of the library for C, as a Markdown table: bench/web.sh [DIST]
#
# DIST is as scripts/build_c.sh makes it (default: dist), the modules are in bindings/js/wasm. Each engine that is installed
# runs alone, one after another: Node, also with 64-bit memory, Chromium and Firefox (Debian's chromium, firefox-esr).
set -euo pipefail

case ${1:-} in -h | --help) sed -n '2,/^set /s/^# \{0,1\}//p' "$0"; exit ;; esac
root=$(cd "$(dirname "${BASH_SOURCE[0]}")/.." && pwd)
dist=$(realpath "${1:-$root/dist}")
web=$root/bench/web
scratch=$(mktemp -d)
trap 'rm -rf "$scratch"' EXIT

mkdir "$scratch/inputs"
python3 "$root/bench/inputs.py" "$scratch/inputs"
"${CC:-cc}" -O2 -std=c99 -D_POSIX_C_SOURCE=200112L -Wall -Wextra -Werror "-I$dist/include" "$web/native.c" "$dist/lib/libnaltvigo.a" -o "$scratch/native"
"$scratch/native" "$scratch/inputs" >"$scratch/results"
node "$web/in_node.mjs" "$scratch/inputs" >>"$scratch/results"
! node --experimental-wasm-memory64 "$web/in_node.mjs" "$scratch/inputs" >"$scratch/log" 2>/dev/null || cat "$scratch/log" >>"$scratch/results"
! command -v chromium >/dev/null || node "$web/in_browser.mjs" "$scratch/inputs" chromium --headless --no-sandbox --disable-gpu >>"$scratch/results"
! command -v firefox-esr >/dev/null || node "$web/in_browser.mjs" "$scratch/inputs" firefox-esr --headless --no-remote >>"$scratch/results"
python3 "$web/table.py" <"$scratch/results"
