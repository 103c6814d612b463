#!/usr/bin/env bash
# Makes the page that inspects CBOR as one HTML file: scripts/build_page.sh [FILE]
#
# FILE (default: packages/inspector.html) opens from a disk and from any web server, and needs no other file. It contains
# web/, the package for JavaScript and both modules of bindings/js/wasm, as scripts/build_web.sh makes them.
set -euo pipefail
. "$(dirname "${BASH_SOURCE[0]}")/lib/options.sh"
take_options 1 "$@"

root=$(cd "$(dirname "${BASH_SOURCE[0]}")/.." && pwd)
file=${1:-$root/packages/inspector.html}
mkdir -p "$(dirname "$file")"
python3 "$root/scripts/bundle_page.py" "$file"
echo "$file: $(wc -c <"$file") bytes"
