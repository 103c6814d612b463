#!/usr/bin/env bash
# Writes PROVED.md, the contract of each public call, and CALLS.md, the documentation of each: scripts/docs.sh [FOLDER]
#
# FOLDER is docs/ of the repository by default, where git ignores both files. It takes about a second, and needs Python alone.
# scripts/install.sh and scripts/package.sh put both into what they make.
set -euo pipefail
. "$(dirname "${BASH_SOURCE[0]}")/lib/options.sh"
take_options 1 "$@"
root=$(cd "$(dirname "${BASH_SOURCE[0]}")/.." && pwd)
python3 "$root/scripts/proved.py" "${1:-$root/docs}"
