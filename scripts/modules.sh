#!/usr/bin/env bash
# Proves and compiles, and stores the LLVM modules: scripts/modules.sh FOLDER NAME ..
#
# Makes FOLDER/NAME.ll if it does not exist. NAME is x86-64, x86-64-v2 or aarch64, the library for this processor, or cborc,
# the program for x86-64. With libraries as `rt ci` leaves them it takes two proofs of two minutes: one of the library, for all
# its modules, and one of the program. The kit's rt must be on the path. LIBRARIES, if it is set, is the folder for --libraries
# of compile_library.sh.
set -euo pipefail
. "$(dirname "${BASH_SOURCE[0]}")/lib/options.sh"
take_options 9 "$@"
[ $# -gt 1 ] || { echo 'modules.sh: which FOLDER and NAME? --help says more' >&2; exit 2; }
root=$(cd "$(dirname "${BASH_SOURCE[0]}")/.." && pwd)
folder=$(realpath -m "$1")
shift
mkdir -p "$folder"
scratch=$(mktemp -d)
trap 'rm -rf "$scratch"' EXIT
export NALTVIGO_WORK=${NALTVIGO_WORK:-$scratch/work}
for name in "$@"; do
    case $name in
        x86-64) before=() after=(--cpu x86-64) ;;
        x86-64-v2) before=() after=() ;;
        aarch64) before=(--target aarch64-unknown-linux-gnu) after=() ;;
        cborc) before=(--program) after=(--cpu x86-64) ;;
        *) echo "modules.sh: no module $name" >&2; exit 2 ;;
    esac
    [ ! -e "$folder/$name.ll" ] || continue
    "$root/scripts/compile_library.sh" "${before[@]}" ${LIBRARIES:+--libraries "$LIBRARIES"} --module "$scratch/$name.ll" "$scratch/unused" "${after[@]}"
    mv "$scratch/$name.ll" "$folder/$name.ll"
done
