#!/usr/bin/env bash
# Removes what scripts/install.sh, or an archive, put below a prefix: scripts/uninstall.sh [PREFIX]
#
# PREFIX is as with install.sh; PREFIX/share/naltvigo/uninstall.sh needs none. Nothing else is removed, and folders
# only if they are empty then.
set -euo pipefail
. "$(dirname "${BASH_SOURCE[0]}")/lib/options.sh"
take_options 1 "$@"

here=$(cd "$(dirname "${BASH_SOURCE[0]}")" && pwd)
if [ -e "$here/files" ]; then
    prefix=${here%/share/naltvigo}
else
    [ "$(id -u)" = 0 ] && prefix=/usr/local || prefix=$HOME/.local
fi
prefix=${1:-$prefix}
list=$prefix/share/naltvigo/files
[ -e "$list" ] || { echo "uninstall: nothing is installed below $prefix: $list does not exist" >&2; exit 1; }
mapfile -t files <"$list"
for file in "${files[@]}"; do
    rm -f "$prefix/$file"
done
for file in "${files[@]}"; do
    folder=${file%/*}
    while [ "$folder" != "$file" ] && rmdir "$prefix/$folder" 2>/dev/null; do
        case $folder in */*) folder=${folder%/*} ;; *) break ;; esac
    done
done
echo "removed from $prefix"
