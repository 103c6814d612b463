#!/usr/bin/env bash
# Makes the packages: scripts/package.sh [--target TRIPLE] [FOLDER]
#
# FOLDER (default: packages) gets naltvigo-VERSION-linux-MACHINE.tar.gz, whose folders belong below any prefix, the Debian
# packages of share/debian/control if dpkg-deb is installed, and the wheel for Python. Two runs on equal files and one commit
# make equal bytes. Program and library are assembled from portable/, so that they run on each processor of the machine, or are
# given by PROGRAM and DIST, as with install.sh. If portable/ has no assembly they are built as by install.sh, and for the target
# aarch64-unknown-linux-gnu the packages have only the library, since the kit has the program's C part only for x86-64.
# GATE_LOG names the log of .ci/run: then each package has the transcript of its proofs. DEBFULLNAME and DEBEMAIL name the
# maintainer of the Debian packages.
set -euo pipefail
. "$(dirname "${BASH_SOURCE[0]}")/lib/options.sh"
. "$(dirname "${BASH_SOURCE[0]}")/lib/debian.sh"
takes=--target take_options 1 "$@"
set -- "${words[@]}"

root=$(cd "$(dirname "${BASH_SOURCE[0]}")/.." && pwd)
target=${option[--target]:-x86_64-unknown-linux-gnu}
case $target in
    x86_64-unknown-linux-gnu) machine=x86_64 architecture=amd64 tools= ;;
    aarch64-unknown-linux-gnu) machine=aarch64 architecture=arm64 tools=aarch64-linux-gnu- ;;
    *) echo "package.sh: no target $target" >&2; exit 2 ;;
esac
folder=${1:-$root/packages}
mkdir -p "$folder"
folder=$(cd "$folder" && pwd)
version=$(cat "$root/VERSION")
scratch=$(mktemp -d)
trap 'rm -rf "$scratch"' EXIT
# The time of all files: that of the commit, or, without git, the day of the release.
released=$(sed -n "s/^## $version (\(.*\))/\1/p" "$root/CHANGELOG.md")
export SOURCE_DATE_EPOCH=${SOURCE_DATE_EPOCH:-$(git -C "$root" log -1 --format=%ct 2>/dev/null || date -u -d "$released" +%s)}
umask 022

[ -z "$tools" ] || export CC=${CC:-${tools}gcc} STRIP=${tools}strip
assembly=
[ ! -e "$root/portable/naltvigo-$machine-elf.S" ] || assembly=$root/portable/naltvigo.S
if [ -z "${DIST:-}" ]; then
    "$root/scripts/build_c.sh" --target "$target" "$scratch/dist" ${assembly:+"$assembly"}
    DIST=$scratch/dist
fi
if [ -z "${PROGRAM:-}" ] && [ -n "$assembly" ]; then
    make -s -C "$root/portable" "OUT=$scratch/made" "CC=${CC:-cc}" "$scratch/made/cborc"
    PROGRAM=$scratch/made/cborc
elif [ -z "${PROGRAM:-}" ] && [ -n "$tools" ]; then
    PROGRAM=none
fi
export DIST
[ -z "${PROGRAM:-}" ] || export PROGRAM
DESTDIR=$scratch/all "$root/scripts/install.sh" /usr
[ -n "${GATE_LOG:-}" ] || echo 'no transcript: GATE_LOG names no log of the gate' >&2

name=naltvigo-$version-linux-$machine
mv "$scratch/all/usr" "$scratch/$name"
tar -C "$scratch" --sort=name --mtime="@$SOURCE_DATE_EPOCH" --owner=0 --group=0 --numeric-owner --mode=go-w -cf - "$name" |
    gzip -9n >"$folder/$name.tar.gz"
echo "$folder/$name.tar.gz"

if command -v dpkg-deb >/dev/null; then
    (make_debian "$scratch/$name" "$folder")
else
    echo 'no Debian packages: dpkg-deb is not installed' >&2
fi

# from the assembly in portable/ if it exists, so that its label for plain x86-64 is true
[ -n "$assembly" ] || export NALTVIGO_LIB=$DIST/lib
wheel=$(PYTHONDONTWRITEBYTECODE=1 python3 "$root/bindings/python/build_wheel.py" "$folder")
echo "$folder/$wheel"
