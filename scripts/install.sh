#!/usr/bin/env bash
# Installs the program and the library for C: scripts/install.sh [PREFIX]
#
# PREFIX (/usr/local for root, else ~/.local) gets bin/cborc, its man page and completions, the headers, both libraries, the
# files for pkg-config and CMake, and a list of these files in share/naltvigo, with which scripts/uninstall.sh removes them.
# Both are proved and built first, which needs the kit's rt, unless PROGRAM and DIST name a program and a folder of build_c.sh.
# With PROGRAM=none only the library is installed. With DESTDIR everything is installed below that folder, with the paths that
# it will have at PREFIX. GATE_LOG names the log of .ci/run: then the transcript of its proofs is installed with the documents.
#
# With DATABASES, one or both of the words sqlite and postgresql, their extensions are built and installed too, as the
# README of each in bindings/ says. The extension for PostgreSQL is installed where its pg_config (PG_CONFIG) says, not below PREFIX.
set -euo pipefail
. "$(dirname "${BASH_SOURCE[0]}")/lib/options.sh"
take_options 1 "$@"

root=$(cd "$(dirname "${BASH_SOURCE[0]}")/.." && pwd)
[ "$(id -u)" = 0 ] && prefix=/usr/local || prefix=$HOME/.local
prefix=${1:-$prefix}
case $prefix in /*) ;; *) prefix=$PWD/$prefix ;; esac
prefix=${prefix%/}
to=${DESTDIR:-}$prefix
scratch=$(mktemp -d)
trap 'rm -rf "$scratch"' EXIT

program=${PROGRAM:-}
dist=${DIST:-}
if [ -z "$program" ] || [ -z "$dist" ]; then
    command -v rt >/dev/null || { echo "install: rt, the prover of a Rattle kit, is not on the path; the README says what it is" >&2; exit 1; }
fi
if [ -z "$program" ]; then
    "$root/scripts/build.py" --version >"$scratch/log" 2>&1 || { cat "$scratch/log" >&2; exit 1; }
    program=$root/crates/cborc/out/cborc
fi
if [ -z "$dist" ]; then
    dist=$scratch/dist
    "$root/scripts/build_c.sh" "$dist"
fi

files=()
put() { # FILE TO [MODE]
    install -D -m "${3:-644}" "$1" "$to/$2"
    files+=("$2")
}
if [ "$program" != none ]; then
    "${STRIP:-strip}" --strip-unneeded --remove-section=.comment -o "$scratch/cborc" "$program"
    put "$scratch/cborc" bin/cborc 755
    put "$root/share/cborc.1" share/man/man1/cborc.1
    put "$root/share/cborc.bash" share/bash-completion/completions/cborc
    put "$root/share/_cborc" share/zsh/site-functions/_cborc
    put "$root/share/cborc.fish" share/fish/vendor_completions.d/cborc.fish
fi
# in the same folders, so that their links lead somewhere, with the examples
while IFS= read -r file; do
    put "$root/$file" "share/doc/naltvigo/$file"
done < <(cd "$root" && ls README.md CHANGELOG.md CONTRIBUTING.md SECURITY.md LICENSE-MIT LICENSE-APACHE docs/*.md bindings/*/README.md \
    web/README.md portable/README.md examples/* | grep -v -e '^docs/PROVED.md$' -e '^docs/CALLS.md$')
"$root/scripts/docs.sh" "$scratch/docs"
for file in PROVED.md CALLS.md; do
    put "$scratch/docs/$file" "share/doc/naltvigo/docs/$file"
done
while IFS= read -r file; do
    case $file in *.so.*.*.*) mode=755 ;; *) mode=644 ;; esac
    put "$dist/$file" "$file" $mode
done < <(cd "$dist" && find . -type f | sed 's|^\./||' | sort)
while IFS= read -r file; do
    ln -sfn "$(readlink "$dist/$file")" "$to/$file"
    files+=("$file")
done < <(cd "$dist" && find . -type l | sed 's|^\./||' | sort)
for database in ${DATABASES:-}; do
    . "$root/scripts/lib/databases.sh"
    install_database "$database"
done
put "$root/scripts/uninstall.sh" share/naltvigo/uninstall.sh 755
put "$root/scripts/lib/options.sh" share/naltvigo/lib/options.sh
if [ -n "${GATE_LOG:-}" ]; then
    python3 "$root/scripts/transcript.py" "$GATE_LOG" "$to" >"$scratch/transcript"
    put "$scratch/transcript" share/doc/naltvigo/transcript.txt
fi
printf '%s\n' "${files[@]}" share/naltvigo/files >"$to/share/naltvigo/files"
[ -z "${DESTDIR:-}" ] || exit 0

echo "installed below $prefix; scripts/uninstall.sh $prefix removes it"
case :$PATH: in *":$prefix/bin:"*) ;; *) echo "$prefix/bin is not in PATH" ;; esac
if command -v pkg-config >/dev/null && ! pkg-config --exists naltvigo; then
    echo "pkg-config does not look in $prefix/lib/pkgconfig: export PKG_CONFIG_PATH=$prefix/lib/pkgconfig"
fi
PATH=$PATH:/sbin:/usr/sbin
if command -v ldconfig >/dev/null && ldconfig -v -N -X 2>/dev/null | grep -q "^$prefix/lib:"; then
    ldconfig 2>/dev/null || echo "run ldconfig as root, so that the loader finds the shared object"
else
    echo "the loader does not look in $prefix/lib: link with -Wl,-rpath,$prefix/lib, or with the archive"
fi
