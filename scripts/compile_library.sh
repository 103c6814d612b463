#!/usr/bin/env bash
# Proves and compiles crates/naltvigo as a static library, or crates/cborc as an object file:
#     scripts/compile_library.sh [--program] [--target TRIPLE] [--toolchain FOLDER] [--libraries FOLDER] [--module FILE] ARCHIVE [WORD ..]
#
# ARCHIVE is for x86_64-unknown-linux-gnu, or another TRIPLE that the kit's compiler knows. The kit's rt must be on the
# path. If the libraries are as `rt ci` leaves them, only the crate is proved once more, in two minutes; else all that changed
# since rt's own last check. With --libraries all of them come from that folder. FOLDER of --toolchain replaces the
# kit's own. FILE of --module gets the LLVM module that the compiler passes to clang, as text. With --program ARCHIVE is
# the object file of cborc. Each WORD goes to `rattle build`. It prints the compiler's last line, which has the verdict.
#
# NALTVIGO_WORK, if it is set, is a folder that stores what the first build of the library proves, so that builds for other targets
# do not prove it again.
set -euo pipefail

root=$(cd "$(dirname "${BASH_SOURCE[0]}")/.." && pwd)
kit=$(dirname "$(rt doc)")
native=x86_64-unknown-linux-gnu
target=$native
toolchain=$kit/toolchain
given= module=
crate=naltvigo kind=(src/lib.rt --crate-type staticlib)
while [ $# != 0 ]; do
    case $1 in
        --target) target=$2; shift 2 ;;
        --toolchain) toolchain=$(realpath "$2"); shift 2 ;;
        --libraries) given=$(realpath "$2"); shift 2 ;;
        --module) module=$(realpath -m "$2"); shift 2 ;;
        --program) crate=cborc kind=(src/main.rt) NALTVIGO_WORK=; shift ;;
        -h | --help) sed -n '2,/^set /s/^# \{0,1\}//p' "$0"; exit ;;
        -*) echo "compile_library.sh: unknown option $1; compile_library.sh --help lists what it takes" >&2; exit 2 ;;
        *) break ;;
    esac
done
[ $# != 0 ] || { echo 'compile_library.sh: which ARCHIVE? --help says more' >&2; exit 2; }
archive=$(realpath -m "$1")
shift
scratch=$(mktemp -d)
log=$scratch/log
work=$scratch/work
trap 'rm -rf "$scratch"' EXIT
say() { echo "compile_library.sh: $*" >&2; }

cd "$root/crates/$crate"
names=$(sed -n "s/^$crate\( staticlib\)\?: //p" "$root/crates.txt")

# The repository's libraries below the crate.
below() {
    local found name dep i
    read -ra found <<<"$names"
    for ((i = 0; i < ${#found[@]}; i++)); do
        for dep in $(sed -n "s/^${found[i]}: //p" "$root/crates.txt"); do
            [[ " ${found[*]} " = *" $dep "* ]] || found+=("$dep")
        done
    done
    for name in "${found[@]}"; do
        [ ! -d "../$name" ] || echo "$name"
    done
}

# Why a library is not as `rt ci` leaves it: proved from this text, and without the mark that rt gives to its own. The folder has
# the time of the run that left it. Its files can be older, if an earlier run proved them.
lacks() {
    local built=../$1/out/rlib/$1.rlib parts=() part newer
    [ -e "$built/format" ] || { echo "$1 is not built"; return; }
    [ ! -e "../$1/out/rlib/stamp" ] || { echo "$1 is what an earlier check kept"; return; }
    for part in src specs proofs; do
        [ ! -d "../$1/$part" ] || parts+=("../$1/$part")
    done
    newer=$(find "${parts[@]}" -newer "$built" -print -quit)
    [ -z "$newer" ] || echo "${newer#../} is newer than what is built of it"
}

# A toolchain whose clang stores the module that it is given.
if [ -n "$module" ]; then
    mkdir -p "$scratch/keeping/bin"
    ln -s "$toolchain/lib" "$scratch/keeping/lib"
    ln -s "$toolchain"/bin/* "$scratch/keeping/bin"
    rm "$scratch/keeping/bin/clang"
    printf '#!/bin/sh\ncp module.bc %q\nexec %q "$@"\n' "$scratch/module.bc" "$toolchain/bin/clang" >"$scratch/keeping/bin/clang"
    chmod +x "$scratch/keeping/bin/clang"
fi

# The compiler is called as rt does it.
compile() {
    local words=(--crate-name "$crate" "${kind[@]}" --target "$target") name
    local rlibs=${given:-$kit/rlibs}
    words+=(--extern "std=$rlibs/std.rlib" -L "dependency=$rlibs")
    for name in $names; do
        if [ -z "$given" ] && [ -d "../$name" ]; then
            words+=(--extern "$name=../$name/out/rlib/$name.rlib")
        else
            words+=(--extern "$name=$rlibs/$name.rlib")
        fi
    done
    if [ -z "$given" ]; then
        for name in $libraries; do
            words+=(-L "dependency=../$name/out/rlib")
        done
    fi
    words+=(--antt-project "$kit/rattle/logic/antt-project.json" --logic-built "$kit/logic_built")
    words+=(--jobs "${JOBS:-$(($(nproc) < 4 ? $(nproc) : 4))}" --links "$crate=" --backend llvm)
    words+=(--toolchain "$([ -z "$module" ] && echo "$toolchain" || echo "$scratch/keeping")")
    [ -z "${NALTVIGO_WORK:-}" ] || begin_with_work
    "$kit/bin/rattle" build "${words[@]}" "$@" -o "$archive" >"$log" 2>&1 || return
    [ -z "$module" ] || "$toolchain/bin/clang" --target="$target" -S -emit-llvm -Xclang -disable-llvm-passes -x ir "$scratch/module.bc" -o "$module"
    [ -z "${NALTVIGO_WORK:-}" ] || [ -e "$NALTVIGO_WORK" ] || mv "$work" "$NALTVIGO_WORK"
}

# A copy of what was stored, so that two builds at a time do not write to one folder.
begin_with_work() {
    rm -rf "$work"
    if [ -d "$NALTVIGO_WORK" ]; then cp -r "$NALTVIGO_WORK" "$work"; else mkdir "$work"; fi
    words+=(--incremental "$work")
}

libraries=$(below)
why=
if [ -z "$given" ]; then
    for name in $libraries; do
        why=$(lacks "$name")
        [ -z "$why" ] || break
    done
fi
mkdir -p "$(dirname "$archive")" "$(dirname "${module:-$archive}")"
if [ -z "$why" ]; then
    ! compile "$@" || { tail -1 "$log"; exit 0; }
    [ -z "$given" ] || { cat "$log" >&2; exit 1; }
    why="rattle build fails over what rt ci built: $(tail -1 "$log")"
fi
say "$why; so rt lib proves what has changed since its own last check, which is all of it the first time"
rt lib >"$log" 2>&1 || { cat "$log" >&2; exit 1; }
if [ "$crate $target$module$*" != "naltvigo $native" ]; then
    compile "$@" || { cat "$log" >&2; exit 1; }
elif [ "$archive" != "$PWD/out/libnaltvigo.a" ]; then
    cp out/libnaltvigo.a "$archive"
fi
tail -1 "$log"
