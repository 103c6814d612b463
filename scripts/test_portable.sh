#!/usr/bin/env bash
# Tests what portable/ builds: scripts/test_portable.sh [LIBRARY [PART ..]]
#
# For each target: Make assembles the library, the programs of c/ are linked with it and run, and random calls return what
# LIBRARY returns, a libnaltvigo.so for this machine (default: what portable/ builds natively). On Linux the program
# runs the rows of the conformance tables too. Without a PART all are tested; one takes less than ten minutes of one processor:
#
#     native      x86-64 by gcc, clang and musl-gcc; CMake; Make's installation
#     old         x86-64 on a processor of 2004, under qemu
#     aarch64, riscv64    Linux, under qemu; riscv64 with the wheel for Python, if FETCHED_TOOLS names a folder of fetch_tools.sh
#     windows     x86-64, by MinGW, under wine
#     linked      macOS and FreeBSD: assembled, linked as far as it goes, symbols compared; what is refused
#
# The kit is not used, and is hidden. FULL=yes takes as many random inputs as the native tests do. The last line begins
# 'portable: all well' and names what was missing, or the status is not 0.
set -euo pipefail
. "$(dirname "${BASH_SOURCE[0]}")/lib/options.sh"
. "$(dirname "${BASH_SOURCE[0]}")/lib/testing.sh"
. "$(dirname "${BASH_SOURCE[0]}")/lib/wheel.sh"
take_options 9 "$@"
parts=${words[*]:1}
for it in $parts; do
    case $it in native | old | aarch64 | riscv64 | windows | linked) ;; *) echo "test_portable.sh: no part $it" >&2; exit 2 ;; esac
done
begin_tests portable
c=$root/c
some=(1 300)
[ -z "${FULL:-}" ] || some=()

# A path on which only what a user has is found.
PATH=$(tr : '\n' <<<"$PATH" | while read -r it; do [ -e "$it/rt" ] && [ "$it" != /usr/bin ] || printf '%s:' "$it"; done)
PATH=${PATH%:}
command -v rt >/dev/null && say 'the kit could not be hidden: rt is in /usr/bin'

[ -e "$root/portable/naltvigo-x86_64-elf.S" ] || fail 'portable/ has no assembly: scripts/portable.py makes it'
version=$(cat "$root/VERSION")
names=$(grep -o '^[a-z0-9_]* naltvigo_[a-z_]*_raw(' "$root/include/naltvigo.h" | sed 's/.* //; s/($//' | sort)
calls='bcmp|free|malloc|memcmp|memcpy|memmove|memset|realloc'

python3 "$c/rows.py" "$root"/crates/cbor_reader_tests/src/tests/*_table.rt >"$scratch/rows.h"
python3 "$c/events.py" "$root/crates/cbor_events_tests/src/tests" >"$scratch/events.h"
flags=(-std=c99 -pedantic -Wall -Wextra -Werror -Wno-overlength-strings -D_POSIX_C_SOURCE=200112L -D__USE_MINGW_ANSI_STDIO=1 "-I$root/include" "-I$scratch" -O2)

# ---- one target

# That an object defines the header's names alone, and calls the C library's functions for bytes and memory alone.
compare_symbols() { # NM OBJECT PREFIX [MORE CALLS]
    local found
    found=$($1 --defined-only -g "$2" | sed -n "s/^[0-9a-f]* T $3//p" | sort)
    [ "$found" = "$names" ] || fail "$2 exports other names than the header's: $found"
    for found in $($1 -u "$2" | sed -n "s/^ *U $3//p"); do
        grep -Eqx "$calls|${4:-none}" <<<"$found" || fail "$2 calls $found"
    done
}

run() { # WHAT COMMAND ..
    local out
    out=$(timeout 1200 "${@:2}" 2>"$scratch/error" | tr -d '\r') || { tail -5 <<<"$out"; tail -5 "$scratch/error"; fail "$target: $1"; }
    ran+=" $1 ($(tail -1 <<<"$out"));"
}
# Wine runs programs whose names end in .exe.
compile() { # SOURCE WORD ..
    $cc "${flags[@]}" ${more[@]+"${more[@]}"} "$c/$1" "${@:2}" -o "$scratch/t.exe" || fail "$target: $1 does not compile"
}

# The programs of c/ with the archive, as each target runs them. Those of `brief` are for a second assembler of the same files.
test_library() { # all|brief
    local it archive=$out/libnaltvigo.a ran='' tests=(test null exports explained items writer cursor checker machine)
    [ "$1" = all ] || tests=(test cursor machine)
    for it in "${tests[@]}"; do
        compile "$it.c" "$archive"
        run "$it" "${runner[@]}" "$scratch/t.exe"
    done
    compile vectors.c "$archive"
    run vectors "${runner[@]}" "$scratch/t.exe" "$scratch/vectors"
    compile stack.c "$archive"
    run stack "${runner[@]}" "$scratch/t.exe"
    [ "$1" = all ] || { say "$target:$ran"; return; }
    for it in round_trips damaged; do
        compile "$it.c" "$archive"
        run "$it" "${runner[@]}" "$scratch/t.exe" "${some[@]}"
    done
    compile no_memory.c "$archive" -Wl,--wrap=malloc,--wrap=realloc,--wrap=free
    run no_memory "${runner[@]}" "$scratch/t.exe"
    compile threads.c "$archive" -pthread
    run threads "${runner[@]}" "$scratch/t.exe"
    compile values.c "$archive"
    run values python3 "$root/fuzz/languages.py" --inputs 200 "C=${runner[*]} $scratch/t.exe"
    compile ../examples/cwt.c "$archive"
    run cwt "${runner[@]}" "$scratch/t.exe"
    compile ../examples/canonicalise.c "$archive"
    [ "$("${runner[@]}" "$scratch/t.exe" "$scratch/streamed.cbor" | od -An -tx1 | tr -d ' \n')" = a263416d74216346756ef5 ] || fail "$target: canonicalise"
    say "$target:$ran"
}

# The rows of the tables, random items, and what a user does with files, through the program.
test_program() {
    local parts=() rows=()
    printf '#!/bin/sh\nexec %s %q "$@"\n' "${runner[*]}" "$out/cborc" >"$scratch/cborc"
    chmod +x "$scratch/cborc"
    "$scratch/cborc" --version >"$scratch/log"
    [ "$(head -1 "$scratch/log")" = "cborc $version" ] || fail "$target: the program's version"
    grep -q '^Assembly: of the sources [0-9a-f]\{64\}, by rattle-kit-' "$scratch/log" || fail "$target: --version does not name the sources"
    # Natively CMake runs all parts; parts limits the memory to less than an emulator needs. Under an emulator a start of the
    # program takes ten times as long, so each of the three takes a quarter of the rows, and other ones.
    [ "${runner[*]}" != env ] || parts=(parts)
    case ${runner[*]} in
        env) ;;
        *kvm64) rows=(--every 4 --seed 1) ;;
        *aarch64*) rows=(--every 4 --seed 2) ;;
        *) rows=(--every 4 --seed 3) ;;
    esac
    python3 "$root/fuzz/run.py" --library "$native" --program "$scratch/cborc" --seconds 5 "${rows[@]}" >"$scratch/log" 2>&1 || { cat "$scratch/log"; fail "$target: the program"; }
    say "$target: the program: $(tail -1 "$scratch/log")"
    python3 "$root/scripts/run_program.py" "$scratch/cborc" words files sequences leftovers links "${parts[@]}" >"$scratch/log" 2>&1 ||
        { cat "$scratch/log"; fail "$target: files"; }
    say "$target: files: $(tail -1 "$scratch/log")"
}

# Make, then the tests: of the library and the program, the library, or the library in brief. Each word of MORE goes to the
# compiler.
try() { # TARGET COMPILER all|library|brief [MORE ..] -- RUNNER ..
    target=$1 cc=$2
    local what=$3 nm began=$SECONDS targets
    more=() runner=()
    shift 3
    while [ "$1" != -- ]; do more+=("$1"); shift; done
    shift
    runner=("$@")
    out=$scratch/$target
    mkdir "$out"
    targets=("${what/brief/library}")
    # a shared object cannot be linked statically
    [[ $what != all || " ${more[*]} " != *' -static '* ]] || targets=("$out/libnaltvigo.a" "$out/cborc")
    make -s -C "$root/portable" "OUT=$out" "CC=$cc ${more[*]}" "${targets[@]}" >"$scratch/log" 2>&1 || { cat "$scratch/log"; fail "$target: make"; }
    nm=nm
    ! command -v "${cc%-gcc}-nm" >/dev/null || nm=${cc%-gcc}-nm
    compare_symbols "$nm" "$out/libnaltvigo.a" '' ___chkstk_ms
    test_library "${what/library/all}"
    [ "$what" != all ] || test_program
    say "$target: $((SECONDS - began)) s"
}

printf '\277\143Fun\365\143Amt!\377' >"$scratch/streamed.cbor"
native=${1:-}
if [ -z "$native" ]; then
    mkdir "$scratch/native"
    make -s -C "$root/portable" "OUT=$scratch/native" library
    native=$scratch/native/libnaltvigo.so
fi
native=$(realpath "$native")
python3 "$root/fuzz/vectors.py" "$native" 20000 >"$scratch/vectors"

# ---- what cannot run here

link_only() { # TRIPLE LINKER ..
    target=$1
    clang --target="$1" -c "$root/portable/naltvigo.S" -o "$scratch/$1.o" || fail "$1: does not assemble"
    case $1 in *darwin* | *macos*) compare_symbols llvm-nm "$scratch/$1.o" _ ;; *) compare_symbols llvm-nm "$scratch/$1.o" '' ;; esac
    "${@:2}" "$scratch/$1.o" -o "$scratch/$1.linked" 2>"$scratch/error" || { cat "$scratch/error"; fail "$1: does not link"; }
    say "$1: assembled by clang, linked by $2, exports the header's names; not run"
}

# ---- targets that do not exist, and compilers that cannot assemble

refuses() { # SENTENCE COMMAND ..
    ! "${@:2}" >"$scratch/log" 2>&1 || fail "${*:2} succeeds"
    # CMake breaks lines
    tr -s '\n ' ' ' <"$scratch/log" | grep -q "$1" || { cat "$scratch/log"; fail "${*:2} does not say: $1"; }
}
test_refusals() {
    local no_target='naltvigo has no assembly for this target: there is x86_64' no_assembler='which cannot assemble naltvigo.S. Use gcc, clang or MinGW, for a target in the table of portable/README.md'
    local make=(make -s -C "$root/portable" "OUT=$scratch/refused") cmake=(cmake -S "$root/portable" -B)
    mkdir "$scratch/refused"
    # one that compiles C, and one that does nothing
    printf '#!/bin/sh\nfor it; do case $it in *.S) echo "no assembler" >&2; exit 1 ;; esac; done\nexec gcc "$@"\n' >"$scratch/only-c"
    printf '#!/bin/sh\necho "what is $*?" >&2\nexit 1\n' >"$scratch/nothing"
    chmod +x "$scratch/only-c" "$scratch/nothing"
    refuses "$no_target" "${make[@]}" 'CC=gcc -m32' all
    refuses "$no_target" "${make[@]}" 'CC=gcc -mx32' all
    refuses "$no_assembler" "${make[@]}" "CC=$scratch/only-c" all
    refuses "$no_assembler" "${make[@]}" "CC=$scratch/nothing" all
    if have clang; then
        for it in i386-linux-gnu armv7-linux-gnueabihf aarch64_be-linux-gnu s390x-linux-gnu powerpc64le-linux-gnu riscv32-linux-gnu; do
            refuses "$no_target" "${make[@]}" "CC=clang --target=$it" all
        done
    fi
    if have cmake; then
        refuses "$no_target" "${cmake[@]}" "$scratch/refused/m32" -DCMAKE_C_COMPILER=gcc -DCMAKE_C_FLAGS=-m32 -DCMAKE_TRY_COMPILE_TARGET_TYPE=STATIC_LIBRARY
        refuses "$no_assembler" "${cmake[@]}" "$scratch/refused/only-c" "-DCMAKE_C_COMPILER=$scratch/only-c"
    fi
    say 'a target that does not exist, and a compiler that cannot assemble, are refused in one sentence'
}

# ---- CMake

use_cmake() { # COMPILER
    local build=$scratch/cmake-$1 prefix=$scratch/prefix-$1 log=$scratch/log began=$SECONDS
    {
        cmake -S "$root/portable" -B "$build" -DCMAKE_C_COMPILER="$1" -DCMAKE_BUILD_TYPE=Release -DCMAKE_INSTALL_PREFIX="$prefix" &&
            cmake --build "$build" && ctest --test-dir "$build" --output-on-failure && cmake --install "$build"
    } >"$log" 2>&1 || { cat "$log"; fail "CMake, $1"; }
    say "CMake, $1: $(sed -n 's/tests passed.*out of \(.*\)/of \1 tests passed/p' "$log"), and installed, in $((SECONDS - began)) s"
    mkdir -p "$scratch/user"
    cp "$root/examples/cwt.c" "$scratch/user"
    cat >"$scratch/user/CMakeLists.txt" <<'CMAKE'
cmake_minimum_required(VERSION 3.13)
project(user C)
find_package(naltvigo 2 REQUIRED)
foreach(library naltvigo static)
  add_executable(cwt_${library} cwt.c)
  target_link_libraries(cwt_${library} naltvigo::${library})
endforeach()
CMAKE
    { cmake -S "$scratch/user" -B "$build/user" -DCMAKE_C_COMPILER="$1" -DCMAKE_PREFIX_PATH="$prefix" && cmake --build "$build/user"; } >"$log" 2>&1 ||
        { cat "$log"; fail "find_package, $1"; }
    for it in "$build/user/cwt_static" "$build/user/cwt_naltvigo"; do
        "$it" | grep -q '^expires 1444064944' || fail "find_package, $1: ${it##*/}"
    done
    use_pkg_config "$1" "$prefix/lib" "CMake, $1"
}
use_pkg_config() { # COMPILER LIB WHAT
    have pkg-config || return 0
    # shellcheck disable=SC2046
    "$1" "$root/examples/cwt.c" $(PKG_CONFIG_PATH=$2/pkgconfig pkg-config --cflags --libs naltvigo) -o "$scratch/t.exe"
    LD_LIBRARY_PATH=$2 "$scratch/t.exe" | grep -q '^expires 1444064944' || fail "$3: pkg-config"
}

# ---- the parts

native() {
    try x86_64-gcc gcc all -- env
    ! have clang || try x86_64-clang clang brief -- env
    ! have musl-gcc || try x86_64-musl musl-gcc all -static -- env
    for it in gcc clang; do
        ! have cmake || ! have $it || use_cmake $it
    done
    make -s -C "$root/portable" "OUT=$scratch/x86_64-gcc" "DESTDIR=$scratch/made" PREFIX=/opt/naltvigo install
    use_pkg_config gcc "$scratch/made/opt/naltvigo/lib" Make
    say 'Make installs what pkg-config finds'
}

# without what x86-64-v2 names
old() { ! have qemu-x86_64-static || try x86_64-kvm64 gcc all -static -- qemu-x86_64-static -cpu kvm64; }

# the C library's files for the target are where Debian has them
emulated() { # CPU
    have "$1-linux-gnu-gcc" && have "qemu-$1-static" || return 0
    try "$1-gcc" "$1-linux-gnu-gcc" all -fstack-clash-protection -- "qemu-$1-static" -L "/usr/$1-linux-gnu"
    ! have clang || try "$1-clang" "clang --target=$1-linux-gnu" brief -- "qemu-$1-static" -L "/usr/$1-linux-gnu"
}
aarch64() { emulated aarch64; }
riscv64() {
    emulated riscv64
    have riscv64-linux-gnu-gcc && have qemu-riscv64-static || return 0
    env -u NALTVIGO_LIB CC=riscv64-linux-gnu-gcc PYTHONDONTWRITEBYTECODE=1 python3 "$root/bindings/python/build_wheel.py" "$scratch" >"$scratch/log" 2>&1 ||
        { cat "$scratch/log"; fail 'the wheel for riscv64'; }
    test_wheel riscv64 "${FETCHED_TOOLS:-none}/python-riscv64" "$scratch"/naltvigo-*_riscv64.whl
}

windows() {
    local wine
    wine=$(command -v wine64 || ls /usr/lib/wine/wine64 2>/dev/null || true)
    [ -n "$wine" ] || { missing+=(wine64); return; }
    have x86_64-w64-mingw32-gcc || return 0
    export WINEDEBUG=-all WINEPREFIX=$scratch/wine
    "$wine" hostname >/dev/null 2>&1 || true # the first run makes the prefix
    try x86_64-windows x86_64-w64-mingw32-gcc library -static -- "$wine"
    # its server ends, so that the folder can be removed
    (PATH=$PATH:/usr/lib/wine && { wineserver64 -k || wineserver -k; }) >/dev/null 2>&1 || true
}

linked() {
    PATH=$PATH:$(ls -d /usr/lib/llvm-*/bin 2>/dev/null | tail -1)
    if have clang && have llvm-nm; then
        for it in x86_64-apple-macos11 arm64-apple-macos11; do
            ! have ld64.lld || link_only $it ld64.lld -arch "${it%%-*}" -platform_version macos 11 11 -dylib -undefined dynamic_lookup
        done
        for it in x86_64-unknown-freebsd13 aarch64-unknown-freebsd13; do
            ! have ld.lld || link_only $it ld.lld -shared
        done
    fi
    if have clang && have llvm-nm; then
        # as scripts/release.sh does for MSVC
        clang --target=x86_64-w64-mingw32 -D___chkstk_ms=__chkstk -c "$root/portable/naltvigo.S" -o "$scratch/msvc.o"
        compare_symbols llvm-nm "$scratch/msvc.o" '' __chkstk
        say "x86_64-windows for MSVC: assembled by clang, exports the header's names; not run"
    fi
    test_refusals
}

for part in ${parts:-native old aarch64 riscv64 windows linked}; do
    $part
done
end_tests
