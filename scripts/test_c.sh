#!/usr/bin/env bash
# Tests the library for C: scripts/test_c.sh [FOLDER]
#
# The header against the crate; the headers in each dialect of C and C++; the conformance table, values there and back,
# damaged bytes and more from C, linked statically and to the shared object, by each compiler, plain, under sanitizers
# and under valgrind; bugs planted in the headers; each request for memory refused; threads; the stack; the time; the examples,
# and the C of docs/C.md. The library is in FOLDER, as scripts/build_c.sh made it last. It is linked once more, and must have
# equal bytes; without FOLDER it is built, twice. It needs a C compiler, the binutils, and the kit's rt on the
# path; the last line names what else was missing. It begins 'C: all well', or the status is not 0.
set -euo pipefail
. "$(dirname "${BASH_SOURCE[0]}")/lib/options.sh"
. "$(dirname "${BASH_SOURCE[0]}")/lib/testing.sh"
take_options 1 "$@"
begin_tests C

dist=${1:-$scratch/dist}
c=$root/c

compilers=()
for it in gcc clang; do
    ! have $it || compilers+=($it)
done
[ ${#compilers[@]} != 0 ] || fail 'no C compiler is installed: gcc or clang is needed'
for it in ar ld objcopy nm; do
    command -v $it >/dev/null || fail "$it is not installed"
done
export CC=${compilers[0]}

if [ $# = 0 ]; then
    "$root/scripts/build_c.sh" "$dist"
    "$root/scripts/build_c.sh" "$scratch/again"
else
    "$root/scripts/build_c.sh" "$scratch/again" "$root/crates/naltvigo/out/libnaltvigo.a"
fi
diff -r "$dist" "$scratch/again" >/dev/null || fail 'two builds differ'
say 'two builds give equal bytes'

# ---- the header and what is exported

python3 "$root/scripts/header.py" || fail 'the header is not as the crate'
mkdir "$scratch/changed" "$scratch/changed/include"
ln -s "$root/crates" "$scratch/changed/crates"
for change in 's/TOO_SMALL = 2/TOO_SMALL = 3/' 's/AND_TEXTS = 1/AND_TEXTS = 2/' 's/MAX UINT32_C(1024)/MAX UINT32_C(512)/' 's/uint32_t depth, uint64_t bytes,/uint64_t depth, uint64_t bytes,/' \
    's/uint64_t offset;/uint32_t offset;/' 's/uint32_t entries;/uint64_t entries;/' 's/WRONG_KIND = 11/WRONG_KIND = 10/' 's/FLOAT = 5/FLOAT = 55/' 's/VERSION_PATCH 0/VERSION_PATCH 9/'; do
    sed "$change" "$root/include/naltvigo.h" >"$scratch/changed/include/naltvigo.h"
    ! python3 "$root/scripts/header.py" "$scratch/changed" >/dev/null || fail "a header changed by $change passes"
done
names=$(grep -o '^[a-z0-9_]* naltvigo_[a-z_]*_raw(' "$root/include/naltvigo.h" | sed 's/.* //; s/($//' | sort)
for file in lib/libnaltvigo.a lib/libnaltvigo.so; do
    [ "$file" = lib/libnaltvigo.a ] && dynamic= || dynamic=-D
    [ "$(nm $dynamic --defined-only -g "$dist/$file" | sed -n 's/^[0-9a-f]* T //p' | sort)" = "$names" ] || fail "$file exports other names than the header's"
    calls=$(nm $dynamic -u "$dist/$file" | sed -n 's/^ *U \([a-z_]*\).*/\1/p' | sort | tr '\n' ' ')
    say "$file exports the header's names alone, and calls: $calls"
    for name in $calls; do
        case $name in free | malloc | realloc | memcmp | memcpy | memmove | memset) ;; *) fail "$file calls $name" ;; esac
    done
done

# ---- the headers, in each dialect

cat >"$scratch/headers.c" <<'C'
#include <naltvigo_checker.h>
#include <naltvigo_values.h>
#if NALTVIGO_VERSION_NUMBER < 0x20000
#error the version is older than 2
#endif
extern const uint32_t version;
const uint32_t version = NALTVIGO_VERSION_NUMBER;
C
# All warnings of clang except these: on padding, on declarations after statements, on pointers as such, on what C++98 lacks.
all_but=(padded declaration-after-statement unsafe-buffer-usage c++98-compat c++98-compat-pedantic c++98-compat-extra-semi)
clang_all=(-Weverything -Wno-unknown-warning-option "${all_but[@]/#/-Wno-}")
strict=(-Wall -Wextra -Wpedantic -Wconversion -Wsign-conversion -Wshadow -Wcast-qual -Wundef -Werror "-I$dist/include")
for it in gcc:c99:c11:c17:c2x clang:c99:c11:c17:c2x g++:c++98:c++11:c++17:c++20 clang++:c++98:c++11:c++17:c++20; do
    compiler=${it%%:*}
    have "$compiler" || continue
    case $compiler in
        gcc) more=(-x c -Wc++-compat -Wstrict-prototypes) ;;
        clang) more=(-x c "${clang_all[@]}") ;;
        g++) more=(-x c++ -Wold-style-cast -Wzero-as-null-pointer-constant) ;;
        *) more=(-x c++ "${clang_all[@]}") ;;
    esac
    for standard in $(tr : ' ' <<<"${it#*:}"); do
        "$compiler" "-std=$standard" "${strict[@]}" -Wno-long-long "${more[@]}" -fsyntax-only "$scratch/headers.c" || fail "$compiler -std=$standard: the headers"
        # the example casts as C does
        "$compiler" "-std=$standard" "${strict[@]}" -Wno-long-long "${more[@]:0:2}" -fsyntax-only "$root/examples/cwt.c" || fail "$compiler -std=$standard: cwt.c"
    done
    say "$compiler: the headers compile without a warning, as ${it#*:}"
done

# ---- the tests

python3 "$c/rows.py" "$root"/crates/cbor_reader_tests/src/tests/*_table.rt >"$scratch/rows.h"
python3 "$c/events.py" "$root/crates/cbor_events_tests/src/tests" >"$scratch/events.h"
# The rows are literals longer than the 4,095 characters that a C99 compiler must accept.
flags=(-std=c99 "${strict[@]}" -Wno-overlength-strings -D_POSIX_C_SOURCE=200112L "-I$scratch")
shared=("-L$dist/lib" -lnaltvigo "-Wl,-rpath,$dist/lib")
run() {
    local out
    out=$("${@:2}" 2>&1) || { echo "$out"; fail "$1"; }
    say "$1: $(tail -1 <<<"$out")"
}

# The programs whose tests run in each of these ways.
tests=(test exports explained null items writer cursor checker round_trips damaged)
for cc in "${compilers[@]}"; do
    sanitizes=
    ! echo 'int main(void) { return 0; }' | $cc -x c - -fsanitize=address,undefined -o "$scratch/t" 2>/dev/null || sanitizes=yes
    [ $sanitizes ] || missing+=("sanitizers of $cc")
    for name in "${tests[@]}"; do
        $cc "${flags[@]}" -O2 "$c/$name.c" "$dist/lib/libnaltvigo.a" -o "$scratch/t"
        run "$name, $cc, archive" "$scratch/t"
        $cc "${flags[@]}" -O2 "$c/$name.c" "${shared[@]}" -o "$scratch/t"
        run "$name, $cc, shared object" "$scratch/t"
        [ $sanitizes ] || continue
        $cc "${flags[@]}" -g -O1 -fsanitize=address,undefined -fno-sanitize-recover=all "$c/$name.c" "$dist/lib/libnaltvigo.a" -o "$scratch/t"
        run "$name, $cc, sanitizers" env ASAN_OPTIONS=detect_leaks=0 "$scratch/t"
    done
    $cc "${flags[@]}" -O2 -static "$c/test.c" "$dist/lib/libnaltvigo.a" -o "$scratch/t"
    run "test, $cc, archive, -static" "$scratch/t"
done
cc=$CC
if have valgrind; then
    # of the rows and random items of the last three only some
    for it in test: exports: explained: null: items: writer: cursor: checker:20 'round_trips:1 200' 'damaged:1 200'; do
        "$cc" "${flags[@]}" -g -O1 "$c/${it%%:*}.c" "$dist/lib/libnaltvigo.a" -o "$scratch/t"
        # shellcheck disable=SC2086
        run "${it%%:*}, valgrind" valgrind -q --leak-check=full --error-exitcode=9 "$scratch/t" ${it#*:}
    done
fi
"$cc" "${flags[@]}" -g -O1 "$c/values.c" "$dist/lib/libnaltvigo.a" -o "$scratch/t"
run values python3 "$root/fuzz/languages.py" --inputs 500 "C=$scratch/t"
PREFIX=$(realpath "$dist") run 'planted bugs' python3 "$root/scripts/test_planted.py" --all c
"$cc" "${flags[@]}" -g "$c/machine.c" "$dist/lib/libnaltvigo.a" -o "$scratch/t"
run 'a machine' "$scratch/t"
if have valgrind; then
    run 'a machine, valgrind' valgrind -q --leak-check=full --error-exitcode=9 "$scratch/t"
fi
"$cc" "${flags[@]}" -O2 "$c/no_memory.c" "$dist/lib/libnaltvigo.a" -Wl,--wrap=malloc,--wrap=realloc,--wrap=free -o "$scratch/t"
"$scratch/t" | sed 's/^/C: memory: /' || fail 'memory'
"$cc" "${flags[@]}" -O2 "$c/threads.c" "$dist/lib/libnaltvigo.a" -pthread -o "$scratch/t"
run threads "$scratch/t"
"$cc" "${flags[@]}" -O2 "$c/stack.c" "$dist/lib/libnaltvigo.a" -pthread -o "$scratch/t"
"$scratch/t" | sed 's/^/C: stack: /' || fail 'stack'
"$cc" "${flags[@]}" -O2 "$c/time.c" "$dist/lib/libnaltvigo.a" -o "$scratch/t"
"$scratch/t" | sed 's/^/C: time: /' || fail 'what a sender chose takes too long'

# ---- the examples, and the rest of docs/C.md

mkdir "$scratch/fragments"
python3 "$root/scripts/fragments.py" "$scratch/fragments" || fail 'the C of docs/C.md'
alone=()
for it in "$scratch"/fragments/*.c; do
    "$cc" "${flags[@]}" -O2 -c "$it" -o "${it%.c}.o" || fail "docs/C.md: the block at line $(basename "$it" .c)"
    grep -q 'int main(' "$it" || alone+=("${it%.c}.o")
done
"$cc" "${flags[@]}" -O2 "$c/documented.c" "${alone[@]}" "$dist/lib/libnaltvigo.a" -o "$scratch/t"
run 'docs/C.md' "$scratch/t"
for it in cwt canonicalise sequence events; do
    "$cc" -Wall -Wextra -Werror "$root/examples/$it.c" "-I$dist/include" "$dist/lib/libnaltvigo.a" -o "$scratch/$it"
done

# EXPECTED STATUS COMMAND..: what it writes to standard output and then to standard error, and its status
writes() {
    local status=0 found
    found=$("${@:3}" 2>"$scratch/error") || status=$?
    [ "$found$(cat "$scratch/error") $status" = "$1 $2" ] || fail "${*:3}: $found$(cat "$scratch/error"), status $status"
}
xxd_of() { od -An -tx1 | tr -d ' \n'; }
bytes() { printf '%b' "$(sed 's/../\\x&/g' <<<"$1")" >"$scratch/in.cbor"; }
on_input() { timeout 60 "$scratch/$1" <"$scratch/in.cbor"; }

# RFC 8392, appendix A.1, and the structure of RFC 9052, section 4.4, around it
claims=a70175636f61703a2f2f61732e6578616d706c652e636f6d02656572696b77037818636f61703a2f2f6c696768742e6578616d706c652e636f6d
claims+=041a5612aeb0051a5610d9f0061a5610d9f007420b71
cwt="$claims
846a5369676e61747572653143a1012640"5850"$claims
expires 1444064944, issued by coap://as.example.com"
writes "$cwt" 0 "$scratch/cwt"
for cxx in g++ clang++; do
    have $cxx || continue
    $cxx -x c++ -Wall -Wextra -Werror "-I$dist/include" "$root/examples/cwt.c" -x none "$dist/lib/libnaltvigo.a" -o "$scratch/t"
    writes "$cwt" 0 "$scratch/t"
done
bytes 00f58201626162
writes $'0: 0\n1: true\n2: [1, "ab"]' 0 on_input sequence
bytes 001c
writes $'0: 0refused 3 at 1' 1 on_input sequence
# {_ "Fun": -2}; an array without its second member; a break where an item is expected
bytes bf6346756e21ff
writes $'0 kind 5, 0\n1 kind 3, 3\n2 kind 9, 3\n5 kind 1, 1\n6 kind 10, 0' 0 on_input events
bytes 8201
writes $'0 kind 4, 2\n1 kind 0, 1cut off after 2 bytes' 1 on_input events
bytes 81ff
writes $'0 kind 4, 1refused 7 at 1' 1 on_input events
{ printf '\x99\x20\x00'; head -c 8192 /dev/zero; } >"$scratch/in.cbor" # in three parts, and in calls of 64 events
[ "$(on_input events | wc -l) $(on_input events | tail -1)" = '8193 8194 kind 0, 0' ] || fail 'events of a long item'
bytes f90000
writes 'refused 5 Float at 0' 1 "$scratch/canonicalise" "$scratch/in.cbor"
bytes bf6346756ef563416d7421ff
wanted=a263416d74216346756ef5
[ "$("$scratch/canonicalise" "$scratch/in.cbor" | xxd_of)" = $wanted ] || fail 'the example in C'
if have pkg-config; then
    for it in canonicalise cwt; do
        # shellcheck disable=SC2046
        "$cc" "$root/examples/$it.c" $(PKG_CONFIG_PATH=$dist/lib/pkgconfig pkg-config --cflags --libs naltvigo) -o "$scratch/$it"
    done
    [ "$(LD_LIBRARY_PATH=$dist/lib "$scratch/canonicalise" "$scratch/in.cbor" | xxd_of)" = $wanted ] || fail 'pkg-config'
    writes "$cwt" 0 env LD_LIBRARY_PATH="$dist/lib" "$scratch/cwt"
fi
say 'the examples, and the C of docs/C.md, do what is said of them'
end_tests
