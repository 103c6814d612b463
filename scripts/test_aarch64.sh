#!/usr/bin/env bash
# Tests the library for C on aarch64 Linux, under qemu: scripts/test_aarch64.sh [FOLDER]
#
# FOLDER is as `build_c.sh --target aarch64-unknown-linux-gnu` makes it; if it is left out, it is built. The programs of c/ run, with the
# archive and with the shared object: the tables, items and values, a machine, each request for memory refused, threads, the
# stack, the examples. With LIBRARY, the x86-64 libnaltvigo.so, random calls are compared with it. The wheel and the
# packages are made; with FETCHED_TOOLS, a folder of scripts/fetch_tools.sh, the wheel is tested in Python, and the crate
# for Rust is tested with these tools or if cargo has the target. It needs aarch64-linux-gnu-gcc, its libc
# and qemu-aarch64-static; if one is missing, the last line says so, and nothing is tested. Else it begins 'aarch64: all
# well', or the status is not 0.
set -euo pipefail
. "$(dirname "${BASH_SOURCE[0]}")/lib/options.sh"
. "$(dirname "${BASH_SOURCE[0]}")/lib/testing.sh"
. "$(dirname "${BASH_SOURCE[0]}")/lib/wheel.sh"
take_options 1 "$@"
begin_tests aarch64
target=aarch64-unknown-linux-gnu
cc=aarch64-linux-gnu-gcc
c=$root/c

for tool in $cc aarch64-linux-gnu-objcopy qemu-aarch64-static; do
    command -v $tool >/dev/null || { say "not tested: $tool is missing (Debian: gcc-aarch64-linux-gnu, libc6-dev-arm64-cross, qemu-user-static)"; exit 0; }
done
[ -e /usr/aarch64-linux-gnu/lib/libc.so.6 ] || { say 'not tested: the C library of aarch64 is missing (Debian: libc6-dev-arm64-cross)'; exit 0; }
qemu=(qemu-aarch64-static -L /usr/aarch64-linux-gnu)

dist=${1:-$scratch/dist}
[ -n "${1:-}" ] || "$root/scripts/build_c.sh" --target $target "$dist"
dist=$(cd "$dist" && pwd)

# ---- exported and undefined symbols

names=$(grep -o '^[a-z0-9_]* naltvigo_[a-z_]*_raw(' "$dist/include/naltvigo.h" | sed 's/.* //; s/($//' | sort)
for file in lib/libnaltvigo.a lib/libnaltvigo.so; do
    [ "$file" = lib/libnaltvigo.a ] && dynamic= || dynamic=-D
    [ "$(aarch64-linux-gnu-nm $dynamic --defined-only -g "$dist/$file" | sed -n 's/^[0-9a-f]* T //p' | sort)" = "$names" ] || fail "$file exports other names than the header's"
    for name in $(aarch64-linux-gnu-nm $dynamic -u "$dist/$file" | sed -n 's/^ *U \([a-z_]*\).*/\1/p'); do
        case $name in free | malloc | realloc | memcmp | memcpy | memmove | memset) ;; *) fail "$file calls $name" ;; esac
    done
done
say "the archive and the shared object export the header's names alone"

# ---- the programs of c/

python3 "$c/rows.py" "$root"/crates/cbor_reader_tests/src/tests/*_table.rt >"$scratch/rows.h"
python3 "$c/events.py" "$root/crates/cbor_events_tests/src/tests" >"$scratch/events.h"
# a caller on aarch64 probes its stack, as Debian's compiler does for its packages; see docs/C.md
flags=(-std=c99 -pedantic -Wall -Wextra -Werror -Wno-overlength-strings -D_POSIX_C_SOURCE=200112L "-I$dist/include" "-I$scratch" -O2 -fstack-clash-protection)
archive=$dist/lib/libnaltvigo.a
run() { # WHAT SOURCE WORD ..
    local out
    $cc "${flags[@]}" "$c/$2" "${@:3}" -o "$scratch/t"
    out=$("${qemu[@]}" -E "LD_LIBRARY_PATH=$dist/lib" "$scratch/t" "${arguments[@]}" 2>&1) || { echo "$out"; fail "$1"; }
    case $1 in
        memory | stack) sed "s/^/aarch64: $1: /" <<<"$out" ;;
        *) say "$1: $(tail -1 <<<"$out")" ;;
    esac
}
# each with its arguments: of the rows and random items of the last three only some, since qemu takes its time
for it in test: null: items: writer: cursor: checker:5 'round_trips:1 300' 'damaged:1 300'; do
    # shellcheck disable=SC2206
    arguments=(${it#*:})
    run "${it%%:*}, archive" "${it%%:*}.c" "$archive"
    run "${it%%:*}, shared object" "${it%%:*}.c" "-L$dist/lib" -lnaltvigo
done
arguments=()
run 'test, archive, -static' test.c "$archive" -static
run 'a machine' machine.c "$archive"
run memory no_memory.c "$archive" -Wl,--wrap=malloc,--wrap=realloc,--wrap=free
run threads threads.c "$archive" -pthread
run stack stack.c "$archive" -pthread
if [ -n "${LIBRARY:-}" ]; then
    python3 "$root/fuzz/vectors.py" "$LIBRARY" 20000 >"$scratch/vectors"
    arguments=("$scratch/vectors")
    run 'random calls compared with x86-64' vectors.c "$archive"
fi

$cc "${flags[@]}" "$c/values.c" "$archive" -o "$scratch/values"
python3 "$root/fuzz/languages.py" --inputs 200 "aarch64=${qemu[*]} $scratch/values" | sed 's/^languages/aarch64: values/' || fail 'values'

# ---- the examples

$cc -Wall -Wextra -Werror "$root/examples/cwt.c" "-I$dist/include" "$archive" -o "$scratch/cwt"
"${qemu[@]}" "$scratch/cwt" | grep -q '^expires 1444064944, issued by coap://as.example.com$' || fail 'cwt.c'
$cc -Wall -Wextra -Werror "$root/examples/canonicalise.c" "-I$dist/include" "$archive" -o "$scratch/canonicalise"
printf '\277\143Fun\365\143Amt!\377' >"$scratch/streamed.cbor"
[ "$("${qemu[@]}" "$scratch/canonicalise" "$scratch/streamed.cbor" | od -An -tx1 | tr -d ' \n')" = a263416d74216346756ef5 ] || fail 'the example'
say 'the examples write what they have to'

# ---- the packages

mkdir "$scratch/packages"
DIST=$dist "$root/scripts/package.sh" --target $target "$scratch/packages" >"$scratch/log" 2>&1 || { cat "$scratch/log"; fail 'the packages'; }
for file in "$scratch"/packages/*; do
    case $file in *linux-aarch64.tar.gz | *_arm64.deb | *_all.deb | *_aarch64.whl) ;; *) fail "${file##*/} is not named for aarch64" ;; esac
done
say "packages: $(cd "$scratch/packages" && echo *)"
mkdir "$scratch/unpacked" "$scratch/wheel"
tar -C "$scratch/unpacked" --strip-components=1 -xzf "$scratch"/packages/*.tar.gz
(cd "$scratch/wheel" && python3 -m zipfile -e "$scratch"/packages/*.whl .)
for file in "$scratch"/unpacked/lib/libnaltvigo.so "$scratch"/wheel/naltvigo/_native.abi3.so; do
    aarch64-linux-gnu-readelf -h "$(realpath "$file")" | grep -q 'Machine: *AArch64' || fail "$file is not for aarch64"
done
$cc "$root/examples/canonicalise.c" "-I$scratch/unpacked/include" "-L$scratch/unpacked/lib" -lnaltvigo -o "$scratch/canonicalise"
[ "$("${qemu[@]}" -E "LD_LIBRARY_PATH=$scratch/unpacked/lib" "$scratch/canonicalise" "$scratch/streamed.cbor" | od -An -tx1 | tr -d ' \n')" = a263416d74216346756ef5 ] ||
    fail 'the example, by the package'

# ---- the wheel, in Debian's Python for aarch64

tools=$(realpath -m "${FETCHED_TOOLS:-none}")
test_wheel aarch64 "$tools/python-aarch64" "$scratch"/packages/*.whl

# ---- the crate for Rust

if [ -d "$tools/rust" ]; then
    export PATH=$tools/rust/usr/bin:$PATH LD_LIBRARY_PATH=$tools/rust/usr/lib/x86_64-linux-gnu
fi
if [ ! -d /usr/share/cargo/registry ]; then
    missing+=('the crate cc, librust-cc-dev')
elif command -v cargo >/dev/null && [ -d "$(rustc --print sysroot)/lib/rustlib/$target" ]; then
    export NALTVIGO_LIB=$dist/lib CARGO_TARGET_DIR=$scratch/target CARGO_HOME=$scratch/cargo NALTVIGO_EMULATED=yes
    mkdir "$CARGO_HOME"
    cp "$root/scripts/lib/debian_crates.toml" "$CARGO_HOME/config.toml"
    export CARGO_TARGET_AARCH64_UNKNOWN_LINUX_GNU_LINKER=$cc CARGO_TARGET_AARCH64_UNKNOWN_LINUX_GNU_RUNNER="${qemu[*]}"
    (cd "$root/bindings/rust" && cargo test --release --offline -q --target $target --tests) >"$scratch/log" 2>&1 || { cat "$scratch/log"; fail 'tests in Rust'; }
    say "the crate, by $(rustc --version | cut -d' ' -f1,2): $(sed -n 's/^test result: ok. \([0-9]*\) passed.*/\1/p' "$scratch/log" | awk '{ sum += $1 } END { print sum }') tests$(sed -n 's/^a_kibibyte: /; /p' "$scratch/log")"
else
    missing+=("cargo with the target $target (scripts/fetch_tools.sh)")
fi
end_tests
