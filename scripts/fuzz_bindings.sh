#!/usr/bin/env bash
# Coverage-guided fuzzing of the code around the library: scripts/fuzz_bindings.sh [SECONDS [DIST]]
#
# libFuzzer of Debian's clang runs fuzz/coverage/sqlite.c on the extension for SQLite and fuzz/coverage/python.c on that for
# Python, with AddressSanitizer and UndefinedBehaviorSanitizer, and fuzz/coverage/rust on the crate for Rust, each for SECONDS
# (10), from the inputs in fuzz/corpus. NAMES, if set, has those that run. With KEEP=1 what reaches new code is added there, as
# few files as possible. DIST has the library for C; if it is left out, it is built. The last line begins 'fuzz: all well' and names
# what was left out; else the status is not 0.
set -euo pipefail
. "$(dirname "${BASH_SOURCE[0]}")/lib/options.sh"
. "$(dirname "${BASH_SOURCE[0]}")/lib/testing.sh"
take_options 2 "$@"
begin_tests fuzz
seconds=${1:-10}
dist=${2:-}
if [ -z "$dist" ]; then
    dist=$scratch/dist
    "$root/scripts/build_c.sh" "$dist"
fi
dist=$(cd "$dist" && pwd)

# Runs a fuzzer, and prints what it did.
run() { # NAME
    local found=$scratch/$1.found corpus=$root/fuzz/corpus/$1
    mkdir -p "$found" "$corpus"
    "$scratch/$1" -max_total_time="$seconds" -max_len=4096 -timeout=60 -print_final_stats=1 -artifact_prefix="$scratch/$1-" \
        "$found" "$corpus" >"$scratch/log" 2>&1 || { tail -40 "$scratch/log"; fail "$1"; }
    say "$1: $(sed -n 's/^stat::number_of_executed_units: *//p' "$scratch/log") runs from $(find "$corpus" -type f | wc -l) inputs," \
        "$(grep -o 'cov: [0-9]*' "$scratch/log" | tail -1 | cut -d' ' -f2) places of code reached"
    if [ -n "${KEEP:-}" ]; then
        mkdir -p "$scratch/$1.kept"
        "$scratch/$1" -merge=1 -max_len=4096 "$scratch/$1.kept" "$corpus" "$found" >/dev/null 2>&1
        rm -rf "$corpus" && mv "$scratch/$1.kept" "$corpus"
        say "$1: $(find "$corpus" -type f | wc -l) inputs kept"
    fi
}

fuzz_sqlite() {
    echo '#include <sqlite3ext.h>' | clang -E - >/dev/null 2>&1 || { missing+=('SQLite (its headers, libsqlite3-dev)'); return; }
    clang -g -O1 -fsanitize=fuzzer,address,undefined -fno-sanitize-recover=undefined -I"$dist/include" "$root/fuzz/coverage/sqlite.c" \
        "$root"/bindings/sqlite/*.c "$dist/lib/libnaltvigo.a" -lsqlite3 -o "$scratch/sqlite" 2>"$scratch/log" ||
        { cat "$scratch/log"; fail 'the fuzzer for SQLite does not build'; }
    run sqlite
}

fuzz_python() {
    local config=/usr/bin/python3-config
    [ -x $config ] || { missing+=('Python (its headers, python3-dev)'); return; }
    export NALTVIGO_SITE=$root/bindings/python/src PYTHONMALLOC=malloc PYTHONDONTWRITEBYTECODE=1 ASAN_OPTIONS=detect_leaks=0
    # shellcheck disable=SC2046
    clang -g -O1 -w -std=c11 -fsanitize=fuzzer,address,undefined -fno-sanitize-recover=undefined $($config --includes) -I"$dist/include" \
        -I"$root/bindings/python/src/native" "$root/fuzz/coverage/python.c" "$root"/bindings/python/src/native/*.c \
        "$dist/lib/libnaltvigo.a" $($config --embed --ldflags) -o "$scratch/python" 2>"$scratch/log" ||
        { cat "$scratch/log"; fail 'the fuzzer for Python does not build'; }
    run python
}

# The counters of coverage that libFuzzer reads, by options of rustc that are stable.
fuzz_rust() {
    have cargo || return 0
    [ -d /usr/share/cargo/registry/cc-* ] || { missing+=('Rust (librust-cc-dev)'); return; }
    local level=-sanitizer-coverage-level=3 counters='-sanitizer-coverage-inline-8bit-counters -sanitizer-coverage-pc-table'
    local flags="-Cpasses=sancov-module -Cllvm-args=$level" word
    for word in $counters; do flags+=" -Cllvm-args=$word"; done
    export CARGO_HOME=$scratch/cargo NALTVIGO_LIB=$dist/lib CARGO_TARGET_DIR=$scratch/target
    mkdir -p "$CARGO_HOME"
    cp "$root/scripts/lib/debian_crates.toml" "$CARGO_HOME/config.toml"
    cp -r "$root/fuzz/coverage/rust" "$scratch/crate"
    sed -i "s|../../../bindings/rust|$root/bindings/rust|" "$scratch/crate/Cargo.toml"
    # with a target its flags are not those of build.rs
    (cd "$scratch/crate" && RUSTFLAGS="$flags -Cdebug-assertions -Ccodegen-units=1" cargo build --offline -q --release \
        --target x86_64-unknown-linux-gnu) 2>"$scratch/log" || { cat "$scratch/log"; fail 'the fuzzer for Rust does not build'; }
    clang -fsanitize=fuzzer "$scratch"/target/x86_64-unknown-linux-gnu/release/libnaltvigo_fuzz.a -lpthread -ldl -lm -o "$scratch/rust" 2>"$scratch/log" ||
        { cat "$scratch/log"; fail 'the fuzzer for Rust does not link'; }
    run rust
}

if have clang; then
    for name in ${NAMES:-sqlite python rust}; do
        "fuzz_$name"
    done
fi
end_tests
