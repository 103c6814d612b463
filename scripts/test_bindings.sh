#!/usr/bin/env bash
# Tests the packages for Python and Rust: scripts/test_bindings.sh [FOLDER]
#
# FOLDER has the library for C, as build_c.sh makes it; if it is left out, it is built. test_python.sh tests the package for Python;
# cargo tests the crate offline. python3 is needed; the last line of each says 'all well' and names what else was missing.
# Otherwise the status is not 0.
set -euo pipefail
. "$(dirname "${BASH_SOURCE[0]}")/lib/options.sh"
. "$(dirname "${BASH_SOURCE[0]}")/lib/testing.sh"
. "$(dirname "${BASH_SOURCE[0]}")/lib/crate.sh"
take_options 1 "$@"
begin_tests bindings

dist=${1:-}
if [ -z "$dist" ]; then
    dist=$scratch/dist
    "$root/scripts/build_c.sh" "$dist"
fi
dist=$(cd "$dist" && pwd)
export NALTVIGO_LIB=$dist/lib

python3 "$root/scripts/reasons.py" --check || fail 'the tables of reasons are stale'
python3 "$root/scripts/header.py" || fail 'the numbers of the bindings are not those of the header'

# ---- Python

"$root/scripts/test_python.sh" "$dist"

# ---- Rust

test_rust() {
    local canonical
    have cargo || return 0
    [ -d /usr/share/cargo/registry ] || { missing+=('Rust (its crate cc, librust-cc-dev)'); return; }
    export CARGO_HOME=$scratch/cargo CARGO_TARGET_DIR=$scratch/target
    mkdir -p "$CARGO_HOME"
    cp "$root/scripts/lib/debian_crates.toml" "$CARGO_HOME/config.toml"
    cd "$root/bindings/rust"
    cargo test --offline -q >"$scratch/log" 2>&1 || { cat "$scratch/log"; fail 'tests in Rust'; }
    cargo check --offline -q --no-default-features 2>"$scratch/log" || { cat "$scratch/log"; fail 'the crate in Rust without std'; }
    say "Rust: $(sed -n 's/^test result: ok. \([0-9]*\) passed.*/\1/p' "$scratch/log" | awk '{ sum += $1 } END { print sum }') tests"
    canonical=$(printf '\277\143Fun\365\143Amt!\377' | cargo run --offline -q --example canonicalise | od -An -tx1 | tr -d ' \n')
    [ "$canonical" = a263416d74216346756ef5 ] || fail 'the example in Rust'
    canonical=$(echo bf6346756ef563416d7421ff | cargo run --offline -q --example values)
    [ "$canonical" = a263416d74216346756ef5 ] || fail 'the example of values in Rust'
    # an error that main returns is a sentence
    ! printf '\201\371\076\000' | cargo run --offline -q --example canonicalise 2>"$scratch/log" || fail 'a float in Rust'
    grep -q '^Error: refused 5 Float at 1 ($\[0\]): ' "$scratch/log" || fail 'the sentence in Rust'
    if cargo clippy --version >/dev/null 2>&1; then
        cargo clippy --offline -q --all-targets -- -D warnings 2>"$scratch/log" || { cat "$scratch/log"; fail 'lints in Rust'; }
    fi
    if cargo fmt --version >/dev/null 2>&1; then
        cargo fmt --check >/dev/null || fail 'the layout in Rust'
    fi
    python3 "$root/scripts/test_planted.py" rust >"$scratch/log" || { cat "$scratch/log"; fail 'planted bugs in Rust'; }
    say "Rust: $(tail -1 "$scratch/log")"
    rm -f Cargo.lock
}

# The crate as others get it: built from its assembly by a C compiler, here and for other machines, and from an installed library.
test_crate() {
    local it target tools kind script
    have cargo || return 0
    [ -d /usr/share/cargo/registry ] || return 0
    [ -e "$root/portable/naltvigo-x86_64-elf.S" ] || { missing+=('the crate from its assembly (portable/, by scripts/portable.py)'); return; }
    crate_folder "$scratch/crate"
    cd "$scratch/crate"
    env -u NALTVIGO_LIB cargo package --offline -q --allow-dirty >"$scratch/log" 2>&1 || { cat "$scratch/log"; fail 'cargo package'; }
    mkdir -p "$scratch/user/src"
    tar -C "$scratch/user" -xzf "$CARGO_TARGET_DIR"/package/naltvigo-*.crate
    mv "$scratch"/user/naltvigo-* "$scratch/user/naltvigo"
    printf '%s\n' '[package]' 'name = "user"' 'edition = "2021"' '[dependencies]' 'naltvigo = { path = "naltvigo" }' >"$scratch/user/Cargo.toml"
    echo 'fn main() { let why = naltvigo::check(b"\x81\xf9\x3e\x00", &Default::default()).unwrap_err(); println!("{}", why.reason.number()); }' >"$scratch/user/src/main.rs"
    [ "$(cd "$scratch/user" && env -u NALTVIGO_LIB PATH="$(dirname "$(command -v cargo)"):/usr/bin:/bin" cargo run --offline -q)" = 5 ] || fail 'the crate, unpacked'
    script=$(ls -t "$CARGO_TARGET_DIR"/debug/build/naltvigo-*/build-script-build | head -1)
    for it in aarch64-unknown-linux-gnu:aarch64-linux-gnu:aarch64 riscv64gc-unknown-linux-gnu:riscv64-linux-gnu:riscv x86_64-pc-windows-gnu:x86_64-w64-mingw32:x86-64; do
        IFS=: read -r target tools kind <<<"$it"
        have "$tools-gcc" || continue
        rm -rf "$scratch/out"
        mkdir "$scratch/out"
        build_for() {
            env -u NALTVIGO_LIB TARGET="$target" HOST=x86_64-unknown-linux-gnu OUT_DIR="$scratch/out" OPT_LEVEL=2 DEBUG=false \
                CARGO_CFG_TARGET_ENV=gnu "$@" "$script" >"$scratch/log" 2>&1
        }
        build_for A= || { cat "$scratch/log"; fail "the crate for $target"; }
        "$tools-objdump" -f "$scratch/out/libnaltvigo.a" | grep -q "architecture:.*$kind" || fail "the crate for $target has other code"
        # the library of this machine is not used for another one
        ! build_for CARGO_FEATURE_SYSTEM=1 PKG_CONFIG_PATH="$dist/lib/pkgconfig" || fail "the installed library for $target"
    done
    target=i686-unknown-linux-gnu
    ! build_for A= || fail 'the crate is built for a target that has no assembly'
    grep -q 'naltvigo has no assembly for this target: there is x86_64' "$scratch/log" || { cat "$scratch/log"; fail 'a target without assembly'; }
    target=x86_64-pc-windows-msvc
    ! build_for CARGO_CFG_TARGET_ENV=msvc || fail 'the crate is assembled by MSVC'
    grep -q 'MSVC does not assemble these files: use a -gnu target, or NALTVIGO_LIB' "$scratch/log" || { cat "$scratch/log"; fail 'MSVC'; }
    if have pkg-config && [ -d "$dist/lib/pkgconfig" ]; then
        env -u NALTVIGO_LIB PKG_CONFIG_PATH="$dist/lib/pkgconfig" LD_LIBRARY_PATH="$dist/lib" cargo test --offline -q --features system --test calls \
            >"$scratch/log" 2>&1 || { cat "$scratch/log"; fail 'the crate with an installed library'; }
    fi
    say 'Rust: the crate builds from its assembly, also for other machines, and from an installed library'
}

test_rust
test_crate
end_tests
