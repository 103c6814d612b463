#!/usr/bin/env bash
# Prints how long the library and the program take, as Markdown tables.
#
#   bench/run.sh [items] [program] [instructions] [library] [languages] [strict] [views]      all by default
#
# items    proves and runs items.rattle, a program over cbor_item, on trees made from a seed
# program  makes files from a seed (inputs.py), and runs cborc on them (program.py); then on a sequence of
#          300 MB and on files of 1 GiB, and compared with /bin/true (streams.py), some minutes; counts the
#          instructions of an item of a sequence (sequence.py), and of inputs that are refused for equal
#          keys (repeats.py), by valgrind
# instructions
#          counts the instructions of canon, check and check --strict, and of plain C
#          (instructions.py, plain.c, floor.c), by valgrind
# library  builds the library for C, and times its calls in process, compared with plain C (library.c, floor.c)
#          and libcbor, where Debian's libcbor-dev is installed; counts their instructions on small items (small.py)
#          and of the check in parts (parts.py), by valgrind, and the stack that they need (c/stack.c)
# languages
#          times the packages for Python, Go and JavaScript and the extensions for SQLite and PostgreSQL next to
#          cbor2, fxamacker/cbor and JSON, as far as they are installed (bindings/python/bench.py, go.sh, web.sh,
#          databases.sh). JavaScript needs its modules in bindings/js/wasm, as scripts/build_web.sh makes them
# strict   proves and runs strict.rattle, a program over cbor_strict, and counts the instructions of
#          read_strict from a reader and of plain C (strict.py, plain.c, floor.c), by valgrind
# views    proves and runs views.rattle, a program over cbor_reader and example, and counts the instructions
#          and the memory of read_view, check_valid and read_tree (views.py), by valgrind
#
# The kit's rt must be on the path. The output of rt goes to standard error. All is done on a copy in
# a temporary folder, with what earlier checks of the clone stored, so that only what
# changed is proved again; cborc is the one that a check or the gate left, if no source is newer.
set -euo pipefail

root=$(cd "$(dirname "${BASH_SOURCE[0]}")/.." && pwd)
scratch=$(mktemp -d)
trap 'rm -rf "$scratch"' EXIT

cp -R "$root/crates" "$root/crates.txt" "$root/HANDLES" "$scratch"

# The gate proves every .rt file of the repository, so this one gets its ending here.
items() {
    mkdir -p "$scratch/crates/items/src"
    cp "$root/bench/items.rattle" "$scratch/crates/items/src/main.rt"
    echo "items: cbor_head cbor_item anyhow rand rand_core" >>"$scratch/crates.txt"
    cd "$scratch/crates/items"
    rt run 2>"$scratch/log" || { cat "$scratch/log" >&2; return 1; }
}

# The program as a check or the gate left it, if no source is newer; else it is proved.
make_program() {
    cborc=$root/crates/cborc/out/cborc
    if [ ! -x "$cborc" ] || [ -n "$(find "$root/crates" -newer "$cborc" \( -name '*.rt' -o -name '*.antt' \) -not -path '*/out/*' -print -quit)" ]; then
        (cd "$scratch/crates/cborc" && rt run -- --help) >/dev/null 2>"$scratch/log" || { cat "$scratch/log" >&2; return 1; }
        cborc=$scratch/crates/cborc/out/cborc
    fi
}

make_inputs() {
    mkdir -p "$scratch/inputs"
    [ -e "$scratch/inputs/one.cbor" ] || python3 "$root/bench/inputs.py" "$scratch/inputs"
}

make_plain() {
    cc -O3 -o "$scratch/plain" "$root/bench/plain.c" "$root/bench/floor.c"
}

program() {
    make_program
    make_inputs
    python3 "$root/bench/program.py" "$cborc" "$scratch/inputs"
    python3 "$root/bench/streams.py" "$cborc" "$scratch/inputs"
    printf '\n'
    python3 "$root/bench/sequence.py" "$cborc" "$scratch/inputs"
    printf '\n'
    python3 "$root/bench/repeats.py" "$cborc" "$scratch/inputs"
}

instructions() {
    make_program
    make_inputs
    make_plain
    python3 "$root/bench/instructions.py" "$cborc" "$scratch/plain" "$scratch/inputs" integers map_100000 texts records chains \
        small_chunks keys_around_bytes
}

library() {
    "$root/scripts/build_c.sh" "$scratch/dist"
    make_inputs
    peer=()
    ! pkg-config --exists libcbor 2>/dev/null || peer=(-DHAS_LIBCBOR $(pkg-config --cflags --libs libcbor))
    cc -O3 -o "$scratch/library" "$root/bench/library.c" "$root/bench/floor.c" "-I$scratch/dist/include" \
        "$scratch/dist/lib/libnaltvigo.a" "${peer[@]}"
    "$scratch/library" "$scratch/inputs" records map_10000 map_100000 integers wide_integers zeros text chunks \
        nested_many nested_keys keys_around_map bytes_16_mib
    printf '\n'
    python3 "$root/bench/small.py" "$scratch/library"
    printf '\n'
    python3 "$root/bench/parts.py" "$scratch/library" "$scratch/inputs" records texts text integers zeros map_100000 nested_many
    cc -O2 -o "$scratch/stack" "$root/c/stack.c" "-I$root/c" "-I$scratch/dist/include" "$scratch/dist/lib/libnaltvigo.a" -pthread
    printf '\n'
    "$scratch/stack"
}

# The package for Python is installed from its wheel, for a Python that has cbor2.
languages() {
    [ -d "$scratch/dist" ] || "$root/scripts/build_c.sh" "$scratch/dist" "$root/portable/naltvigo.S"
    mkdir -p "$scratch/site"
    NALTVIGO_LIB=$scratch/dist/lib python3 "$root/bindings/python/build_wheel.py" "$scratch" >/dev/null
    python3 -m zipfile -e "$scratch"/naltvigo-*.whl "$scratch/site"
    PYTHONPATH=$scratch/site /usr/bin/python3 "$root/bindings/python/bench.py" || echo 'languages: Python is left out' >&2
    printf '\n'
    "$root/bench/go.sh" || echo 'languages: Go is left out' >&2
    printf '\n'
    [ ! -d "$root/bindings/js/wasm" ] || "$root/bench/web.sh" "$scratch/dist" || echo 'languages: JavaScript is left out' >&2
    printf '\n'
    "$root/bench/databases.sh" "$scratch/dist" || echo 'languages: the databases are left out' >&2
}

strict() {
    mkdir -p "$scratch/crates/strict/src"
    cp "$root/bench/strict.rattle" "$scratch/crates/strict/src/main.rt"
    echo "strict: cbor_head cbor_strict anyhow" >>"$scratch/crates.txt"
    make_inputs
    cd "$scratch/crates/strict"
    rt run -- "$scratch/inputs/one.bytewise" 2>"$scratch/log" || { cat "$scratch/log" >&2; return 1; }
    make_plain
    python3 "$root/bench/strict.py" out/strict "$scratch/plain" "$scratch/inputs" records map_100000 integers zeros text \
        nested_many nested_keys keys_around_map
}

views() {
    mkdir -p "$scratch/crates/views/src"
    cp "$root/bench/views.rattle" "$scratch/crates/views/src/main.rt"
    echo "views: cbor_head cbor_item cbor_reader example anyhow bumpalo" >>"$scratch/crates.txt"
    make_inputs
    cd "$scratch/crates/views"
    rt run -- valid "$scratch/inputs/one.cbor" >/dev/null 2>"$scratch/log" || { cat "$scratch/log" >&2; return 1; }
    python3 "$root/bench/views.py" out/views "$scratch/inputs" records integers texts map_100000 small_chunks zeros
}

[ $# -gt 0 ] || set -- items program instructions library languages strict views
date -u +'%Y-%m-%d, '"$(nproc) processors, load $(cut -d' ' -f1 /proc/loadavg)"
for part; do
    case $part in
        items | program | instructions | library | languages | strict | views)
            printf '\n## %s\n\n' "$part"
            ("$part")
            ;;
        *)
            echo "usage: bench/run.sh [items] [program] [instructions] [library] [languages] [strict] [views]" >&2
            exit 2
            ;;
    esac
done
