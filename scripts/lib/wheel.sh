# shellcheck shell=bash disable=SC2154
# For test_aarch64.sh and test_portable.sh, after begin_tests: the wheel for another processor, under qemu.
#
#     test_wheel MACHINE TREE WHEEL    tests a wheel in TREE's Python, a folder of scripts/fetch_tools.sh; without TREE,
#                                      missing names it

test_wheel() {
    [ -d "$2" ] || { missing+=("Python for $1 (scripts/fetch_tools.sh)"); return 0; }
    local tree unpacked=$scratch/wheel-$1 python
    tree=$(realpath "$2")
    python=("qemu-$1-static" -L "$tree" "$tree/usr/bin/python3")
    python3 -m zipfile -e "$3" "$unpacked"
    (cd "$root/bindings/python/tests" && PYTHONDONTWRITEBYTECODE=1 PYTHONPATH=$unpacked "${python[@]}" -m unittest test_appendix \
        test_naltvigo test_sequences test_values) >"$scratch/log" 2>&1 || { cat "$scratch/log"; fail "the wheel for $1"; }
    say "${3##*/}, by $("${python[@]}" --version): $(sed -n 's/^\(Ran [0-9]* tests\).*/\1/p' "$scratch/log")"
}
