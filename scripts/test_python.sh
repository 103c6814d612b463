#!/usr/bin/env bash
# Tests the package for Python, as it is installed: scripts/test_python.sh DIST
#
# DIST has the library for C, as build_c.sh makes it. The wheel is built twice, by pip and from the source archive, installed
# in a fresh folder, and tested there: unit tests, types, refused memory, random inputs under sanitizers, and one part in
# PLANTED_PARTS of the planted bugs, by the day (8; 1 tries all). The source archive is installed once more in an environment
# that has a C compiler alone, if portable/ has the assembly. If /usr/bin/python3 is another Python it runs the unit tests
# too, with Debian's cbor2. Needed are python3, its headers (Debian's python3-dev) and a C compiler; the last line, which
# begins 'Python: all well', names what else is missing. Otherwise the status is not 0.
set -euo pipefail
. "$(dirname "${BASH_SOURCE[0]}")/lib/options.sh"
. "$(dirname "${BASH_SOURCE[0]}")/lib/testing.sh"
take_options 1 "$@"
begin_tests Python

package=$root/bindings/python
dist=$(cd "$1" && pwd)
export NALTVIGO_LIB=$dist/lib PYTHONDONTWRITEBYTECODE=1

# Runs what follows the name in another folder, so that only what is installed is found.
try() {
    local name=$1
    shift
    (cd "$scratch" && "$@") >"$scratch/log" 2>&1 || { cat "$scratch/log"; fail "$name"; }
}

python=$(python3 -c 'import sys; print(sys.executable)')
folder=$("$python" -c 'import sysconfig; print(sysconfig.get_path("include"))')
[ -e "$folder/Python.h" ] || fail "$folder/Python.h is missing: install python3-dev"

# ---- The wheel and the source archive

build() { "$python" "$package/build_wheel.py" "$@"; }

mkdir "$scratch"/{wheel,again,sdist,site,watched}
wheel=$(build "$scratch/wheel") # of the library in DIST
build "$scratch/again" >/dev/null
cmp "$scratch/wheel/$wheel" "$scratch/again/$wheel" || fail 'two wheels differ'
sdist=$(build --sdist "$scratch/sdist")
build --sdist "$scratch/again" >/dev/null
cmp "$scratch/sdist/$sdist" "$scratch/again/$sdist" || fail 'two source archives differ'
tar -C "$scratch/sdist" -xzf "$scratch/sdist/$sdist"
"$python" "$scratch/sdist/${sdist%.tar.gz}/build_wheel.py" "$scratch/sdist" >/dev/null
cmp "$scratch/wheel/$wheel" "$scratch/sdist/$wheel" || fail 'the source archive makes another wheel'
if "$python" -m pip --version >/dev/null 2>&1; then
    "$python" -m pip install -q --no-index --no-deps --target "$scratch/site" --root-user-action ignore "$scratch/wheel/$wheel" || fail 'pip takes no such wheel'
    "$python" -m pip wheel -q --no-index --no-deps -w "$scratch/by_pip" "$package" || fail 'pip makes no wheel'
    cmp "$scratch/wheel/$wheel" "$scratch/by_pip/$wheel" || fail 'pip makes another wheel'
else
    missing+=(pip)
    "$python" -m zipfile -e "$scratch/wheel/$wheel" "$scratch/site"
fi

# what the tag says of glibc is true, and only the C library is needed
extension=$scratch/site/naltvigo/_native.abi3.so
greatest=$(objdump -T "$extension" | sed -n 's/.*GLIBC_\([0-9.]*\)).*/\1/p' | sort -V | tail -1)
tagged=$(sed -n 's/.*manylinux_\([0-9]*\)_\([0-9]*\)_.*/\1.\2/p' <<<"$wheel")
[ "$(printf '%s\n' "$greatest" "$tagged" | sort -V | tail -1)" = "$tagged" ] || fail "$wheel needs glibc $greatest"
[ "$(objdump -p "$extension" | awk '/NEEDED/ { print $2 }')" = libc.so.6 ] || fail 'the extension needs more than the C library'
is_hardened "$extension"
nm -D -u "$extension" | grep __memcpy_chk >/dev/null || fail 'copies of known sizes are not checked'

# a Python without the interpreter's lock is refused
! "${CC:-cc}" -DPy_GIL_DISABLED -I"$folder" -I"$dist/include" -fsyntax-only "$package/src/native/module.c" 2>"$scratch/log" || fail 'a build without the lock'
grep -q 'needs the interpreter.s lock' "$scratch/log" || fail 'the sentence of a build without the lock'

# ---- Its tests

tests() {
    try "tests by $1" env PYTHONPATH="$scratch/site" "$1" -m unittest discover "$package/tests"
    say "$(sed -n 's/^\(Ran [0-9]* tests\).*/\1/p' "$scratch/log") of $wheel as it is installed, by $("$1" --version)"
}

tests "$python"
last=$python
if [ -x /usr/bin/python3 ] && ! cmp -s "$python" /usr/bin/python3; then
    last=/usr/bin/python3
    tests "$last"
fi
for module in cbor2 distributed; do
    "$last" -c "import $module" 2>"$scratch/log" || missing+=("python3-$module")
done

# ---- Types

checker=$python
"$checker" -m mypy --version >/dev/null 2>&1 || checker=/usr/bin/python3
if "$checker" -m mypy --version >/dev/null 2>&1; then
    try types "$checker" -m mypy --strict "$package/src/naltvigo"
    try 'types of what is installed' env MYPYPATH="$scratch/site" "$checker" -m mypy --strict "$package/tests/typed_use.py"
    "$python" -c 'import doctest, sys; print(doctest.script_from_examples(open(sys.argv[1]).read()))' "$package/README.md" >"$scratch/readme.py"
    try 'types of the README' env MYPYPATH="$scratch/site" "$checker" -m mypy --strict "$scratch/readme.py"
    # of a type whose options all have names stubtest reads no signature
    echo naltvigo._native.Checker.__init__ >"$scratch/allowed"
    try 'stubs of the extension' env PYTHONPATH="$scratch/site" MYPYPATH="$scratch/site" "$checker" -m mypy.stubtest naltvigo._native \
        --allowlist "$scratch/allowed" --ignore-unused-allowlist
    say 'the types hold, for mypy --strict and for the extension as it is'
else
    missing+=(mypy)
fi

# ---- Refused memory, and random inputs under sanitizers

compiler=${CC:-cc}
"$compiler" -shared -fPIC -O1 "$package/tests/refuse.c" -o "$scratch/refuse.so" -ldl
try 'refused memory' env LD_PRELOAD="$scratch/refuse.so" PYTHONMALLOC=malloc PYTHONPATH="$scratch/site" "$python" "$package/tests/refused_memory.py"
say "$(cat "$scratch/log")"

sanitizers='-g -fsanitize=address,undefined -fno-sanitize-recover=undefined'
runtime=$("$compiler" -print-file-name=libasan.so)
if [ -e "$runtime" ] && CFLAGS=$sanitizers build "$scratch/watched" >"$scratch/log" 2>&1; then
    "$python" -m zipfile -e "$scratch/watched/$wheel" "$scratch/watched"
    watched=(env LD_PRELOAD="$runtime" ASAN_OPTIONS=detect_leaks=0 PYTHONMALLOC=malloc PYTHONPATH="$scratch/watched" "$python")
    try 'random inputs under sanitizers' "${watched[@]}" "$package/tests/fuzz_values.py" 15000 7
    say "under sanitizers: $(cat "$scratch/log")"
    for tests in appendix check_stream checker files frozen hostile sequences thresholds values; do
        try 'tests under sanitizers' "${watched[@]}" -m unittest discover "$package/tests" -p "test_$tests.py"
        say "under sanitizers: $tests, $(sed -n 's/^\(Ran [0-9]* tests\).*/\1/p' "$scratch/log")"
    done
else
    missing+=('a compiler with -fsanitize')
fi
try 'random inputs' env PYTHONPATH="$scratch/site" "$python" "$package/tests/fuzz_values.py" 50000 1
say "$(cat "$scratch/log")"

# ---- Planted bugs, a part a day

parts=${PLANTED_PARTS:-8}
try 'planted bugs' "$python" "$package/tests/planted.py" "$dist" "$(($(date +%s) / 86400 % parts))" "$parts"
say "$(cat "$scratch/log")"

# ---- From the assembly: the source archive with a C compiler alone, and wheels for systems whose Python is not here

# Builds a wheel of the assembly, and compares its tag and the parts of the C library that it needs.
build_for() { # COMPILER TAG LIBRARY ..
    local built
    have "$1" || return 0
    built=$(env -u NALTVIGO_LIB CC="$1" "$python" "$package/build_wheel.py" "$scratch") || fail "a wheel by $1"
    [ "$built" = "${wheel%%-abi3-*}-abi3-$2.whl" ] || fail "a wheel by $1 is $built"
    "$python" -m zipfile -e "$scratch/$built" "$scratch/of-$1"
    [ "$(objdump -p "$scratch/of-$1/naltvigo/_native.abi3.so" | awk '/NEEDED/ { print $2 }' | xargs)" = "${*:3}" ] || fail "$built needs more than the C library"
    say "$built is built; not run"
}

if [ -e "$root/portable/naltvigo-$(uname -m)-elf.S" ]; then
    ! env -u NALTVIGO_LIB CC="${CC:-cc} -m32" "$python" "$package/build_wheel.py" "$scratch" >"$scratch/log" 2>&1 || fail 'a wheel for a target without assembly'
    grep -q 'naltvigo has no assembly for this target: there is x86_64' "$scratch/log" || { cat "$scratch/log"; fail 'the sentence of a target without assembly'; }
    build_for riscv64-linux-gnu-gcc manylinux_2_27_riscv64 libc.so.6 ld-linux-riscv64-lp64d.so.1
    build_for musl-gcc "musllinux_1_2_$(uname -m)" libc.so
    "$python" -m venv "$scratch/venv"
    alone=(env -i PATH=/usr/bin:/bin HOME="$scratch" PYTHONDONTWRITEBYTECODE=1)
    try 'installing the source archive' "${alone[@]}" "$scratch/venv/bin/python" -m pip install -q --no-index --no-cache-dir "$scratch/again/$sdist"
    try 'the source archive' "${alone[@]}" "$scratch/venv/bin/python" -m unittest discover "$package/tests"
    say "the source archive, installed with a C compiler alone: $(sed -n 's/^\(Ran [0-9]* tests\).*/\1/p' "$scratch/log")"
else
    missing+=('the assembly in portable/')
fi
end_tests
