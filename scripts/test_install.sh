#!/usr/bin/env bash
# Installs and packages, and uses the result: scripts/test_install.sh [DIST [PROGRAM]]
#
# Into a fresh prefix by install.sh, from the archive, and as the Debian packages in a fresh root: each time the program runs,
# its man page shows, C programs are built with pkg-config and with CMake and run, and nothing is left at the end. Each
# script understands --help. DIST and PROGRAM are built already, or are built first. GATE_LOG, if it is set, names the log of the
# gate's proofs, whose transcript the packages then have. It needs a C compiler; the last line, which begins
# 'install: all well', names what else was missing. Otherwise the status is not 0.
set -euo pipefail
. "$(dirname "${BASH_SOURCE[0]}")/lib/options.sh"
. "$(dirname "${BASH_SOURCE[0]}")/lib/testing.sh"
take_options 2 "$@"
begin_tests install

cc=${CC:-cc}
version=$(cat "$root/VERSION")

python3 "$root/scripts/version.py" || fail 'the version is not the same everywhere'
DIST=${1:-$scratch/dist}
[ -n "${1:-}" ] || "$root/scripts/build_c.sh" "$DIST"
PROGRAM=${2:-$root/crates/cborc/out/cborc}
[ -n "${2:-}" ] || (cd "$root/crates/cborc" && rt run -- --version) >"$scratch/log" 2>&1 || { cat "$scratch/log"; fail 'the program'; }
DIST=$(cd "$DIST" && pwd)
PROGRAM=$(realpath "$PROGRAM")
export DIST PROGRAM

printf '\277\143Fun\365\143Amt!\377' >"$scratch/streamed.cbor"
wanted=a263416d74216346756ef5
claims='expires 1444064944, issued by coap://as.example.com'
xxd_of() { od -An -tx1 | tr -d ' \n'; }

mkdir "$scratch/project"
cp "$root/examples/canonicalise.c" "$root/examples/cwt.c" "$scratch/project"
cat >"$scratch/project/CMakeLists.txt" <<CMAKE
cmake_minimum_required(VERSION 3.13)
project(canonicalise C)
find_package(naltvigo ${version%%.*} REQUIRED)
foreach(example canonicalise cwt)
  add_executable(\${example}_shared \${example}.c)
  target_link_libraries(\${example}_shared naltvigo::naltvigo)
  add_executable(\${example}_static \${example}.c)
  target_link_libraries(\${example}_static naltvigo::static)
endforeach()
CMAKE

# Uses what is installed below a prefix, in an environment that knows no other.
use() { # NAME PREFIX [LIB ROOT]: the folder of the libraries, and the root that Debian's files mean
    local name=$1 prefix=$2 lib=${3:-$2/lib} above=${4:-} used='the program'
    [ "$("$prefix/bin/cborc" --version | head -1)" = "cborc $version" ] || fail "$name: the program's version"
    [ "$("$prefix/bin/cborc" canon "$scratch/streamed.cbor" - | xxd_of)" = $wanted ] || fail "$name: the program"
    if have man; then
        use_page "$name" "$(find "$prefix/share/man/man1" -name 'cborc.1*')"
        used+=', its man page'
    fi
    if have pkg-config; then
        use_pkg_config "$name" "$lib" "$above"
        used+=', C by pkg-config'
    fi
    if have cmake; then
        use_cmake "$name" "$prefix"
        used+=', C by CMake'
    fi
    python3 "$root/scripts/documents.py" "$prefix/share/doc/naltvigo" || fail "$name: a link in a document"
    cmp "$prefix/share/doc/naltvigo/examples/cwt.c" "$root/examples/cwt.c" || fail "$name: an example of docs/C.md"
    grep -q '^canonicalise(' "$prefix/share/doc/naltvigo/docs/PROVED.md" || fail "$name: the contracts of the calls"
    grep -q '^| `canonicalise` |' "$prefix/share/doc/naltvigo/docs/CALLS.md" || fail "$name: the documentation of the calls"
    say "$name: $used"
}
use_page() { # NAME PAGE
    local found
    found=$(MANPAGER=cat MANWIDTH=80 man -l "$2" 2>&1) || fail "$1: the man page"
    grep -q 'canonicalise CBOR' <<<"$found" || fail "$1: the man page says nothing"
}
use_pkg_config() { # NAME LIB ROOT
    local words example
    # Debian's file names /usr, which pkg-config leaves out elsewhere
    words=$(PKG_CONFIG_LIBDIR=$2/pkgconfig PKG_CONFIG_SYSROOT_DIR=$3 PKG_CONFIG_ALLOW_SYSTEM_CFLAGS=1 PKG_CONFIG_ALLOW_SYSTEM_LIBS=1 \
        pkg-config --cflags --libs "naltvigo = $version") || fail "$1: pkg-config"
    for example in canonicalise cwt; do
        # shellcheck disable=SC2086
        "$cc" "$scratch/project/$example.c" $words -o "$scratch/$example"
    done
    [ "$(LD_LIBRARY_PATH=$2 "$scratch/canonicalise" "$scratch/streamed.cbor" | xxd_of)" = $wanted ] || fail "$1: a C program, by pkg-config"
    [ "$(LD_LIBRARY_PATH=$2 "$scratch/cwt" | tail -1)" = "$claims" ] || fail "$1: values in C, by pkg-config"
}
use_cmake() { # NAME PREFIX
    local kind
    rm -rf "$scratch/build"
    cmake -S "$scratch/project" -B "$scratch/build" -DCMAKE_PREFIX_PATH="$2" >"$scratch/log" 2>&1 && cmake --build "$scratch/build" >>"$scratch/log" 2>&1 ||
        { cat "$scratch/log"; fail "$1: the CMake project"; }
    for kind in shared static; do
        [ "$("$scratch/build/canonicalise_$kind" "$scratch/streamed.cbor" | xxd_of)" = $wanted ] || fail "$1: the CMake project, $kind"
        [ "$("$scratch/build/cwt_$kind" | tail -1)" = "$claims" ] || fail "$1: values in the CMake project, $kind"
    done
}

# ---- each script's words

for script in "$root"/scripts/*.sh; do
    name=${script##*/}
    for word in -h --help; do
        (mkdir "$scratch/apart" && cd "$scratch/apart" && "$script" $word) >"$scratch/log" 2>&1 || fail "$name $word: status $?"
        grep -q "scripts/$name" "$scratch/log" || fail "$name $word does not say how it is called"
        rmdir "$scratch/apart" || fail "$name $word makes files"
    done
    status=0
    (mkdir "$scratch/apart" && cd "$scratch/apart" && "$script" --no-such-option) >"$scratch/log" 2>&1 || status=$?
    [ $status = 2 ] || fail "$name --no-such-option: status $status"
    grep -q 'unknown option --no-such-option' "$scratch/log" || fail "$name --no-such-option says nothing of it"
    rmdir "$scratch/apart" || fail "$name --no-such-option makes files"
done
say 'each script understands --help, and refuses other options'

# ---- into a prefix that has other files

mkdir -p "$scratch/prefix/bin"
echo kept >"$scratch/prefix/bin/other"
"$root/scripts/install.sh" "$scratch/prefix" >/dev/null
use 'install.sh' "$scratch/prefix"
"$scratch/prefix/share/naltvigo/uninstall.sh" >/dev/null
[ "$(cd "$scratch/prefix" && find . -type f -o -type l)" = ./bin/other ] || fail "uninstall.sh leaves $(find "$scratch/prefix")"
[ "$(cd "$scratch/prefix" && find . -mindepth 1 -type d)" = ./bin ] || fail 'uninstall.sh leaves folders'
! "$root/scripts/uninstall.sh" "$scratch/prefix" 2>/dev/null || fail 'uninstall.sh of nothing'

# ---- packages

package() { # FOLDER
    "$root/scripts/package.sh" "$1" >"$scratch/log" 2>&1 || { cat "$scratch/log"; fail 'package.sh'; }
}
package "$scratch/packages"
sleep 1
package "$scratch/again"
diff -r "$scratch/packages" "$scratch/again" || fail 'two packages differ'
say "packages, twice with equal bytes: $(cd "$scratch/packages" && echo *)"
mkdir "$scratch/unpacked"
tar -C "$scratch/unpacked" --strip-components=1 -xzf "$scratch"/packages/*.tar.gz
use 'the archive' "$scratch/unpacked"
"$scratch/unpacked/share/naltvigo/uninstall.sh" >/dev/null
[ -z "$(find "$scratch/unpacked" -mindepth 1)" ] || fail 'the archive leaves something'

# ---- the Debian packages

unpack_debian() { # ROOT
    local file
    if [ "$(id -u)" = 0 ] && have dpkg; then
        mkdir -p "$1"/var/lib/dpkg/{info,updates}
        touch "$1"/var/lib/dpkg/status
        dpkg --root="$1" --force-depends -i "$scratch"/packages/*.deb >"$scratch/log" 2>&1 || { cat "$scratch/log"; fail 'dpkg -i'; }
    else
        for file in "$scratch"/packages/*.deb; do
            dpkg-deb -x "$file" "$1"
        done
    fi
}
# As on a machine that has only the C library.
run_as_root_folder() { # ROOT
    local file
    for file in $(ldd "$1/usr/bin/cborc" | grep -o '/[^ ]*'); do
        install -D "$file" "$1$file"
    done
    [ "$(chroot "$1" /usr/bin/cborc canon - - <"$scratch/streamed.cbor" | xxd_of)" = $wanted ] || fail 'the program, with the packages as root'
}
remove_debian() { # ROOT
    local left
    dpkg --root="$1" -r cborc libnaltvigo-dev libnaltvigo2 naltvigo-doc >"$scratch/log" 2>&1 || { cat "$scratch/log"; fail 'dpkg -r'; }
    left=$(find "$1" -path "$1/var" -prune -o \( -name '*cborc*' -o -name '*naltvigo*' \) -print)
    [ -z "$left" ] || fail "the Debian packages leave $left"
}

if have dpkg-deb; then
    fresh=$scratch/fresh
    mkdir "$fresh"
    unpack_debian "$fresh"
    use 'the Debian packages' "$fresh/usr" "$fresh/usr/lib/$(uname -m)-linux-gnu" "$fresh"
    for part in copyright changelog.gz changelog.Debian.gz; do
        [ "$(find "$fresh"/usr/share/doc/*/$part | wc -l)" = 4 ] || fail "not each Debian package has a $part"
    done
    if [ "$(id -u)" = 0 ] && have chroot && have ldd; then
        run_as_root_folder "$fresh"
    fi
    [ ! -d "$fresh/var/lib/dpkg/info" ] || remove_debian "$fresh"
    if have lintian; then
        lintian --fail-on error,warning --suppress-tags-from-file "$root/share/debian/explained.txt" "$scratch"/packages/*.deb >"$scratch/log" 2>&1 || { cat "$scratch/log"; fail 'lintian finds errors or warnings'; }
        say 'lintian finds no error and no warning'
    fi
fi

# ---- what the gate proved, in each package

# A log of rt ci. In the gate's own log an earlier run may have proved all crates. Then it has no line of a proof to remove.
cat >"$scratch/made.log" <<'LOG'
     11 == lower
     11 fn lower::echo: proved
     11 empty contracts: 0 found; tried 1 of 1 functions
     11 logic KIT/antt-project.json: libraries=16 files=2756 sum=dac8208d650f15bf3e2dc313a14fa4c783a3acf887bdfab66e1714b038d9e11b
     11 statements core: modules loaded=700 checked=0
     11 logic=proved functions=1 sum=dac8208d650f15bf native=nat,char,string logic-built=trusted
     11 rt: lower proved
     33 == lower: its tests
     33 fn lower::tests::echoes: proved, may abort
     33 logic KIT/antt-project.json: libraries=16 files=2756 sum=dac8208d650f15bf3e2dc313a14fa4c783a3acf887bdfab66e1714b038d9e11b
     33 axioms libc: libc::write (1 of the 128 declared)
     33 axioms os: none reached of the 22 declared
     33 logic=proved tests=1 functions=2 axioms=1 target=x86_64-unknown-linux-gnu main=Abort sum=dac8208d650f15bf
     33 rt: lower: its tests are proved
     33 rt: upper is kept: an earlier run on this machine proved the same files over the same libraries
     33 rt: lower: trying its must-fail edits (1)
     41 rt: must-fail lower/zero.edit: refused, as it must be: ./proofs/echo/Answers.antt:8:13: error: `returns`
     41 tests: 1
     41 test tests::echoes ... ok
     41 test result: ok. 1 passed; 0 failed; 0 ignored; 0 filtered out
     41 rt: lower: its tests passed
     41 rt: upper ran, and wrote what its file stdout has
     41 rt: ok; handles allowed: none; must-fail edits: 1 refused; done in this run: 2 of the 3 proofs
seconds                    proof   tests   edits
lower                         10      22       8 (1)
3 passed, 0 failed
stage proofs: 42 s
LOG
for change in 's/^\([0-9]* passed\), 0/\1, 1/' '/rt: ok;/d' 's/^ *[0-9]* logic=.*//' '/^[0-9]* passed, 0 failed$/d'; do
    sed "$change" "$scratch/made.log" >"$scratch/other.log"
    ! python3 "$root/scripts/transcript.py" "$scratch/other.log" "$scratch/prefix" >/dev/null 2>&1 || fail "a log changed by $change gets a transcript"
done
GATE_LOG=${GATE_LOG:-$scratch/made.log} package "$scratch/reported"
mkdir "$scratch/archive"
tar -C "$scratch/archive" --strip-components=1 -xzf "$scratch"/reported/*.tar.gz
transcript=$scratch/archive/share/doc/naltvigo/transcript.txt
(cd "$scratch/archive" && grep -E '^[0-9a-f]{64}  ' "$transcript" | sha256sum --check --quiet) || fail 'the transcript has other sums'
files=("$root"/include/*.h cborc libnaltvigo.a libnaltvigo.so)
[ "$(grep -cE '^[0-9a-f]{64}  ' "$transcript")" = ${#files[@]} ] || fail 'the transcript lacks a file'
if [ -z "${GATE_LOG:-}" ]; then
    diff - <(sed -n '/^Crate/,/^$/p' "$transcript") <<'CRATES' || fail 'the transcript of the crates'
Crate lower
  proof: empty contracts: 0 found; tried 1 of 1 functions
  proof: logic=proved functions=1 sum=dac8208d650f15bf native=nat,char,string logic-built=trusted
  proof of its tests: axioms libc: libc::write (1 of the 128 declared)
  proof of its tests: logic=proved tests=1 functions=2 axioms=1 target=x86_64-unknown-linux-gnu main=Abort sum=dac8208d650f15bf
  wrong bodies refused: 1
  tests passed: 1

Crate upper
  proof: kept: an earlier run on this machine proved the same files over the same libraries
  the program ran, and wrote what it must

CRATES
fi
if have dpkg-deb; then
    mkdir "$scratch/deb"
    for name in cborc libnaltvigo2; do
        dpkg-deb -x "$scratch"/reported/${name}_*.deb "$scratch/deb"
        cmp "$scratch"/deb/usr/share/doc/$name/transcript.*.txt "$transcript" || fail "$name has no transcript"
    done
    for file in "$scratch/deb/usr/bin/cborc" "$scratch"/deb/usr/lib/*/libnaltvigo.so.$version; do
        grep -q "^$(sha256sum <"$file" | cut -d' ' -f1) " "$transcript" || fail "the transcript has another ${file##*/}"
    done
fi
say 'the packages have the transcript of a run, with the sums of their files'
end_tests
