# shellcheck shell=bash
# For the tests in scripts/: what each begins and ends with, after take_options.
#
#     begin_tests NAME    sets root, the repository's folder; scratch, a folder removed at the end; missing, empty
#     say WORD ..         prints a line
#     fail WORD ..        prints the last line, and ends with status 1
#     have TOOL           whether a tool is installed; if not, adds it to missing
#     is_hardened FILE    fails if a shared object was built without a flag against overruns
#     end_tests           prints the last line: all well, and what is missing

begin_tests() {
    test_name=$1
    root=$(cd "$(dirname "${BASH_SOURCE[1]}")/.." && pwd)
    scratch=$(mktemp -d)
    trap 'rm -rf "$scratch"' EXIT
    missing=()
}

say() { echo "$test_name: $*"; }
fail() { say "FAILED: $*"; exit 1; }
have() {
    command -v "$1" >/dev/null && return
    [[ " ${missing[*]} " = *" $1 "* ]] || missing+=("$1")
    return 1
}

is_hardened() {
    # grep reads to the end, so that no pipe breaks
    readelf -Wl "$1" | grep GNU_RELRO >/dev/null && readelf -Wd "$1" | grep BIND_NOW >/dev/null || fail "$1 has no full RELRO"
    ! readelf -Wl "$1" | grep 'GNU_STACK.* RWE ' >/dev/null || fail "$1 has a stack that can be executed"
    nm -D -u "$1" | grep __stack_chk_fail >/dev/null || fail "$1 has no stack protector"
    [ "$(uname -m)" != x86_64 ] || objdump -d "$1" | grep endbr64 >/dev/null || fail "$1 has no -fcf-protection"
}

end_tests() {
    local listed
    listed=$(printf ', %s' "${missing[@]}")
    say "all well${missing[*]:+; not tried, since not there: ${listed#, }}"
}
