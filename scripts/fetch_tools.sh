#!/usr/bin/env bash
# Fetches what tests the packages for aarch64 and riscv64 on x86-64: scripts/fetch_tools.sh FOLDER
#
# FOLDER gets python-aarch64/ and python-riscv64/, the trees of Debian's Python, for qemu, and rust/, the tree of Debian's rustc
# and cargo for x86-64 with the standard library for aarch64 too. They come from Debian, by apt-get with its own state: the
# system is not changed. scripts/test_aarch64.sh and scripts/test_portable.sh use FOLDER if FETCHED_TOOLS names it.
set -euo pipefail
. "$(dirname "${BASH_SOURCE[0]}")/lib/options.sh"
take_options 1 "$@"
[ ${#words[@]} = 1 ] || { echo 'fetch_tools.sh: which FOLDER? --help says more' >&2; exit 2; }
command -v apt-get >/dev/null || { echo 'fetch_tools.sh: apt-get is missing' >&2; exit 1; }
mkdir -p "$1"
folder=$(cd "$1" && pwd)
scratch=$(mktemp -d)
trap 'rm -rf "$scratch"' EXIT

. /etc/os-release
# The sources of packages for an architecture. For riscv64 Debian has some since release 13.
list_sources() {
    local release=$VERSION_CODENAME signed=signed-by=/usr/share/keyrings/debian-archive-keyring.gpg
    [ "$1" != riscv64 ] || [ "$VERSION_ID" -ge 13 ] || release=trixie
    printf "deb [$signed] http://deb.debian.org/%s main\n" "debian $release" "debian-security $release-security"
}

# Fetches packages with their dependencies, except those in a list of installed packages, and unpacks them.
unpack() { # TREE ARCHITECTURE INSTALLED PACKAGE ..
    local tree=$1 state=$scratch/$1-$2 file
    mkdir -p "$state"/lists/partial "$state"/archives/partial "$scratch/$tree"
    cp "$3" "$state/status"
    list_sources "$2" >"$state/sources.list"
    printf '%s\n' "APT::Architecture \"$2\";" "APT::Architectures { \"$2\"; };" "Dir::State \"$state\";" "Dir::State::status \"$state/status\";" \
        "Dir::Cache \"$state\";" "Dir::Etc::SourceList \"$state/sources.list\";" 'Dir::Etc::SourceParts "/dev/null";' \
        'APT::Install-Recommends "false";' 'APT::Sandbox::User "root";' >"$state/apt.conf"
    export APT_CONFIG=$state/apt.conf
    apt-get update -q
    apt-get install -q -y --download-only "${@:4}"
    for file in "$state"/archives/*.deb; do
        dpkg-deb -x "$file" "$scratch/$tree"
    done
}

{
    unpack python-aarch64 arm64 /dev/null python3
    unpack rust amd64 /var/lib/dpkg/status rustc-web cargo-web
    # this one without what it depends on, the compiler for aarch64
    (cd "$scratch" && APT_CONFIG=$scratch/python-aarch64-arm64/apt.conf apt-get download libstd-rust-web-dev)
    dpkg-deb -x "$scratch"/libstd-rust-web-dev_*.deb "$scratch/rust"
    mv "$scratch/python-aarch64" "$scratch/rust" "$folder"
    unpack python-riscv64 riscv64 /dev/null python3
    ln -s usr/lib "$scratch/python-riscv64/lib" # as Debian's base-files has it
    mv "$scratch/python-riscv64" "$folder"
} >"$scratch/log" 2>&1 || { cat "$scratch/log" >&2; exit 1; }
