#!/usr/bin/env bash
# Runs the unit tests of all crates without a proof: scripts/test.sh [NAME ..]
#
# `rt try --test` runs those of each crate, one crate for each processor. Only the Rattle kit, bash and python3 are needed. The
# last line is 'N passed, N failed', for all crates. If tests fail, they are printed before it, and the status is 1. With
# NAMEs, only the tests of these crates.
set -euo pipefail
. "$(dirname "${BASH_SOURCE[0]}")/lib/options.sh"
take_options 100 "$@"
cd "$(dirname "${BASH_SOURCE[0]}")/.."

refuse() { echo "test.sh: $*" >&2; exit 2; }

# How many tests a crate has.
count_tests() { find "crates/$1/src" -name '*.rt' -exec cat {} + | grep -Ec '^\s*#\[test\]' || true; }

check_kit() {
    local wanted
    wanted=$(grep -om 1 'rattle-kit-[0-9]*' README.md)
    command -v python3 >/dev/null || refuse 'python3 is not on the path'
    command -v rt >/dev/null || refuse "rt is not on the path: it is part of the Rattle kit ($wanted), see README.md"
    [[ $(rt version 2>/dev/null || true) =~ ^"$wanted"[^0-9] ]] || refuse "the rt on the path is not of the kit that README.md names, $wanted"
    [[ $(rt help 2>&1 || true) =~ 'rt try '[^$'\n']*--test ]] || refuse "the rt on the path has no 'try --test': a newer kit is needed ($wanted)"
}

# Sets names to the crates whose tests are to run, those with most tests first.
choose() {
    local name count
    for name in "$@"; do
        [[ $name =~ ^[a-z0-9_]+$ && -d crates/$name/src ]] || refuse "there is no crate $name in crates/"
        [ "$(count_tests "$name")" != 0 ] || refuse "the crate $name has no tests of its own"
    done
    [ $# != 0 ] || set -- crates/*
    mapfile -t names < <(for name in "${@#crates/}"; do
        count=$(count_tests "$name")
        [ "$count" = 0 ] || echo "$count $name"
    done | sort -rnu | cut -d ' ' -f 2)
    [ ${#names[@]} != 0 ] || refuse 'no crate in crates/ has a test'
}

start() {
    (cd "crates/$1" && exec rt try --test --seconds 240) >"$scratch/$1" 2>&1 </dev/null &
    running[$!]=$1 began[$1]=$SECONDS
}

# Waits until the tests of one crate have ended, and adds them up.
finish() {
    local process status=0 name good=0 bad=0
    wait -n -p process "${!running[@]}" || status=$?
    name=${running[$process]}
    unset "running[$process]"
    if [[ $(grep '^test result:' "$scratch/$name") =~ \ ([0-9]+)\ passed\;\ ([0-9]+)\ failed\; ]]; then
        good=${BASH_REMATCH[1]} bad=${BASH_REMATCH[2]}
    fi
    # they do not compile, or rt was stopped
    [ $status = 0 ] || [ "$bad" != 0 ] || bad=1
    passed=$((passed + good)) failed=$((failed + bad)) ended=$((ended + 1))
    [ "$bad" = 0 ] || grep -v ' \.\.\. ok$' "$scratch/$name" || true
    echo "$name ($ended of ${#names[@]}): $good passed, $bad failed, $((SECONDS - ${began[$name]})) s"
}

check_kit
names=()
choose "$@"
lanes=$(nproc)
echo "runs the tests of these crates, without a proof, $lanes at a time: ${names[*]}; 2 to 4 minutes on four processors"

scratch=$(mktemp -d)
declare -A running=() began=()
# shellcheck disable=SC2154
trap 'kill "${!running[@]}" 2>/dev/null || true; wait; rm -rf "$scratch"' EXIT
passed=0 failed=0 ended=0
for name in "${names[@]}"; do
    while [ ${#running[@]} -ge "$lanes" ]; do finish; done
    start "$name"
done
while [ ${#running[@]} != 0 ]; do finish; done
echo "$passed passed, $failed failed"
[ $failed = 0 ]
