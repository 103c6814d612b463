#!/usr/bin/env bash
# Prints the times of the package for Go, of fxamacker/cbor and of encoding/json on the same values, as a Markdown table: bench/go.sh
#
# Times are processor time, the least of 5 runs of TIME (0.5s without it). It needs Go, a C compiler, the assembly in portable/,
# and Debian's golang-github-fxamacker-cbor-dev.
set -euo pipefail
root=$(cd "$(dirname "${BASH_SOURCE[0]}")/.." && pwd)
. "$root/scripts/lib/options.sh"
take_options 0 "$@"
code=/usr/share/gocode/src/github.com
[ -d $code/fxamacker/cbor ] || { echo "go.sh: Debian's golang-github-fxamacker-cbor-dev is missing" >&2; exit 1; }
scratch=$(mktemp -d)
trap 'rm -rf "$scratch"' EXIT
cp "$root/bench/go/compared_test.go" "$scratch"
cat >"$scratch/go.mod" <<MOD
module compared

go 1.19

require (
	github.com/fxamacker/cbor/v2 v2.4.0
	github.com/x448/float16 v0.8.4
	naltvigo v0.0.0
)

replace (
	github.com/fxamacker/cbor/v2 => $code/fxamacker/cbor
	github.com/x448/float16 => $code/x448/float16
	naltvigo => $root/bindings/go
)
MOD
cd "$scratch"
export GOCACHE=$scratch/cache GOFLAGS=-mod=mod GOPROXY=off
go test -bench . -benchtime "${TIME:-0.5s}" -count 5 | awk '
    BEGIN {
        words["CheckValid"] = "`CheckValid`"; words["Canonicalise"] = "`Canonicalise`"
        words["Values"] = "`Unmarshal`, then `Marshal`"
        words["FxamackerWellformed"] = "fxamacker, `Valid`"; words["FxamackerValues"] = "fxamacker, `Unmarshal`, then `Marshal`"
        words["JSONValues"] = "JSON, `Unmarshal`, then `Marshal`"
    }
    /^Benchmark/ {
        sub(/^Benchmark/, "", $1); sub(/-[0-9]+$/, "", $1); split($1, it, "/")
        for (i = 3; i < NF; i++) value[$(i + 1)] = $i
        if (!(it[1] in has_call)) { has_call[it[1]]; call[++calls] = it[1] }
        if (!(it[2] in size)) { size[it[2]] = value["bytes"]; input[++inputs] = it[2] }
        used = value["used-ns/op"] / 1000
        if (!($1 in least) || used < least[$1]) least[$1] = used
    }
    /FAIL/ { print; failed = 1 }
    END {
        printf "| microseconds in Go |"; for (j = 1; j <= inputs; j++) printf " %s, %d bytes |", input[j], size[input[j]]
        printf "\n|---|"; for (j = 1; j <= inputs; j++) printf "---:|"
        for (i = 1; i <= calls; i++) {
            printf "\n| %s |", words[call[i]]; for (j = 1; j <= inputs; j++) printf " %.2f |", least[call[i] "/" input[j]]
        }
        print ""
        exit failed
    }'
