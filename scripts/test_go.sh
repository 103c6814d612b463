#!/usr/bin/env bash
# Tests the package for Go: scripts/test_go.sh [LIBRARY]
#
# Formats, go vet, the tests plain and under the race detector (one test refuses each request of a checker for memory), each
# fuzz target for some seconds (FUZZ, 5 without it), the archive of the module in a program of its own, and a target that
# has no assembly. With LIBRARY, a libnaltvigo.so, random calls return what it returns. The kit and an installed library are
# not used. It needs Go 1.19 and a C compiler; if there is no Go, the last line says so.
set -euo pipefail
. "$(dirname "${BASH_SOURCE[0]}")/lib/options.sh"
. "$(dirname "${BASH_SOURCE[0]}")/lib/testing.sh"
take_options 1 "$@"
begin_tests Go
command -v go >/dev/null || { say 'not tested: Go is not installed (Debian: golang-go)'; exit 0; }
# the build cache does not see what assembly includes
export GOCACHE=$scratch/cache GOFLAGS=-mod=mod GOPROXY=off CGO_ENABLED=1
if [ -n "${1:-}" ]; then
    python3 "$root/fuzz/vectors.py" "$1" 20000 >"$scratch/vectors"
    export NALTVIGO_VECTORS=$scratch/vectors
fi

run() { # WHAT COMMAND ..
    "${@:2}" >"$scratch/log" 2>&1 || { cat "$scratch/log"; fail "$1"; }
}
cd "$root/bindings/go"
[ -z "$(gofmt -l .)" ] || fail "gofmt: $(gofmt -l .)"
run 'go vet' go vet ./...
run 'the tests' go test -v .
say "go vet, and $(grep -c '^--- PASS' "$scratch/log") tests and examples: $(tail -1 "$scratch/log")"
! grep -q -- '--- SKIP' "$scratch/log" || say "skipped: $(grep -- '--- SKIP' "$scratch/log")"
if echo 'package main; func main() {}' >"$scratch/race.go" && go build -race -o "$scratch/race" "$scratch/race.go" 2>/dev/null; then
    NALTVIGO_VECTORS='' run 'the race detector' go test -race .
    say 'the race detector finds nothing'
else
    missing+=("Go's race detector")
fi
for target in FuzzCalls FuzzValues FuzzReader FuzzChecker; do
    run $target go test -run '^$' -fuzz "^$target\$" -fuzztime "${FUZZ:-5}s" .
    say "$target: $(grep -o 'execs: [0-9]*' "$scratch/log" | tail -1)"
done

# ---- the module's archive, in a program of its own

"$root/scripts/package_go.py" "$scratch" >/dev/null
mkdir "$scratch/user"
(cd "$scratch/user" && python3 -m zipfile -e "$scratch"/naltvigo-go-*.zip . && mv naltvigo@* naltvigo)
cat >"$scratch/user/main.go" <<'GO'
package main

import (
	"fmt"
	"naltvigo"
)

func main() {
	canonical, err := naltvigo.Canonicalise([]byte("\xbf\x63Fun\xf5\x63Amt\x21\xff"), nil)
	fmt.Printf("%x %v\n", canonical, err)
}
GO
cd "$scratch/user"
# as the README says
run 'go get' sh -c 'go mod init user && go mod edit -replace naltvigo=./naltvigo && go get naltvigo'
run 'a program' go run .
[ "$(cat "$scratch/log")" = 'a263416d74216346756ef5 <nil>' ] || { cat "$scratch/log"; fail 'a program'; }
for it in aarch64:arm64 riscv64:riscv64; do
    have "${it%:*}-linux-gnu-gcc" && have "qemu-${it%:*}-static" || continue
    run "a program for ${it#*:}" env GOARCH="${it#*:}" CC="${it%:*}-linux-gnu-gcc" go build -o "$scratch/program" .
    [ "$("qemu-${it%:*}-static" -L "/usr/${it%:*}-linux-gnu" "$scratch/program")" = 'a263416d74216346756ef5 <nil>' ] || fail "a program for ${it#*:}"
    say "a program for ${it#*:} runs under qemu"
done
# where objects are neither ELF nor of macOS nor of Windows
! CGO_CFLAGS=-U__ELF__ go build -o "$scratch/program" . >"$scratch/log" 2>&1 || fail 'a program for a target without assembly is built'
grep -q 'naltvigo has no assembly for this target' "$scratch/log" || { cat "$scratch/log"; fail 'a target without assembly is not refused by name'; }
say 'the module in its archive builds a program; a target without assembly is refused by name'
end_tests
