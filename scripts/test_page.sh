#!/usr/bin/env bash
# Tests the page that inspects CBOR, in Chromium and Firefox: scripts/test_page.sh [FOLDER]
#
# The modules are in bindings/js/wasm, as scripts/build_web.sh makes them. The page's scripts alone, in Node 20 or
# later; then, in each installed browser, without a window (Debian's chromium and firefox-esr), the page as one file, and
# from its source over python3's http.server. FOLDER gets pictures of it. The last line begins
# 'page: all well', and names what was missing; or the status is not 0.
set -euo pipefail
. "$(dirname "${BASH_SOURCE[0]}")/lib/options.sh"
. "$(dirname "${BASH_SOURCE[0]}")/lib/testing.sh"
. "$(dirname "${BASH_SOURCE[0]}")/lib/web.sh"
take_options 1 "$@"
begin_tests page

server=
trap '[ -z "$server" ] || kill "$server"; rm -rf "$scratch"' EXIT

need_node_and_modules
tests() { run_tests "$1" timeout 900 node --test "${@:2}"; } # NAME FILE ..

tests 'the scripts' "$root"/web/tests/scripts.test.mjs

# ---- what is served: the source, and the source for an engine that says that it has no 64-bit memory

site=$scratch/site
for name in whole only32; do
    mkdir -p "$site/$name/bindings/js"
    cp -r "$root/web" "$site/$name/web"
    cp -r "$root/bindings/js/src" "$root/bindings/js/wasm" "$site/$name/bindings/js/"
done
echo 'WebAssembly.validate = () => false;' | cat - "$root/web/src/worker.js" >"$site/only32/web/src/worker.js"
: >"$scratch/server"
(cd "$site" && exec python3 -u -m http.server --bind 127.0.0.1 0) >"$scratch/server" 2>&1 &
server=$!
port=
for _ in $(seq 100); do
    port=$(sed -n 's/.* port \([0-9]*\) .*/\1/p' "$scratch/server")
    [ -z "$port" ] || break
    sleep 0.1
done
[ -n "$port" ] || fail 'http.server does not start'

if [ -n "${1:-}" ]; then
    mkdir -p "$1"
    SCREENSHOTS=$(cd "$1" && pwd)
    export SCREENSHOTS
fi
"$root/scripts/build_page.sh" "$site/inspector.html" >/dev/null
export PAGE="file://$site/inspector.html" SERVED="http://127.0.0.1:$port/inspector.html"
export SOURCE="http://127.0.0.1:$port/whole/web/" ONLY32="http://127.0.0.1:$port/only32/web/"

for browser in chromium firefox-esr; do
    if command -v "$browser" >/dev/null; then
        version=$($browser --version 2>/dev/null | tail -1 | sed 's/ built on.*//')
        export BROWSER=${browser%-esr}
        for file in page use; do
            tests "$version, $file" "$root/web/tests/$file.test.mjs"
        done
    else
        missing+=("$browser (Debian: $browser)")
    fi
done
end_tests
