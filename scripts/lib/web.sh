# shellcheck shell=bash
# For test_web.sh and test_page.sh, after begin_tests: what both need.

# Ends the script if there is no Node, or it is too old; fails if the modules are not built.
need_node_and_modules() {
    local module
    command -v node >/dev/null || { say 'not tested: Node is not installed'; exit 0; }
    [ "$(node -p 'process.versions.node.split(".")[0] >= 20')" = true ] || { say "not tested: Node $(node --version) is older than 20"; exit 0; }
    for module in naltvigo64.wasm naltvigo32.wasm; do
        [ -e "$root/bindings/js/wasm/$module" ] || fail "bindings/js/wasm/$module is missing: run scripts/build_web.sh"
    done
}

# Runs a command in which Node tests files, and prints how many tests passed. The rest of its output is in $scratch/log.
run_tests() { # NAME COMMAND ..
    "${@:2}" >"$scratch/log" 2>&1 || { cat "$scratch/log"; fail "$1"; }
    say "$1: $(sed -n 's/^# pass //p' "$scratch/log") tests"
}
