#!/usr/bin/env bash
# Tests the extensions for SQLite and PostgreSQL: scripts/test_databases.sh [DIST]
#
# DIST has the library for C, as build_c.sh makes it; if it is left out, it is built. Each extension is built as its README says,
# and tested: the README's commands, tables with constraints and indexes, random items against the definitions (COUNT of
# them, 10000 by default), some planted bugs, and in PostgreSQL a scan of 1,000,000 rows (ROWS) by two workers and by one process,
# a dump that is restored, and memory that is refused. The server is the test's own, on a socket in a folder of its own, run by
# nobody if this is root; nothing is written to the system. The last line begins 'databases: all well' and names what was
# left out because packages are missing; else the status is not 0.
set -euo pipefail
. "$(dirname "${BASH_SOURCE[0]}")/lib/options.sh"
. "$(dirname "${BASH_SOURCE[0]}")/lib/testing.sh"
take_options 1 "$@"
begin_tests databases

server=
trap 'stop_server; rm -rf "$scratch"' EXIT
count=${COUNT:-10000}
rows=${ROWS:-1000000}

# The server's user reads what is here.
umask 022
chmod 755 "$scratch"
dist=${1:-}
if [ -z "$dist" ]; then
    dist=$scratch/built
    "$root/scripts/build_c.sh" "$dist"
fi
cp -r "$dist" "$scratch/dist"
chmod -R a+rX "$scratch/dist"
export PREFIX=$scratch/dist PYTHONDONTWRITEBYTECODE=1

. "$root/scripts/lib/databases.sh"
. "$root/scripts/lib/postgresql.sh"

# Runs a command, and shows its output if it fails.
quietly() { # WHAT WORD..
    local what=$1
    shift
    "$@" >"$scratch/log" 2>&1 || { tail -50 "$scratch/log"; fail "$what"; }
}

# ---- SQLite

# A Python whose sqlite3 loads extensions.
python_for_sqlite() {
    local python
    for python in python3 /usr/bin/python3; do
        if "$python" -c 'import sqlite3; sqlite3.connect(":memory:").enable_load_extension' 2>/dev/null; then
            echo "$python"
            return
        fi
    done
}

test_sqlite() {
    local python lacks
    python=$(python_for_sqlite)
    lacks=$(lacks_sqlite)
    command -v sqlite3 >/dev/null || lacks='its shell, sqlite3'
    [ -n "$python" ] || lacks='a Python that loads extensions, python3'
    [ -z "$lacks" ] || { missing+=("SQLite ($lacks)"); return; }
    cp -r "$root"/bindings/{sql,sqlite} "$scratch"
    cd "$scratch/sqlite"
    quietly 'the build for SQLite' python3 "$root/scripts/run_readme.py" sh README.md
    quietly "the README for SQLite" python3 "$root/scripts/run_readme.py" sql README.md sqlite3 :memory:
    NALTVIGO_SQLITE=$scratch/sqlite/naltvigo_sqlite quietly 'tests for SQLite' "$python" test_sqlite.py
    say "SQLite: $(sed -n 's/^\(Ran [0-9]* tests\).*/\1/p' "$scratch/log")"
    "$python" "$root/fuzz/databases.py" sqlite "$scratch/sqlite/naltvigo_sqlite" "$count" >"$scratch/log" || fail 'random items in SQLite'
    say "$(cat "$scratch/log")"
    is_hardened naltvigo_sqlite.so
    [ "$(nm -D --defined-only naltvigo_sqlite.so | awk '{ print $3 }')" = sqlite3_naltvigosqlite_init ] || fail 'what naltvigo_sqlite.so exports'
    PYTHON=$python try_planted sqlite
}

# Bugs planted in an extension, a few in each run: the tests above fail.
try_planted() { # BINDING
    python3 "$root/scripts/test_planted.py" "$1" >"$scratch/log" || { cat "$scratch/log"; fail "planted bugs in $1"; }
    say "$1: $(tail -1 "$scratch/log")"
}

# ---- PostgreSQL

test_postgresql() {
    local pg_config lacks
    pg_config=$(find_pg_config)
    lacks=$(lacks_postgresql "$pg_config")
    [ -z "$lacks" ] || { missing+=("PostgreSQL ($lacks)"); return; }
    start_server "$pg_config"
    cp -r "$root"/bindings/{sql,postgresql} "$scratch"
    cd "$scratch/postgresql"
    # the build, the installation below the server's own tree, and the tests of pg_regress
    DESTDIR=$tree PG_CONFIG=$pg_config quietly 'the build and the tests for PostgreSQL' python3 "$root/scripts/run_readme.py" sh README.md
    is_hardened naltvigo.so
    say "PostgreSQL: $(grep -c '^ok\|^test .* ok' "$scratch/log") files of tests, on $("$tree$bin/postgres" --version)"
    psql -qc 'CREATE DATABASE readme'
    PGDATABASE=readme quietly 'the README for PostgreSQL' python3 "$root/scripts/run_readme.py" sql README.md psql -XAtq
    test_random_items
    test_parallel
    test_dump
    test_memory
    test_time
    DESTDIR=$tree PG_CONFIG=$pg_config try_planted postgresql
    stop_server
}

test_random_items() {
    psql -qc 'CREATE DATABASE random' -c '\c random' -c 'CREATE EXTENSION naltvigo'
    python3 "$root/fuzz/databases.py" postgresql "$count" | psql -Xq -v ON_ERROR_STOP=1 -x -A -F' ' random >"$scratch/log" ||
        fail 'random items in PostgreSQL'
    [ "$(grep -c '^wrong_.* 0$' "$scratch/log")" = 11 ] || { cat "$scratch/log"; fail 'PostgreSQL differs on random items'; }
    say "PostgreSQL: $(sed -n 's/^blobs //p' "$scratch/log") blobs, $(sed -n 's/^valid //p' "$scratch/log") valid, none differs"
}

test_parallel() {
    psql -qc 'CREATE DATABASE parallel'
    quietly 'the parallel scan' psql -Xq -v ON_ERROR_STOP=1 -v rows="$rows" -f "$root/bindings/postgresql/test/parallel.sql" parallel
    sed 's/^/databases: PostgreSQL: /' "$scratch/log"
}

# A dump, restored, has the same rows, and its constraint and index.
test_dump() {
    psql -qc 'CREATE DATABASE restored'
    "$tree$bin/pg_dump" contrib_regression >"$scratch/dump" || fail 'pg_dump'
    quietly 'a dump that is restored' psql -Xq -v ON_ERROR_STOP=1 -f "$scratch/dump" restored
    local sum="SELECT count(*), md5(string_agg(doc::text || issuer, ',' ORDER BY doc)) FROM doc"
    [ "$(psql -XAt -c "$sum" restored)" = "$(psql -XAt -c "$sum" contrib_regression)" ] || fail 'a restored table differs'
    ! psql -Xq -c "INSERT INTO doc VALUES ('\\x1800')" restored 2>"$scratch/log" || fail 'a restored constraint'
    grep -q 'violates check constraint' "$scratch/log" || fail 'a restored constraint'
    say 'PostgreSQL: a dump is restored with its constraint and index'
}

# The server's process of a session may use little more memory: a call fails, and the session continues.
test_memory() {
    command -v prlimit >/dev/null || { missing+=('memory refused in PostgreSQL (prlimit, util-linux)'); return; }
    as_user psql -Xq contrib_regression <"$root/bindings/postgresql/test/memory.sql" >"$scratch/log" 2>&1 || fail 'refused memory'
    diff "$root/bindings/postgresql/test/memory.out" "$scratch/log" || fail 'refused memory'
    say 'PostgreSQL: refused memory is an error, the session continues, and no memory stays allocated'
}

# What a sender chooses costs no more than other bytes.
test_time() {
    psql -qc 'CREATE DATABASE time'
    quietly 'the time of chosen keys' psql -Xq -v ON_ERROR_STOP=1 -f "$root/bindings/postgresql/test/time.sql" time
    sed 's/^/databases: PostgreSQL: /' "$scratch/log"
}

# What install.sh installs if DATABASES names the extensions.
test_installation() {
    local to=$scratch/installed names=() name pg_config result
    pg_config=$(find_pg_config)
    [ -n "$(lacks_sqlite)" ] || names+=(sqlite)
    [ -n "$(lacks_postgresql "$pg_config")" ] || names+=(postgresql)
    [ ${#names[@]} != 0 ] || return 0
    # the program is not tested here
    cp "$(type -P true)" "$scratch/program"
    export PROGRAM=$scratch/program DIST=$scratch/dist
    DATABASES=${names[*]} DESTDIR=$to quietly 'the installation' "$root/scripts/install.sh" /opt/naltvigo
    for name in "${names[@]}"; do
        if [ "$name" = postgresql ]; then
            [ -f "$to$("$pg_config" --sharedir)/extension/naltvigo.control" ] || fail 'what is installed for PostgreSQL'
        elif command -v sqlite3 >/dev/null; then
            result=$(sqlite3 :memory: ".load $to/opt/naltvigo/lib/sqlite3/naltvigo_sqlite" "SELECT cbor_is_valid(x'00')")
            [ "$result" = 1 ] || fail 'what is installed for SQLite'
        fi
    done
    say "installed where asked: ${names[*]}"
}

test_sqlite
test_postgresql
test_installation
end_tests
