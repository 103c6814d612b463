#!/usr/bin/env bash
# Prints the times of the extensions for SQLite and PostgreSQL next to those of JSON, as Markdown tables: bench/databases.sh [DIST]
#
# DIST has the library for C, as scripts/build_c.sh makes it (default: dist). The server is the script's own, as in
# scripts/test_databases.sh. A database that is not installed is left out, with a line on standard error.
set -euo pipefail
. "$(dirname "${BASH_SOURCE[0]}")/../scripts/lib/options.sh"
. "$(dirname "${BASH_SOURCE[0]}")/../scripts/lib/testing.sh"
take_options 1 "$@"
begin_tests databases
server=
trap 'stop_server; rm -rf "$scratch"' EXIT
umask 022
chmod 755 "$scratch"
cp -r "${1:-$root/dist}" "$scratch/dist"
chmod -R a+rX "$scratch/dist"
cp -r "$root/bindings/sql" "$scratch/sql"
. "$root/scripts/lib/databases.sh"
. "$root/scripts/lib/postgresql.sh"

lacks=$(lacks_sqlite)
if [ -z "$lacks" ]; then
    cp -r "$root/bindings/sqlite" "$scratch/sqlite"
    make -s -C "$scratch/sqlite" NALTVIGO="$scratch/dist" >&2
    python=python3
    "$python" -c 'import sqlite3; sqlite3.connect(":memory:").enable_load_extension' 2>/dev/null || python=/usr/bin/python3
    "$python" "$root/bench/databases.py" sqlite "$scratch/sqlite/naltvigo_sqlite.so"
else
    say "SQLite: $lacks" >&2
fi
pg_config=$(find_pg_config)
lacks=$(lacks_postgresql "$pg_config")
if [ -z "$lacks" ]; then
    start_server "$pg_config"
    cp -r "$root/bindings/postgresql" "$scratch/postgresql"
    make -s -C "$scratch/postgresql" NALTVIGO="$scratch/dist" PG_CONFIG="$pg_config" DESTDIR="$tree" install >&2
    psql -Xqc 'CREATE EXTENSION naltvigo'
    printf '\n'
    python3 "$root/bench/databases.py" postgresql
else
    say "PostgreSQL: $lacks" >&2
fi
