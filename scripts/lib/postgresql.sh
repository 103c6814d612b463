# shellcheck shell=bash
# A server of PostgreSQL for a test, which writes nothing to the system. The script that uses this has a folder $scratch, which
# others may read, and calls stop_server at its end.

# Runs a command, as nobody if this is root: the server does not run as root.
as_user() {
    if [ "$(id -u)" = 0 ]; then runuser -u nobody -- "$@"; else "$@"; fi
}

# Starts a server on a socket in $scratch. Its programs find their files from their own path, so a copy of them, with links
# to the rest, is a tree that extensions are installed in: below $tree, as `make install` with DESTDIR does. Programs are
# in $tree$bin.
start_server() { # PG_CONFIG
    local folder
    tree=$scratch/tree
    bin=$("$1" --bindir)
    server=$scratch/server
    mkdir -p "$tree$bin" "$server"
    cp "$bin"/* "$tree$bin"
    for folder in "$("$1" --pkglibdir)" "$("$1" --sharedir)"; do
        mkdir -p "$(dirname "$tree$folder")"
        [ -e "$tree$folder" ] || cp -rs "$folder" "$tree$folder"
    done
    [ "$("$tree$bin/pg_config" --sharedir)" = "$tree$("$1" --sharedir)" ] || fail 'this PostgreSQL cannot be moved'
    [ "$(id -u)" != 0 ] || chown nobody "$server"
    export PGHOST=$server PGUSER=tester PGDATABASE=postgres
    cd "$server" || fail "$server"
    as_user "$tree$bin/initdb" -A trust -U tester -E UTF8 --no-locale -N -D "$server/data" >"$server/log" 2>&1 ||
        { cat "$server/log"; fail 'initdb'; }
    as_user "$tree$bin/pg_ctl" -w -D "$server/data" -l "$server/data/log" start \
        -o "-F -c listen_addresses= -k $server" >"$server/log" 2>&1 ||
        { cat "$server/log" "$server/data/log"; fail 'the server does not start'; }
    PATH=$tree$bin:$PATH
}

stop_server() {
    [ -n "$server" ] || return 0
    as_user "$tree$bin/pg_ctl" -D "$server/data" -m immediate stop >/dev/null 2>&1 || true
    server=
}
