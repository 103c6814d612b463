# shellcheck shell=bash
# The extensions for SQLite and PostgreSQL: what their build needs, and their installation by install.sh, which has $root,
# $scratch, $dist and put.

# What is missing, in words; nothing if all is there.
lacks_sqlite() {
    echo '#include <sqlite3ext.h>' | "${CC:-cc}" -E - >/dev/null 2>&1 || echo 'its headers, libsqlite3-dev'
}

# The pg_config of an installed server; PG_CONFIG names another one.
find_pg_config() {
    local found
    for found in "${PG_CONFIG:-}" /usr/lib/postgresql/*/bin/pg_config "$(command -v pg_config || true)"; do
        if [ -n "$found" ] && [ -x "$found" ] && [ -x "$("$found" --bindir)/initdb" ]; then
            echo "$found"
            return
        fi
    done
}

# What is missing, in words; nothing if all is there.
lacks_postgresql() { # PG_CONFIG
    local major
    if [ -z "$1" ]; then
        echo 'its server, postgresql'
    elif [ ! -f "$("$1" --includedir-server)/postgres.h" ] || [ ! -f "$("$1" --pgxs)" ]; then
        major=$("$1" --version | sed 's/[^0-9]*\([0-9]*\).*/\1/')
        echo "its headers, postgresql-server-dev-$major"
    elif [ "$(id -u)" = 0 ] && ! command -v runuser >/dev/null; then
        echo 'runuser, util-linux, to be another user than root'
    fi
}

install_database() { # sqlite or postgresql
    local lacks library pg_config
    library=$(realpath "$dist")
    case $1 in
    sqlite) lacks=$(lacks_sqlite) ;;
    postgresql) pg_config=$(find_pg_config) lacks=$(lacks_postgresql "$(find_pg_config)") ;;
    *) lacks='no such extension' ;;
    esac
    [ -z "$lacks" ] || { echo "install: $1: $lacks" >&2; exit 1; }
    cp -r "$root"/bindings/{sql,"$1"} "$scratch"
    if [ "$1" = sqlite ]; then
        make -s -C "$scratch/sqlite" NALTVIGO="$library"
        put "$scratch/sqlite/naltvigo_sqlite.so" lib/sqlite3/naltvigo_sqlite.so 755
        return
    fi
    local make=(make -s -C "$scratch/postgresql" NALTVIGO="$library" PG_CONFIG="$pg_config" DESTDIR="${DESTDIR:-}")
    "${make[@]}"
    "${make[@]}" install
}
