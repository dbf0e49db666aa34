# Private PostgreSQL servers with the extension, for test.sh and bench.sh, which source this. No root, and nothing outside a temporary folder
# and target/postgres: the server's programs are copied, and its libraries and shared files linked, to a tree of their own, where
# `make install DESTDIR` puts the extension. PostgreSQL finds both relative to its programs. Ends with 3 and one line where that cannot be.
#
#   HTM_LIB=FILE        the archive; else target/staticlib/libhtm.a
#   PG_CONFIG=PROGRAM   the PostgreSQL; else that on the path, else Debian's newest

cannot() {
    echo "PostgreSQL: $1" >&2
    exit 3
}

top=$(cd "$(dirname "${BASH_SOURCE[0]}")/../.." && pwd)
library=$(realpath -m "${HTM_LIB:-$top/target/staticlib/libhtm.a}")

complete() { # PG_CONFIG: whether it has a server and what builds extensions
    [ -x "$1" ] && [ -x "$("$1" --bindir)/initdb" ] && [ -f "$("$1" --includedir-server)/postgres.h" ]
}

find_postgres() {
    local c
    config=
    for c in "${PG_CONFIG:-$(command -v pg_config || true)}" $(ls /usr/lib/postgresql/*/bin/pg_config 2> /dev/null | sort -rV); do
        if [ -z "$config" ] && complete "$c"; then config=$c; fi
        [ -z "${PG_CONFIG:-}" ] || break
    done
    [ -n "$config" ] && command -v psql > /dev/null ||
        cannot "the server, or what builds extensions, is missing (Debian: apt-get install postgresql postgresql-server-dev-all)"
}

# The server does not run as root.
user=$(id -un)
if [ "$(id -u)" = 0 ]; then
    user=postgres
    id "$user" > /dev/null 2>&1 || user=nobody
fi
as_user() {
    if [ "$(id -u)" = 0 ]; then runuser -u "$user" -- "$@"; else "$@"; fi
}

cleanup() {
    local pid
    for pid in "$room"/*/postmaster.pid; do
        [ ! -f "$pid" ] || (cd / && as_user "$bin/pg_ctl" -s -D "$(dirname "$pid")" -m immediate stop) || true
    done
    rm -rf "$room"
}

# A temporary folder in which a copied program can be started.
make_room() {
    local place
    for place in "${TMPDIR:-/tmp}" /tmp /var/tmp; do
        room=$(mktemp -d -p "$place") || continue
        if cp "$(type -P true)" "$room/true" && "$room/true" 2> /dev/null; then return; fi
        rm -rf "$room"
    done
    cannot "no temporary folder lets programs be started"
}

# The tree with the extension: $bin has its programs, $room is the folder of the servers and their sockets.
prepare() {
    local share lib
    find_postgres
    [ -f "$library" ] || { echo "$library is missing: make target/staticlib/libhtm.a writes it" >&2; exit 1; }
    make_room
    trap cleanup EXIT
    trap 'exit 1' INT TERM
    [ "$(id -u)" != 0 ] || chown "$user" "$room"
    bin=$room/root$("$config" --bindir) share=$("$config" --sharedir) lib=$("$config" --pkglibdir)
    mkdir -p "$bin" "$room/root$share" "$room/root$lib" "$top/target/postgres"
    cp "$("$config" --bindir)"/{initdb,pg_ctl,postgres} "$bin"
    cp -rs "$share/." "$room/root$share"
    cp -rs "$lib/." "$room/root$lib"
    rm -f "$room/root$lib/htm.so" "$room/root$share"/extension/htm{.control,--*.sql} # of an installed extension
    make -s -C "$top/target/postgres" -f "$top/hosts/postgres/Makefile" HTM_LIB="$library" PG_CONFIG="$config"
    make -s -C "$top/target/postgres" -f "$top/hosts/postgres/Makefile" HTM_LIB="$library" PG_CONFIG="$config" DESTDIR="$room/root" \
        install > /dev/null
    export PGHOST=$room PGUSER=archive PGDATABASE=archive
}

# Port numbers only separate the sockets.
start() { # NAME PORT SETTINGS..
    local settings="-k $room -p $2 -c listen_addresses= -c fsync=off" s
    for s in "${@:3}"; do settings+=" -c $s"; done
    (cd "$room" && as_user "$bin/initdb" -D "$room/$1" -A trust -U archive --no-sync > "$room/$1.log" 2>&1 &&
        as_user "$bin/pg_ctl" -s -w -D "$room/$1" -l "$room/$1/log" -o "$settings" start) ||
        { cat "$room/$1.log" "$room/$1/log" >&2 || true; cannot "the server does not start"; }
    PGDATABASE=postgres sql "$2" -c 'CREATE DATABASE archive'
}

sql() { # PORT WORDS..
    psql -qX -v ON_ERROR_STOP=1 -p "$@"
}
