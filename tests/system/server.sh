# A PostgreSQL server for `test` and `speed`. To be sourced, not run.
#
# start_server makes $server_folder with everything in it, and stop_server takes it away. The variables of libpq then
# name the server, its superuser and its database. find_server says where its programs are.

# Sets $bin to the folder of initdb, the newest one, or answers false.
find_server() {
    local found
    found=$(printf '%s\n' /usr/lib/postgresql/*/bin/initdb | sort -V | tail -n 1)
    [ -x "$found" ] || found=$(command -v initdb) || return 1
    bin=$(dirname "$found")
    [ -x "$bin/postgres" ] && [ -x "$bin/pg_ctl" ] && [ -x "$bin/psql" ]
}

# Runs a command as the owner of the server, who isn't root.
as_owner() {
    if [ -n "$owner" ]; then
        runuser -u "$owner" -- "$@"
    else
        "$@"
    fi
}

find_owner() {
    owner=
    if [ "$(id -u)" = 0 ]; then
        owner=nobody
        if id postgres > /dev/null 2>&1; then
            owner=postgres
        fi
    fi
}

# A port of this machine on which nothing waits, below those that Linux gives to clients.
free_port() {
    local port
    while :; do
        port=$((20000 + RANDOM % 12000))
        if ! (exec 3<> "/dev/tcp/127.0.0.1/$port") 2> /dev/null; then
            echo "$port"
            return
        fi
    done
}

write_settings() {
    as_owner tee -a "$server_folder/data/postgresql.conf" > /dev/null << SETTINGS
listen_addresses = '127.0.0.1'
port = $port
unix_socket_directories = '$server_folder'
fsync = off
wal_level = minimal
max_wal_senders = 0
max_wal_size = 4GB
shared_buffers = 128MB
autovacuum = off
log_connections = on
log_disconnections = on
SETTINGS
    as_owner tee "$server_folder/data/pg_hba.conf" > /dev/null << RULES
local all all trust
host all by_trust 127.0.0.1/32 trust
host all by_clear 127.0.0.1/32 password
host all by_md5 127.0.0.1/32 md5
host all by_scram,by_scram_of_rust 127.0.0.1/32 scram-sha-256
host all postgres 127.0.0.1/32 trust
RULES
}

# Starts it, again after a stop.
run_server() {
    (cd "$server_folder" && as_owner "$bin/pg_ctl" -D "$server_folder/data" -l "$server_folder/log" -w -s start) > /dev/null
}

# Stops it in one of the modes of pg_ctl.
halt_server() {
    (cd "$server_folder" && as_owner "$bin/pg_ctl" -D "$server_folder/data" -w -s -m "$1" stop) > /dev/null
}

init_server() {
    (cd "$server_folder" && as_owner "$bin/initdb" -D "$server_folder/data" -U postgres -A trust -E UTF8 --locale=C --no-sync)
}

# Takes the variables of libpq out of the environment.
forget_variables() {
    local name
    for name in "${!PG@}"; do
        if [[ $name != PG_TOOL ]]; then
            unset "$name"
        fi
    done
}

start_server() {
    forget_variables
    server_folder=$(mktemp -d)
    find_owner
    if [ -n "$owner" ]; then
        chown "$owner" "$server_folder"
    fi
    if ! init_server > "$server_folder/initdb.log" 2>&1; then
        cat "$server_folder/initdb.log" >&2
        return 1
    fi
    port=$(free_port)
    write_settings
    run_server || { tail "$server_folder/log" >&2; return 1; }
    export PGHOST=$server_folder PGPORT=$port PGUSER=postgres PGDATABASE=postgres
}

stop_server() {
    if [ -n "${server_folder:-}" ]; then
        halt_server immediate 2> /dev/null || true
        rm -rf "$server_folder"
        server_folder=
    fi
}

# Runs SQL, and prints bare values.
sql() {
    PGOPTIONS=-cclient_min_messages=warning "$bin/psql" -X -q -A -t -v ON_ERROR_STOP=1 -c "$1"
}
