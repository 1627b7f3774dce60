# The example server with canned answers, in Rust: what psql and pgbench make of it. No PostgreSQL server is needed. Sourced
# by `test`.

# Sets $bin to the folder of psql, or answers false.
find_psql() {
    find_server && return
    bin=$(dirname "$(command -v psql)")
    [ -x "$bin/psql" ]
}

# Starts a server on a free port, and leaves its process in $canned, its port in $canned_port.
start_canned() {
    : > "$work/port"
    "$@" > "$work/port" 2> "$work/errors.canned" &
    canned=$!
    await grep -q '^listening on' "$work/port" || bad "start of $1" "$(cat "$work/errors.canned")"
    canned_port=$(sed -n 's/^listening on 127.0.0.1 port //p' "$work/port")
}

# Runs a client of the server.
as_client() {
    PGHOST=127.0.0.1 PGPORT=$canned_port PGUSER=ann PGDATABASE=shop try timeout 60 "$@"
}

# Tests what psql prints of a command or several.
psql_prints() {
    local name=$1 wanted=$2 commands=() command
    for command in "${@:3}"; do
        commands+=(-c "$command")
    done
    as_client "$bin/psql" -X -A -v VERBOSITY=verbose "${commands[@]}"
    same "$name" "$status $output$errors" "$wanted"
}

colours=$'1\tred\n2\tgreen\n3\tblue'

test_psql_of() {
    psql_prints "$1: a query" $'0 ?column?\n1\n(1 row)' 'SELECT 1'
    psql_prints "$1: no query" '0 ' ''
    psql_prints "$1: tables" $'0 List of relations\nSchema|Name|Type|Owner\npublic|colours|table|ann\n(1 row)' '\d'
    psql_prints "$1: a COPY to the client" "0 $colours" '\copy colours to stdout'
    psql_prints "$1: a COPY to a file" '0 COPY 3' "\\copy colours to '$work/colours'"
    same "$1: what the file has" "$(cat "$work/colours")" "$colours"
    seq 10000 | sed 's/$/\ta colour/' >> "$work/colours"
    psql_prints "$1: a COPY from the client" '0 COPY 10003' "\\copy colours from '$work/colours'"
    psql_prints "$1: an error, and a query after it" \
        $'0 ?column?\n1\n(1 row)ERROR:  42P01: relation "missing" does not exist\nLINE 1: SELECT * FROM missing\n                      ^' \
        'SELECT * FROM missing' 'SELECT 1'
    psql_prints "$1: a notification" \
        $'0 LISTEN\nNOTIFY\nAsynchronous notification "jobs" with payload "new" received from server process with PID 42.' \
        'LISTEN jobs' "NOTIFY jobs, 'new'"
}

test_pgbench_of() {
    local mode
    if [ ! -x "$bin/pgbench" ]; then
        echo "left out: pgbench on $1, without pgbench (apt-get install postgresql)"
        return
    fi
    printf '\\set n random(1, 9)\nSELECT 1 + :n;\nSELECT 1;\n' > "$work/script"
    for mode in simple extended prepared; do
        as_client "$bin/pgbench" -n -M "$mode" -c 2 -t 100 -f "$work/script"
        same "$1: pgbench, $mode" "$status $(grep -E '^number of (failed )?transactions( actually)?' <<< "$output")$errors" \
            $'0 number of transactions per client: 100\nnumber of transactions actually processed: 200/200\nnumber of failed transactions: 0 (0.000%)'
    done
}

test_canned() {
    start_canned "${@:2}"
    test_psql_of "$1"
    test_pgbench_of "$1"
    kill "$canned"
    reap "$canned"
}

test_canned_servers() {
    if ! find_psql; then
        echo 'left out: psql and pgbench on the example server, without psql (apt-get install postgresql)'
    elif build_rust_examples; then
        test_canned 'canned answers' "$rust_examples/canned_server"
    else
        echo "left out: canned answers, which need rustc and cargo from $oldest_rust on"
    fi
}
