# What clients say to a server: read by pg_tool, by the lines of pg_record, and passed on. Sourced by `run`.

# Leaves the process that keeps what is said in $keeping, its port in $said_port, what precedes a client in $aloud.
start_keeping() {
    mkdir "$work/connections"
    tests/system/said.py keep "$work/connections" "$PGPORT" > "$work/port_of_keeper" &
    keeping=$!
    await test -s "$work/port_of_keeper"
    said_port=$(cat "$work/port_of_keeper")
    aloud=(env PGHOST=127.0.0.1 PGPORT="$said_port")
}

# Whether the server is at work on a query that begins with these words.
is_running() {
    [ -n "$(sql "SELECT 1 FROM pg_stat_activity WHERE state = 'active' AND pid <> pg_backend_pid() AND query ILIKE '$1%'")" ]
}

# Interrupts a client once the server is at work on its query, and waits for its end.
interrupt() {
    await is_running "$2"
    sleep 0.5
    kill -INT "$1"
    reap "$1"
}

# Queries, a COPY, functions of large objects, a login by SCRAM, a query that is cancelled, a COPY that is given up.
say_by_psql() {
    local psql=("${aloud[@]}" "$bin/psql" -X -q)
    "${psql[@]}" -c 'CREATE TABLE said (a text)' -c '\copy said from stdin' <<< 'one'
    "${psql[@]}" -c "\\lo_import $work/port_of_keeper" > /dev/null
    [ -n "$(sql "SELECT 1 FROM pg_roles WHERE rolname = 'by_scram'")" ] || make_users
    PGPASSWORD="pass word '1" "${psql[@]}" -U by_scram -d postgres -c 'SELECT 1' > /dev/null
    "${psql[@]}" -c 'SELECT pg_sleep(60)' 2> /dev/null &
    interrupt $! 'SELECT pg_sleep'
    mkfifo "$work/silent"
    "${psql[@]}" -c '\copy said from stdin' <> "$work/silent" 2> /dev/null &
    interrupt $! 'COPY%said'
}

say_by_pgbench() {
    local mode
    "${aloud[@]}" "$bin/pgbench" -i -q -s 1 2> /dev/null
    for mode in simple extended prepared; do
        "${aloud[@]}" "$bin/pgbench" -n -M "$mode" -t 20 > /dev/null 2>&1
    done
}

# Debian's drivers for its Python, where they are there.
say_by_python() {
    local driver
    for driver in asyncpg psycopg2; do
        if /usr/bin/python3 -c "import $driver" 2> /dev/null; then
            try "${aloud[@]}" /usr/bin/python3 -B "tests/system/real/${driver}_says.py"
            expect "$driver speaks" 0
        else
            echo "left out: what $driver says, since there is no python3-$driver"
        fi
    done
}

# The program on tokio-postgres.
say_by_tokio_postgres() {
    if [ -z "$on_original" ]; then
        echo "left out: what tokio-postgres says, which needs the packages$driver_lacks"
        return
    fi
    PGPORT=$said_port try "$on_original/spoken"
    expect 'tokio-postgres speaks' 0
}

# What psql and pgbench say at least.
said_kinds="bind
cancelrequest
copydata
copydone
copyfail
describe
execute
functioncall
parse
password
query
sslrequest
startup
sync
terminate"

# Keeps what clients say, and what is answered to them, once.
keep_said() {
    if [ ! -d "$work/connections" ]; then
        start_keeping
        say_by_psql
        say_by_pgbench
        say_by_python
        say_by_tokio_postgres
        kill "$keeping"
    fi
}

test_said() {
    if [ -z "${PG_TOOL:-}" ]; then
        echo 'left out: what clients say, since PG_TOOL names no pg_tool'
        return
    fi
    keep_said
    try tests/system/said.py read "$work/connections" "$programs/said_lines"
    expect "what clients say is read, in C as well: $errors" 0
    same 'each kind of message is said' "$(comm -23 <(echo "$said_kinds") <(tr ' ' '\n' <<< "$output" | sort))" ''
}

# Streams of the tables of the server's side.
test_said_lines() {
    try timeout 300 tests/system/said_lines.py "$programs/said_lines"
    expect "the lines of clients' streams: $output" 0
}

# What was said, also in a recording of pg_record with each kind of message, is passed on in random pieces by the example in
# Python.
test_passed_on() {
    keep_said
    if [ -f "$work/recorded" ]; then
        as_tags "$work/recorded" > "$work/connections/recorded.lines"
    fi
    if ! find_builder; then
        echo 'left out: recordings passed on, which need Python 3.11 (apt-get install python3-dev python3-cffi python3-setuptools python3-wheel pkg-config)'
        return
    fi
    prepare_package
    try tests/system/passed_on.py "$work/connections" env PYTHONPATH="$work/package" "$builder" -B -W error bindings/python/examples/pass_on.py
    expect "recordings passed on: $output" 0
}

# Which first messages a server takes, beside what is read of them.
test_first_messages() {
    local taken
    if [ -z "${PG_TOOL:-}" ]; then
        echo 'left out: first messages by pg_tool, which PG_TOOL has to name'
        return
    fi
    try tests/system/first_messages.py "$PGPORT"
    taken=$(grep -c ': taken$' <<< "$output")
    expect "first messages that a server takes: $taken of $(grep -c ': \(taken\|refused\)$' <<< "$output")" 0
    expect "messages whose end a server doesn't look for: $(grep -c ': ignored$' <<< "$output") of $(grep -c ': \(ignored\|found\)$' <<< "$output")" 0
    same 'a server negotiates, and how' "$(grep ': negotiated$' <<< "$output")" \
        "$(printf '%s\n' 'a minor version: negotiated' 'an option of the protocol: negotiated')"
}
