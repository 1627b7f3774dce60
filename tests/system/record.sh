# Recordings of what a server says. Sourced by `run`.

# Starts pg_record on a free port with its lines to a file. Leaves its process in $recording, its port in
# $record_port.
start_recording() {
    : > "$work/errors.record"
    "$programs/pg_record" "${@:2}" 0 > "$1" 2> "$work/errors.record" &
    recording=$!
    if ! await grep -q '^listening on' "$work/errors.record"; then
        bad 'start of a recording' "$(cat "$work/errors.record")"
    fi
    record_port=$(sed -n 's/^listening on 127.0.0.1 port //p' "$work/errors.record")
}

# Runs a command whose connections are recorded.
through() {
    PGHOST=127.0.0.1 PGPORT=$record_port "$@"
}

stop_recording() {
    kill "$recording"
    reap "$recording"
}

query_through() {
    through "$bin/psql" -X -q -A -t -c "$1"
}

run_pgbench() {
    if [ ! -x "$bin/pgbench" ]; then
        echo 'left out: recordings of pgbench (apt-get install postgresql)'
        return
    fi
    try through "$bin/pgbench" -i -q -s 1
    expect 'pgbench -i through pg_record' 0
    try through "$bin/pgbench" -n -M prepared -T 2
    expect 'pgbench -T 2 through pg_record' 0
    if grep -q '^CommandComplete 13 5550444154452031' "$work/lines"; then
        ok 'an UPDATE of pgbench is recorded'
    else
        bad 'an UPDATE of pgbench is recorded' "$(head -n 5 "$work/lines")"
    fi
}

startup='\0\0\0\51\0\3\0\0user\0postgres\0database\0postgres\0\0'

# The bytes of a short Query.
query() {
    printf "Q\\0\\0\\0\\$(printf '%o' $((${#1} + 5)))%s\\0" "$1"
}

# Startup, Parse, Describe of the statement, Bind, two Executes of a row each, Close, Sync; then queries
# without text, with a notice and with a notification; Terminate.
raw_session() {
    exec 3<> "/dev/tcp/127.0.0.1/$record_port" || return
    printf "$startup" >&3
    printf 'P\0\0\0\43\0SELECT generate_series(1,3)\0\0\0D\0\0\0\6S\0B\0\0\0\14\0\0\0\0\0\0\0\0' >&3
    printf 'E\0\0\0\11\0\0\0\0\1E\0\0\0\11\0\0\0\0\1C\0\0\0\6P\0S\0\0\0\4' >&3
    { query ''; query "DO 'BEGIN RAISE NOTICE ''n''; END'"; query 'LISTEN a; NOTIFY a'; printf 'X\0\0\0\4'; } >&3
    cat <&3 > "$work/raw"
    exec 3>&-
}

all_kinds="Authentication
BackendKeyData
BindComplete
CloseComplete
CommandComplete
CopyData
CopyDone
CopyInResponse
CopyOutResponse
DataRow
EmptyQueryResponse
ErrorResponse
NoData
NoticeResponse
NotificationResponse
ParameterDescription
ParameterStatus
ParseComplete
PortalSuspended
ReadyForQuery
RowDescription"

all_tags='52 4b 32 33 43 64 63 47 48 44 49 45 6e 4e 41 74 53 31 73 5a 54'

# The lines as those that `pg_tool decode` reads.
as_tags() {
    awk -v kinds="$(tr '\n' ' ' <<< "$all_kinds")" -v tags="$all_tags" '
        BEGIN {
            count = split(kinds, kind)
            split(tags, tag)
            for (i = 1; i <= count; i++) tag_of[kind[i]] = tag[i]
        }
        { print tag_of[$1], $3 }' "$1"
}

test_lines() {
    start_recording "$work/lines"
    run_pgbench
    query_through 'COPY (SELECT 1) TO STDOUT' > /dev/null
    try query_through 'SELECT * FROM no_such_table'
    expect 'a query that fails is passed on' 1 'no_such_table'
    printf '1\ta\tb\t2\n' | through "$programs/pg_copy" by_copy > /dev/null
    raw_session
    stop_recording
    cp "$work/lines" "$work/recorded"
    same 'each kind of message is recorded' "$(cut -d ' ' -f 1 "$work/lines" | sort -u)" "$all_kinds"
    same 'the error of the query has code 42P01' \
        "$(grep '^ErrorResponse ' "$work/lines" | grep -c '00433432503031004d')" 1
    same 'each length is that of its body' \
        "$(awk '{ n = $3 == "-" ? 0 : length($3) / 2 } n + 4 != $2' "$work/lines" | head -n 3)" ''
    if [ -n "${PG_TOOL:-}" ]; then
        as_tags "$work/lines" | "$PG_TOOL" decode | sed 's/^[A-Za-z]* //' | sort -u > "$work/decoded"
        same 'pg_tool decodes each line' "$(cat "$work/decoded")" $'ok\nuntyped'
    else
        echo 'left out: decoding of the recorded lines, since PG_TOOL names no pg_tool'
    fi
}

test_bytes_through() {
    head -n 100000 "$work/rows" > "$work/some_rows"
    start_recording "$work/lines"
    make_table by_copy
    try through "$programs/pg_copy" by_copy "$work/some_rows"
    same 'rows to the server pass unchanged' "$status $output" '0 COPY 100000'
    query_through 'COPY by_copy TO STDOUT' > "$work/rows_back"
    cmp "$work/some_rows" "$work/rows_back" > "$work/difference" 2>&1
    same 'rows from the server pass unchanged' "$(cat "$work/difference")" ''
    same 'each of them is recorded' "$(grep -c '^CopyData ' "$work/lines")" 100000
    try env PGSSLMODE=require PGHOST=127.0.0.1 PGPORT="$record_port" "$bin/psql" -X -c 'SELECT 1'
    expect 'encryption is refused' 2 'does not support SSL'
    exec 3<> "/dev/tcp/127.0.0.1/$record_port"
    printf '\0\0\0\10\4\322\26\60''\0\0\0\10\4\322\26\57'"$startup"'X\0\0\0\4' >&3
    same 'both requests for encryption are answered' "$(head -c 3 <&3)" NNR
    exec 3>&-
    stop_recording
}

# A client that doesn't read: the server's rows mustn't pile up here.
test_pressure() {
    local peak
    if [ ! -r "/proc/$$/status" ]; then
        echo 'left out: the memory of pg_record, since there is no /proc'
        return
    fi
    start_recording "$work/lines"
    exec 3<> "/dev/tcp/127.0.0.1/$record_port"
    { printf "$startup"; query "SELECT repeat('x', 1000) FROM generate_series(1, 300000)"; } >&3
    sleep 2
    peak=$(sed -n 's/^VmHWM:[^0-9]*\([0-9]*\) kB/\1/p' "/proc/$recording/status")
    exec 3>&-
    if [ "$peak" -lt 16000 ]; then
        ok 'memory stays small while a client does not read'
    else
        bad 'memory stays small while a client does not read' "$peak kB"
    fi
    same 'the next connection is served' "$(query_through 'SELECT 7')" 7
    stop_recording
}

test_ends_of_recordings() {
    local option
    start_recording "$work/lines" -1
    same 'a single connection' "$(query_through 'SELECT 8')" 8
    reap "$recording"
    same 'it ends after that' "$?" 0
    for option in '' --encryption; do
        start_recording "$work/lines" -1 $option -h 127.0.0.1 -p "$(free_port)"
        PGSSLMODE=disable try query_through 'SELECT 9'
        expect "a client hears that the server is not there $option" 2 'FATAL:  pg_record: no connection to 127.0.0.1 port'
        reap "$recording"
        same "a server that is not there $option" "$?" 2
    done
    start_recording "$work/lines"
    try "$programs/pg_record" "$record_port"
    expect 'a port that is in use' 2 'in use'
    stop_recording
    try "$programs/pg_record" 70000
    expect 'a port above the last' 1 usage
    start_recording /dev/full -1
    query_through 'SELECT 10' > /dev/null 2>&1
    reap "$recording"
    same 'a recording onto a full disk' "$?" 7
}

test_record() {
    test_lines
    test_bytes_through
    test_pressure
    test_ends_of_recordings
}
