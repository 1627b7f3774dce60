# Recordings whose recorder is killed, or has no room, and clients that are slow, many or send much. Sourced by `run`.
# RECORD_MEGABYTES may say how long the COPY is that is recorded in little memory: 10240 takes many minutes, since it is exported
# and imported too, and five times as much room in the folder for temporary files.

# The most memory that a process held, in kB.
peak_of() {
    sed -n 's/^VmHWM:[^0-9]*\([0-9]*\) kB/\1/p' "/proc/$1/status"
}

# Tests that the recorder held less than so many kB.
holds_less() {
    local peak
    peak=$(peak_of "$recording")
    if [ "${peak:-$2}" -lt "$2" ]; then
        ok "$1: $peak kB"
    else
        bad "$1" "$peak kB"
    fi
}

# A number of rows of a kilobyte, through the recorder.
rows_through() {
    query_through "COPY (SELECT repeat('x', 1023) FROM generate_series(1, $1)) TO STDOUT" 2> "$work/errors.rows"
}

# Kills a recorder while rows pass, a hundred times.
test_killed_recordings() {
    try tests/system/record_kills.py "$programs/pg_record" "$work/killed.tape" 100
    expect "a recorder that is killed: each file is read to its last whole record: $output" 0
    recordings_read=$((recordings_read + 100))
    records_read=$((records_read + $(sed 's/.*files, \([0-9]*\) .*/\1/' <<< "$output")))
}

# Starts pg_record with a limit of the shell's.
start_limited() {
    local limit=$1 tape=$2
    rm -f "$tape"
    : > "$work/errors.record"
    (ulimit $limit && exec "$programs/pg_record" -o "$tape" "${@:3}" 0) > /dev/null 2> "$work/errors.record" &
    recording=$!
    await grep -q '^listening on' "$work/errors.record"
    record_port=$(sed -n 's/^listening on 127.0.0.1 port //p' "$work/errors.record")
}

# Tests what becomes of sessions where a recording has no room: they end.
ends_when_full() {
    try rows_through 20000
    same "$1: the session ends" "$([ "$status" != 0 ] && echo ended)" ended
    reap "$recording"
    same "$1: it has its own status" "$? $(grep -c "$3" "$work/errors.record")" '9 1'
    read_back "$1" "$2"
}

test_full_disk() {
    local tape=$work/full.tape mounted=$work/small
    try "$programs/pg_record" -o /dev/full 0
    expect 'no room for a recording' 9 'No space left'
    start_limited '-f 2000' "$tape"
    ends_when_full 'a file that may not grow' "$tape" 'File too large'
    start_limited '-f 2000' "$tape" --keep-passing
    same 'sessions go on without a recording' "$(rows_through 20000 | wc -l) $(query_through 'SELECT 7')" '20000 7'
    kill "$recording"
    reap "$recording"
    same 'the status says so' "$? $(grep -c 'nothing is recorded from here on' "$work/errors.record")" '9 1'
    read_back 'a recording that ended before' "$tape"
    mkdir "$mounted"
    if ! mount -t tmpfs -o size=1m tmpfs "$mounted" 2> /dev/null; then
        echo 'left out: a full disk, since none can be mounted'
        return
    fi
    start_taping "$mounted/tape"
    ends_when_full 'a full disk' "$mounted/tape" 'No space left'
    umount "$mounted"
}

# A client that is killed while it gets rows, and a server's end.
test_taped_ends() {
    local tape=$work/ends.tape
    start_taping "$tape"
    PGHOST=127.0.0.1 PGPORT=$record_port "$bin/psql" -X -c "SELECT repeat('x', 1023) FROM generate_series(1, 1000000)" > /dev/null &
    await has_records "$tape"
    kill -9 $!
    wait $! 2> /dev/null
    try query_through 'SELECT pg_terminate_backend(pg_backend_pid())'
    expect 'a session that the server ends' 2 'terminating connection'
    stop_taping "$tape"
    read_back 'ends' "$tape"
    same 'who ended first is recorded' "$(read_recording "$tape" 1 C) $(read_recording "$tape" 2 C)" 'F B'
}

# Whether a recording has more than what opens a session.
has_records() {
    [ "$(stat -c %s "$1")" -gt 10000 ]
}

# Clients that send little, much, or nothing, beside one that asks.
test_rough_clients() {
    local tape=$work/rough.tape clients held
    start_taping "$tape"
    : > "$work/said_by_clients"
    coproc rough { tests/system/slow_clients.py rough "$record_port" > "$work/said_by_clients" 2> "$work/errors.clients"; }
    clients=$rough_PID held=${rough[1]}
    await grep -q begun "$work/said_by_clients"
    same 'a hundred half-open connections, a byte a second, a gigabyte announced: others are served' \
        "$(for turn in {1..20}; do query_through 'SELECT 7'; done | sort | uniq -c | tr -s ' ')" ' 20 7'
    same 'before the slow client has said its Startup' "$(tail -n 1 "$work/said_by_clients")" begun
    exec {held}>&-
    wait "$clients"
    same 'the slow client gets its answer' "$? $(tail -n 1 "$work/said_by_clients")" '0 answered'
    holds_less 'in little memory' 40000
    stop_taping "$tape"
    read_back 'rough clients' "$tape"
    same 'what says no first message is not recorded' "$(count_records O)" 22
}

# More half-open connections than there are descriptors for: they are given up sooner.
test_short_descriptors() {
    local tape=$work/short.tape descriptor descriptors=()
    start_limited '-n 64' "$tape"
    for _ in {1..30}; do
        exec {descriptor}<> "/dev/tcp/127.0.0.1/$record_port"
        descriptors+=("$descriptor")
    done
    same 'beside more half-open connections than descriptors others are served' \
        "$(PGCONNECT_TIMEOUT=20 query_through 'SELECT 7')" 7
    for descriptor in "${descriptors[@]}"; do
        exec {descriptor}>&-
    done
    stop_taping "$tape"
    read_back 'short descriptors' "$tape"
}

test_taped_memory() {
    local tape=$work/much.tape megabytes=${RECORD_MEGABYTES:-200}
    start_taping "$tape"
    same "COPY of $megabytes MB while recording" "$(rows_through $((megabytes * 1024)) | wc -l)" $((megabytes * 1024))
    holds_less 'its memory' 16000
    stop_taping "$tape"
    read_back 'much' "$tape"
    rm -f "$tape"
}

# Random messages of both sides, in random pieces.
test_taped_pieces() {
    local tape=$work/pieces.tape
    try tests/system/record_pieces.py "$programs/pg_record" "$tape" 40
    expect "random pieces pass unchanged, and are recorded but for what is left out: $output" 0
    read_back 'pieces' "$tape"
}

# A message that is too long to be printed passes, and those after it are printed.
test_long_message() {
    start_recording "$work/lines"
    same 'a message of 70 MB passes' "$(query_through "SELECT repeat('x', 70000000)" | wc -c)" 70000001
    same 'what follows it is printed' "$(tail -n 2 "$work/lines" | cut -d ' ' -f 1)" $'CommandComplete\nReadyForQuery'
    same 'that it is not is said' "$(grep -c "a message of 70000011 bytes isn't shown" "$work/errors.record")" 1
    holds_less 'and it is not held' 16000
    stop_recording
}

# Stops the recorder while clients are at work, and tests its status.
stop_at_work() {
    local tape=$1 client
    through "$bin/pgbench" -n -S -c 8 -j 4 -T 30 > /dev/null 2>&1 &
    client=$!
    await has_records "$tape"
    stop_recording
    same "$2" $? "$3"
    wait "$client" 2> /dev/null
    read_back "$2" "$tape"
}

# Recordings that several threads make.
test_record_threads() {
    local tape=$work/threads.tape number
    if [ ! -x "$bin/pgbench" ]; then
        echo 'left out: recordings by several threads, without pgbench (apt-get install postgresql)'
        return
    fi
    for number in 1 2 8; do
        start_taping "$tape" --threads "$number"
        try through "$bin/pgbench" -i -q -s 1
        try through "$bin/pgbench" -n -C -c 8 -j 4 -t 5
        same "threads, $number: connections that are opened" "$status $(grep -o '40/40' <<< "$output")" '0 40/40'
        try through "$bin/pgbench" -n -M prepared -c 8 -j 4 -t 25
        same "threads, $number: clients" "$status $(grep -o '200/200' <<< "$output")" '0 200/200'
        stop_taping "$tape"
        same "threads, $number: SIGTERM" "$?" 143
        read_back "threads, $number" "$tape"
        "$programs/pg_record" --print "$tape" > "$work/lines_of_all"
        same "threads, $number: each update is recorded" \
            "$(grep -c '^CommandComplete 13 555044415445203100' "$work/lines_of_all")" 720
    done
    start_taping "$tape" --threads 4
    stop_at_work "$tape" 'threads: SIGTERM while clients are at work' 143
    start_limited '-f 2000' "$tape" --threads 4
    try through "$bin/pgbench" -n -S -c 8 -j 4 -T 30
    reap "$recording"
    same 'threads: a file that may not grow' "$? $(grep -c 'File too large' "$work/errors.record")" '9 1'
    read_back 'threads: a file that may not grow' "$tape"
    same 'threads: no panic' "$(grep -c -i panic "$work/errors.record")" 0
}

test_record_rough() {
    test_long_message
    test_taped_pieces
    test_killed_recordings
    test_full_disk
    test_taped_ends
    test_rough_clients
    test_short_descriptors
    test_taped_memory
    test_record_threads
    test_escaped_traces
    test_unread_lines
    test_unread_recording
    ok "the second reader reads each of $recordings_read recordings, $records_read records"
}
