# Recordings of both sides in a file. Sourced by `run`.

# Starts pg_record with a recording to a file.
start_taping() {
    rm -f "$1"
    start_recording /dev/null -o "$@"
}

# Waits until each session of a recording is at its end, and stops the recorder.
stop_taping() {
    await are_closed "$1"
    stop_recording
}

are_closed() {
    read_recording "$1" > "$work/records" && [ "$(count_records O)" = "$(count_records C)" ]
}

# Reads a recording, or the bytes of a side of it, by the second reader.
read_recording() {
    python3 -B programs/examples/read_recording.py "$@" 2> "$work/errors.read"
}

# Tests that the second reader reads a recording, and keeps its lines in $work/records. How many it reads is added up.
recordings_read=0
records_read=0
read_back() {
    if ! read_recording "$2" > "$work/records"; then
        bad "the second reader reads: $1" "$(cat "$work/errors.read")"
        return
    fi
    recordings_read=$((recordings_read + 1))
    records_read=$((records_read + $(wc -l < "$work/records")))
}

# How many records of a kind were read.
count_records() {
    awk -v kind="$1" '$4 == kind' "$work/records" | wc -l
}

# Tests that the lines of a recording are those of pg_tool and of said_lines on the bytes that the second reader finds.
same_lines() {
    local number wrong= tool=${PG_TOOL:-}
    "$programs/pg_record" --print "$2" --numbers > "$work/lines_of_all" || wrong='it can not be printed'
    for number in $(awk '$4 == "O" { print $3 }' "$work/records"); do
        sed -n "s/^$number //p" "$work/lines_of_all" > "$work/lines_of_one"
        read_recording "$2" "$number" F | "$programs/said_lines" > "$work/lines_of_client"
        grep '^[a-z]' "$work/lines_of_one" | cmp - "$work/lines_of_client" > /dev/null || wrong+=" client $number"
        [ -n "$tool" ] || continue
        read_recording "$2" "$number" B | "$tool" stream > "$work/lines_of_server"
        grep '^[A-Z]' "$work/lines_of_one" | cmp - "$work/lines_of_server" > /dev/null || wrong+=" server $number"
    done
    verdict "$1: the lines of $(wc -l < "$work/lines_of_all") messages" "$wrong"
}

# Sessions of psql: a query, COPY each way, an error, a notification; and one whose bytes are known.
test_taped_sessions() {
    local tape=$work/sessions.tape
    start_taping "$tape"
    make_table taped
    same 'a query while recording' "$(query_through 'SELECT 7')" 7
    printf '1\ta\tb\t2\n' > "$work/row"
    try through "$bin/psql" -X -q -c "\\copy taped from '$work/row'"
    expect 'COPY to the server while recording' 0
    same 'COPY from the server while recording' "$(query_through 'COPY taped TO STDOUT')" $'1\ta\tb\t2'
    try query_through 'SELECT * FROM no_such_table'
    expect 'an error while recording' 1 no_such_table
    try through "$bin/psql" -X -q -c 'LISTEN a' -c "NOTIFY a, 'words'"
    same 'a notification while recording' "$status $(grep -c 'payload "words"' "$work/output")" '0 1'
    raw_session
    try "$programs/pg_record" -o "$work/other.tape" "$record_port"
    expect 'a port that is in use' 2 'in use'
    same 'leaves no recording' "$(ls "$work/other.tape" 2> /dev/null)" ''
    ln -s /proc/self/fd/1 "$work/linked"
    try "$built/pg_record" -o "$work/linked" "$record_port"
    same 'but leaves a link to standard output' "$status $(readlink "$work/linked") $(wc -c < "$work/output")" \
        '2 /proc/self/fd/1 0'
    stop_taping "$tape"
    read_back 'sessions' "$tape"
    same 'six sessions are recorded, each to its end' "$(count_records O) $(count_records C)" '6 6'
    read_recording "$tape" 6 B | cmp - "$work/raw" > "$work/difference" 2>&1
    same 'what a client gets is what is recorded' "$(cat "$work/difference")" ''
    same 'what it says too' "$(read_recording "$tape" 6 F | head -c 41 | od -An -tx1)" "$(printf "$startup" | od -An -tx1)"
    same_lines 'sessions of psql' "$tape"
    same 'nobody else may read it' "$(stat -c %a "$tape")" 600
    try "$programs/pg_record" -o "$tape" 0
    expect 'a recording is not written over' 9 'has something in it'
}

# Passwords by each method, and what is in the file then.
test_taped_passwords() {
    local user tape=$work/passwords.tape
    [ -n "$(sql "SELECT 1 FROM pg_roles WHERE rolname = 'by_scram'")" ] || make_users
    start_taping "$tape" -h 127.0.0.1
    for user in by_clear by_md5 by_scram; do
        PGPASSWORD="pass word '1" PGUSER=$user try query_through 'SELECT 7'
        same "login $user while recording" "$status $output" '0 7'
    done
    stop_taping "$tape"
    read_back 'passwords' "$tape"
    same 'passwords are left out: three answers and three of SASL of the server' \
        "$(count_records f) $(count_records b) $(grep -c "pass word '1\|SCRAM\|md5[0-9a-f]" "$tape")" '4 3 0'
    start_taping "$tape" -h 127.0.0.1 --passwords
    PGPASSWORD="pass word '1" PGUSER=by_clear try query_through 'SELECT 7'
    stop_taping "$tape"
    read_back 'passwords that are asked for' "$tape"
    same 'passwords are recorded where they are asked for' "$(count_records f) $(grep -c "pass word '1" "$tape")" '0 1'
}

# Eight clients of pgbench at once: each one's messages are whole.
test_taped_clients() {
    local mode tape=$work/clients.tape
    start_taping "$tape"
    try through "$bin/pgbench" -i -q -s 1
    for mode in simple extended prepared; do
        try through "$bin/pgbench" -n -M "$mode" -c 8 -t 25
        same "pgbench of 8 clients while recording, $mode" "$status $(grep -o '200/200' <<< "$output")" '0 200/200'
    done
    stop_taping "$tape"
    read_back 'many clients' "$tape"
    "$programs/pg_record" --print "$tape" > "$work/lines_of_all"
    same 'the 1800 updates of 28 connections are recorded' \
        "$(count_records O) $(grep -c '^CommandComplete 13 555044415445203100' "$work/lines_of_all")" '28 1800'
}

# A request to cancel has a connection of its own.
test_taped_cancel() {
    local tape=$work/cancel.tape
    start_taping "$tape"
    PGHOST=127.0.0.1 PGPORT=$record_port "$bin/psql" -X -c 'SELECT pg_sleep(60)' > /dev/null 2> "$work/errors.cancel" &
    interrupt $! 'SELECT pg_sleep'
    same 'a request to cancel is passed on' "$(grep -c 'due to user request' "$work/errors.cancel")" 1
    stop_taping "$tape"
    read_back 'cancel' "$tape"
    same 'and recorded' "$("$programs/pg_record" --print "$tape" | grep -c '^cancelrequest ')" 1
}

# Encryption is answered by a no, or passed on and not read.
test_taped_encryption() {
    local tape=$work/encryption.tape
    start_taping "$tape"
    PGSSLMODE=prefer try query_through 'SELECT 7'
    stop_taping "$tape"
    read_back 'no encryption' "$tape"
    same 'encryption is answered by a no' "$status $output $(count_records O)$(count_records E)" '0 7 10'
    start_taping "$tape"
    exec 3<> "/dev/tcp/127.0.0.1/$record_port"
    printf '\26\3\1\2\0' >&3
    same 'TLS that is not asked for ends the connection' "$(timeout 60 cat <&3; echo $?)" 0
    exec 3>&-
    await grep -q 'begins with TLS' "$work/errors.record"
    stop_recording
    same 'the recorder says so' "$(grep -c 'begins with TLS' "$work/errors.record")" 1
    start_taping "$tape" -h 127.0.0.1 --encryption
    PGSSLMODE=prefer try query_through 'SELECT 7'
    stop_taping "$tape"
    read_back "a server's no" "$tape"
    same 'the no of the server is passed on' "$status $output $(count_records O)$(count_records E)" '0 7 10'
    if ! encrypt_server; then
        echo 'left out: encryption that is passed through, since there is no openssl (apt-get install openssl), or a server without TLS'
        return
    fi
    start_taping "$tape" -h 127.0.0.1 --encryption
    PGSSLMODE=require try query_through 'SELECT ssl FROM pg_stat_ssl WHERE pid = pg_backend_pid()'
    stop_taping "$tape"
    sql 'ALTER SYSTEM RESET ssl' && sql 'SELECT pg_reload_conf()' > /dev/null
    read_back 'encryption' "$tape"
    same 'encryption is passed through, unread' "$status $output $(cut -d ' ' -f 4 "$work/records" | tr -d '\n')" '0 t OEC'
}

# Gives the server a certificate of its own.
encrypt_server() {
    as_owner openssl req -new -x509 -days 2 -nodes -newkey rsa:2048 -subj /CN=localhost \
        -keyout "$server_folder/data/server.key" -out "$server_folder/data/server.crt" > /dev/null 2>&1 || return 1
    as_owner chmod 600 "$server_folder/data/server.key"
    sql 'ALTER SYSTEM SET ssl = on' && sql 'SELECT pg_reload_conf()' > /dev/null
    await is_encrypted
}

is_encrypted() {
    PGHOST=127.0.0.1 PGSSLMODE=require "$bin/psql" -X -c 'SELECT 1'
}

# What is printed at once is what the recording prints later: libpq's notation of the bytes of each connection.
test_taped_trace() {
    local number wrong= tape=$work/trace.tape
    rm -f "$tape"
    start_recording "$work/live" -o "$tape" --trace
    query_through 'SELECT 7' > /dev/null
    query_through 'SELECT * FROM no_such_table' > /dev/null 2>&1
    query_through 'COPY (SELECT 7) TO STDOUT' > /dev/null
    raw_session
    stop_taping "$tape"
    read_back 'trace' "$tape"
    try "$programs/pg_record" --print "$tape" --trace
    same "a trace of $(wc -l < "$work/live") lines is the same later" "$status $(cmp "$work/live" "$work/output" 2>&1)" '0 '
    for number in 1 2 3 4; do
        "$programs/pg_record" --print "$tape" --trace --only "$number" > "$work/trace"
        read_recording "$tape" "$number" F > "$work/of_client"
        read_recording "$tape" "$number" B > "$work/of_server"
        "$programs/trace_lines" "$work/of_client" "$work/of_server" > "$work/by_bytes"
        by_sides "$work/trace" | cmp - "$work/by_bytes" > /dev/null 2>&1 || wrong+=" $number"
    done
    verdict 'and that of the bytes of each connection' "$wrong"
}

# Each byte of a recording changed, and each length of it, for both readers.
test_taped_bytes() {
    local tape=$work/bytes.tape
    start_taping "$tape"
    same 'a session of one query' "$(query_through 'SELECT 7')" 7
    stop_taping "$tape"
    read_back 'one query' "$tape"
    try tests/system/record_bytes.py "$programs/pg_record" "$tape" "$work/changed.tape"
    expect "a changed byte is refused by name and place, and a cut file is read to its last whole record: $output" 0
    printf 'x' > "$work/changed.tape"
    try "$programs/pg_record" --print "$work/changed.tape"
    expect 'another file' 10 'is no recording'
    try "$programs/pg_record" --print "$work/no.tape"
    expect 'a file that is not there' 7 'No such file'
}

test_record_files() {
    test_taped_sessions
    test_taped_passwords
    test_taped_clients
    test_taped_cancel
    test_taped_encryption
    test_taped_trace
    test_taped_bytes
}
