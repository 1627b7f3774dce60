# Lines of the trace, beside those that libpq writes of the same sessions. Sourced by `run`.
#
# libpq traces a message of the server when it reads it, so messages of both sides come in another order than on the
# wire: the lines of each side are compared in order.

# What libpq 15 writes no line for: what comes before the session is open, but settings; the data of a COPY that
# the program takes; a ReadyForQuery after a function's answer.
untraced='
/^[FB]\t[0-9]+\t/ { is_left_out = 0 }
/^B\t[0-9]+\t(ParameterStatus|BackendKeyData)/ { is_open = 1 }
!is_open && /^B\t[0-9]+\t(Authentication|ErrorResponse)/ { is_left_out = 1 }
session ~ /^(copy_out|large)$/ && /^B\t[0-9]+\t$/ { is_left_out = 1 }
session == "function" && before ~ /^(FunctionCall|Error)Response$/ && /^B\t[0-9]+\tReadyForQuery/ { is_left_out = 1 }
/^[FB]\t[0-9]+\t/ { before = $3; if (is_left_out) print ($3 == "" ? "CopyData" : $3) >> left_out }
!is_left_out'

# The lines of libpq by their sides, those of the client first. What begins no line goes on with the one before.
by_sides() {
    local side
    for side in F B; do
        LC_ALL=C awk -v side="$side" '/^[FB]\t[0-9]+\t/ { current = substr($0, 1, 1) } current == side' "$1"
    done
}

# What libpq prints of a text as it is, and we don't: control characters but line feeds and tabs.
with_escapes() {
    local byte script=
    for byte in {1..8} {11..31} 127; do
        script+=$(printf 's/\\x%02x/\\\\x%02x/g;' "$byte" "$byte")
    done
    for byte in {128..159}; do
        script+=$(printf 's/\\xc2\\x%02x/\\\\xc2\\\\x%02x/g;' "$byte" "$byte")
    done
    LC_ALL=C sed "$script"
}

# Whether libpq's trace can be had: then there is a program over libpq 15, and its version is in $libpq.
build_sessions() {
    local flags
    if [ -n "${libpq:-}" ]; then
        return
    fi
    if ! has_python; then
        echo "left out: libpq's own trace, which needs Python 3.11 (apt-get install python3)"
        return 1
    fi
    if ! command -v pg_config > /dev/null || ! "${CC:-cc}" -E -I"$(pg_config --includedir)" -x c - \
        <<< '#include <libpq-fe.h>' > /dev/null 2>&1; then
        echo "left out: libpq's own trace, without the headers of libpq (apt-get install libpq-dev)"
        return 1
    fi
    flags=(-std=c11 -Wall -Wextra -Wpedantic -I"$(pg_config --includedir)" -L"$(pg_config --libdir)")
    try "${CC:-cc}" "${flags[@]}" bindings/c/tests/trace_sessions*.c -lpq -o "$work/trace_sessions"
    expect 'a program over libpq' 0
    [ "$status" = 0 ] || return
    libpq=$("$work/trace_sessions")
    if [[ $libpq != 15.* ]]; then
        echo "left out: libpq's own trace, since libpq is $libpq, and other versions than 15 write other lines"
        libpq=
        return 1
    fi
}

# Runs a session with libpq's trace to a file, through a program that keeps what both sides say to a port.
run_session() {
    local session=$1 port=$2
    tests/system/said.py pass "$port" "$work/said_by_client" "$work/said_by_server" > "$work/port_of_forward" &
    local forwarding=$!
    await test -s "$work/port_of_forward"
    PGHOST=127.0.0.1 PGPORT=$(cat "$work/port_of_forward") timeout 60 \
        "$work/trace_sessions" "$session" "$work/trace" 2> "$work/errors"
    status=$?
    reap "$forwarding"
    rm "$work/port_of_forward"
}

# Runs a session, and compares both traces of it.
compare_traces() {
    local name=$1 session=${1%% *} difference lines
    run_session "$session" "$2"
    if [ "$status" != 0 ]; then
        bad "the trace of $name" "status $status; $(cat "$work/errors")"
        return
    fi
    by_sides "$work/trace" | tee "$work/as_they_are" | with_escapes > "$work/by_libpq"
    escaped_lines=$((escaped_lines + $(diff -a "$work/as_they_are" "$work/by_libpq" | grep -a -c '^<')))
    lines=$(wc -l < "$work/by_libpq")
    : > "$work/left_out"
    "$programs/trace_lines" "$work/said_by_client" "$work/said_by_server" > "$work/lines" 2> "$work/errors"
    LC_ALL=C awk -F '\t' -v session="$session" -v left_out="$work/left_out" "$untraced" "$work/lines" > "$work/by_us"
    difference=$(diff -a "$work/by_libpq" "$work/by_us" | cut -c 1-300 | head -n 4; cat "$work/errors")
    verdict "the trace of $name: $lines lines" "$difference"
    if [ -z "$difference" ]; then
        traced=$((traced + lines))
        cat "$work/left_out" >> "$work/all_left_out"
    fi
}

# A password is asked for by each method, and one is wrong. Encryption is asked for and refused.
compare_logins() {
    local user
    [ -n "$(sql "SELECT 1 FROM pg_roles WHERE rolname = 'by_scram'")" ] || make_users
    for user in by_clear by_md5 by_scram; do
        PGUSER=$user PGPASSWORD="pass word '1" compare_traces "login $user" "$PGPORT"
    done
    PGUSER=by_scram PGPASSWORD=wrong compare_traces 'login with a wrong password' "$PGPORT"
    PGSSLMODE=prefer compare_traces 'login without the encryption that was asked for' "$PGPORT"
}

test_trace() {
    local session traced=0 escaped_lines=0
    build_sessions || return
    : > "$work/all_left_out"
    export PGSSLMODE=disable PGGSSENCMODE=disable
    for session in errors queries copy_in copy_out copy_dropped prepared notify pipeline function large notices; do
        compare_traces "$session" "$PGPORT"
    done
    compare_logins
    unset PGSSLMODE PGGSSENCMODE
    echo "$traced lines are those of libpq $libpq, which writes none for" \
        "$(sort "$work/all_left_out" | uniq -c | awk '{ printf "%s%d %s", (NR > 1 ? ", " : ""), $1, $2 }')"
}

# A server that says what PostgreSQL says rarely or never.
test_odd_trace() {
    local traced=0 escaped_lines=0 serving
    build_sessions || return
    : > "$work/all_left_out"
    tests/system/trace_server.py > "$work/port_of_server" &
    serving=$!
    await test -s "$work/port_of_server"
    PGUSER=postgres PGSSLMODE=disable PGGSSENCMODE=disable compare_traces odd "$(cat "$work/port_of_server")"
    reap "$serving"
    echo "$escaped_lines lines of libpq $libpq have control characters as they are, which have escapes here"
}

test_trace_lines() {
    test_odd_trace
}

# Bytes of others that a terminal would obey, none of which is printed: escape, bell, carriage return, delete, and a control character above ASCII.
obeyed=$'\e[2J\a\r\x7f\302\233'
escaped='\x1b[2J\x07\x0d\x7f\xc2\x9b'

# Tests that some lines have the escapes, and none of the bytes.
is_escaped() {
    same "$1" "$(LC_ALL=C grep -a -c -F "$escaped" "$2") $(LC_ALL=C grep -a -c $'[\e\a\r\x7f\x9b]' "$2")" "${3:-1} 0"
}

# What a server and its client say, as pg_record prints it.
test_escaped_traces() {
    start_recording "$work/lines" --trace -h 127.0.0.1
    query_through "SELECT 1 AS \"$obeyed\"" > /dev/null
    stop_recording
    is_escaped 'a trace: the texts of a client and of a server' "$work/lines" 2
}

# A client that does otherwise, as pg_replay says it.
test_escaped_differences() {
    record_words "$as_postgres" read 'query:SELECT 1' read terminate end
    differs 'a query that a terminal would obey' '' 'message 2 of connection 1' "$as_postgres" read "query:$obeyed" end
    is_escaped 'replay: a difference, both where it is shown' "$work/errors.replay" 2
    same 'replay: a difference, the client too' "$(grep -c -F "${escaped//\\/\\\\}" <<< "$replayed")" 1
}
