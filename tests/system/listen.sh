# Notifications. Sourced by `run`.

# Starts pg_listen with its output to a file, and waits until it listens. Leaves its process in $listening. What a script runs
# beside itself ignores Ctrl-C else.
start_listening() {
    : > "$work/errors"
    env --default-signal=INT "$programs/pg_listen" "${@:2}" > "$1" 2> "$work/errors" &
    listening=$!
    await grep -q '^listening$' "$work/errors" || bad 'listening' "$(cat "$work/errors")"
}

end_listening() {
    reap "$listening"
    status=$?
    output=$(cat "$work/lines")
    errors=$(cat "$work/errors")
}

test_payloads() {
    local odd=$'we"ird Chän\'nel' long process
    long=$(printf '%07999d' 0)
    start_listening "$work/lines" -n 5 plain "$odd"
    process=$(sql "NOTIFY plain; SELECT pg_notify('plain', '$long');
                   SELECT pg_notify('we\"ird Chän''nel', E'tab\\tline\\nback\\\\slash\\rGrüße');
                   SELECT pg_notify('other', 'not for us'); NOTIFY \"we\"\"ird Chän'nel\", ' ';
                   SELECT pg_notify('plain', 'last'); SELECT pg_backend_pid()" | tail -n 1)
    end_listening
    expect 'as many notifications as were asked for' 0
    local tab=$'\t'
    same 'their lines' "$output" "plain$tab$process$tab
plain$tab$process$tab$long
$odd$tab$process${tab}tab\\tline\\nback\\\\slash\\rGrüße
$odd$tab$process$tab 
plain$tab$process${tab}last"
}

has_lines() {
    [ "$(wc -l < "$work/lines")" = "$1" ]
}

test_ends() {
    start_listening "$work/lines" plain
    sql "NOTIFY plain, 'one'"
    await has_lines 1 && ok 'a line comes at once' || bad 'a line comes at once' 'it does not'
    kill -INT "$listening"
    end_listening
    expect 'Ctrl-C while listening' 130
    start_listening "$work/lines" plain
    kill -TERM "$listening"
    end_listening
    expect 'SIGTERM while listening' 143
    start_listening "$work/lines" plain
    sql "SELECT pg_terminate_backend(pid) FROM pg_stat_activity
         WHERE application_name = 'pg_listen'" > /dev/null
    end_listening
    expect 'the server ends the listener' 4 57P01
    start_listening /dev/full plain
    sql 'NOTIFY plain'
    end_listening
    expect 'notifications into a full disk' 7 'No space'
    try "$programs/pg_listen" ''
    expect 'a channel without a name' 4 42601
}

# What a terminal would obey, in a channel and in a payload.
test_obeyed_payloads() {
    local odd=$'odd\e\302\205'
    start_listening "$work/lines" -n 1 "$odd"
    sql "SELECT pg_notify('$odd', '$obeyed')" > /dev/null
    end_listening
    expect 'a notification that a terminal would obey' 0
    same 'its line' "$(cut -f 1,3 <<< "$output")" "odd\x1b\xc2\x85"$'\t'"${escaped/'\x0d'/'\r'}"
}

test_listen() {
    test_payloads
    test_obeyed_payloads
    test_ends
    test_unread_notifications
}
