# Programs whose lines nobody reads: a signal ends them. Sourced by `run`.

# Opens a pipe that nobody reads. Leaves its descriptor in $unread.
open_unread() {
    rm -f "$work/unread"
    mkfifo "$work/unread"
    exec {unread}<> "$work/unread"
}

# Fills what is left of it.
fill_unread() {
    timeout 1 cat /dev/zero >&"$unread"
}

# Tests that a signal ends a process with a status.
ends_by() {
    kill "-$2" "$3"
    reap "$3"
    same "$1" "$?" "$4"
}

# Sends rows through a recorder whose lines are not read, so that it holds the session, and ends it.
test_unread_lines() {
    local number waiting
    for number in 1 4; do
        open_unread
        start_recording "$work/unread" --stream -h 127.0.0.1 --threads "$number"
        rows_through 1000 > /dev/null 2>&1 &
        waiting=$!
        sleep 1
        same "lines that nobody reads hold their session, threads: $number" "$(kill -0 "$waiting" && echo held)" held
        ends_by "Ctrl-C ends a recorder whose lines nobody reads, threads: $number" INT "$recording" 130
        same 'it says what is lost' "$(grep -c 'its last lines are lost' "$work/errors.record")" 1
        wait "$waiting"
        exec {unread}>&-
    done
}

# The same where the recording is such a pipe.
test_unread_recording() {
    local waiting
    open_unread
    start_recording /dev/null -o "$work/unread" -h 127.0.0.1 --threads 2
    rows_through 1000 > /dev/null 2>&1 &
    waiting=$!
    sleep 1
    ends_by 'Ctrl-C ends a recorder whose recording is a pipe that nobody reads' INT "$recording" 130
    wait "$waiting"
    exec {unread}>&-
}

test_unread_notifications() {
    open_unread
    start_listening "$work/unread" plain
    fill_unread
    sql 'NOTIFY plain'
    sleep 0.2
    ends_by 'Ctrl-C ends a listener whose lines nobody reads' INT "$listening" 130
    exec {unread}>&-
}

# Starts a replay of so many threads with options, and a client that differs, where standard error is a pipe that nobody reads.
begin_unread_difference() {
    open_unread
    replay_port=$(free_port)
    "$programs/pg_replay" --threads "$1" "${@:2}" "$work/words.tape" "$replay_port" 2> "$work/unread" &
    replaying=$!
    await at_port "$replay_port" "${client[@]}" cancel end
    fill_unread
    at_port "$replay_port" "${client[@]}" "$as_postgres" read 'query:SELECT 2' end > "$work/waiting" &
    waiting=$!
}

# Differences of a long statement, which nobody reads, take little memory.
test_unread_long_differences() {
    local words=("$as_postgres" read "parse::SELECT \$1::text || '$(printf '.%.0s' {1..100000})'") number peak
    record_words "${words[@]}" bind:::one execute::0 sync read terminate end
    begin_unread_difference 2 --go-on --again
    wait "$waiting"
    for number in {1..60}; do
        at_port "$replay_port" "${client[@]}" "${words[@]}" "bind:::$number" sync end > /dev/null
    done
    peak=$(sed -n 's/^VmHWM:[^0-9]*\([0-9]*\) kB/\1/p' "/proc/$replaying/status")
    ends_by 'SIGTERM ends a replay whose long differences nobody reads' TERM "$replaying" 143
    exec {unread}>&-
    if [ "${peak:-0}" -gt 25000 ]; then
        bad 'replay: memory of differences that nobody reads' "$peak kB"
    else
        ok "replay: memory of differences that nobody reads, ${peak:-unknown} kB"
    fi
}

# A replay that can't say a difference: it ends by the difference, or by a signal where it goes on and again.
test_unread_differences() {
    local number waiting
    record_words "$as_postgres" read 'query:SELECT 1' read terminate end
    for number in 1 4; do
        begin_unread_difference "$number"
        reap "$replaying"
        same "a replay ends whose differences nobody reads, threads: $number" "$?" 11
        wait "$waiting"
        exec {unread}>&-
        begin_unread_difference "$number" --go-on --again
        sleep 1
        ends_by "SIGTERM ends a replay whose differences nobody reads, threads: $number" TERM "$replaying" 143
        wait "$waiting"
        exec {unread}>&-
    done
}
