# Connections that read one snapshot, each of which may be asked what another one was. Sourced by `run`.

# Exports a snapshot until its session is ended. Leaves the name in $snapshot, and the process of its client in $exporting.
export_snapshot() {
    local words=(-c 'BEGIN ISOLATION LEVEL REPEATABLE READ' -c 'SELECT pg_export_snapshot()' -c 'SELECT pg_sleep(600)')
    PGAPPNAME=exporting "$bin/psql" -X -q -A -t "${words[@]}" > "$work/snapshot" 2> /dev/null &
    exporting=$!
    await grep -q . "$work/snapshot"
    snapshot=$(head -n 1 "$work/snapshot")
}

# The words of queries at a connection.
asks() {
    local query
    asked=("at:$1")
    for query in "${@:2}"; do
        asked+=("query:$query" read)
    done
}

# Leaves in $session the words of two connections that read the snapshot. $1 are the queries of the first one before, and $2 says
# how the transactions go. The other arguments are a connection and what it asks then, and all ends by COMMIT, unless $last says
# something else.
of_two() {
    local number before=() step
    session=()
    for number in 1 2; do
        [ -z "$1" ] || [ "$number" = 2 ] || before=("$1")
        asks "$number" "${before[@]}" "BEGIN ISOLATION LEVEL REPEATABLE READ, $2" "SET TRANSACTION SNAPSHOT '$snapshot'"
        session+=("at:$number" "$as_postgres" read "${asked[@]}")
        before=()
    done
    for step in "${@:3}"; do
        asks "${step%%:*}" "${step#*:}"
        session+=("${asked[@]}")
    done
    for number in 1 2; do
        session+=("at:$number")
        [ "${last-COMMIT}" = '' ] || session+=("query:${last-COMMIT}" read)
        session+=(terminate end)
    done
}

record_two() {
    of_two "$@"
    record_words "${session[@]}"
}

fits_two() {
    of_two "${@:3}"
    fits "$1" "$2" "${session[@]}"
}

differs_two() {
    of_two "${@:4}"
    differs "$1" "$2" "$3" "${session[@]}"
}

test_replay_taken_jobs() {
    record_two '' 'READ ONLY' "1:SELECT 'a'" "2:SELECT 'b'" "1:SELECT 'c'" "1:SELECT 'd'"
    fits_two 'the jobs of connections that read a snapshot' '' '' 'READ ONLY' \
        "2:SELECT 'd'" "2:SELECT 'c'" "2:SELECT 'a'" "1:SELECT 'b'"
    same 'replay: each job has its answer' "$(grep '^D ' <<< "$replayed" | grep -o ".'$" | tr -d "\n'")" dcab
    differs_two 'a job that was had' '' "SELECT 'a'" '' 'READ ONLY' "1:SELECT 'a'" "2:SELECT 'a'"
    differs_two 'a job that is none' '' "SELECT 'e'" '' 'READ ONLY' "1:SELECT 'e'"
    differs_two 'a job without its transaction' '' "SELECT 'a'" "SELECT 'a'" 'READ ONLY'
    fits_two 'jobs that come again' '' '' 'READ ONLY' "2:SELECT 'a'" "2:SELECT 'b'" "2:SELECT 'c'" "2:SELECT 'd'"
    of_two '' 'READ ONLY' "1:SELECT 'a'"
    replay_command "$work/words.tape" '' "${client[@]}" "${session[@]}"
    expect 'replay: jobs that nobody has' 11 'no client said it'
    last='' of_two '' 'READ ONLY' "1:SELECT 'a'"
    differs 'an end that the transaction did not have' '' 'received: F	4	Terminate' "${session[@]}"
    last='' record_two '' 'READ ONLY' "1:SELECT 'a'" "2:SELECT 'b'" "1:SELECT 'c'"
    last='' fits_two 'jobs of transactions that were left open' '' '' 'READ ONLY' "2:SELECT 'c'" "2:SELECT 'a'" "2:SELECT 'b'"
}

# What a job needs that was said before it in its transaction is asked there, and nothing else may be.
test_replay_jobs_of_state() {
    local one="DECLARE a CURSOR FOR VALUES ('a'), ('b'), ('c')" other="DECLARE a CURSOR FOR VALUES ('d'), ('e')"
    record_two '' 'READ ONLY' "1:$one" '2:SELECT 1' '1:FETCH a' '1:FETCH a' '1:CLOSE a' "1:$other" '1:FETCH a' '1:CLOSE a'
    fits_two 'jobs with cursors' '' '' 'READ ONLY' "2:${other/ a / z }" "1:$one" '2:FETCH z' '1:FETCH a' '1:FETCH a' \
        '1:CLOSE a' '1:SELECT 1' '2:CLOSE z'
    differs_two 'more rows of a cursor than were recorded' '' 'FETCH a' '' 'READ ONLY' "2:$other" '2:FETCH a' '2:FETCH a'
    differs_two 'rows of no cursor' '' 'FETCH a' '' 'READ ONLY' '2:FETCH a'
    record_two '' 'READ ONLY' '1:SELECT 1' "1:SET datestyle = 'German'" "1:SELECT date '2026-01-02'" '2:SELECT 2'
    fits_two 'a job that leaves a setting' '' '' 'READ ONLY' '2:SELECT 1' "2:SET datestyle = 'German'" \
        "2:SELECT date '2026-01-02'" '1:SELECT 2'
    differs_two 'a job after a setting that is missing' '' "date '2026" '' 'READ ONLY' '1:SELECT 1' "2:SELECT date '2026-01-02'"
    differs_two 'another job after a setting' '' 'SELECT 2' '' 'READ ONLY' '1:SELECT 1' "1:SET datestyle = 'German'" '1:SELECT 2'
    record_two "SET datestyle = 'German'" 'READ ONLY' '1:SELECT 1' '2:SELECT 2' '1:SELECT 3'
    differs_two 'a job of a connection with other settings' '' 'SELECT 3' "SET datestyle = 'German'" 'READ ONLY' \
        '1:SELECT 1' '2:SELECT 2' '2:SELECT 3'
    record_two '' 'READ WRITE' '1:SELECT 1' '2:SELECT 2' '1:SELECT 3'
    differs_two 'a job of a transaction that may write' '' 'SELECT 3' '' 'READ WRITE' '1:SELECT 1' '2:SELECT 2' '2:SELECT 3'
    fits_two 'transactions that may write, each as recorded' '' '' 'READ WRITE' '2:SELECT 1' '1:SELECT 2' '2:SELECT 3'
}

# After a difference a client goes on where it rolls back as was recorded, at whichever job.
test_replay_jobs_gone_on() {
    last=ROLLBACK record_two '' 'READ ONLY' '1:SELECT 1' '2:SELECT 2' '1:SELECT 3'
    last=ROLLBACK of_two '' 'READ ONLY' '1:SELECT 3' '1:SELECT 10' '2:SELECT 1' '2:SELECT 2'
    replay_command "$work/words.tape" --go-on "${client[@]}" "${session[@]}"
    expect 'replay: a difference between jobs' 11 '1 of 2 sessions are replayed'
    same 'replay: a difference between jobs is refused' \
        "$(grep -c 'SERROR.*C08P01' <<< "$replayed") $(grep -c FATAL <<< "$replayed")" '1 0'
    same 'replay: both transactions are rolled back' "$(grep -c "^C b'ROLLBACK" <<< "$replayed")" 2
}

test_replay_snapshots() {
    local exporting snapshot session asked
    export_snapshot
    test_replay_taken_jobs
    test_replay_jobs_of_state
    test_replay_jobs_gone_on
    sql "SELECT pg_terminate_backend(pid) FROM pg_stat_activity WHERE application_name = 'exporting'" > /dev/null
    wait "$exporting"
}
