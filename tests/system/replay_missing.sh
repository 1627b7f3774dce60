# Replays that pass on to the server what isn't recorded, and record it. Sourced by `run`.

# Starts a replay of a file by which what is missing, or all, is recorded.
start_missing() {
    start_replay "$2" "--record-$1" -h 127.0.0.1 -p "${3:-$PGPORT}" "${@:4}"
}

# What psql answers to queries, each in an exchange of its own.
answers() {
    local query queries=()
    for query in "$@"; do
        queries+=(-c "$query")
    done
    at_port "$replay_port" "$bin/psql" -X -q -A -t "${queries[@]}" 2>&1 | tr '\n' ' '
}

# Replays a file without a server to lines of queries, and tests what psql answers to all of them.
same_without_server() {
    local name=$1 file=$2 expected=$3 line answer=
    start_replay "$file"
    while IFS= read -r line; do
        IFS='|' read -ra queries <<< "$line"
        answer+=$(answers "${queries[@]}")
    done
    end_replay
    expect "missing: $name, replayed without a server" 0
    same "missing: $name, the same answers" "$answer" "$expected"
}

# How many connections a recording has.
connections_of() {
    read_recording "$1" | awk '$4 == "O"' | wc -l
}

# What clients said on the connection of a number, without the first message.
said_by() {
    read_recording "$1" "$2" F | tr -d '\0' | grep -a -o 'SELECT [0-9]*\|COMMIT\|BEGIN' | tr '\n' ' '
}

test_missing_sessions() {
    local tape=$work/missing.tape answer
    start_missing missing "$tape"
    answer="$(answers 'SELECT 1') $(answers 'SELECT 2' 'SELECT 3')"
    stop_replay
    same 'missing: a recording is made where there is none' "$status $answer $(connections_of "$tape")" '143 1  2 3  2'
    cp "$tape" "$work/missing.old"
    start_missing missing "$tape"
    answer=$(answers 'SELECT 1')
    answer+=$(answers 'SELECT 2' 'SELECT 30' 'SELECT 4')
    answer+=$(answers 'SELECT 5')
    stop_replay
    same 'missing: answers of the recording, of both, and of the server' "$status $answer" '143 1 2 30 4 5 '
    expect 'missing: says what is new' 143 '2 sessions are new'
    same 'missing: one is as it was, one is renewed, one is new' "$(connections_of "$tape")" 3
    same 'missing: what was recorded stays' "$(read_recording "$tape" 1 F | cksum)$(read_recording "$tape" 1 B | cksum)" \
        "$(read_recording "$work/missing.old" 1 F | cksum)$(read_recording "$work/missing.old" 1 B | cksum)"
    same 'missing: a session is renewed as a whole' "$(said_by "$tape" 2)" 'SELECT 2 SELECT 30 SELECT 4 '
    same 'missing: nobody else may read it' "$(stat -c %a "$tape")" 600
    same 'missing: no other file is left' "$(ls "$tape".* 2> /dev/null)" ''
    same_without_server 'the recording' "$tape" '1 2 30 4 5 ' << 'END'
SELECT 1
SELECT 2|SELECT 30|SELECT 4
SELECT 5
END
    test_missing_nowhere "$tape"
    test_missing_all "$tape"
}

# Without a server a difference is one.
test_missing_nowhere() {
    local tape=$1 answer
    cp "$tape" "$work/missing.old"
    start_missing missing "$tape" "$(free_port)" --go-on
    answer=$(answers 'SELECT 1' 'SELECT 70')
    kill "$replaying"
    end_replay
    expect 'missing: no server' 143 "what isn't recorded can't be passed on: no connection to"
    expect 'missing: the difference is shown' 143 'received: F	14	Query	 "SELECT 70"'
    same 'missing: the client is told' "$(grep -c "isn't the recorded one" <<< "$answer")" 1
    start_missing missing "$tape" "$(free_port)"
    answer=$(at_port "$replay_port" "$bin/psql" -X -q -U someone -c 'SELECT 1' 2>&1)
    end_replay
    expect 'missing: no server for another user' 11 'a setting'
    same 'missing: the recording is as it was' "$(cksum < "$tape")" "$(cksum < "$work/missing.old")"
    start_missing missing "$tape"
    answers 'SELECT 80' > "$work/output"
    kill -9 "$replaying"
    end_replay 2> /dev/null
    same 'missing: a kill leaves the recording as it was' "$(cksum < "$tape")" "$(cksum < "$work/missing.old")"
    same 'missing: and nothing beside it' "$(ls "$tape".* 2> /dev/null)" ''
}

# Two replays of one recording at the same time, and sessions that are dropped meanwhile.
test_missing_together() {
    try python3 -B tests/system/renewals.py "$built" "$work/together.tape" 20
    expect "missing: no session is lost where programs change a recording at the same time: $output" 0
}

# What another process of the same number has left, as in a container that was killed.
test_missing_left() {
    local tape=$work/left.tape
    : > "$work/errors.replay"
    bash -c 'echo left > "$2.$$"; exec "$1" --record-missing -h 127.0.0.1 -p "$PGPORT" "$2" 0' - \
        "$programs/pg_replay" "$tape" 2> "$work/errors.replay" &
    replaying=$!
    await has_begun "$work/errors.replay" "$replaying"
    stop_replay
    expect 'missing: beside a file with the number of the process' 143 listening
    rm -f "$tape".*
}

test_missing_hangup() {
    local tape=$work/hangup.tape answer
    start_missing missing "$tape"
    answer=$(answers 'SELECT 41')
    kill -HUP "$replaying"
    end_replay
    same 'missing: SIGHUP ends it as SIGTERM does' "$status $answer $(connections_of "$tape" 2> /dev/null)" '143 41  1'
}

test_missing_all() {
    local tape=$1 answer
    start_missing all "$tape"
    answer=$(answers 'SELECT 1')$(answers 'SELECT 90')
    stop_replay
    same 'missing: all is recorded anew' "$status $answer $(said_by "$tape" 1)$(said_by "$tape" 2)$(connections_of "$tape")" \
        '143 1 90  SELECT 1 SELECT 90 2'
    same_without_server 'what is recorded anew' "$tape" '1 90 ' << 'END'
SELECT 1
SELECT 90
END
    cp "$tape" "$work/missing.old"
    start_missing all "$tape"
    stop_replay
    same 'missing: nothing anew leaves the recording' "$(cksum < "$tape")" "$(cksum < "$work/missing.old")"
}

# What a session made before it goes on with the server is there.
test_missing_state() {
    local tape=$work/state.tape answer
    start_tape "$tape"
    at_port "$tape_port" "$bin/psql" -X -q -A -t -c 'CREATE TEMP TABLE mine AS SELECT 5 AS n' -c BEGIN -c 'SELECT 6' \
        -c COMMIT > "$work/output" 2>&1
    stop_tape
    start_missing missing "$tape"
    answer=$(answers 'CREATE TEMP TABLE mine AS SELECT 5 AS n' BEGIN 'SELECT 6' 'SELECT n FROM mine' COMMIT)
    stop_replay
    same 'missing: a table of the session, within a transaction' "$status $answer" '143 6 5 '
    same_without_server 'a transaction' "$tape" '6 5 ' << 'END'
CREATE TEMP TABLE mine AS SELECT 5 AS n|BEGIN|SELECT 6|SELECT n FROM mine|COMMIT
END
    start_missing missing "$tape"
    answer=$(at_port "$replay_port" "$bin/psql" -X -q -A -t -c 'CREATE TEMP TABLE mine AS SELECT 5 AS n' \
        -c "\\copy mine FROM PROGRAM 'seq 3'" -c 'TABLE mine' 2>&1 | tr '\n' ' ')
    stop_replay
    same 'missing: a COPY in the place of something else' "$status $answer" '143 5 1 2 3 '
    sql 'CREATE TABLE IF NOT EXISTS of_missing (n int)'
    start_missing all "$tape"
    at_port "$replay_port" "$bin/psql" -X -q -c "\\copy of_missing FROM PROGRAM 'seq 3'" 2>&1
    stop_replay
    start_missing missing "$tape"
    answer=$(at_port "$replay_port" "$bin/psql" -X -q -A -t -c "\\copy of_missing FROM PROGRAM 'seq 4'" 2>&1)
    stop_replay
    same 'missing: other data of a COPY' "$status $answer $(sql 'SELECT count(*) FROM of_missing')" '143  7'
}

# More transactions than were recorded, of prepared statements, by clients beside each other.
test_missing_pgbench() {
    local tape=$work/missing-pgbench.tape
    if [ ! -x "$bin/pgbench" ]; then
        echo 'left out: pgbench that goes on with the server (apt-get install postgresql)'
        return
    fi
    "$bin/pgbench" -i -q -s 1 > "$work/output" 2>&1
    start_tape "$tape"
    at_port "$tape_port" "$bin/pgbench" -n -S -M prepared --random-seed=3 -c 4 -t 5 > "$work/output" 2>&1
    stop_tape
    start_missing missing "$tape"
    try at_port "$replay_port" "$bin/pgbench" -n -S -M prepared --random-seed=3 -c 4 -t 8
    same 'missing: pgbench goes on with the server' "$status $(grep -o '32/32' <<< "$output")" '0 32/32'
    stop_replay
    expect 'missing: pgbench, each client is renewed' 143 '4 sessions are new'
    start_replay "$tape"
    try at_port "$replay_port" "$bin/pgbench" -n -S -M prepared --random-seed=3 -c 4 -t 8
    same 'missing: pgbench without a server' "$status $(grep -o '32/32' <<< "$output")" '0 32/32'
    end_replay
    expect 'missing: all of it' 0 '5 of 5 sessions are replayed'
}

# A password that the server asks for passes, and isn't recorded; it is too late for one where a session goes on.
test_missing_passwords() {
    local tape=$work/missing-password.tape client=("$bin/psql" -X -q -A -t -U by_scram_too)
    sql "SET password_encryption = 'scram-sha-256'; CREATE ROLE by_scram_too LOGIN PASSWORD 'sesame'"
    as_owner sed -i '1i host all by_scram_too 127.0.0.1/32 scram-sha-256' "$server_folder/data/pg_hba.conf"
    sql 'SELECT pg_reload_conf()' > "$work/output"
    start_missing missing "$tape"
    export PGPASSWORD=sesame
    await at_port "$replay_port" "${client[@]}" -c 'SELECT 1'
    try at_port "$replay_port" "${client[@]}" -c 'SELECT 1'
    unset PGPASSWORD
    stop_replay
    same 'missing: a password passes' "$status $output" '143 1'
    same 'missing: and is not recorded' "$(grep -c -a -e sesame -e 'SCRAM-SHA-256' "$tape")" 0
    start_missing missing "$tape"
    try at_port "$replay_port" "${client[@]}" -c 'SELECT 1' -c 'SELECT 2'
    end_replay
    expect 'missing: too late for a password' 11 'asks for a password'
}

# Data that differ within themselves: what is recorded from there on may begin within a message, like a password here.
test_missing_data() {
    local tape=$work/missing-data.tape words=("$as_postgres" read 'query:COPY missing_data FROM STDIN' count:1) line rows=()
    sql 'DROP TABLE IF EXISTS missing_data; CREATE TABLE missing_data (a text)'
    printf -v line 'p%.0s' {1..1000}
    rows=($(yes "copydata:$line" | head -n 1400))
    start_tape "$tape"
    at_port "$tape_port" "${client[@]}" "${words[@]}" "${rows[@]}" copydone read terminate end > "$work/output"
    stop_tape
    start_missing missing "$tape"
    at_port "$replay_port" "${client[@]}" "${words[@]}" "${rows[@]:0:1300}" copydata:other copydone read terminate end > "$work/output"
    stop_replay
    same 'missing: data that differ late are recorded' \
        "$status $("$programs/pg_tape" export "$tape" | grep -c '"kind":"CopyData"') $(connections_of "$tape")" '143 1301 1'
}

# A database that is gone: the words of the server tell.
test_missing_database() {
    local tape=$work/missing-database.tape client=("$bin/psql" -X -q -A -t -d of_missing)
    sql 'CREATE DATABASE of_missing'
    start_missing missing "$tape"
    await at_port "$replay_port" "${client[@]}" -c 'SELECT 1'
    stop_replay
    sql 'DROP DATABASE of_missing'
    start_missing missing "$tape"
    try at_port "$replay_port" "${client[@]}" -c 'SELECT 1' -c 'SELECT 2'
    end_replay
    expect 'missing: a database that is gone' 11 'ends the session: database "of_missing" does not exist'
}

# A query of one test has changed, and all tests share a session. The server has kept their database.
test_missing_django() {
    local tape=$work/missing-django.tape suite=(/usr/bin/python3 -B tests/system/real/django_suite.py --keepdb)
    local changed=("${suite[@]/tests\/system\/real/$work}") options=(--any-literal time --any-literal uuid)
    has_module django || return
    try "${suite[@]}"
    record_command "$tape" "${suite[@]}"
    sed 's/get(name="Ann").coins, 10)/get(name="Ann", coins=10).coins, 10)/' tests/system/real/django_suite.py > "$work/django_suite.py"
    start_missing missing "$tape" '' --any-order --again "${options[@]}"
    try at_port "$replay_port" "${changed[@]}"
    same 'missing: a test of Django that has changed' "$status $output" '0 15 tests, 0 errors, 0 failures'
    stop_replay
    expect 'missing: the session of all tests is renewed' 143 '1 sessions are new'
    start_replay "$tape" "${options[@]}"
    try at_port "$replay_port" "${changed[@]}"
    same 'missing: all tests of Django without a server' "$status $output" '0 15 tests, 0 errors, 0 failures'
    end_replay
    expect 'missing: all sessions of Django' 0 '2 of 2 sessions are replayed'
}

test_missing_options() {
    local tape=$work/missing.tape
    try "$programs/pg_replay" --record-missing --record-all "$tape" 0
    expect 'missing: one of both' 1 'usage: pg_replay'
    echo word > "$work/word"
    try "$programs/pg_replay" --record-missing --scram "$work/word" "$tape" 0
    expect 'missing: the password is the one that the server asks for' 1 'usage: pg_replay'
    try "$programs/pg_replay" "$work/none.tape" 0
    expect 'missing: no recording' 7 "can't be read"
    try "$programs/pg_replay" -h 127.0.0.1 "$tape" 0
    expect 'missing: a server without a use' 1 'usage: pg_replay'
}

test_replay_missing() {
    local passed_before=$passed
    test_missing_sessions
    test_missing_together
    test_missing_left
    test_missing_hangup
    test_missing_state
    test_missing_pgbench
    test_missing_passwords
    test_missing_data
    test_missing_database
    test_missing_django
    test_missing_options
    echo "missing: $((passed - passed_before)) tests"
}
