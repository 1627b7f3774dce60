# Recordings of both sides that are replayed without a server. Sourced by `run`.

# What speaks to a server or to a replay, and how it begins.
client=("$(python3 -c 'import sys; print(sys.executable)' 2> /dev/null)" -S -E -B tests/system/replay_client.py)
as_postgres='startup:user=postgres,database=postgres'

# Whether a program has said that it listens, or is gone.
has_begun() {
    grep -q '^listening on' "$1" || ! kill -0 "$2"
}

# Starts pg_record on a free port with options, with both sides to a new file. Leaves its process in $taping, its port
# in $tape_port.
start_tape() {
    : > "$work/errors.tape"
    rm -f "$1"
    "$programs/pg_record" -h 127.0.0.1 -p "$PGPORT" -o "$1" "${@:2}" 0 2> "$work/errors.tape" &
    taping=$!
    await has_begun "$work/errors.tape" "$taping"
    tape_port=$(sed -n 's/^listening on 127.0.0.1 port //p' "$work/errors.tape")
    if [ -z "$tape_port" ]; then
        bad 'start of a recording of both sides' "$(cat "$work/errors.tape")"
    fi
    tape_sockets=$(sockets_of "$taping")
}

# How many sockets a process has.
sockets_of() {
    find "/proc/$1/fd" -lname 'socket:*' 2> /dev/null | wc -l
}

# Whether the recorded sessions are over, with the end of each recorded.
has_no_session() {
    [ "$(sockets_of "$taping")" -le "$tape_sockets" ]
}

stop_tape() {
    await has_no_session
    kill "$taping"
    reap "$taping"
}

# Starts pg_replay on a file with options. Leaves its process in $replaying, its port in $replay_port.
start_replay() {
    : > "$work/errors.replay"
    "$programs/pg_replay" "${@:2}" "$1" 0 2> "$work/errors.replay" &
    replaying=$!
    await has_begun "$work/errors.replay" "$replaying"
    replay_port=$(sed -n 's/^listening on 127.0.0.1 port //p' "$work/errors.replay")
    if [ -z "$replay_port" ]; then
        bad 'start of a replay' "$(cat "$work/errors.replay")"
    fi
}

# Waits until pg_replay ends by itself. Leaves its status in $status, and what it said in $errors.
end_replay() {
    reap "$replaying"
    status=$?
    errors=$(cat "$work/errors.replay")
}

stop_replay() {
    kill "$replaying"
    end_replay
}

# Runs a command as a client of a port of this machine, without a password where none is named.
at_port() {
    PGHOST=127.0.0.1 PGPORT=$1 timeout 60 "${@:2}"
}

# Records a command to a file, with its output beside it.
record_command() {
    start_tape "$1"
    at_port "$tape_port" "${@:2}" 2>&1 | tr -d '\0' > "$1.output"
    stop_tape
}

# Replays a file to a command. Leaves its output in $replayed.
replay_command() {
    local file=$1 options=$2
    start_replay "$file" $options
    replayed=$(at_port "$replay_port" "${@:3}" 2>&1 | tr -d '\0')
    end_replay
}

# Records a command, replays it with options, and tests that its output is the same, and no answer another's.
both_ways() {
    local name=$1 options=$2
    record_command "$work/$name.tape" "${@:3}"
    replay_command "$work/$name.tape" "$options --strict" "${@:3}"
    expect "replay: $name, all of it" 0 'sessions are replayed'
    same "replay: $name, the same output" "$replayed" "$(cat "$work/$name.tape.output")"
}

# What psql is given: catalogues, errors, notices, COPY each way, notifications, cursors, types of a result.
write_psql_script() {
    cat > "$work/replayed.sql" << 'SQL'
DROP TABLE IF EXISTS replayed;
CREATE TABLE replayed (id int PRIMARY KEY, name text NOT NULL, at timestamptz DEFAULT now());
COMMENT ON TABLE replayed IS 'a table';
\d replayed
\d+
\dt
\copy replayed (id, name) FROM stdin
1	one
2	two \\ \t tab
\.
COPY replayed (id, name) FROM stdin;
3	three
4	é
\.
COPY replayed (id, name) FROM stdin;
not a number	x
\.
COPY replayed (id, name) TO STDOUT;
\copy (SELECT id, name FROM replayed) TO stdout CSV HEADER
COPY (SELECT 1, 2) TO STDOUT (FORMAT binary);
SELECT now() - now() AS nothing, name FROM replayed ORDER BY id;
SELECT missing FROM replayed;
INSERT INTO replayed VALUES (1, 'again');
BEGIN; SELECT 1/0; SELECT 2; ROLLBACK;
DO $$ BEGIN RAISE NOTICE 'a notice'; RAISE WARNING 'a warning'; END $$;
LISTEN channel;
NOTIFY channel, 'a payload';
SELECT pg_notify('channel', 'another');
SELECT name, id + 1 AS next FROM replayed \gdesc
\set FETCH_COUNT 2
SELECT generate_series(1, 5);
\unset FETCH_COUNT
PREPARE plan (int) AS SELECT $1 + 1;
EXECUTE plan (41);
SELECT repeat('x', 300000) AS long \gset
SELECT length(:'long');
\x on
SELECT * FROM (VALUES (NULL, '', 'text')) AS some (a, b, c);
SQL
}

# Logins whose password isn't asked for again, also where it is in the recording.
test_replay_logins() {
    local user options words=("$bin/psql" -X -w -d postgres -c 'SELECT current_user')
    [ -n "$(sql "SELECT 1 FROM pg_roles WHERE rolname = 'by_scram'")" ] || make_users
    for user in by_clear by_md5 by_scram; do
        for options in '' --passwords; do
            start_tape "$work/$user.tape" $options
            at_port "$tape_port" env PGPASSWORD="pass word '1" "${words[@]}" -U "$user" > "$work/login"
            stop_tape
            replay_command "$work/$user.tape" '' "${words[@]}" -U "$user"
            expect "replay: a login $user without the password $options" 0
            same "replay: a login $user, the same output $options" "$replayed" "$(cat "$work/login")"
        done
    done
    record_command "$work/refused.tape" env PGPASSWORD=wrong "${words[@]}" -U by_scram
    replay_command "$work/refused.tape" '' "${words[@]}" -U by_scram
    expect 'replay: a login that is refused' 0
    same 'replay: a login that is refused, the same words' "${replayed#*FATAL}" \
        "$(sed 's/.*FATAL//' "$work/refused.tape.output")"
}

test_replay_psql() {
    write_psql_script
    both_ways psql '' "$bin/psql" -X -f "$work/replayed.sql"
    test_replay_logins
    start_replay "$work/by_scram.tape"
    replayed=$(at_port "$replay_port" env PGSSLMODE=require "$bin/psql" -X -c 'SELECT 1' 2>&1)
    same 'replay: encryption is refused' "${replayed#*does not support }" 'SSL, but SSL was required'
    stop_replay
    same 'replay: SIGTERM' "$status" 143
}

# pgbench without the times that it prints.
pgbench_without_times() {
    "$bin/pgbench" -n --random-seed=1 "$@" 2>&1 | grep -v -E '^(latency|tps|initial connection|average connection)'
}

test_replay_pgbench() {
    local mode
    if [ ! -x "$bin/pgbench" ]; then
        echo 'left out: replays of pgbench (apt-get install postgresql)'
        return
    fi
    "$bin/pgbench" -i -q -s 1 2> /dev/null
    export -f pgbench_without_times
    export bin
    for mode in simple extended prepared; do
        both_ways "pgbench-$mode" '' bash -c "pgbench_without_times -M $mode -t 50"
    done
    both_ways 'pgbench-of-8' '--any-order' bash -c 'pgbench_without_times -M prepared -c 8 -j 4 -t 20'
    both_ways 'pgbench-of-8-without-options' '' bash -c 'pgbench_without_times -M prepared -c 8 -j 4 -t 20'
    both_ways 'pgbench-that-connects' '' bash -c 'pgbench_without_times -C -t 20'
}

# Dumps to a folder by three jobs, with large objects. Says what the folder has, but for the time in its table of contents.
dump_by_jobs() {
    rm -rf "$1"
    "$bin/pg_dump" -Fd -j 3 -b "${@:2}" -f "$1" && cd "$1" && ls && zcat ./*.gz && "$bin/pg_restore" -l . | grep -v '^;'
}

# A dump whose jobs are any of its connections', each of which reads in one transaction.
test_replay_dump() {
    local tape=$work/pg_dump-of-3-jobs.tape words=(bash -c 'dump_by_jobs "$0" "$@"' "$work/dump" "$@") number
    export -f dump_by_jobs
    export bin
    sql "SELECT lo_from_bytea(0, convert_to(i::text, 'UTF8')) FROM generate_series(1, 3) AS i" > /dev/null
    both_ways 'pg_dump-of-3-jobs' '' "${words[@]}"
    start_replay "$tape" --again
    for number in 1 2 3 4 5; do
        same "replay: pg_dump of 3 jobs, again, $number" "$(at_port "$replay_port" "${words[@]}" 2>&1)" "$(cat "$tape.output")"
    done
    stop_replay
}

# Tools whose jobs take what is next at any of their connections.
test_replay_jobs() {
    local number keys= tables=() folder=$work/jobs
    for number in {1..6}; do
        sql "CREATE TABLE job_$number AS SELECT i AS id, md5(i::text) FROM generate_series(1, 500) AS i"
        keys+="; ALTER TABLE job_$number ADD PRIMARY KEY (id)"
        tables+=(-t "job_$number")
    done
    # Without keys, for which pg_restore sets its tablespace once on each connection that gets one of them.
    "$bin/pg_dump" -Fd "${tables[@]}" -f "$folder"
    both_ways 'pg_restore-of-3-jobs' '' "$bin/pg_restore" -j 3 --clean --if-exists -d postgres "$folder"
    same 'record: pg_restore of 3 jobs restores all' "$(sql 'SELECT count(*) FROM job_1, job_6 WHERE job_1.id = job_6.id')" 500
    sql "$keys"
    both_ways 'vacuumdb-of-3-jobs' '' "$bin/vacuumdb" -j 3 "${tables[@]}" postgres
    both_ways 'reindexdb-of-3-jobs' '' "$bin/reindexdb" -j 3 "${tables[@]}" postgres
    test_replay_dump "${tables[@]}"
}

# Debian's drivers for its Python, where they are there.
test_replay_python() {
    local driver
    for driver in psycopg2 asyncpg; do
        if /usr/bin/python3 -c "import $driver" 2> /dev/null; then
            both_ways "$driver" '' /usr/bin/python3 -B "tests/system/real/${driver}_says.py"
        else
            echo "left out: replays of $driver, since there is no python3-$driver"
        fi
    done
}

test_replay_tokio_postgres() {
    if [ -z "$on_original" ]; then
        echo "left out: replays of tokio-postgres, which need the packages$driver_lacks"
        return
    fi
    both_ways tokio-postgres '' "$on_original/spoken"
}

# A notification from another session comes after the same message as it did.
test_replay_notify() {
    start_tape "$work/notify.tape"
    at_port "$tape_port" "${client[@]}" $as_postgres read 'query:LISTEN a' read 'count:1' 'query:SELECT 1' read \
        terminate end > "$work/notify.recorded" &
    local listening=$!
    await is_listening
    at_port "$tape_port" "$bin/psql" -X -q -c "NOTIFY a, 'payload'"
    wait "$listening"
    stop_tape
    start_replay "$work/notify.tape"
    at_port "$replay_port" "${client[@]}" $as_postgres read 'query:LISTEN a' read 'count:1' 'query:SELECT 1' read \
        terminate end > "$work/notify.replayed" &
    listening=$!
    await grep -q LISTEN "$work/notify.replayed"
    sleep 0.2
    same 'replay: a notification waits for its cause' "$(grep -c '^A ' "$work/notify.replayed")" 0
    at_port "$replay_port" "$bin/psql" -X -q -c "NOTIFY a, 'payload'"
    wait "$listening"
    end_replay
    expect 'replay: a notification from another session' 0 '2 of 2 sessions are replayed'
    same 'replay: a notification at the same place' "$(cat "$work/notify.replayed")" "$(cat "$work/notify.recorded")"
    same 'replay: it has its payload' "$(grep -c "^A .*payload" "$work/notify.replayed")" 1
}

is_listening() {
    [ -n "$(sql "SELECT 1 FROM pg_stat_activity WHERE query = 'LISTEN a' AND state = 'idle'")" ]
}

# A client that comes while the recording is read, here one that never comes, isn't refused.
test_replay_reading() {
    local port
    port=$(free_port)
    mkfifo "$work/reading.tape"
    : > "$work/errors.replay"
    "$built/pg_replay" "$work/reading.tape" "$port" 2> "$work/errors.replay" &
    replaying=$!
    await bash -c ": <> /dev/tcp/127.0.0.1/$port"
    same 'replay: a client may come before the recording is read' "$? $(cat "$work/errors.replay")" '0 '
    kill "$replaying"
    reap "$replaying"
}

test_replay() {
    local slow_taping slow_replaying slow_clients=()
    begin_slow_openings
    test_replay_psql
    test_replay_pgbench
    test_replay_jobs
    test_replay_snapshots
    test_replay_python
    test_replay_tokio_postgres
    test_replay_notify
    test_replay_in_folder
    test_replay_reading
    test_replay_threads
    test_replay_memory
    test_replay_differences
    test_replay_rounds
    test_replay_damage
    test_replay_changed
    test_replay_hostile
    test_asked_again
    test_no_descriptors
    test_escaped_differences
    test_unread_differences
    test_unread_long_differences
    test_replay_example
    test_replay_causes
    end_slow_openings
}
