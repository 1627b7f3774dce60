# Replication: what pg_recvlogical and pg_basebackup say is replayed without the server. Sourced by `run`.

# Lets the server be replicated, which it isn't in the other tests.
begin_replication() {
    sql "ALTER SYSTEM SET wal_level = logical"
    sql "ALTER SYSTEM SET max_wal_senders = 5"
    echo 'host replication postgres 127.0.0.1/32 trust' | as_owner tee -a "$server_folder/data/pg_hba.conf" > /dev/null
    halt_server fast && run_server
}

receive_changes() {
    "$bin/pg_recvlogical" -d postgres -U postgres --slot=taped --start --no-loop --endpos="$changes_end" -f - 2>&1
}

test_replay_recvlogical() {
    local file=$work/recvlogical.tape
    sql "SELECT pg_create_logical_replication_slot('taped', 'test_decoding')" > /dev/null
    sql 'CREATE TABLE changed (a int); INSERT INTO changed SELECT generate_series(1, 2000); DELETE FROM changed WHERE a % 3 = 0'
    export changes_end
    changes_end=$(sql 'SELECT pg_current_wal_lsn()')
    sql 'INSERT INTO changed VALUES (0)'
    start_tape "$file"
    at_port "$tape_port" bash -c receive_changes > "$work/changes.recorded"
    stop_tape
    start_replay "$file"
    at_port "$replay_port" bash -c receive_changes > "$work/changes.replayed"
    end_replay
    expect 'replay: pg_recvlogical' 0 'sessions are replayed'
    same 'replay: pg_recvlogical, its changes' "$(grep -c 'table public.changed' "$work/changes.replayed")" 2666
    same 'replay: pg_recvlogical, the same output' "$(cat "$work/changes.replayed")" "$(cat "$work/changes.recorded")"
}

# A backup to a folder that is given, as a sum of each of its files but those of the log, which come up to where its
# receiver happens to stop.
back_up() {
    rm -rf "$1"
    "$bin/pg_basebackup" -U postgres -D "$1" -X stream -c fast --no-sync "${@:2}" 2>&1
    (cd "$1" && find . -type f -not -path "./pg_wal/*" -print0 | sort -z | xargs -0 sha256sum)
}

test_replay_basebackup() {
    local file=$work/basebackup.tape
    start_tape "$file"
    at_port "$tape_port" bash -c 'back_up "$1"' - "$work/backup" > "$work/backup.recorded"
    stop_tape
    start_replay "$file"
    at_port "$replay_port" bash -c 'back_up "$1"' - "$work/backup" > "$work/backup.replayed"
    end_replay
    expect 'replay: pg_basebackup' 0 'sessions are replayed'
    same 'replay: pg_basebackup, the same files' "$(diff "$work/backup.replayed" "$work/backup.recorded")" ''
    same 'replay: pg_basebackup, hundreds of files' "$(($(wc -l < "$work/backup.replayed") > 900))" 1
    try "$bin/pg_verifybackup" "$work/backup"
    expect 'replay: pg_basebackup, the backup is whole' 0
}

test_replay_replication() {
    if [ ! -x "$bin/pg_recvlogical" ] || [ ! -x "$bin/pg_basebackup" ]; then
        echo 'left out: replays of replication, without pg_recvlogical or pg_basebackup (apt-get install postgresql-client)'
        return
    fi
    begin_replication
    export -f receive_changes back_up
    export bin
    test_replay_recvlogical
    test_replay_basebackup
}
