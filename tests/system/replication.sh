# Replication through pg_record: a backup, pg_receivewal and a standby go unharmed, and all that they and the server say in
# CopyData is read by the library, and written again as the same bytes. Sourced by `run`.

# Runs a program of PostgreSQL as the server's owner, in the folder of the server, on the port of the recording.
through_tape() {
    (cd "$server_folder" && as_owner env PGHOST=127.0.0.1 PGPORT="$tape_port" PGUSER=postgres timeout 60 "$@")
}

# A backup with a tablespace and words of its progress.
test_backup_through() {
    as_owner mkdir "$server_folder/beside"
    sql "CREATE TABLESPACE beside LOCATION '$server_folder/beside'"
    sql "CREATE TABLE in_tablespace TABLESPACE beside AS SELECT generate_series(1, 5000) n"
    try through_tape "$bin/pg_basebackup" -D standby -R -X stream -c fast --no-sync -P \
        -T "$server_folder/beside=$server_folder/beside_copy"
    expect 'replication: pg_basebackup through pg_record' 0
    try as_owner "$bin/pg_verifybackup" "$server_folder/standby"
    expect 'replication: the backup is whole' 0
}

# The log up to a position, as the server has it.
test_log_through() {
    local end file offset
    sql 'CREATE TABLE streamed AS SELECT generate_series(1, 30000) n'
    end=$(sql 'SELECT pg_current_wal_lsn()')
    file=$(sql "SELECT pg_walfile_name('$end')")
    offset=$(sql "SELECT file_offset FROM pg_walfile_name_offset('$end')")
    sql 'INSERT INTO streamed VALUES (0)'
    as_owner mkdir "$server_folder/received"
    try through_tape "$bin/pg_receivewal" -D received --no-loop --synchronous -s 1 --endpos="$end"
    expect 'replication: pg_receivewal through pg_record' 0
    try cmp -n "$offset" "$server_folder/data/pg_wal/$file" "$server_folder/received/$file".partial
    expect "replication: the log is the server's, its last file up to byte $offset" 0
}

# Whether the standby has all rows.
has_streamed() {
    [ "$(PGPORT=$standby_port sql 'SELECT count(*) FROM streamed')" = 30002 ]
}

# The backup as a standby, which tells the server what it needs.
test_standby_through() {
    local standby_port
    standby_port=$(free_port)
    printf '%s\n' 'hot_standby_feedback = on' "port = $standby_port" | as_owner tee -a "$server_folder/standby/postgresql.auto.conf" > /dev/null
    standby_ctl -l "$server_folder/standby.log" start
    sql 'INSERT INTO streamed VALUES (1)'
    if await has_streamed; then
        ok 'replication: a standby through pg_record has the rows'
    else
        bad 'replication: a standby through pg_record has the rows' "$(tail -n 5 "$server_folder/standby.log")"
    fi
    # The server asks a standby that has said nothing for a second whether it is there.
    sleep 3
    standby_ctl -m fast stop
}

standby_ctl() {
    (cd "$server_folder" && as_owner "$bin/pg_ctl" -D "$server_folder/standby" -w -s "$@") > /dev/null
}

test_replication() {
    if ! find_builder || [ ! -x "$bin/pg_receivewal" ] || [ ! -x "$bin/pg_basebackup" ]; then
        echo 'left out: replication through pg_record, which needs Python 3.11, pg_receivewal and pg_basebackup (apt-get install python3-dev python3-cffi python3-setuptools python3-wheel pkg-config postgresql-client)'
        return
    fi
    prepare_package
    sql "ALTER SYSTEM SET wal_sender_timeout = '2s'"
    begin_replication
    start_tape "$work/replication.tape"
    test_backup_through
    test_log_through
    test_standby_through
    await has_no_session
    kill "$taping"
    reap "$taping"
    try run_python "$work/package" tests/system/replicated.py "$work/replication.tape"
    expect "replication: ${output:-no messages}" 0
}
