# Logical replication: a script makes every kind of message of pgoutput happen, and what is read is compared with what the
# script did; and the examples that follow a publication are killed, and lose and double nothing. Sourced by `run`.

# Lets transactions be prepared, and streamed once they are larger than the least that can be set.
begin_logical() {
    sql 'ALTER SYSTEM SET max_prepared_transactions = 5'
    sql "ALTER SYSTEM SET logical_decoding_work_mem = '64kB'"
    begin_replication
}

# Runs a script of the tests on the package.
run_test() {
    try run_python "$work/package" "tests/system/$1.py" "${@:2}"
}

# What pgoutput says over a connection of the package.
test_logical_script() {
    local binary
    run_test logical run "$PGPORT" as_false as_true direct recorded
    expect "logical: ${output:-no statements}" 0
    for binary in false true; do
        run_test logical follow "$PGPORT" as_$binary $binary
        expect "logical, binary $binary: ${output:-nothing}" 0
    done
}

# Receives the messages of a slot up to the end of the script.
receive_logical() {
    (cd "$server_folder" && as_owner env PGHOST=127.0.0.1 PGPORT="$1" timeout 60 "$bin/pg_recvlogical" -d postgres -U postgres \
        --slot="$2" --start --no-loop --endpos="$changes_end" -f - -o proto_version=3 -o publication_names=changes \
        -o streaming=true -o two_phase=true -o messages=true -o binary=true 2>&1)
}

# What pg_recvlogical gets through pg_record is what it gets without it, and the recording is read as well.
test_logical_recorded() {
    local changes_end
    if [ ! -x "$programs/pg_record" ] || [ ! -x "$bin/pg_recvlogical" ]; then
        echo 'left out: pg_recvlogical through pg_record, one of which is missing (apt-get install postgresql-client)'
        return
    fi
    changes_end=$(sql 'SELECT pg_current_wal_lsn()')
    sql "SELECT pg_logical_emit_message(true, 'after', '')" > /dev/null
    receive_logical "$PGPORT" direct > "$work/direct"
    start_tape "$work/logical.tape"
    receive_logical "$tape_port" recorded > "$work/recorded_changes"
    stop_tape
    try cmp "$work/direct" "$work/recorded_changes"
    expect "logical: pg_recvlogical through pg_record has the same $(wc -c < "$work/direct") bytes" 0
    run_test logical recorded "$work/logical.tape"
    expect "logical, recorded: ${output:-nothing}" 0
}

make_followed() {
    sql "DROP TABLE IF EXISTS followed, kept; DROP PUBLICATION IF EXISTS followed"
    sql "CREATE TABLE followed (id int PRIMARY KEY, word text); CREATE TABLE kept (id int, word text)
         ; ALTER TABLE kept REPLICA IDENTITY FULL; CREATE PUBLICATION followed FOR TABLE followed, kept"
    sql "SELECT pg_create_logical_replication_slot('$1', 'pgoutput')" > /dev/null
}

# Whether a file has more lines than a number, or all that are due.
has_more_lines() {
    [ "$(wc -l < "$1")" -gt "$2" ] || is_followed "$1"
}

# Whether the server has seen that nobody follows a slot any more.
is_free() {
    [ "$(sql "SELECT active FROM pg_replication_slots WHERE slot_name = '$1'")" = f ]
}

# Whether a slot needs no log before a position, so that the server may remove it.
is_past() {
    [ "$(sql "SELECT confirmed_flush_lsn >= '$2' FROM pg_replication_slots WHERE slot_name = '$1'")" = t ]
}

is_followed() {
    tail -n 2 "$1" | tr -d '\n' | grep -q '"truncate", "table": "public.kept"}{"commit"'
}

# Runs an example that appends the changes of a slot to a file: first within the greatest size of a file, which cuts it off
# within a line of a transaction, then killed while changes are made, and last up to the end.
follow_slot() {
    local slot=$1 file=$work/$1.lines lines making following kill position
    make_followed "$slot"
    run_python "$work/package" tests/system/followed.py run "$PGPORT" &
    making=$!
    { (ulimit -f 99 -c 0; exec timeout 60 "${@:2}" "$file"); } 2> /dev/null
    same "$slot: cut off within a line" "$(stat -c %s "$file") $(tail -c 1 "$file" | wc -l)" '101376 0'
    await is_free "$slot"
    for kill in 1 2 3 4; do
        lines=$(wc -l < "$file")
        "${@:2}" "$file" 2> "$work/errors.$slot" &
        following=$!
        await has_more_lines "$file" $((lines + 400)) || bad "$slot follows" "$(cat "$work/errors.$slot")"
        kill -KILL $following
        wait $following 2> /dev/null
        await is_free "$slot"
    done
    wait $making
    "${@:2}" "$file" 2> "$work/errors.$slot" &
    following=$!
    await is_followed "$file"
    sql "DROP TABLE IF EXISTS beside; CREATE TABLE beside AS SELECT 1"
    position=$(sql 'SELECT pg_current_wal_lsn()')
    await is_past "$slot" "$position"
    same "$slot: the log of other tables isn't kept" $? 0
    kill $following
    wait $following 2> /dev/null
    run_test followed compare "$file"
    expect "$slot, killed five times: ${output:-no lines}" 0
}

test_logical() {
    if ! find_builder; then
        echo 'left out: logical replication, which needs Python 3.11 (apt-get install python3-dev python3-cffi python3-setuptools python3-wheel pkg-config)'
        return
    fi
    prepare_package
    begin_logical
    test_logical_script
    test_logical_recorded
    follow_slot of_python env PYTHONPATH="$work/package" "$builder" -B -W error bindings/python/examples/follow.py \
        127.0.0.1 "$PGPORT" postgres postgres of_python followed
    if build_rust_examples; then
        follow_slot of_rust "$rust_examples/follow" "127.0.0.1:$PGPORT" postgres postgres of_rust followed
    else
        echo "left out: the example in Rust, which needs rustc and cargo from $oldest_rust on"
    fi
}
