# Loads by pg_copy that are stopped in the middle, or whose file changes. Sourced by `run`.

count_rows() {
    sql 'SELECT count(*) FROM by_copy'
}

# Rows without an end, slowly, after many at once.
endless_rows() {
    seq -f $'%.0f\ta\tb\t1' 100000
    while :; do
        printf '1\ta\tb\t1\n' || return
        sleep 0.05
    done
}

# Starts a load of endless rows, and waits until the server takes them. Leaves its process in $loading. What a script runs
# beside itself ignores Ctrl-C else.
start_load() {
    make_table by_copy
    mkfifo "$work/fifo.$1"
    endless_rows > "$work/fifo.$1" 2> /dev/null &
    env --default-signal=INT "$programs/pg_copy" "${@:2}" by_copy "$work/fifo.$1" > "$work/output" 2> "$work/errors" &
    loading=$!
    await is_loading || bad "$1" 'the load does not begin'
}

is_loading() {
    [ "$(sql "SELECT tuples_processed > 90000 FROM pg_stat_progress_copy")" = t ]
}

# Waits for the load, and leaves what it said as `try` does.
end_load() {
    reap "$loading"
    status=$?
    output=$(cat "$work/output")
    errors=$(cat "$work/errors")
}

test_bad_value() {
    make_table by_copy
    sed '500000s/^/x/' "$work/rows" > "$work/bad_rows"
    try load by_copy "$work/bad_rows"
    expect 'a bad value in the middle' 4 'invalid input syntax for type integer'
    same 'it says the code' "${errors%%:*}" 'ERROR 22P02'
    case $errors in
    *'context: COPY by_copy, line 500000, column id'*) ok 'it says the line' ;;
    *) bad 'it says the line' "$errors" ;;
    esac
    same 'no row is stored' "$(count_rows)" 0
    # Without an end, so only an error that is read while rows are sent ends it.
    try timeout 60 "$programs/pg_copy" by_copy < <(echo bad; yes $'1\ta\tb\t1' 2> /dev/null)
    expect 'a bad value before rows without an end' 4 22P02
}

# The server learns of a signal by the end of the connection.
test_signals() {
    local signal
    for signal in INT TERM; do
        start_load "by_$signal"
        kill "-$signal" "$loading"
        end_load
        same "SIG$signal" "$status" $((128 + $(kill -l "$signal")))
        await is_over
        same "no row is stored after SIG$signal" "$(count_rows)" 0
    done
}

is_over() {
    [ -z "$(backend)" ]
}

# The process of the server that takes the rows.
backend() {
    sql 'SELECT pid FROM pg_stat_progress_copy'
}

test_breaks() {
    start_load terminated_by_server
    sql "SELECT pg_terminate_backend($(backend))" > /dev/null
    end_load
    expect 'the server ends the session' 4 57P01
    case $errors in
    *'the server confirmed nothing: no row is stored'*) ok 'it says that nothing is stored' ;;
    *) bad 'it says that nothing is stored' "$errors" ;;
    esac
    same 'no row is stored by an ended session' "$(count_rows)" 0
    start_load stopped
    halt_server fast
    end_load
    expect 'the server is stopped' 4 57P01
    run_server
    start_load killed -h 127.0.0.1
    kill -9 "$(backend)"
    end_load
    expect 'the process of the server is killed' 5 'no row is stored'
    await sql 'SELECT 1'
}

# Three times the rows, in ASCII: a cut in a longer character is an error of its own to the server.
make_changing() {
    LC_ALL=C tr -d '\200-\377' < "$work/rows" > "$work/ascii"
    cat "$work/ascii" "$work/ascii" "$work/ascii" > "$work/changing"
    rm "$work/ascii"
}

# Starts a load of a file, and stops the server's process once it has taken some rows. Leaves that process in
# $stopped. What the file has then is more than a connection holds.
start_stopped_load() {
    make_table by_copy
    make_changing
    "$programs/pg_copy" "$@" by_copy "$work/changing" > "$work/output" 2> "$work/errors" &
    loading=$!
    await is_loading || bad 'start of a load' 'it does not begin'
    stopped=$(backend)
    kill -STOP "$stopped"
    sleep 0.2
}

end_stopped_load() {
    kill -CONT "$stopped"
    end_load
}

test_file_that_grows() {
    start_stopped_load
    cat "$work/rows" >> "$work/changing"
    end_stopped_load
    same 'a file that grows' "$status $output" "0 COPY $((4 * rows))"
}

# Tests that a load of a file ended since it became shorter, and left no row and a server that goes on.
expect_cut() {
    expect "$1" 7 'it became shorter'
    case $errors in
    *'ERROR 57014: COPY from stdin failed: the client can'\''t read its file'*) ok "$1, the server knows" ;;
    *) bad "$1, the server knows" "$errors" ;;
    esac
    same "$1, no row is stored" "$(count_rows)" 0
}

test_file_that_is_cut() {
    local size
    for size in 0 70000001; do
        start_stopped_load
        truncate -s "$size" "$work/changing"
        end_stopped_load
        expect_cut "a file cut to $size bytes"
    done
    rm "$work/changing"
}

test_broken_copy() {
    test_bad_value
    test_signals
    test_breaks
    test_file_that_grows
    test_file_that_is_cut
}
