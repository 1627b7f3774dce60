# Recordings that are damaged or cut, and clients that are slow, silent or too loud. Sourced by `run`.

# Changes a byte of a file, by its offset.
change_byte() {
    local old
    old=$(od -An -tu1 -j "$2" -N 1 "$1")
    printf "\\x$(printf '%02x' $((old ^ 1)))" | dd of="$1" bs=1 seek="$2" conv=notrunc status=none
}

test_replay_damage() {
    local file=$work/whole.tape copy=$work/changed.tape size offset step wrong=0 tried=0
    record_command "$file" "${client[@]}" "$as_postgres" read 'query:SELECT 1' read 'query:SELECT 2' read \
        terminate end
    size=$(stat -c %s "$file")
    step=$((size / 40))
    for ((offset = 0; offset < size; offset += step)); do
        cp "$file" "$copy"
        change_byte "$copy" "$offset"
        try timeout 60 "$programs/pg_replay" "$copy" 0
        tried=$((tried + 1))
        if [ "$status" != 10 ] || [[ $errors != *"$copy"*offset* && $errors != *"$copy is no recording"* ]] \
            || [[ $errors == *listening* ]]; then
            wrong=$((wrong + 1))
            echo "byte $offset: $status $errors"
        fi
    done
    same "replay: a changed byte is refused, in each of $tried places" "$wrong" 0
    printf 'not one' > "$copy"
    try "$programs/pg_replay" "$copy" 0
    expect 'replay: what is no recording' 10 'is no recording'
    head -c 24 "$file" > "$copy"
    try "$programs/pg_replay" "$copy" 0
    expect 'replay: a recording without a session' 10 'no session'
    try "$programs/pg_replay" "$work/none.tape" 0
    expect 'replay: a file that is not there' 7 'No such file'
    try "$programs/pg_replay" "$file" 70000
    expect 'replay: a port above the last' 1 usage
    try "$programs/pg_replay" --any-parameter 0 "$file" 0
    expect 'replay: a position below the first' 1 usage
    try "$programs/pg_replay" "$file"
    expect 'replay: no address to listen on' 1 'pg_replay: where to listen is missing: LISTEN_PORT, --listen ADDRESS, or a command after `--`'
    try "$programs/pg_replay" -p 5432 "$file" 0
    expect 'replay: a server that has no use' 1 'pg_replay: a server has a use with --record-missing or --record-all alone'
    test_replay_cut "$file" "$copy" "$size"
}

# A recording that ends too early is served as far as it goes.
test_replay_cut() {
    local words=("$as_postgres" read 'query:SELECT 1' read 'query:SELECT 2' read terminate end) len served=0 cut=0
    head -c "$(offset_of "$1" 'SELECT 2')" "$1" > "$2"
    replay_command "$2" '' "${client[@]}" "${words[@]}"
    expect 'replay: a recording that ends within a record' 11 'ends within a record'
    same 'replay: it is served up to there' \
        "$(grep -c "^D .*1'\$" <<< "$replayed") $(grep -c 'the recording ends here' <<< "$replayed")" '1 1'
    replay_command "$2" '' "${client[@]}" "$as_postgres" read 'query:SELECT 1' read terminate end
    expect 'replay: a session that ends before the recording does' 0 'ends within a record'
    head -c "$(($3 - 26))" "$1" > "$2"
    replay_command "$2" '' "${client[@]}" "${words[@]}"
    expect 'replay: a recording without the end of its connection' 0 '1 of 1 sessions are replayed'
    for ((len = $3 - 1; len > $3 / 2; len -= $3 / 20)); do
        head -c "$len" "$1" > "$2"
        replay_command "$2" '' "${client[@]}" "${words[@]}"
        cut=$((cut + 1))
        [[ $status == 0 || $status == 11 ]] && served=$((served + 1)) || echo "cut at $len: $status $errors"
    done
    same "replay: recordings that end anywhere are served, in each of $cut places" "$served" "$cut"
}

# The offset of a text in a file.
offset_of() {
    grep -abo "$2" "$1" | head -n 1 | cut -d : -f 1
}

# Slow and silent clients, and ones that announce more than they may: the others are served.
test_replay_hostile() {
    local file=$work/hostile.tape words=("$as_postgres" read 'query:SELECT 1' read terminate end) number open=()
    start_tape "$file"
    for number in 1 2 3; do
        at_port "$tape_port" "${client[@]}" "${words[@]}" > /dev/null
    done
    stop_tape
    start_replay "$file" --go-on
    if command -v prlimit > /dev/null; then
        prlimit --pid "$replaying" --nofile=60:60
    fi
    for number in {1..100}; do
        exec {open[number]}<> "/dev/tcp/127.0.0.1/$replay_port"
        printf '\0\0' >&"${open[number]}"
    done
    at_port "$replay_port" "${client[@]}" slowly "${words[@]}" > /dev/null &
    local slow=$!
    same 'replay: a first message of a gigabyte' "$(at_port "$replay_port" "${client[@]}" raw:3fffffff00030000 end)" end
    replayed=$(at_port "$replay_port" "${client[@]}" "$as_postgres" read announce:Q:1000000000 end)
    same 'replay: a message of a gigabyte is a difference' "$(grep -c 'they part in the length' <<< "$replayed")" 1
    replayed=$(at_port "$replay_port" "${client[@]}" "${words[@]}")
    same 'replay: others are served beside' "$(tail -n 1 <<< "$replayed")" end
    wait "$slow"
    same 'replay: a client that sends a byte at a time is served' "$?" 0
    end_replay
    expect 'replay: beside a hundred half-open connections' 11 '2 of 3 sessions are replayed'
    for number in {1..100}; do
        exec {open[number]}<&-
    done
    test_replay_long
    test_replay_pressure
    test_replay_silent
}

# Thousands of clients that say nothing: one that speaks is served within seconds.
test_replay_silent() {
    record_words "$as_postgres" read terminate end
    start_replay "$work/words.tape"
    try tests/system/slow_clients.py silent "$replay_port"
    expect "replay: beside 3,000 silent clients one is served after $output seconds" 0
    end_replay
    expect 'replay: beside 3,000 silent clients, the session' 0 '1 of 1 sessions are replayed'
}

# Messages above the limit for a whole one are compared piece by piece.
test_replay_long() {
    local words=("$as_postgres" read 'query:COPY replayed_long FROM STDIN' count:1) front
    sql 'DROP TABLE IF EXISTS replayed_long; CREATE TABLE replayed_long (a text)'
    record_words "${words[@]}" huge:3000000:a copydone read terminate end
    fits 'a message of 3 megabytes' '' "${words[@]}" huge:3000000:a copydone read terminate end
    differs 'a message of 3 megabytes that is another' '' 'they part in the data, at byte 5' "${words[@]}" \
        huge:3000000:b copydone end
    differs 'a longer message' '' 'they part in the length' "${words[@]}" huge:3000001:a copydone end
    differs 'a shorter message' '' 'message 3 of connection 1' "${words[@]}" huge:3000:a copydone end
    front=("${words[@]}" announce:d:3000004 raw:61616161616161616161 send)
    record_words "${front[@]}" at:2 "${front[@]}"
    differs 'a message of which two sessions have the front' '' 'they part in the' "${words[@]}" huge:3000000:a end
    sql 'DROP TABLE replayed_long'
}

# A client that doesn't read: its rows mustn't pile up, and it gets all of them later.
test_replay_pressure() {
    local words=("$as_postgres" read "query:SELECT repeat('x', 1000) FROM generate_series(1, 50000)" sleep:1 read
        terminate end)
    local peak
    record_words "${words[@]}"
    start_replay "$work/words.tape"
    at_port "$replay_port" "${client[@]}" "${words[@]}" > "$work/pressure" &
    local client=$!
    sleep 0.8
    [ -r "/proc/$replaying/status" ] && peak=$(sed -n 's/^RssAnon:[^0-9]*\([0-9]*\) kB/\1/p' "/proc/$replaying/status")
    wait "$client"
    end_replay
    same 'replay: a client that does not read gets all rows later' "$status $(grep -c '^D' "$work/pressure")" '0 50000'
    if [ "${peak:-0}" -gt 4000 ]; then
        bad 'replay: memory while a client does not read' "$peak kB"
    else
        ok "replay: memory while a client does not read, ${peak:-unknown} kB"
    fi
}
