# Recordings that are served again and again, each round as the first, and by several threads. Sourced by `run`.

# Tests that some words get the same answers each time, after the first of which some other words may come.
same_rounds() {
    local number first
    for number in 1 2 3 4; do
        replayed=$(at_port "$replay_port" "${client[@]}" "${@:2}" 2>&1)
        first=${first:-$replayed}
        same "replay: $1, round $number" "$replayed" "$first"
    done
}

test_replay_rounds() {
    local file=$work/rounds.tape opening=("$as_postgres" read) ending=(read terminate end) number
    start_tape "$file"
    for number in 1 2; do
        at_port "$tape_port" "${client[@]}" "${opening[@]}" "query:SELECT $number" "${ending[@]}" > "$work/rounds.$number"
    done
    stop_tape
    start_replay "$file" --any-order --again --go-on
    same_rounds 'two clients and one too many' "${opening[@]}" at:2 "${opening[@]}" at:3 "$as_postgres" end \
        at:1 'query:SELECT 2' "${ending[@]}" at:2 'query:SELECT 1' "${ending[@]}"
    same 'replay: the one too many is refused in each round' \
        "$(grep -c "no connection that isn't replayed" "$work/errors.replay")" 4
    same_rounds 'one client after the other' "${opening[@]}" 'query:SELECT 1' "${ending[@]}" leave \
        at:2 "${opening[@]}" 'query:SELECT 2' "${ending[@]}" leave
    stop_replay
    start_replay "$file" --again
    replayed=$(at_port "$replay_port" "${client[@]}" "${opening[@]}" 'query:SELECT 1' "${ending[@]}" leave sleep:0.2 \
        at:2 "${opening[@]}" 'query:SELECT 2' read at:3 "${opening[@]}" 'query:SELECT 1' "${ending[@]}" leave sleep:0.2 \
        at:2 terminate end leave sleep:0.2 at:4 "${opening[@]}" 'query:SELECT 2' "${ending[@]}")
    stop_replay
    same 'replay: a client that stays for the next round' "$(grep -v '^end$' <<< "$replayed")" \
        "$(cat "$work"/rounds.[12] "$work"/rounds.[12] | grep -v '^end$')"
    head -c "$(read_recording "$file" | awk '$3 == 2 { print $1; exit }')" "$file" > "$work/rounds.one"
    start_replay "$work/rounds.one" --any-order --again
    replayed=$(for number in {1..20}; do printf '%s\n' at:$number "${opening[@]}" 'query:SELECT 1' read terminate send leave; done |
        PGHOST=127.0.0.1 PGPORT=$replay_port timeout 60 xargs -d '\n' "${client[@]}" | grep -c "^D .*1'")
    stop_replay
    same 'replay: twenty clients of one connection, each as soon as the one before is gone' "$replayed" 20
    same 'replay: a session that is replayed again and again counts once' "$(tail -n 1 <<< "$errors")" 'pg_replay: 1 of 1 sessions are replayed'
}

# Recordings that several threads serve.
test_replay_threads() {
    local tape=$work/pgbench-of-8.tape number client
    local of_8='pgbench_without_times -M prepared -c 8 -j 4 -t 20'
    if [ ! -e "$tape" ]; then
        echo 'left out: replays by several threads, without pgbench (apt-get install postgresql)'
        return
    fi
    for number in 1 2 8; do
        replay_command "$tape" "--any-order --threads $number" bash -c "$of_8"
        expect "replay: threads, $number" 0 '9 of 9 sessions are replayed'
        same "replay: threads, $number, the same output" "$replayed" "$(cat "$tape.output")"
    done
    # Some threads are at work still when it ends.
    for number in 1 2 3 4 5; do
        replay_command "$tape" '--any-order --threads 4' bash -c "$of_8 --random-seed=2"
        expect "replay: threads and a difference, $number" 11 "isn't the recorded one"
        same "replay: threads and a difference, $number, a client shows it" \
            "$(grep -c -m 1 "FATAL: .* isn't the recorded one" <<< "$replayed")" 1
    done
    start_replay "$tape" --any-order --again --threads 4
    at_port "$replay_port" bash -c "$of_8" > /dev/null 2>&1 &
    client=$!
    sleep 0.3
    stop_replay
    same 'replay: threads, SIGTERM' "$status" 143
    wait "$client" || true
}

# The most memory that a program holds in kB while it serves a recording.
peak_while_served() {
    start_replay "$1" --any-order
    sed -n 's/^VmHWM:[^0-9]*\([0-9]*\) kB/\1/p' "/proc/$replaying/status"
    stop_replay
}

# The memory of a recording of short messages, beside that of one with nothing in it.
test_replay_memory() {
    local little=$work/little.tape much=$work/much.tape empty peak size
    if [ ! -x "$bin/pgbench" ]; then
        echo 'left out: the memory of a recording that is served, since there is no pgbench'
        return
    fi
    record_command "$little" bash -c 'pgbench_without_times -S -M prepared -c 8 -j 4 -t 1'
    record_command "$much" bash -c 'pgbench_without_times -S -M prepared -c 8 -j 4 -t 5000'
    size=$(($(stat -c %s "$much") / 1024))
    empty=$(peak_while_served "$little")
    peak=$(peak_while_served "$much")
    if [ "${peak:-0}" -gt "$((${empty:-0} + 8192 + 2 * size))" ]; then
        bad "replay: a recording of $size kB takes 8 MB and twice its size at most" "$peak kB, one with nothing in it $empty kB"
    else
        ok "replay: a recording of $size kB is served in $peak kB, one with nothing in it in $empty kB"
    fi
}
