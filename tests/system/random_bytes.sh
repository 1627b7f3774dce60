# Bytes without a sense to both programs, and floods of requests. Sourced by `run`. RANDOM_INPUTS may say how many
# connections say random and mutated bytes to each, RANDOM_SEED which.


random_inputs=${RANDOM_INPUTS:-3000}

test_random_sessions() {
    try tests/system/random_bytes.py both "$programs/pg_record" "$work/random.tape" $random_inputs "${RANDOM_SEED:-$RANDOM}"
    expect "record: $random_inputs connections of random and mutated bytes of both sides: $output" 0
}

# The memory of its own that a process has, in kB.
memory_of() {
    sed -n 's/^RssAnon:[^0-9]*\([0-9]*\) kB/\1/p' "/proc/$1/status"
}

test_replay_random() {
    local file=$work/random.tape seed=${RANDOM_SEED:-$RANDOM} before after
    local words=(read 'query:SELECT 1' read 'parse::SELECT 2' bind::: execute::0 sync read terminate end)
    record_words "$as_postgres" "${words[@]}"
    mv "$work/words.tape" "$file"
    start_replay "$file" --again --any-order --go-on
    tests/system/random_bytes.py clients "$replay_port" 200 "$seed" > "$work/output"
    before=$(memory_of "$replaying")
    try tests/system/random_bytes.py clients "$replay_port" $random_inputs "$((seed + 100))"
    after=$(memory_of "$replaying")
    same "replay: after $random_inputs connections of random and mutated bytes, seed $seed, $output, a client is served" \
        "$(at_port "$replay_port" "${client[@]}" "$as_postgres" "${words[@]}" | grep -c -e '^Z' -e '^end$')" 4
    same "replay: no growth by them: $before kB before, $after kB after" "$((after <= before + 4096))" 1
    stop_replay
    same 'replay: no panic by them' "$(grep -c -i panic "$work/errors.replay") $status" '0 143'
}

# Requests for encryption without an end: the second ends the connection, and none is kept.
test_request_floods() {
    local tape=$work/flood.tape turn
    start_taping "$tape"
    for turn in {1..20}; do
        { yes ''; } 2> /dev/null | LC_ALL=C sed $'s/^/\\x00\\x00\\x00\\x08\\x04\\xd2\\x16\\x2f/' | head -c 20000000 \
            > "/dev/tcp/127.0.0.1/$record_port" 2> /dev/null
    done
    same 'after 400 MB of requests for encryption another client is served' "$(query_through 'SELECT 7')" 7
    holds_less 'and no request is kept' 16000
    stop_taping "$tape"
}

# A thousand connections on which nothing passes.
test_idle_clients() {
    local tape=$work/idle.tape
    if [ "$(ulimit -H -n)" != unlimited ] && [ "$(ulimit -H -n)" -lt 4000 ]; then
        echo 'left out: a thousand idle connections, for which a process may not have the descriptors'
        return
    fi
    start_limited '-n 4000' "$tape" -h 127.0.0.1 -p "$(start_idle_server)"
    try timeout 60 python3 -B tests/system/slow_clients.py idle "$record_port" "$recording"
    expect "a thousand idle connections: $output kB" 0
    kill "$recording" "$(cat "$work/idle_server")"
    reap "$recording"
}

# Starts a server that lets all in, and prints its port.
start_idle_server() {
    python3 -B tests/system/slow_clients.py server > "$work/idle_port" &
    echo $! > "$work/idle_server"
    await test -s "$work/idle_port"
    cat "$work/idle_port"
}

test_record_random() {
    test_request_floods
    test_idle_clients
    test_random_sessions
}
