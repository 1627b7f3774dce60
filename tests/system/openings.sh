# Connections that don't come to a session, to pg_record and pg_replay. Sourced by `run`.

# Tests what becomes of a client that asks a port for encryption again: its answers, and then the end.
refuses_again() {
    local requests
    requests=$(printf '0000000804d2162f%.0s' {1..2000})
    same "$1: a second SSLRequest ends the connection" "$(at_port "$2" "${client[@]}" ssl byte ssl end)" $'N\nend'
    same "$1: a second GSSENCRequest too" "$(at_port "$2" "${client[@]}" gss byte gss end)" $'N\nend'
    same "$1: also after the other one" "$(at_port "$2" "${client[@]}" ssl byte gss byte ssl end)" $'N\nN\nend'
    same "$1: two thousand of them" "$(at_port "$2" "${client[@]}" "raw:$requests" end | grep -c -e end -e broken)" 1
}

# A server answers one request of each kind, and takes another one for a Startup of an unknown version.
test_asked_again() {
    same 'a second SSLRequest ends a connection to a server' \
        "$(at_port "$PGPORT" "${client[@]}" ssl byte ssl end | grep -c -x -e N -e end -e 'E .*unsupported frontend protocol 1234.5679.*')" 3
    start_tape "$work/asked.tape"
    refuses_again 'record' "$tape_port"
    at_port "$tape_port" "${client[@]}" ssl byte gss byte "$as_postgres" read terminate end > /dev/null
    stop_tape
    same 'record: it says so' "$(grep -c 'asks for encryption again' "$work/errors.tape")" 4
    start_replay "$work/asked.tape"
    refuses_again 'replay' "$replay_port"
    same 'replay: it says so' "$(grep -c 'asks for encryption again' "$work/errors.replay")" 4
    at_port "$replay_port" "${client[@]}" ssl byte gss byte "$as_postgres" read terminate end > /dev/null
    end_replay
    expect 'replay: one request of each kind' 0 '1 of 1 sessions are replayed'
}

# The lowest descriptor that a process doesn't have.
free_descriptor() {
    local number=0
    while [ -e "/proc/$1/fd/$number" ]; do
        number=$((number + 1))
    done
    echo "$number"
}

# Tests that a program serves a client on a port that came while it had no descriptor for one.
serves_later() {
    local waiting
    prlimit --pid "$2" --nofile="$(free_descriptor "$2"):"
    at_port "$3" "${client[@]}" "$as_postgres" read terminate end > "$work/waiting" &
    waiting=$!
    sleep 0.5
    prlimit --pid "$2" --nofile=200:
    wait "$waiting"
    same "$1: a client that came while no descriptor was left is served" \
        "$(grep -c -e '^Z' -e '^end$' "$work/waiting")" 2
}

test_no_descriptors() {
    if ! command -v prlimit > /dev/null; then
        echo 'left out: programs without descriptors, without prlimit (apt-get install util-linux)'
        return
    fi
    start_tape "$work/descriptors.tape"
    serves_later record "$taping" "$tape_port"
    stop_tape
    start_replay "$work/descriptors.tape"
    serves_later replay "$replaying" "$replay_port"
    end_replay
}

# Begins clients that say their Startup for minutes, of a server and of both programs, each of which takes one minute. What
# the programs say is in files that no other test begins anew.
begin_slow_openings() {
    start_tape "$work/slow.tape"
    slow_taping=$taping
    mv "$work/errors.tape" "$work/errors.slow_tape"
    at_port "$tape_port" "${client[@]}" "$as_postgres" read terminate end > /dev/null
    start_replay "$work/slow.tape"
    slow_replaying=$replaying
    mv "$work/errors.replay" "$work/errors.slow_replay"
    local port
    for port in "$PGPORT" "$tape_port" "$replay_port"; do
        tests/system/slow_clients.py opening "$port" > "$work/slow.$port" &
        slow_clients+=($! "$work/slow.$port")
    done
}

end_slow_openings() {
    local at names=(server record replay)
    for at in 0 1 2; do
        wait "${slow_clients[2 * at]}"
        same "a Startup that takes minutes, ${names[at]}" "$(cat "${slow_clients[2 * at + 1]}")" 'a minute'
    done
    same 'a Startup that takes minutes, both programs say so' \
        "$(cat "$work/errors.slow_tape" "$work/errors.slow_replay" | grep -c 'took too long to open its session')" 2
    kill "$slow_taping" "$slow_replaying"
    reap "$slow_taping"
    reap "$slow_replaying"
}
