# What an answer waits for in a replay: its cause, and not the time at which it was recorded. Sourced by `run`.

# A request to cancel ends what waits for it, and nothing else does.
test_replay_cancel() {
    cat > "$work/cancel.py" << 'PYTHON'
import os, threading, time
import psycopg2
connection = psycopg2.connect(user="postgres", dbname="postgres")
begun = time.monotonic()
threading.Timer(1.0, connection.cancel).start()
try:
    connection.cursor().execute("SELECT pg_sleep(60)")
except psycopg2.Error as error:
    print(error.pgcode, str(error).strip(), time.monotonic() - begun >= 0.9)
connection.rollback()
connection.cursor().execute("SELECT 1")
connection.close()
PYTHON
    /usr/bin/python3 -c 'import psycopg2' 2> /dev/null || { echo 'left out: a cancelled query, since there is no python3-psycopg2'; return; }
    both_ways cancelled '' /usr/bin/python3 "$work/cancel.py"
    same 'replay: a cancelled query, its error' "$(cut -d ' ' -f 1 <<< "$replayed") ${replayed##* }" '57014 True'
    # Two sessions have the number of one process where recordings are joined.
    "$programs/pg_tape" merge "$work/cancelled.tape" "$work/cancelled.tape" -o "$work/cancelled-twice.tape"
    start_replay "$work/cancelled-twice.tape"
    replayed=$(at_port "$replay_port" /usr/bin/python3 "$work/cancel.py" && at_port "$replay_port" /usr/bin/python3 "$work/cancel.py")
    end_replay
    expect 'replay: cancelled queries of one process' 0 '2 of 2 sessions are replayed'
}

# A timeout's error comes after its time, and so does the end of a session that was idle too long.
test_replay_timeouts() {
    local words=("$as_postgres" read "query:SET statement_timeout = '1s'" read 'query:SELECT pg_sleep(60)' timed:0.9 terminate end)
    record_words "${words[@]}"
    fits 'a timeout' '' "${words[@]}"
    same 'replay: a timeout comes after its time' "$(grep -c -x 'so long' <<< "$replayed")" 1
    words=("$as_postgres" read "query:SET idle_session_timeout = '1s'" read timed:0.9)
    record_words "${words[@]}"
    replay_command "$work/words.tape" '' "${client[@]}" "${words[@]}"
    expect 'replay: a session that was idle too long' 0 '1 of 1 sessions are replayed'
    same 'replay: its error comes after its time' "$(grep -c 'C57P05' <<< "$replayed") $(tail -n 1 <<< "$replayed")" '1 so long'
    replay_command "$work/words.tape" '' "${client[@]}" "${words[@]:0:4}" 'query:SELECT 1' timed:0.9
    expect 'replay: one that says more before its time' 0 '1 of 1 sessions are replayed'
    same 'replay: its error comes at once' "$(grep -c 'C57P05' <<< "$replayed") $(tail -n 1 <<< "$replayed")" '1 less'
}

# A client that gave up while the server was busy, and a recorder that ended before the server was done.
test_replay_given_up() {
    local words=("$as_postgres" read 'query:SELECT pg_sleep(600)' sleep:0.2)
    start_tape "$work/words.tape"
    at_port "$tape_port" "${client[@]}" "${words[@]}" > /dev/null
    sleep 0.5
    kill "$taping"
    reap "$taping"
    same 'record: a client that gave up while the server was busy has ended its connection' \
        "$(read_recording "$work/words.tape" | awk '$4 == "C"' | wc -l)" 1
    fits 'a client that gave up while the server was busy' '' "${words[@]}"
}

# A client that left at the request for its password: the next one is asked too.
test_replay_left_at_password() {
    local words=("$bin/psql" -X -w -d postgres -U by_scram -c 'SELECT 1')
    record_command "$work/left.tape" "${words[@]}"
    replay_command "$work/left.tape" '' timeout 60 "${words[@]}"
    expect 'replay: a client that left at the request for its password' 0 '1 of 1 sessions are replayed'
    same 'replay: the next one leaves too' "${replayed##*: }" "$(sed 's/.*: //' "$work/left.tape.output")"
    start_replay "$work/left.tape"
    replayed=$(at_port "$replay_port" env PGPASSWORD=one timeout 60 "${words[@]}" 2>&1)
    same 'replay: one that answers is left' "$?" 2
    end_replay
}

# Clients that insist on a password.
test_replay_scram() {
    local words=("$bin/psql" -X -w -A -t -d postgres -U postgres -c 'SELECT 6 * 7') file=$work/scram.tape
    record_command "$file" "${words[@]}"
    printf 'the password\n' > "$work/password"
    start_replay "$file" --scram "$work/password" --go-on
    replayed=$(at_port "$replay_port" env PGPASSWORD='another one' "${words[@]}" 2>&1)
    same 'replay: a wrong password' "${replayed##*FATAL:  }" 'password authentication failed'
    replayed=$(at_port "$replay_port" env PGPASSWORD='the password' "${words[@]}" 2>&1)
    same 'replay: the right password' "$replayed" 42
    end_replay
    expect 'replay: a session with a password' 0 '1 of 1 sessions are replayed'
    make_certificate
    start_replay "$file" --scram "$work/password" --cert "$work/tls.crt" --key "$work/tls.key"
    replayed=$(at_port "$replay_port" env PGPASSWORD='the password' PGSSLMODE=require PGCHANNELBINDING=require "${words[@]}" 2>&1)
    same 'replay: a password bound to its channel' "$replayed" 42
    end_replay
}

# A certificate for this machine, which is its own root.
make_certificate() {
    [ -e "$work/tls.key" ] || openssl req -x509 -newkey rsa:2048 -nodes -days 2 -subj /CN=localhost \
        -addext 'subjectAltName = DNS:localhost, IP:127.0.0.1' -keyout "$work/tls.key" -out "$work/tls.crt" 2> /dev/null
}

test_replay_tls() {
    local words=("$bin/psql" -X -w -A -t -d postgres -U postgres -c 'SELECT 6 * 7') file=$work/tls.tape options
    record_command "$file" "${words[@]}"
    make_certificate
    options="--cert $work/tls.crt --key $work/tls.key"
    start_replay "$file" $options
    replayed=$(PGSSLMODE=verify-full PGSSLROOTCERT=$work/tls.crt at_port "$replay_port" "${words[@]}" 2>&1)
    same 'replay: TLS by verify-full' "$replayed" 42
    end_replay
    expect 'replay: a session by TLS' 0 '1 of 1 sessions are replayed'
    start_replay "$file" $options
    replayed=$(PGSSLMODE=disable at_port "$replay_port" "${words[@]}" 2>&1)
    same 'replay: no TLS where there may be' "$replayed" 42
    end_replay
    try "$programs/pg_replay" --cert "$work/tls.crt" "$file" 0
    expect 'replay: a certificate without its key' 1 'usage: pg_replay'
    record_words "$as_postgres" read terminate end
    start_replay "$work/words.tape" --again --go-on $options
    try tests/system/record_handshakes.py "$replay_port" "$work/tls.crt"
    expect "replay: handshakes: $output" 0
    stop_replay
    test_replay_listens "$file"
}

# Several addresses at once.
test_replay_listens() {
    local errors_file=$work/errors.replay
    mkdir -p "$work/listens"
    : > "$errors_file"
    "$programs/pg_replay" --again --listen 127.0.0.1:0 --listen "$work/listens:6001" "$1" 2> "$errors_file" &
    replaying=$!
    await eval '[ "$(grep -c "^listening on" "$work/errors.replay")" = 2 ]'
    replay_port=$(sed -n 's/^listening on 127.0.0.1 port //p' "$errors_file")
    same 'replay: the first of two addresses' "$(at_port "$replay_port" "$bin/psql" -X -w -A -t -d postgres -U postgres -c 'SELECT 6 * 7' 2>&1)" 42
    same 'replay: the second one' \
        "$(PGHOST=$work/listens PGPORT=6001 timeout 60 "$bin/psql" -X -w -A -t -d postgres -U postgres -c 'SELECT 6 * 7' 2>&1)" 42
    stop_replay
}

# A Flush before the session is open, as of a client that was asked for a password, isn't waited for.
test_replay_flushes() {
    record_words "$as_postgres" flush read 'parse::SELECT 1' flush count:1 bind::: execute::0 flush count:3 sync read terminate end
    fits 'no Flush where one was recorded' '' "$as_postgres" read 'parse::SELECT 1' bind::: execute::0 sync read terminate end
    record_words "$as_postgres" read 'parse::SELECT 1' bind::: execute::0 sync read terminate end
    fits 'a Flush where none was recorded' '' "$as_postgres" read 'parse::SELECT 1' flush count:1 bind::: execute::0 flush count:3 sync \
        read terminate end
}

test_replay_causes() {
    test_replay_cancel
    test_replay_timeouts
    test_replay_given_up
    test_replay_left_at_password
    test_replay_scram
    test_replay_tls
    test_replay_flushes
}
