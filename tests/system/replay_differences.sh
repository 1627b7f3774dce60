# Clients that do otherwise than the recorded one, and what may differ. Sourced by `run`.

# Records what replay_client.py says.
record_words() {
    record_command "$work/words.tape" "${client[@]}" "$@"
}

# Tests that a session with these words is replayed, with options.
fits() {
    replay_command "$work/words.tape" "$2" "${client[@]}" "${@:3}"
    expect "replay: $1" 0 'sessions are replayed'
    if [[ $replayed == *FATAL* ]]; then
        bad "replay: $1, an error" "$replayed"
    fi
}

# Tests that a session with these words ends by a difference, with these words here and in the client's error.
differs() {
    replay_command "$work/words.tape" "$2" "${client[@]}" "${@:4}"
    expect "replay: $1" 11 "$3"
    if [[ $replayed != *SFATAL*C08P01*Mmessage* ]]; then
        bad "replay: $1, the client's error" "$replayed"
    fi
}

test_replay_queries() {
    local begin=("$as_postgres" read)
    record_words "${begin[@]}" 'query:SELECT 1' read 'query:SELECT 2' read terminate end
    fits 'the same words' '' "${begin[@]}" 'query:SELECT 1' read 'query:SELECT 2' read terminate end
    fits 'requests for encryption' '' ssl byte gss byte "${begin[@]}" 'query:SELECT 1' read 'query:SELECT 2' read \
        terminate end
    fits 'messages ahead of their answers' '' "${begin[@]}" 'query:SELECT 1' 'query:SELECT 2' terminate end
    fits 'a byte at a time' '' slowly "${begin[@]}" 'query:SELECT 1' read 'query:SELECT 2' read terminate end
    differs 'a changed query' '' "message 2 of connection 1 isn't the recorded one: they part in the query, at byte 12" \
        "${begin[@]}" 'query:SELECT 3' read end
    same 'replay: both messages of a difference' "$(grep -E '^(recorded|received): ' <<< "$errors")" \
        "$(printf 'recorded: F\t13\tQuery\t "SELECT 1"\nreceived: F\t13\tQuery\t "SELECT 3"')"
    differs 'a missing message' '' 'message 2 of connection 1' "${begin[@]}" 'query:SELECT 2' read end
    differs 'another kind' '' 'they part in the kind, at byte 0' "${begin[@]}" 'parse::SELECT 1' sync read end
    differs 'a message too many' '' 'message 4 of connection 1' "${begin[@]}" 'query:SELECT 1' read 'query:SELECT 2' \
        read 'query:SELECT 3' end
    differs 'an unknown kind' '' "message 2 of connection 1 isn't the recorded one" "${begin[@]}" raw:790000000a end
    start_replay "$work/words.tape"
    same 'replay: a request to cancel' "$(at_port "$replay_port" "${client[@]}" cancel end)" end
    stop_replay
    replay_command "$work/words.tape" '' "${client[@]}" "${begin[@]}" 'query:SELECT 1' read
    expect 'replay: a client that leaves before' 11 'received: the connection ended'
}

# psql shows where it differs, and so does pgbench.
test_replay_real_differences() {
    record_command "$work/real.tape" "$bin/psql" -X -c 'SELECT 1' -c 'SELECT 2'
    replay_command "$work/real.tape" '' "$bin/psql" -X -c 'SELECT 1' -c 'SELECT 3'
    expect 'replay: psql with a changed query' 11 "message 3 of connection 1 isn't the recorded one"
    same 'replay: psql shows it' "$(grep -c "^FATAL:  message 3 of .* isn't the recorded one" <<< "$replayed")" 1
    same 'replay: psql shows both' \
        "$(grep -c -e '^DETAIL:  recorded: .*"SELECT 2"' -e '^received: .*"SELECT 3"' <<< "$replayed")" 2
    if [ -e "$work/pgbench-prepared.tape" ]; then
        replay_command "$work/pgbench-prepared.tape" '' "$bin/pgbench" -n --random-seed=2 -M prepared -t 50
        expect 'replay: pgbench with other parameters' 11 'they part in the value of parameter'
        same 'replay: pgbench shows it' "$(grep -c "FATAL:  message .* isn't the recorded one" <<< "$replayed")" 1
        replay_command "$work/pgbench-prepared.tape" "$(printf -- ' --any-parameter %s' 1 2 3 4)" \
            "$bin/pgbench" -n --random-seed=2 -M prepared -t 50
        expect 'replay: pgbench with other parameters that may differ' 0
    fi
}

# A client that sends no more and still reads.
test_replay_half() {
    local words=("$as_postgres" read "query:SELECT repeat('x', 100) FROM generate_series(1, 30000)" half end)
    record_words "${words[@]}"
    fits 'a client that hangs up one way' '' "${words[@]}"
    same 'replay: it gets all of its answer' "$(grep -c '^D' <<< "$replayed")" 30000
    fits 'a client that is gone before its answer' '' "${words[@]:0:3}" send
    record_words "${words[@]:0:3}" terminate send
    fits 'a client that ends before its answer' '' "${words[@]:0:3}" terminate send
    replay_command "$work/words.tape" '' "${client[@]}" "${words[@]:0:3}" send
    expect 'replay: a client that is gone and does not end' 11 'received: the connection ended'
}

test_replay_settings() {
    local user='startup:user=postgres' rest=(read 'query:SELECT 1' read terminate end)
    record_words "$user,database=postgres,application_name=one" "${rest[@]}"
    differs 'a setting' '' 'they part in a setting' "$user,database=postgres,application_name=two" "${rest[@]}"
    fits 'a setting that may differ' '--any-setting application_name' \
        "$user,database=postgres,application_name=two" "${rest[@]}"
    fits 'a setting that may be missing' '--any-setting application_name' "$user,database=postgres" "${rest[@]}"
    differs 'a setting too many' '' "a setting that wasn't recorded" \
        "$user,database=postgres,application_name=one,a=b" "${rest[@]}"
    differs 'a setting that is missing' '--any-setting a' 'a setting that is missing' "$user,database=postgres" \
        "${rest[@]}"
    fits 'two settings that may differ' '--any-setting application_name --any-setting database' \
        "$user,database=other,application_name=two" "${rest[@]}"
}

# The words of a session with two statements and a portal, by their names.
named() {
    session=("$as_postgres" read "parse:$1:SELECT \$1::int" "parse:$2:SELECT 2" "bind:$3:$4:7" "describe:P:$3"
        "execute:$3:0" "bind::$2:" "execute::0" "close:S:$1" sync read "parse:$5:SELECT 3" "describe:S:$5" sync read
        terminate end)
}

test_replay_names() {
    named s1 s2 p1 s1 s1
    record_words "${session[@]}"
    fits 'the same names' '' "${session[@]}"
    named a b c a a
    fits 'other names' '' "${session[@]}"
    named s2 s1 s2 s2 s2
    fits 'names that are exchanged' '' "${session[@]}"
    named a b c a d
    fits 'a new name after a Close' '' "${session[@]}"
    named a b c b a
    differs 'the name of the other statement' '' 'they part in the name of the statement' "${session[@]}"
    named a a c a a
    differs 'one name for two' '' 'they part in the name of the statement' "${session[@]}"
    named a b c s1 a
    differs 'a name that only the recorded client gave' '' 'they part in the name of the statement' \
        "${session[@]}"
    named '' b c '' a
    differs 'no name for one' '' 'they part in the name of the statement' "${session[@]}"
}

# The words of a session with three parameters.
with_values() {
    session=("$as_postgres" read 'parse::SELECT $1::text, $2::text, $3::text' "bind:::$1" 'execute::0' sync read terminate
        end)
}

test_replay_values() {
    with_values one,two,three
    record_words "${session[@]}"
    with_values one,zwo,three
    differs 'a changed parameter' '' 'they part in the value of parameter 2, at byte 22' "${session[@]}"
    fits 'a parameter that may differ' '--any-parameter 2' "${session[@]}"
    differs 'another parameter' '--any-parameter 1 --any-parameter 3' 'the value of parameter 2' "${session[@]}"
    with_values 'longer than one,two,'
    fits 'two parameters that may differ' '--any-parameter 3 --any-parameter 1' "${session[@]}"
    differs 'a parameter after one that may differ' '--any-parameter 1' \
        'they part in the value of parameter 3, at byte 28 of the recorded one and 40 of the received one' "${session[@]}"
    with_values one,two
    differs 'fewer parameters' '--any-parameter 3' 'the number of values' "${session[@]}"
    with_values "$(echo {1..100} | tr ' ' ,)"
    differs 'many parameters' '' '  and 60 more' "${session[@]}"
}

# A row of a COPY that isn't the recorded one: both are shown.
test_replay_data() {
    local words=("$as_postgres" read 'query:CREATE TEMPORARY TABLE copied (a text)' read 'query:COPY copied FROM STDIN' count:1)
    record_words "${words[@]}" copydata:one copydata:two copydone read terminate end
    differs 'a row of a COPY' '' 'data: [-two-]{+zwei+}' "${words[@]}" copydata:one copydata:zwei copydone end
    same 'replay: a row of a COPY, as a message' "$(grep -E '^(recorded|received): ' <<< "$errors")" \
        "$(printf "recorded: F\t8\tCopyData\t 'two\\\\x0a'\nreceived: F\t9\tCopyData\t 'zwei\\\\x0a'")"
}

# Clients in another order than they were recorded in.
test_replay_order() {
    local file=$work/order.tape number options
    start_tape "$file"
    for number in 1 2 3; do
        at_port "$tape_port" "${client[@]}" "$as_postgres" read query:BEGIN read "query:SELECT $number" read \
            terminate end > "$work/order.$number"
    done
    stop_tape
    replay_command "$file" --any-order "${client[@]}" "$as_postgres" query:BEGIN 'query:SELECT 4' end
    expect 'replay: another message in any order' 11 'message 3 of connection 1'
    start_replay "$file" --any-order
    replayed=$(at_port "$replay_port" "${client[@]}" "$as_postgres" query:BEGIN 'query:SELECT 3' terminate end)
    same 'replay: any order, messages ahead of their answers' "$(grep -c -e "^D .*3'" -e FATAL <<< "$replayed")" 1
    stop_replay
    for options in '' --any-order; do
        start_replay "$file" $options
        for number in 3 1 2; do
            at_port "$replay_port" "${client[@]}" "$as_postgres" read query:BEGIN read "query:SELECT $number" read \
                terminate end | grep -v '^K' > "$work/order.replayed"
            same "replay: any order, connection $number $options" "$(cat "$work/order.replayed")" \
                "$(grep -v '^K' "$work/order.$number")"
        done
        end_replay
        expect "replay: any order $options" 0 '3 of 3 sessions are replayed'
    done
    start_replay "$file" --again
    for number in 1 2 3 1 2 3 1; do
        at_port "$replay_port" "${client[@]}" "$as_postgres" read query:BEGIN read "query:SELECT $number" read \
            terminate end > "$work/order.replayed"
        same "replay: again, connection $number" "$(cat "$work/order.replayed")" "$(cat "$work/order.$number")"
    done
    stop_replay
    start_replay "$file" --go-on
    at_port "$replay_port" "${client[@]}" "$as_postgres" read query:COMMIT read end > /dev/null
    for number in 2 3; do
        at_port "$replay_port" "${client[@]}" "$as_postgres" read query:BEGIN read "query:SELECT $number" read \
            terminate end > /dev/null
    done
    end_replay
    expect 'replay: goes on after a difference' 11 '2 of 3 sessions are replayed'
}

test_replay_times() {
    local words=("$as_postgres" read 'query:SELECT pg_sleep(1)' timed:1 terminate end)
    record_words "${words[@]}"
    fits 'a query that slept' '' "${words[@]}"
    same 'replay: as fast as can be' "$(grep -c -x less <<< "$replayed")" 1
    fits 'a query that slept, by --speed' --speed "${words[@]}"
    same 'replay: the recorded times' "$(grep -c -x 'so long' <<< "$replayed")" 1
    record_words "$as_postgres" read 'parse::SELECT 1' bind::: execute::0 sync read terminate end
    differs 'a missing message that the client waits for' '--patience 1' "message 3 of connection 1 isn't the recorded one" \
        "$as_postgres" read 'parse::SELECT 1' read end
    fits 'patience for what is recorded' '--patience 1' "$as_postgres" read sleep:1.5 'parse::SELECT 1' bind::: execute::0 \
        sync read sleep:1.5 terminate end
}

# A client that goes on after a difference: refused up to a rollback that was recorded, it gets what was recorded after that.
test_replay_gone_on() {
    local begin=("$as_postgres" read query:BEGIN read 'query:SAVEPOINT a1' read) name
    local ending=('query:SAVEPOINT b1' read 'query:SELECT 2' read 'query:ROLLBACK TO b1' read query:COMMIT read 'query:SELECT 3' read terminate end)
    record_words "${begin[@]}" 'query:SELECT 1' read 'query:ROLLBACK TO a1' read 'query:RELEASE a1' read "${ending[@]}"
    for name in 1 2026; do
        replay_command "$work/words.tape" --go-on "${client[@]}" "${begin[@]/a1/a$name}" 'query:SELECT 10' read 'query:SELECT 11' read \
            'parse::SELECT 12' bind::: execute::0 sync read "query:ROLLBACK TO a$name" read "query:RELEASE a$name" read "${ending[@]}"
        expect "replay: a difference after which a client rolls back to its savepoint a$name" 11 'query: SELECT [-1-]{+10+}'
        same "replay: what follows it is refused, and after the rollback answered, a$name" \
            "$(grep -c 'SERROR.*C08P01' <<< "$replayed") $(grep -c 'SERROR.*C25P02' <<< "$replayed") $(grep -c "^Z b'E'" <<< "$replayed")" '1 2 3'
        same "replay: the answers after it, a$name" "$(grep '^D ' <<< "$replayed" | grep -o "[0-9]'" | tr -d "\n'")" 23
        same "replay: it is told once, a$name" "$(grep -c "isn't the recorded one" <<< "$errors")" 1
    done
    replay_command "$work/words.tape" --go-on "${client[@]}" "${begin[@]}" 'query:SELECT 10' read query:COMMIT read query:ROLLBACK read \
        terminate end
    same 'replay: another rollback than the recorded one is refused too' \
        "$status $(grep -c 'SERROR.*C25P02' <<< "$replayed") $(grep -c FATAL <<< "$replayed")" '11 2 0'
    differs 'what differs ends a session without --go-on' '' 'message 4 of connection 1' "${begin[@]}" 'query:SELECT 10' end
    record_words "${begin[@]}" 'query:SELECT 1' read 'query:RELEASE a1' read 'query:SAVEPOINT a2' read 'query:ROLLBACK TO a2' read \
        query:COMMIT read terminate end
    replay_command "$work/words.tape" --go-on "${client[@]}" "${begin[@]}" 'query:SELECT 10' read 'query:ROLLBACK TO a1' read terminate end
    same 'replay: a rollback to a savepoint that was released in the recording is refused' \
        "$status $(grep -c 'SERROR.*C25P02' <<< "$replayed")" '11 1'
    record_words "${begin[@]}" 'query:SELECT 1' read query:COMMIT read terminate end
    replay_command "$work/words.tape" --go-on "${client[@]}" "${begin[@]}" 'query:SELECT 10' end
    same 'replay: a difference ends a session that was not rolled back' "$status $(grep -c 'SFATAL.*C08P01' <<< "$replayed")" '11 1'
}

# One query of fifteen tests that share a session has changed: one test fails.
test_replay_changed_django() {
    local suite=(/usr/bin/python3 -B tests/system/real/django_suite.py) options=(--any-literal time --any-literal uuid --any-order --again --go-on)
    has_module django || return
    record_command "$work/changed-django.tape" "${suite[@]}"
    sed 's/get(name="Ann").coins, 10)/get(name="Ann", coins=10).coins, 10)/' tests/system/real/django_suite.py > "$work/changed_suite.py"
    start_replay "$work/changed-django.tape" "${options[@]}"
    at_port "$replay_port" /usr/bin/python3 -B "$work/changed_suite.py" > "$work/output" 2>&1
    same 'replay: of fifteen tests of Django the changed one fails' "$(tail -n 1 "$work/output")" '15 tests, 1 errors, 0 failures'
    same 'replay: and it shows the difference' "$(grep -c "OperationalError: message .* isn't the recorded one" "$work/output")" 1
    stop_replay
    expect 'replay: a difference within a test of Django' 143 'they part in the query'
}

test_replay_differences() {
    test_replay_queries
    test_replay_real_differences
    test_replay_half
    test_replay_settings
    test_replay_names
    test_replay_values
    test_replay_data
    test_replay_order
    test_replay_times
    test_replay_gone_on
    test_replay_changed_django
}
