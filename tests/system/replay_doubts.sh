# Requests that fit several recorded ones, which were answered otherwise. Sourced by `run`.

doubt="isn't answered as message"

# Tests that a replay of a file gives a client its own answers or says that they may be another's, and that it refuses such a
# request where that is asked for.
says_doubt() {
    local name=$1 file=$2 options=$3 says=$4
    replay_command "$file" "$options" "${@:5}"
    expect "replay: $name, is served" 0 "pg_replay: note: $says"
    same "replay: $name, is said once" "$(grep -c "$doubt" <<< "$errors")" 1
    replay_command "$file" "$options --strict" "${@:5}"
    expect "replay: $name, strictly" 12 "pg_replay: $says"
    same "replay: $name, the client hears it" "$(grep -c "$doubt" <<< "$replayed")" 1
    replay_command "$file" "$options --strict --strict=false" "${@:5}"
    expect "replay: $name, no more strictly" 0 "pg_replay: note: $says"
}

# Tests that nothing is in doubt.
has_no_doubt() {
    replay_command "$2" "$3 --strict" "${@:4}"
    expect "replay: $1, without a doubt" 0 'sessions are replayed'
    same "replay: $1, nothing is said" "$(grep -c "$doubt" <<< "$errors")" 0
}

# Records clients one after the other, each of which says the words up to a `/`.
record_in_turn() {
    local file=$1 words=() word
    start_tape "$file"
    for word in "${@:2}" /; do
        if [ "$word" != / ]; then
            words+=("$word")
            continue
        fi
        at_port "$tape_port" "${client[@]}" "$as_postgres" read "${words[@]}" terminate end > /dev/null
        words=()
    done
    stop_tape
}

# Clients one after the other, whose answers differ by what was done between.
test_replay_doubtful_sessions() {
    local file=$work/doubtful.tape counts='query:SELECT count(*) FROM counted'
    sql 'DROP TABLE IF EXISTS counted; CREATE TABLE counted (a int)'
    record_in_turn "$file" "$counts" read 'query:INSERT INTO counted VALUES (1)' read / "$counts" read 'query:INSERT INTO counted VALUES (2)' read
    says_doubt 'the second of two clients in the place of the first' "$file" '--go-on' \
        "message 2 of connection 1 isn't answered as message 2 of connection 2, and a client may mean either: SELECT count(*) FROM counted" \
        "${client[@]}" "$as_postgres" read "$counts" read 'query:INSERT INTO counted VALUES (1)' read terminate end \
        at:2 "$as_postgres" read "$counts" read 'query:INSERT INTO counted VALUES (2)' read terminate end
    record_in_turn "$file" 'query:SELECT 1' read "$counts" read 'query:INSERT INTO counted VALUES (3)' read / \
        'query:SELECT 2' read "$counts" read 'query:INSERT INTO counted VALUES (3)' read
    for number in '1 2' '2 1'; do
        has_no_doubt "clients that say another thing first, $number" "$file" '--any-order' "${client[@]}" \
            "$as_postgres" read "query:SELECT ${number% *}" read "$counts" read 'query:INSERT INTO counted VALUES (3)' read terminate end leave \
            at:2 "$as_postgres" read "query:SELECT ${number#* }" read "$counts" read 'query:INSERT INTO counted VALUES (3)' read terminate end
    done
    record_in_turn "$file" "$counts" read 'query:INSERT INTO counted VALUES (4)' read "$counts" read / 'query:SELECT 1' read
    has_no_doubt 'the order of one connection' "$file" '' "${client[@]}" "$as_postgres" read "$counts" read \
        'query:INSERT INTO counted VALUES (4)' read "$counts" read terminate end at:2 "$as_postgres" read 'query:SELECT 1' read terminate end
    sql 'DROP TABLE counted'
}

# A statement that two clients prepare, between which its table changes.
test_replay_doubtful_statements() {
    local file=$work/prepares.tape words=('parse:a:SELECT * FROM widened' describe:S:a sync read bind::a: execute::0 sync read)
    sql 'DROP TABLE IF EXISTS widened; CREATE TABLE widened (a int)'
    start_tape "$file"
    at_port "$tape_port" "${client[@]}" "$as_postgres" read "${words[@]}" terminate end > /dev/null
    sql 'ALTER TABLE widened ADD b int'
    at_port "$tape_port" "${client[@]}" "$as_postgres" read "${words[@]}" terminate end > /dev/null
    at_port "$tape_port" "${client[@]}" "$as_postgres" read 'query:SELECT 1' read terminate end > /dev/null
    stop_tape
    replay_command "$file" '--strict --any-order' "${client[@]}" "$as_postgres" read 'query:SELECT 1' read "${words[@]}" end
    expect 'replay: a statement that was prepared with other columns' 12 'a client may mean either: SELECT * FROM widened'
    sql 'DROP TABLE widened'
}

# Logins that were answered otherwise: a database was renamed between them.
test_replay_doubtful_logins() {
    local file=$work/logins.tape words=(startup:user=postgres,database=renamed read terminate end)
    start_tape "$file"
    at_port "$tape_port" "${client[@]}" "${words[@]}" > /dev/null
    sql 'CREATE DATABASE renamed'
    at_port "$tape_port" "${client[@]}" "${words[@]}" > /dev/null
    sql 'DROP DATABASE renamed'
    stop_tape
    says_doubt 'a login' "$file" '--go-on' \
        "message 1 of connection 1 isn't answered as message 1 of connection 2, and a client may mean either: a Startup" \
        "${client[@]}" "${words[@]}" at:2 "${words[@]}"
}

# Real clients that say which number each of them got.
test_replay_doubtful_numbers() {
    local python=/usr/bin/python3 driver says="a client may mean either: SELECT nextval('numbers')"
    sql 'DROP SEQUENCE IF EXISTS numbers; CREATE SEQUENCE numbers'
    for driver in asyncpg sqlalchemy; do
        has_module "$driver" || continue
        record_command "$work/$driver-numbers.tape" $python -B "tests/system/real/${driver}_numbers.py" one two
        replay_command "$work/$driver-numbers.tape" '--go-on' $python -B "tests/system/real/${driver}_numbers.py" two one
        expect "replay: numbers by $driver, in another order" 0 "$says"
        replay_command "$work/$driver-numbers.tape" '--strict --go-on' $python -B "tests/system/real/${driver}_numbers.py" two one
        expect "replay: numbers by $driver, strictly" 12 "$says"
        same "replay: numbers by $driver, strictly, the client hears it" "$([[ $replayed == *"$doubt"* ]] && echo heard)" heard
    done
    sql 'DROP SEQUENCE numbers'
}

test_replay_doubts() {
    test_replay_doubtful_sessions
    test_replay_doubtful_statements
    test_replay_doubtful_logins
    test_replay_doubtful_numbers
}
