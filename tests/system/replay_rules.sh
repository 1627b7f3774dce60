# What may differ: names in SQL, settings in another order, pools, literals, and the rules of a file. Sourced by `run`.

# Names that a client invents anew each time, by a word for each.
invented() {
    session=("$as_postgres" read query:BEGIN read "query:SAVEPOINT \"s$1\"" read "query:SAVEPOINT t$1" read
        "query:RELEASE SAVEPOINT t$1" read "query:DECLARE c$1 CURSOR FOR SELECT generate_series(1, 3)" read "query:FETCH 2 FROM c$1" read
        "query:MOVE c$1" read "query:CLOSE c$1" read "query:ROLLBACK TO SAVEPOINT \"s$1\"" read query:COMMIT read
        "query:PREPARE p$1 AS SELECT 1" read "query:EXECUTE p$1" read "query:DEALLOCATE p$1" read "parse:q$1:SELECT 2" sync read
        "query:DEALLOCATE \"q$1\"" read "close:S:r$1" sync read terminate end)
}

test_replay_invented_names() {
    invented 1
    record_words "${session[@]}"
    fits 'invented names, the same' '' "${session[@]}"
    invented 2026
    fits 'invented names, other ones' '' "${session[@]}"
    session[3]='query:BEGIN' session[7]='query:SAVEPOINT u' session[9]='query:RELEASE SAVEPOINT s2026'
    differs 'the name of another savepoint' '' 'they part in the query' "${session[@]}"
    session=("$as_postgres" read 'parse:a:SELECT $1::text' sync read query:BEGIN read 'query:SAVEPOINT s1' read
        'query:DECLARE c1 CURSOR FOR SELECT 1' read 'query:ROLLBACK TO s1' read query:COMMIT read bind::a:1 execute::0 sync read terminate end)
    record_words "${session[@]}"
    fits 'invented names, another one after the same ones' '' "${session[@]/c1/c2026}"
}

test_replay_set_of_settings() {
    local rest=(read 'query:SELECT 1' read terminate end)
    record_words startup:user=postgres,database=postgres,application_name=one "${rest[@]}"
    fits 'settings in another order' '' startup:application_name=one,database=postgres,user=postgres "${rest[@]}"
}

test_replay_literals() {
    local record replay number=0 kind
    while IFS='|' read -r kind record replay; do
        number=$((number + 1))
        record_words "$as_postgres" read "query:$record" read terminate end
        fits "literals, $kind, $number" "--any-literal $kind" "$as_postgres" read "query:$replay" read terminate end
        differs "literals without the option, $number" '' 'they part in the query' "$as_postgres" read "query:$replay" read end
    done << 'WORDS'
time|SELECT '2026-01-01 10:00:00+00'::timestamptz|SELECT '2027-02-03T04:05:06.789Z'::timestamptz
uuid|SELECT '01234567-89ab-cdef-0123-456789abcdef'::uuid|SELECT '11111111-2222-3333-4444-555555555555'::uuid
number|SELECT 41 + 1, 'x1'|SELECT 43.5 + 2e3, 'x1'
text|SELECT 'it''s'|SELECT E'any\'thing'
WORDS
}

# Tests that a recorded query differs from another one, that the rule that is shown lets it be, and that its diff is shown.
allowed_by_its_rule() {
    local name=$1 diff=$2 record=$3 replay=$4
    record_words "$as_postgres" read "${@:5}" "$record" sync read terminate end
    replay_command "$work/words.tape" '' "${client[@]}" "$as_postgres" read "${@:5}" "$replay" sync read end
    expect "replay: $name, a difference" 11 "$diff"
    sed '1,/^to let this differ, in a file for --rules:$/d; /^pg_replay: /,$d' <<< "$errors" > "$work/rules.toml"
    fits "$name, by the rule that it shows" "--rules $work/rules.toml" "$as_postgres" read "${@:5}" "$replay" sync read terminate end
}

test_replay_shown_rules() {
    allowed_by_its_rule 'a number in a query' 'query: SELECT [-1-]{+23+} AS one' 'query:SELECT 1 AS one' 'query:SELECT 23 AS one'
    allowed_by_its_rule 'a text in a query' "query: SELECT 'a [-cat-]{+dog+}'" "query:SELECT 'a cat'" "query:SELECT 'a dog'"
    allowed_by_its_rule 'a value' 'parameter 2: [-two-]{+zwo+}' bind:::one,two bind:::one,zwo 'parse::SELECT $1::text, $2::text'
    record_words startup:user=postgres,database=postgres,application_name=one read terminate end
    replay_command "$work/words.tape" '' "${client[@]}" startup:user=postgres,database=postgres,application_name=two end
    expect 'replay: a setting, its rule' 11 'ignore = ["application_name"]'
    replay_command "$work/words.tape" '' "${client[@]}" startup:user=postgres,database=postgres,$'\u009b2J'=two end
    expect 'replay: a setting with a control character' 11 '"\u009B2J"'
    same 'replay: which no terminal gets' "$(grep -c $'\u009b' <<< "$errors")" 0
    replay_command "$work/words.tape" '' "${client[@]}" startup:user=postgres,database=postgres,$'\u202e2J'=two end
    expect 'replay: a setting that turns its text' 11 '\xe2\x80\xae2J: {+two+}'
    expect 'replay: a setting that turns its text, its rule' 11 '"\u202E2J"'
    same 'replay: which no terminal turns' "$(grep -c $'\u202e' <<< "$errors")" 0
    allowed_by_its_rule 'a time in a query' "query: SELECT '2026-12-01 06:[-27:02-]{+28:13+}'" \
        "query:SELECT '2026-12-01 06:27:02'" "query:SELECT '2026-12-01 06:28:13'"
    same 'replay: its rule has no part of the time' "$(grep -c -e 2026 -e 06 "$work/rules.toml")" 0
}

# Tests what is said in the place of a rule by which two recorded requests would be one.
is_not_advised() {
    replay_command "$work/unadvised.tape" '' "${client[@]}" "${@:3}" end
    expect "replay: $1, a rule that isn't advised" 11 "no rule is advised: by it $2 would be the same, whose answers differ"
    same "replay: $1, no rule is shown" "$(grep -c 'to let this differ' <<< "$errors")" 0
}

# No rule is advised that takes another client's answer for this one's.
test_replay_unadvised_rules() {
    local file=$work/unadvised.tape doubled=(read 'parse::SELECT $1::int * 2')
    start_tape "$file"
    for number in 1 2; do
        at_port "$tape_port" "${client[@]}" "$as_postgres,application_name=a$number" "${doubled[@]}" "bind:::$number" execute::0 sync read \
            "query:SELECT 'x$number'" read 'parse::SELECT $1::int > 0' "bind:::$number" execute::0 sync read terminate end > /dev/null
    done
    stop_tape
    is_not_advised 'a value' 'message 4 of connection 1 and message 4 of connection 2' "$as_postgres,application_name=a1" "${doubled[@]}" bind:::3 execute::0 sync
    is_not_advised 'a text' 'message 6 of connection 1 and message 6 of connection 2' "$as_postgres,application_name=a1" "${doubled[@]}" bind:::1 \
        execute::0 sync read "query:SELECT 'x3'"
    is_not_advised 'a setting' 'message 1 of connection 1 and message 1 of connection 2' "$as_postgres,application_name=a3"
    replay_command "$file" '' "${client[@]}" "$as_postgres,application_name=a1" "${doubled[@]}" bind:::1 execute::0 sync read \
        "query:SELECT 'x1'" read 'parse::SELECT $1::int > 0' bind:::3 execute::0 sync end
    expect 'replay: a value whose answers are the same, its rule' 11 'positions = [1]'
}

test_replay_rule_file() {
    local rest=(terminate end)
    cat > "$work/rules.toml" << 'TOML'
[[replace]]
pattern = 'tmp_\d+'
with = 'tmp_N'

[[parameter]]
statement = '^SELECT \$1'
positions = [1]

[[ignore]]
statement = '^SET '
command = 'SET'

[settings]
ignore = ["application_name"]
TOML
    record_words "$as_postgres" read 'query:CREATE TEMPORARY TABLE tmp_1 (a int)' read "query:SET work_mem = '1MB'" read 'parse:s:SELECT $1::int' \
        bind::s:5 execute::0 sync read "${rest[@]}"
    fits 'rules, all at once' "--rules $work/rules.toml" "$as_postgres,application_name=x" read 'query:CREATE TEMPORARY TABLE tmp_77 (a int)' \
        read 'parse:s:SELECT $1::int' bind::s:6 execute::0 sync read "query:SET jit = off" read "parse::SET jit = on" bind::: \
        describe:P: execute::0 sync read "${rest[@]}"
    same 'replay: an ignored statement is answered' "$(grep -c "^C b'SET" <<< "$replayed")" 2
    fits 'an ignored statement within an exchange' "--rules $work/rules.toml" "$as_postgres" read 'query:CREATE TEMPORARY TABLE tmp_7 (a int)' \
        read "query:SET work_mem = '1MB'" read 'parse:s:SELECT $1::int' bind::s:5 execute::0 "parse::SET jit = on" bind::: execute::0 \
        sync read "${rest[@]}"
    printf 'pattern = 1' > "$work/rules.toml"
    try "$programs/pg_replay" --rules "$work/rules.toml" "$work/words.tape" 0
    expect 'replay: a file that has no rules' 1 'unknown field'
    printf "[[ignore]]\nstatement = '('\ncommand = ''" > "$work/rules.toml"
    try "$programs/pg_replay" --rules "$work/rules.toml" "$work/words.tape" 0
    expect 'replay: a pattern that is none' 1 'the pattern "("'
}

# Exchanges of any connection, outside of a transaction and within one.
test_replay_pools() {
    local file=$work/pools.tape number order words
    start_tape "$file"
    for number in 1 2 3; do
        at_port "$tape_port" "${client[@]}" "$as_postgres" read "query:SELECT ${number}0" read query:BEGIN read "query:SELECT $number" read \
            query:COMMIT read terminate end > "$work/pools.$number"
    done
    stop_tape
    for order in '1 2 3 30 20 10' '30 1 10 2 20 3' '3 20 1 30 2 10'; do
        mapfile -t words < <(in_a_pool $order)
        start_replay "$file"
        replayed=$(at_port "$replay_port" "${client[@]}" "${words[@]}" 2>&1)
        end_replay
        expect "replay: a pool in the order $order" 0 '3 of 3 sessions are replayed'
        same "replay: a pool in the order $order, its answers" "$(grep -c '^D ' <<< "$replayed")" 6
    done
    mapfile -t words < <(in_a_pool 1 2 3 30 20)
    replay_command "$file" --go-on "${client[@]}" "${words[@]}"
    expect 'replay: a pool that leaves something out' 11 "isn't the recorded one"
    same 'replay: what it left out' "$(grep -c 'received: no client said it' <<< "$errors")" 1
}

# Each of three clients has prepared a statement when it takes the place of another one. The second one to do so is in a
# turn by then in which nobody has prepared it.
test_replay_prepared_pools() {
    local file=$work/prepared.tape number begin=(query:BEGIN read 'parse:a:SELECT $1::text' sync read) words=()
    local close=(query:COMMIT read terminate end)
    start_tape "$file"
    for number in 1 2 3; do
        at_port "$tape_port" "${client[@]}" "$as_postgres" read "${begin[@]}" "bind::a:$number" execute::0 sync read \
            "${close[@]}" > /dev/null
    done
    stop_tape
    for number in 1 2 3; do
        words+=("at:$number" "$as_postgres" read "${begin[@]}")
    done
    for number in '2 1' '1 3' '3 2'; do
        words+=("at:${number% *}" "bind::a:${number#* }" execute::0 sync read)
    done
    for number in 1 2 3; do
        words+=("at:$number" "${close[@]}")
    done
    replay_command "$file" '' "${client[@]}" "${words[@]}"
    expect 'replay: a pool whose clients change places once they have prepared' 0 '3 of 3 sessions are replayed'
    same 'replay: such a pool, its answers' "$(grep -o "^D .*[123]'" <<< "$replayed" | grep -o "[123]'" | tr -d "\n'")" 132
}

# Two clients that change places have each another statement by the same name, which it keeps.
test_replay_names_in_pools() {
    local file=$work/named.tape number words=()
    start_tape "$file"
    for number in 1 2; do
        at_port "$tape_port" "${client[@]}" "$as_postgres" read 'parse:a:SELECT $1::text' "parse:b:SELECT 'b$number'" sync read \
            "bind::a:a$number" execute::0 sync read bind::b: execute::0 sync read terminate end > /dev/null
    done
    stop_tape
    for number in 1 2; do
        words+=("at:$number" "$as_postgres" read 'parse:a:SELECT $1::text' "parse:b:SELECT 'b$number'" sync read)
    done
    words+=(at:1 bind::a:a2 execute::0 sync read at:2 bind::a:a1 execute::0 sync read)
    for number in 1 2; do
        words+=("at:$number" bind::b: execute::0 sync read terminate end)
    done
    replay_command "$file" '' "${client[@]}" "${words[@]}"
    expect 'replay: a pool whose clients have other statements by the same names' 0 '2 of 2 sessions are replayed'
    same 'replay: such a pool, the answers of each' "$(grep '^D ' <<< "$replayed" | grep -o "[ab][12]'" | tr -d "\n'")" a2a1b1b2
}

# The words of clients that are three connections of a pool, each transaction at the next one of them.
in_a_pool() {
    local at=0 number
    for number in 1 2 3; do
        printf '%s\n' "at:$number" "$as_postgres" read
    done
    for number in "$@"; do
        at=$((at % 3 + 1))
        printf 'at:%s\n' "$at"
        [ "$number" -ge 10 ] || printf 'query:BEGIN\nread\n'
        printf 'query:SELECT %s\nread\n' "$number"
        [ "$number" -ge 10 ] || printf 'query:COMMIT\nread\n'
    done
    printf '%s\n' at:1 terminate end at:2 terminate end at:3 terminate end
}

test_replay_rules() {
    test_replay_invented_names
    test_replay_set_of_settings
    test_replay_literals
    test_replay_shown_rules
    test_replay_unadvised_rules
    test_replay_rule_file
    test_replay_pools
    test_replay_prepared_pools
    test_replay_names_in_pools
    test_replay_doubts
}
