# Recordings that pg_tape exports, imports, edits, redacts and shows. Sourced by `run`.

# A script that says secrets in each way, and has an error, a notice, COPY each way and a notification.
write_secret_script() {
    cat > "$work/secret.sql" << 'SQL'
DROP TABLE IF EXISTS people;
CREATE TABLE people (id int, email text, born date, phone text);
INSERT INTO people VALUES (1, 'ann.lee@example.org', '1971-03-21', '+49 30 123456');
\copy people FROM stdin
2	bob.fox@example.org	1980-05-06	+49 30 654321
\.
SELECT id, email, born FROM people ORDER BY id;
DROP ROLE IF EXISTS taped_role;
CREATE ROLE taped_role LOGIN PASSWORD 'Secret-In-Clear';
SELECT rolpassword FROM pg_authid WHERE rolname = 'taped_role';
ALTER ROLE taped_role PASSWORD $$Another-Secret$$;
DROP ROLE taped_role;
DO $$ BEGIN EXECUTE 'ALTER ROLE no_such_role PASSWORD ''Third-One'''; END $$;
SELECT 1/0;
DO $$ BEGIN RAISE NOTICE 'card 4111111111111111'; END $$;
LISTEN a; NOTIFY a, 'card 4111111111111111';
SQL
    cat > "$work/redact.toml" << 'TOML'
[[redact.column]]
name = "email"
[[redact.column]]
name = "born"
[[redact.statement]]
pattern = "(?i)^insert into people"
[[redact.text]]
pattern = '\+49 \d+ \d+|\w+\.\w+@example\.org|1980-05-06'
[[redact.text]]
pattern = 'card (\d+)'
[[redact.column]]
name = "no_such_column"
TOML
}

secrets='ann\.lee|bob\.fox|1971-03-21|1980-05-06|123456|654321|Secret-In|Another-S|Third-One|4111111|SCRAM-SHA-256\$[0-9]*:[^x]'

# Secrets that rules name, and those that are found without one.
test_tape_redact() {
    local tape=$work/secret.tape redacted=$work/redacted.tape kinds all each missing=
    write_secret_script
    record_command "$tape" "$bin/psql" -X -f "$work/secret.sql"
    "$programs/pg_tape" export "$tape" -o "$work/secret.jsonl"
    IFS='|' read -ra all <<< "$secrets"
    for each in "${all[@]}"; do
        grep -qE "$each" "$work/secret.jsonl" || missing+=" $each"
    done
    verdict 'redact: the recording has each secret' "$missing"
    try "$programs/pg_tape" redact "$tape" -r "$work/redact.toml" -o "$redacted"
    expect 'redact: a rule that matches nothing is said' 0 'the rule [[redact.column]] name = "no_such_column" matched nothing'
    same 'redact: no other one is' "$(wc -l < "$work/errors")" 1
    "$programs/pg_tape" export "$redacted" -o "$work/redacted.jsonl"
    same 'redact: no secret is left' "$(grep -oE "$secrets" "$redacted" "$work/redacted.jsonl" | head -n 3)" ''
    same 'redact: keys are zeros' "$(grep '"BackendKeyData"' "$work/redacted.jsonl" | grep -vc '"secret_key":{"base64":"A*=*"}')" 0
    "$programs/pg_tape" import "$work/redacted.jsonl" -o "$work/again.tape"
    same 'redact: messages are whole' "$(cmp "$redacted" "$work/again.tape" 2>&1)$(grep -c '"kind":"Bytes"' "$work/redacted.jsonl")" 0
    kinds='s/^.*"kind":"\([A-Za-z]*\)".*/\1/'
    sed "$kinds" "$work/secret.jsonl" > "$work/kinds"
    same 'redact: so do the kinds of messages' "$(sed "$kinds" "$work/redacted.jsonl" | cmp - "$work/kinds" 2>&1)" ''
    try "$programs/pg_tape" diff "$tape" "$redacted"
    expect 'redact: what differs is shown' 1
    same 'redact: as lines of both' "$(grep -c '^[-+] server DataRow' "$work/output" | sed 's/^[1-9][0-9]*$/some/')" some
    same_words_replay "$redacted"
}

# A redacted recording is replayed to a client that says what is in it.
same_words_replay() {
    start_replay "$1"
    sed -e "s/^INSERT .*/INSERT INTO people VALUES (1, 'xxx.xxx@xxxxxxx.xxx', '2000-01-01', '+00 00 000000');/" \
        -e 's/^2\t.*/2\txxx.xxx@xxxxxxx.xxx\t2000-01-01\t+00 00 000000/' \
        -e "s/Secret-In-Clear/xxxxxxxx/; s/Another-Secret/xxxxxxxx/; s/Third-One/xxxxxxxx/" \
        -e "s/card 4111111111111111/card 1000000000000000/" "$work/secret.sql" > "$work/redacted.sql"
    at_port "$replay_port" "$bin/psql" -X -f "$work/redacted.sql" > "$work/output" 2>&1
    end_replay
    expect 'redact: what is redacted is replayed' 0 'sessions are replayed'
    same 'redact: and answers so' "$(grep -c 'xxx.xxx@xxxxxxx.xxx | 2000-01-01' "$work/output")" 2
}

# The passwords of this script, as they are meant. The one in Unicode is nowhere written so.
roads=('P@ssw0rd!' 'N3sted-Secret' "B@ck'slash" 'Qu0ted-Name' 'M@pping-Secret' 'Un1code-Secret')

# Passwords however they are written, and each road by which one comes again.
write_roads_script() {
    cat > "$work/roads.sql" << 'SQL'
CREATE ROLE roads LOGIN PASSWORD 'P@ss'
  'w0rd!';
ALTER ROLE roads PASSWORD /* 'a' /* nested */ 'b' */ 'N3sted-Secret';
ALTER ROLE roads PASSWORD U&'Un\0031code-Secret';
SET standard_conforming_strings = off;
ALTER ROLE roads PASSWORD 'B@ck\'slash';
SET standard_conforming_strings = on;
CREATE TEMP TABLE accounts ("password" text);
UPDATE accounts SET "password" = 'Qu0ted-Name';
CREATE FOREIGN DATA WRAPPER roads; CREATE SERVER roads FOREIGN DATA WRAPPER roads;
CREATE USER MAPPING FOR roads SERVER roads OPTIONS (user 'u', "password" 'M@pping-Secret');
SELECT umoptions FROM pg_user_mappings WHERE usename = 'roads';
DROP FOREIGN DATA WRAPPER roads CASCADE;
DROP ROLE roads;
LISTEN roads; NOTIFY roads, 'login with P@ssw0rd!';
COPY (SELECT 'P@ssw0rd!', 'B@ck''slash') TO STDOUT;
COPY (SELECT 'P@ssw0rd!') TO STDOUT (FORMAT binary);
PREPARE roads AS SELECT $1::text;
EXECUTE roads('P@ssw0rd!');
SELECT set_config('roads.secret', 'P@ssw0rd!', false);
SET application_name = 'P@ssw0rd!';
SELECT 'P@ssw0rd!'::bytea, encode('a:P@ssw0rd!', 'base64'), encode('P@ssw0rd!', 'hex') AS "P@ssw0rd!";
SELECT ARRAY['P@ssw0rd!'], ROW('P@ssw0rd!'), to_json('P@ssw0rd!'::text);
DO $$ BEGIN RAISE NOTICE 'a P@ssw0rd!, and B@ck''slash'; END $$;
SELECT 'P@ssw0rd!'::int;
SQL
}

# A password is found wherever it stands, and what takes its place doesn't tell how long it is.
test_tape_redact_roads() {
    local tape=$work/roads.tape redacted=$work/roads.redacted.tape
    write_roads_script
    record_command "$tape" "$bin/psql" -X -f "$work/roads.sql"
    same 'redact: the recording has each password' \
        "$(python3 -B tests/system/recording_lines.py secrets "$tape" "${roads[@]}" | wc -l)" "$((${#roads[@]} - 1))"
    try "$programs/pg_tape" redact <(cat "$tape") -o "$redacted"
    expect 'redact: what can be read only once is refused' 2 'is no file'
    try "$programs/pg_tape" redact "$tape" -o "$redacted"
    expect 'redact: passwords, without rules' 0
    "$programs/pg_tape" export "$redacted" -o "$work/roads.jsonl"
    same 'redact: no password is left in clear, in hex or in Base64' \
        "$(python3 -B tests/system/recording_lines.py secrets "$redacted:$work/roads.jsonl" "${roads[@]}")" ''
    same 'redact: nor its shape' "$(grep -cE "'[^']*X[x\\\\]" "$work/roads.jsonl")" 0
    sed -n 's/.*"kind":"Query","query":"\(.*\)"}$/\1/; T; s/\\"/"/g; p' "$work/roads.jsonl" > "$work/queries"
    printf '%b\n' "$(< "$work/queries")" > "$work/roads.redacted.sql"
    replay_command "$redacted" '' "$bin/psql" -X -f "$work/roads.redacted.sql"
    expect 'redact: it is replayed to a client that says what is in it' 0 'sessions are replayed'
    same 'redact: and answers so' "$(grep -c 'login with xxxxxxxx' <<< "$replayed")" 1
}

# A parameter, and a column of a statement whose rows come without a description.
test_tape_redact_prepared() {
    local client=("$(command -v python3)" -S -E -B tests/system/replay_client.py) tape=$work/words.tape
    local words=(startup:user=postgres,database=postgres read)
    words+=('parse:p:SELECT email FROM people WHERE phone = $1' describe:S:p sync read)
    record_words "${words[@]}" 'bind::p:+49 30 654321' execute::0 sync read terminate end
    printf '%s\n' '[[redact.parameter]]' 'statement = "WHERE phone"' 'positions = [1]' '[[redact.column]]' 'name = "email"' \
        > "$work/prepared.toml"
    try "$programs/pg_tape" redact "$tape" -r "$work/prepared.toml" -o "$tape"
    same 'redact: a parameter, and a column that is described before' \
        "$status $errors $(grep -cE "$secrets" "$tape")" '0  0'
    fits 'a parameter that is redacted' '' "${words[@]}" 'bind::p:+00 00 000000' execute::0 sync read terminate end
    same 'redact: the row is answered' "$(grep -c 'xxx.xxx@xxxxxxx.xxx' <<< "$replayed")" 1
}

# Rows after a COPY that has a Sync with its Execute and another one after its data, as libpq and tokio-postgres send them; and
# statements whose names a pattern would make the same.
test_tape_redact_followed() {
    local client=("$(command -v python3)" -S -E -B tests/system/replay_client.py) tape=$work/words.tape
    local words=(startup:user=postgres,database=postgres read 'query:CREATE TEMP TABLE copied (number int)' read)
    words+=('parse:s_copy:COPY copied FROM STDIN' 'parse:s_mail:SELECT email FROM people WHERE phone = $1' describe:S:s_mail)
    words+=(sync read bind::s_copy: execute::0 sync count:2 copydata:1 copydone sync read)
    words+=('bind::s_mail:+49 30 654321' execute::0 sync read terminate end)
    record_words "${words[@]}"
    printf '%s\n' '[[redact.text]]' "pattern = 's_(\w+)'" '[[redact.column]]' 'name = "email"' > "$work/followed.toml"
    try "$programs/pg_tape" redact "$tape" -r "$work/followed.toml" -o "$tape"
    same 'redact: a column after a COPY, and names of statements' \
        "$status $errors $(grep -cE 's_copy|s_mail|bob\.fox' "$tape")" '0  0'
    fits 'statements whose names are redacted' '' "${words[@]}"
    same 'redact: their row is answered' "$(grep -c 'xxx.xxx@xxxxxxx.xxx' <<< "$replayed")" 1
}

# A statement whose name another one is refused, and rows that nothing describes.
test_tape_redact_refused() {
    local tape=$work/words.tape words=(startup:user=postgres,database=postgres read)
    words+=('parse:p:SELECT email FROM people WHERE phone = $1' describe:S:p sync read)
    words+=('parse:p:SELECT 1' sync read 'bind::p:+49 30 654321' execute::0 sync read)
    local told=("${words[@]}" terminate end)
    record_words "${told[@]}"
    try "$programs/pg_tape" redact "$tape" -r "$work/prepared.toml" -o "$tape"
    same 'redact: a statement whose name another one is refused' "$status $errors $(grep -cE "$secrets" "$tape")" '0  0'
    words+=('parse:q:SELECT email, 1 FROM people WHERE phone = $1' 'bind::q:+49 30 654321' execute::0 sync read)
    words+=('query:PREPARE r AS SELECT 2, $1::text' read bind::r:a execute::0 sync read terminate end)
    record_words "${words[@]}"
    try "$programs/pg_tape" redact "$tape" -r "$work/prepared.toml" -o "$tape"
    expect 'redact: values that may be secrets are counted' 13 '5 values may be secrets'
    same 'redact: one that is known is masked nonetheless' "$(grep -cE "$secrets" "$tape")" 0
}

# Logins whose passwords are recorded.
test_tape_redact_logins() {
    local user tape=$work/logins.tape
    [ -n "$(sql "SELECT 1 FROM pg_roles WHERE rolname = 'by_scram'")" ] || make_users
    start_taping "$tape" -h 127.0.0.1 --passwords
    for user in by_clear by_md5 by_scram; do
        PGPASSWORD="pass word '1" PGUSER=$user try query_through 'SELECT 7'
    done
    stop_taping "$tape"
    try "$programs/pg_tape" redact "$tape" -o "$work/logged_in.tape"
    expect 'redact: logins' 0
    "$programs/pg_tape" export "$work/logged_in.tape" > "$work/logins.jsonl"
    same 'redact: a password in clear, one by MD5, and what SASL proves' \
        "$(grep -c '"password":"xxxxxxxx"' "$work/logins.jsonl") $(grep -cE 'SASL(Continue|Final)","data":"xxxxxxxx"' \
            "$work/logins.jsonl") $(grep -c 'pass word' "$work/logins.jsonl")" '2 2 0'
}

# Merged, split, cut down and compared: a case a line.
test_tape_edits() {
    local tape=$work/edits.tape number kind
    start_tape "$tape"
    for number in 1 2 3; do
        at_port "$tape_port" "$bin/psql" -X -q -c "SELECT $number" > /dev/null
    done
    stop_tape
    try "$programs/pg_tape" split "$tape" -o "$work/parts"
    expect 'split: a recording a session' 0
    same 'split: their names' "$(ls "$work/parts" | tr '\n' ' ')" '000001.tape 000002.tape 000003.tape '
    try "$programs/pg_tape" merge "$work"/parts/*.tape -o "$work/merged.tape"
    same 'merge: of the parts it is the whole' "$status $(cmp "$tape" "$work/merged.tape" 2>&1)" '0 '
    try "$programs/pg_tape" drop "$tape" 2 -o "$work/two.tape"
    expect 'drop: a session' 0
    read_recording "$work/two.tape" > "$work/records"
    same 'drop: two are left' "$(count_records O) $(count_records C)" '2 2'
    while IFS='|' read -r name wanted words one other; do
        try "$programs/pg_tape" diff "$work/$one" "$work/$other"
        same "diff: $name" "$status $(grep -cF -- "$words" "$work/output")" "$wanted"
    done << 'CASES'
the same|0 0|x|edits.tape|merged.tape
a session less|1 1|connection 3 is in|edits.tape|two.tape
another number|1 1|+ server DataRow {"values":["3"]}|edits.tape|two.tape
another question|1 1|- client Query {"query":"SELECT 1"}|parts/000001.tape|parts/000002.tape
CASES
    try "$programs/pg_tape" drop "$tape" 9 -o "$work/none.tape"
    expect 'drop: a session that is not there' 2 'has no connection 9'
    same 'drop: nothing is written then' "$(ls "$work/none.tape"* 2> /dev/null)" ''
}

# The order of the messages of a recording, and of one in which the second session lacks a message.
test_tape_check() {
    local tape=$work/edits.tape
    try "$programs/pg_tape" check "$tape"
    same 'check: a recording in order' "$status $(sed 's/, [0-9]* messages/, messages/' <<< "$output")" \
        "0 3 sessions, messages followed; 0 sessions break the order, 0 can't be followed to their end"
    "$programs/pg_tape" export "$tape" | grep -v '^{"connection":2,.*"kind":"RowDescription"' > "$work/broken.jsonl"
    "$programs/pg_tape" import "$work/broken.jsonl" -o "$work/broken.tape"
    try "$programs/pg_tape" check "$work/broken.tape"
    same 'check: a session without the columns of its rows' "$status $(wc -l < "$work/output") $(grep -oE \
        '^connection 2, .* DataRow of the server|; what could have come: RowDescription,|1 sessions break' "$work/output" \
        | sed 's/message [0-9]*/message/' | tr '\n' ' ')" \
        '14 2 connection 2, message, DataRow of the server ; what could have come: RowDescription, 1 sessions break '
}

# Exports of recordings, their schema, and lines that were changed.
test_tape_exports() {
    record_command "$work/script.tape" "$bin/psql" -X -f "$work/secret.sql"
    truncate -s -7 "$work/script.tape"
    try "$programs/pg_tape" export "$work/script.tape" -o "$work/script.jsonl"
    same 'export: a recording that is cut' "$status $(tail -n 1 "$work/script.jsonl" | grep -c '"kind":"Cut"')" '0 1'
    try "$programs/pg_tape" import programs/tape/kinds.jsonl -o "$work/kinds.tape"
    expect 'import: messages of all kinds' 0
    same 'export: the same lines' "$("$programs/pg_tape" export "$work/kinds.tape" | cmp - programs/tape/kinds.jsonl 2>&1)" ''
    cat "$work"/*.jsonl programs/tape/kinds.jsonl > "$work/lines"
    try python3 -B tests/system/recording_lines.py schema programs/tape/recording.schema.json "$work/lines"
    if [ "$status" = 3 ]; then
        echo 'left out: lines by their schema, since python3-jsonschema is not there'
    else
        expect "export: lines are those of the schema: $output" 0
    fi
    try python3 -B tests/system/recording_lines.py faults "$programs/pg_tape" "$work/secret.jsonl" "$work/fault.tape"
    expect "import: faults are named: $output" 0
    try "$programs/pg_tape" export "$work/secret.jsonl"
    expect 'export: what is no recording' 10 'is no recording'
    try "$programs/pg_tape" export "$work/no.tape"
    expect 'export: what is not there' 7 "can't be read"
}

# Lines of a recording of a hundred thousand messages.
many_lines() {
    echo '{"kind":"Recording","version":1,"begun":0}'
    echo '{"connection":1,"time":0,"kind":"Opened","address":"[local]"}'
    echo '{"connection":1,"time":0,"side":"client","kind":"StartupMessage","minor":0,"settings":[]}'
    awk 'BEGIN {
        query = "{\"connection\":1,\"time\":%d,\"side\":\"client\",\"kind\":\"Query\",\"query\":\"SELECT %d\"}\n"
        answer = "{\"connection\":1,\"time\":%d,\"side\":\"server\","
        row = answer "\"kind\":\"DataRow\",\"values\":[\"%d\"]}\n"
        ready = answer "\"kind\":\"ReadyForQuery\",\"status\":\"I\"}\n"
        for (at = 1; at <= 33333; at++) {
            printf query, at * 90, at
            printf row, at * 90 + at % 70, at
            printf ready, at * 90 + at % 70
        }
    }'
}

# Lines of a recording of so many rows, of half a kilobyte each.
long_lines() {
    echo '{"kind":"Recording","version":1,"begun":0}'
    echo '{"connection":1,"time":0,"kind":"Opened","address":"[local]"}'
    echo '{"connection":1,"time":0,"side":"client","kind":"StartupMessage","minor":0,"settings":[]}'
    awk -v count="$1" 'BEGIN {
        text = sprintf("%500s", "")
        row = "{\"connection\":1,\"time\":%d,\"side\":\"server\",\"kind\":\"DataRow\",\"values\":[\"%d\",null,\"%s\"]}\n"
        for (at = 1; at <= count; at++) printf row, at / 10, at, text
    }'
}

# Runs a command with so many kilobytes of memory of its own.
with_data() (
    ulimit -d "$1"
    exec "${@:2}"
)

# A recording of 24 MB, and its lines, in half of its size of memory; and the bar of such work.
test_tape_long() {
    local most=12288 tape=$work/long.tape back=$work/long.back lines=$work/long.jsonl size command
    long_lines 45000 > "$lines"
    try with_data $most "$programs/pg_tape" import "$lines" -o "$tape"
    expect "long: lines of $(($(wc -c < "$lines") >> 10)) kB are imported in $most kB" 0
    size=$(($(wc -c < "$tape") >> 10))
    same 'long: the recording is longer than that' "$((size > most + 8192))" 1
    for command in export redact merge; do
        try with_data $most "$programs/pg_tape" $command "$tape" -o "$back"
        expect "long: $command of a recording of $size kB in $most kB" 0
    done
    for command in export redact view; do
        try python3 -B tests/system/recording_lines.py bar "$programs/pg_tape" $command "$tape" "$back"
        expect "long: the bar of $command: $output" 0
    done
    try python3 -B tests/system/recording_lines.py bar "$programs/pg_tape" import "$lines" "$back"
    expect "long: the bar of import: $output" 0
}

# Prints the lines of a recording of so many sessions that begin before any ends.
wide_lines() {
    echo '{"kind":"Recording","version":1,"begun":0}'
    seq "$1" | sed 's/.*/{"connection":&,"time":0,"kind":"Opened","address":"[local]"}/'
    seq "$1" | sed 's/.*/{"connection":&,"time":1,"kind":"Closed","by":"client"}/'
}

# Runs a command with so many descriptors.
with_descriptors() (
    ulimit -n "$1"
    exec "${@:2}"
)

# Where output goes: to links and what they lead to, to a pipe that is closed, and to many files.
test_tape_outputs() {
    local tape=$work/edits.tape link=$work/link folder=$work/wide
    "$programs/pg_tape" export "$tape" > "$work/edits.jsonl"
    ln -s /proc/self/fd/1 "$link"
    try "$built/pg_tape" export "$tape" -o "$link"
    same 'output: a link to standard output' "$status $(readlink "$link") $(cmp "$work/output" "$work/edits.jsonl" 2>&1)" \
        '0 /proc/self/fd/1 '
    cp "$tape" "$work/linked.tape"
    ln -sf linked.tape "$link"
    try "$programs/pg_tape" drop "$link" 2 -o "$link"
    same 'output: a link to a recording' "$status $(readlink "$link") $(cmp "$work/linked.tape" "$work/two.tape" 2>&1)" \
        '0 linked.tape '
    "$built/pg_tape" export "$work/long.tape" 2> "$work/errors" | head -n 1 > "$work/output"
    same 'output: a pipe that is closed' "${PIPESTATUS[0]} $(cat "$work/errors")" '7 '
    wide_lines 100 > "$work/wide.jsonl"
    "$programs/pg_tape" import "$work/wide.jsonl" -o "$work/wide.tape"
    try with_descriptors 20 "$built/pg_tape" split "$work/wide.tape" -o "$folder"
    expect 'split: more sessions at the same time than descriptors' 0
    "$programs/pg_tape" merge "$folder"/*.tape -o "$work/merged.tape"
    same 'split: they are whole' "$("$programs/pg_tape" export "$work/merged.tape" | sort | cmp - <(sort "$work/wide.jsonl") 2>&1)" ''
    test_synced_output "$work/linked.tape"
}

# A file that takes the place of another is on its disk before.
test_synced_output() {
    if ! strace -o "$work/calls" true 2> /dev/null; then
        echo 'left out: that output is on its disk before it has its name (apt-get install strace)'
        return
    fi
    try strace -f -o "$work/calls" -e trace=fsync,rename "$built/pg_tape" drop "$1" 1 -o "$1"
    same 'output: on its disk before it takes the place of another' \
        "$status $(grep -o -e 'fsync(' -e 'rename(' "$work/calls" | tr -d '\n')" '0 fsync(rename('
}

# The page of a recording: in a browser where there is one, else by its data.
test_tape_view() {
    local name
    many_lines > "$work/many.jsonl"
    grep -v '"kind":"Cut"' programs/tape/kinds.jsonl > "$work/kinds.jsonl"
    for name in many kinds; do
        try "$programs/pg_tape" import "$work/$name.jsonl" -o "$work/$name.tape"
        expect "view: messages are imported, of $name" 0
    done
    for name in secret many kinds; do
        try "$programs/pg_tape" view "$work/$name.tape" -o "$work/page.html"
        expect "view: a page is written, of $name" 0
        mkdir -p "out/pictures/$name"
        try python3 -B tests/system/recording_page.py "$work/page.html" "$work/$name.jsonl" "out/pictures/$name"
        expect "view: $output" 0
        ! grep -q 'no browser is there' <<< "$output" || echo 'left out: the page of a recording in a browser (apt-get install chromium)'
    done
    cp "$work/kinds.tape" "$work/{{data}}"
    "$programs/pg_tape" view "$work/{{data}}" -o "$work/named.html"
    same 'view: a recording with the name of a part of the page' "$(sed 's/{{data}}/kinds.tape/' "$work/named.html" | cmp - "$work/page.html" 2>&1)" ''
}

test_recordings() {
    test_tape_redact
    test_tape_redact_roads
    test_tape_redact_prepared
    test_tape_redact_refused
    test_tape_redact_followed
    test_tape_redact_logins
    test_tape_edits
    test_tape_check
    test_tape_exports
    test_tape_long
    test_tape_outputs
    test_tape_view
}
