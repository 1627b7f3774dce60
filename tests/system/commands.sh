# Commands that pg_record and pg_replay run, with one status. Sourced by `run`.

# Runs psql, in a command of pg_record and pg_replay as well, to a query whose values it prints.
psql=(psql -X -q -A -t)

# Runs pg_record on a new file, or pg_replay, with its command and options. No command may take longer.
record_by_command() {
    try timeout 60 env PATH="$bin:$PATH" "$programs/pg_record" -h 127.0.0.1 -o "$@"
}

replay_by_command() {
    try timeout 60 env PATH="$bin:$PATH" "$programs/pg_replay" "$@"
}

# What is in a recording: whether it can be read, and how many sessions it has, and has the end of.
sessions_in() {
    if read_recording "$1" > "$work/records"; then
        echo "$(count_records O) $(count_records C)"
    else
        echo "it can't be read: $(cat "$work/errors.read")"
    fi
}

test_recorded_command() {
    local tape=$work/command.tape
    record_by_command "$tape" -- "${psql[@]}" -c 'SELECT 42'
    same 'a command: its status, and nothing but its own output' "$status $output" '0 42'
    expect 'a command: what is recorded' 0 '1 session is recorded'
    same 'a command: the recording has its session' "$(sessions_in "$tape")" '1 1'
    cp "$tape" "$work/command.old"
    record_by_command "$tape" -- touch "$work/is_run"
    expect 'a command: no recording is written over' 9 'has something in it: --replace'
    same 'a command: it is not run then' "$(ls "$work/is_run" 2> /dev/null)" ''
    record_by_command "$tape" --replace -- no_such_command
    expect 'a command that is not there' 127 'no_such_command can'
    record_by_command "$tape" --replace -- /dev/null
    expect 'a command that can not be run' 126 '/dev/null can'
    record_by_command "$tape" --replace -- true
    expect 'a command that does not connect' 0 'no session is recorded'
    record_by_command "$tape" --replace -p "$(free_port)" -- "${psql[@]}" -c 'SELECT 43'
    expect 'a command whose server is away' 2 'Connection refused'
    verdict 'the recording stays where nothing is recorded' "$(cmp "$tape" "$work/command.old" 2>&1)"
    record_by_command "$tape" --replace -- sh -c 'psql -X -q -A -t -c "SELECT 44" -c "SELECT 45"; exit 37'
    same 'a command that fails: its status' "$status ${output//$'\n'/ }" '37 44 45'
    replay_by_command "$tape" -- "${psql[@]}" -c 'SELECT 44' -c 'SELECT 45'
    same 'its recording takes the place of the old one' "$status ${output//$'\n'/ }" '0 44 45'
    same 'no other file is left' "$(ls "$tape"?* 2> /dev/null)" ''
    same 'nobody else may read it' "$(stat -c %a "$tape")" 600
}

# What a command finds of an environment that leads elsewhere, and whether psql finds its way.
test_command_environment() {
    local elsewhere tape=$work/environment.tape
    elsewhere=(env PGHOSTADDR=192.0.2.1 PGSERVICE=none PGSSLMODE=verify-full PGSSLROOTCERT=system PGSSLNEGOTIATION=direct
        PGGSSENCMODE=require PGCHANNELBINDING=require PGREQUIREAUTH=scram-sha-256
        DATABASE_URL='postgres://postgres@192.0.2.1/postgres?sslmode=require')
    record_by_command "$tape" -- "${psql[@]}" -c 'SELECT 46'
    try timeout 60 "${elsewhere[@]}" PATH="$bin:$PATH" "$programs/pg_replay" "$tape" -- sh -c \
        'psql -X -q -A -t -c "SELECT 46"; psql -X -q -A -t -c "SELECT 46" "$DATABASE_URL"'
    same 'a command finds the replay, whatever the environment was' "$status ${output//$'\n'/ }" '0 46 46'
    replay_by_command "$tape" --folder "$work" 5499 -- sh -c 'echo "$PGHOST $PGPORT"; psql -X -q -A -t -c "SELECT 46"'
    same 'a command finds the socket of a folder' "$status ${output//$'\n'/ }" "0 $work 5499 46"
    replay_by_command "$tape" --listen "$work/socket" -- true
    expect 'a socket of another name is found by no command' 1 'finds no socket'
    try timeout 60 "$programs/pg_replay" "$tape" -- cat <<< 'some words'
    same 'a command reads the standard input' "$status $output" '0 some words'
}

test_replayed_command() {
    local tape=$work/replayed.tape each
    record_by_command "$tape" -- sh -c 'for each in 1 2 3; do psql -X -q -A -t -c "SELECT $each"; done'
    replay_by_command "$tape" -- sh -c 'for each in 3 1 2 3; do psql -X -q -A -t -c "SELECT $each"; done'
    same 'a command says its sessions in any order, and again' "$status ${output//$'\n'/ }" '0 3 1 2 3'
    replay_by_command "$tape" --again=false -- sh -c 'for each in 1 1; do psql -X -q -A -t -c "SELECT $each"; done'
    expect 'a command that says a session twice, which is to be said once' 11 'message 2'
    replay_by_command "$tape" -- sh -c 'psql -X -c "SELECT 4" 2> /dev/null; psql -X -q -A -t -c "SELECT 2"'
    same 'a difference of a command that goes on: the status' "$status $output" '11 2'
    expect 'a difference of a command that goes on: what differs' 11 '[-1-]{+4+}'
    for each in 'exit 37' 'kill -9 $$'; do
        replay_by_command "$tape" -- sh -c "$each"
        same "a command's own status: $each" "$status" "$([ "$each" = 'exit 37' ] && echo 37 || echo 137)"
    done
    replay_by_command "$tape" -- no_such_command
    expect 'a replay: a command that is not there' 127 'no_such_command can'
    replay_by_command "$tape" -- /dev/null
    expect 'a replay: a command that can not be run' 126 '/dev/null can'
    replay_by_command "$work/no.tape" -- true
    expect 'a replay without a recording' 7 "no.tape can't be read"
    replay_by_command "$tape" --record-missing -h 127.0.0.1 -p "$PGPORT" -- "${psql[@]}" -c 'SELECT 5'
    expect 'a command whose session is missing' 0 '1 sessions are new'
    replay_by_command "$tape" -- "${psql[@]}" -c 'SELECT 5'
    same 'a command whose session was missing' "$status $output" '0 5'
}

# Sessions that nothing tells apart, with other answers.
test_doubtful_command() {
    local tape=$work/doubtful.tape script='for each in 1 2; do psql -X -q -A -t -c "SELECT nextval('"'doubtful'"')"; done'
    sql 'CREATE SEQUENCE doubtful' > /dev/null
    record_by_command "$tape" -- sh -c "$script"
    same 'a doubtful command, recorded' "$status ${output//$'\n'/ }" '0 1 2'
    replay_by_command "$tape" -- sh -c "$script || true"
    expect 'a command that may mean either of two answers' 12 "$doubt"
    replay_by_command "$tape" --strict=false -- sh -c "$script"
    expect 'a command that lets the program choose' 0 "pg_replay: note: "
}

# Starts pg_record with a command that waits for signals, sends it one, and leaves its status in $status.
signal_command() {
    "$programs/pg_record" -h 127.0.0.1 -o "$work/signalled.tape" --replace -- sh -c "
        $2
        '$bin/psql' -X -q -c 'SELECT 1' > /dev/null
        touch '$work/is_ready'
        while :; do sleep 0.05; done" > "$work/output" 2> "$work/errors" &
    local recording=$!
    await ls "$work/is_ready"
    rm -f "$work/is_ready"
    kill "-$1" "$recording"
    reap "$recording"
    status=$?
    same "$1 of a command: the file is finished" "$(sessions_in "$work/signalled.tape")" '1 1'
}

test_signalled_command() {
    local signal
    for signal in TERM:143 HUP:129 USR1:138; do
        signal_command "${signal%:*}" :
        same "$signal ends a command" "$status" "${signal#*:}"
    done
    signal_command TERM 'trap "echo caught; exit 5" TERM'
    same 'a command that catches a signal' "$status $(cat "$work/output")" '5 caught'
    rm -f "$work/pressed.tape"
    try timeout 60 python3 -B tests/system/interrupted.py "$programs/pg_record" -h 127.0.0.1 -o "$work/pressed.tape" -- \
        sh -c "trap 'count=x\$count' INT; '$bin/psql' -X -q -c 'SELECT 1' > /dev/null; echo ready
            for each in 1 2 3 4 5 6 7 8 9 10; do sleep 0.1; done; echo \"caught \$count\"; exit 6"
    same 'Ctrl-C reaches the command once, and the program as well' "$(grep -o 'caught.*\|^status.*' "$work/output" | tr '\n' ' ')" \
        'caught x status 6 '
    same 'Ctrl-C: the file is finished' "$(sessions_in "$work/pressed.tape")" '1 1'
    try timeout 60 python3 -B tests/system/interrupted.py "$programs/pg_replay" "$work/pressed.tape" -- \
        sh -c 'echo ready; sleep 30'
    same 'Ctrl-C ends a command of a replay' "$(tail -n 1 "$work/output")" 'status 130'
}

# A command that ends before what it has begun, a client that has nothing to say any more.
test_left_children() {
    local tape=$work/left.tape begun=$SECONDS script='{ echo "SELECT 2;"; sleep 20; } | psql -X > /dev/null 2>&1 &
        psql -X -q -A -t -c "SELECT 1"; sleep 0.5'
    record_by_command "$tape" -- sh -c "$script"
    same 'a command that leaves a child' "$status $output" '0 1'
    same 'what the child said is recorded' "$(sessions_in "$tape" | cut -d ' ' -f 1)" 2
    replay_by_command "$tape" -- sh -c "$script"
    same 'a replay: a command that leaves a child' "$status $output" '0 1'
    verdict 'children that are left are not waited for' \
        "$([ $((SECONDS - begun)) -lt 20 ] || echo "$((SECONDS - begun)) seconds")"
}

test_psycopg_command() {
    local tape=$work/psycopg.tape python=/usr/bin/python3
    if ! "$python" -c 'import psycopg' 2> /dev/null; then
        echo 'left out: a command of psycopg (apt-get install python3-psycopg)'
        return
    fi
    record_by_command "$tape" -- "$python" -B tests/system/real/psycopg3_says.py
    expect 'a command of psycopg, recorded' 0 '2 sessions are recorded'
    replay_by_command "$tape" -- "$python" -B tests/system/real/psycopg3_says.py
    expect 'a command of psycopg, replayed' 0 '2 of 2 sessions are replayed'
}

# Records and replays a client that finds the server by its environment, and tests what it prints.
prints_both_ways() {
    local tape=$work/$1.tape
    record_by_command "$tape" -- "${@:3}"
    same "a command of $1, recorded" "$status ${output//$'\n'/ }" "0 $2"
    replay_by_command "$tape" -- "${@:3}"
    same "a command of $1, replayed" "$status ${output//$'\n'/ }" "0 $2"
}

test_languages_of_commands() {
    local real=tests/system/real jar=/usr/share/java/postgresql.jar
    if command -v go > /dev/null && build_go environment; then
        prints_both_ways go '42 42' "$work/go_environment"
    else
        echo 'left out: a command of Go (apt-get install golang-go golang-github-jackc-pgx-v4-dev golang-github-lib-pq-dev)'
    fi
    if node -e 'require("pg")' 2> /dev/null; then
        prints_both_ways node 42 node $real/node_environment.js
    else
        echo 'left out: replays of node-pg by a command, without node or its module pg (apt-get install node-pg)'
    fi
    if command -v javac > /dev/null && [ -e $jar ]; then
        prints_both_ways java 42 java -cp $jar $real/java/Environment.java
    else
        echo 'left out: a command of PgJDBC (apt-get install default-jdk-headless libpostgresql-jdbc-java)'
    fi
}

test_commands() {
    test_recorded_command
    test_command_environment
    test_replayed_command
    test_doubtful_command
    test_signalled_command
    test_left_children
    test_psycopg_command
    test_languages_of_commands
}
