# Real clients, frameworks, pools and what stands between: recorded with a server, and replayed without. Sourced by `run`.

# Whether a module of Debian's Python is there; else says what is left out.
has_module() {
    /usr/bin/python3 -c "import $1" 2> /dev/null && return
    echo "left out: replays of $1, since there is no python3-$1"
    return 1
}

test_real_python() {
    local python=/usr/bin/python3 number
    has_module django && both_ways django '--any-literal time --any-literal uuid' $python -B tests/system/real/django_suite.py \
        && recorded_well django '15 tests, 0 errors, 0 failures'
    has_module psycopg && both_ways psycopg-pipeline '' $python -B tests/system/real/psycopg3_pipeline.py \
        && recorded_well psycopg-pipeline '22012'
    has_module pg8000 && both_ways pg8000 '' $python -B tests/system/real/pg8000_says.py \
        && recorded_well pg8000 Error
    if has_module sqlalchemy; then
        record_command "$work/sqlalchemy.tape" $python -B tests/system/real/sqlalchemy_pool.py
        recorded_well sqlalchemy "(39, 'word 39')"
        for number in 1 2; do
            again_in_another_order sqlalchemy "$number" $python -B tests/system/real/sqlalchemy_pool.py
        done
    fi
    if has_module asyncpg; then
        record_command "$work/asyncpg-pool.tape" $python -B tests/system/real/asyncpg_pool.py
        recorded_well asyncpg-pool '(29, 30, 29, 435)'
        for number in 1 2; do
            again_in_another_order asyncpg-pool "$number" $python -B tests/system/real/asyncpg_pool.py
        done
    fi
}

# Tests that a client was recorded whose output has some words.
recorded_well() {
    if ! grep -q -F -e "$2" "$work/$1.tape.output"; then
        bad "record: $1" "no '$2' in: $(head -c 1000 "$work/$1.tape.output")"
    fi
}

# Replays what is recorded of a pool, whose transactions come in another order each time.
again_in_another_order() {
    replay_command "$work/$1.tape" --strict "${@:3}"
    expect "replay: $1, another order, $2" 0 'sessions are replayed'
    same "replay: $1, another order, $2, the same output" "$replayed" "$(cat "$work/$1.tape.output")"
}

test_real_node() {
    local number
    if ! node -e 'require("pg")' 2> /dev/null; then
        echo 'left out: replays of node-pg, without node or its module pg (apt-get install node-pg)'
        return
    fi
    record_command "$work/node-pg.tape" node tests/system/real/node_pool.js
    recorded_well node-pg '[29,30,0]'
    for number in 1 2; do
        again_in_another_order node-pg "$number" node tests/system/real/node_pool.js
    done
}

# Builds a program of tests/system/real in Go of Debian's packages.
build_go() {
    (cd "tests/system/real/go_$1" && GO111MODULE=off GOPATH=/usr/share/gocode GOFLAGS= \
        go build -o "$work/go_$1" .) > "$work/output" 2>&1
}

test_real_go() {
    local name number
    for name in pgx pq; do
        if ! command -v go > /dev/null || ! build_go "$name"; then
            echo "left out: replays of Go's $name, without go or its packages (apt-get install golang-go golang-github-jackc-pgx-v4-dev golang-github-lib-pq-dev)"
            continue
        fi
        record_command "$work/go-$name.tape" "$work/go_$name"
        recorded_well "go-$name" "division by zero"
        for number in 1 2; do
            again_in_another_order "go-$name" "$number" "$work/go_$name"
        done
    done
}

test_real_java() {
    local classes=/usr/share/java/postgresql.jar:$work/java
    if ! command -v java javac > /dev/null || [ ! -e /usr/share/java/postgresql.jar ] \
        || ! javac -cp "$classes" -d "$work/java" tests/system/real/java/Says.java > "$work/output" 2>&1; then
        echo 'left out: replays of PgJDBC, without javac or the driver (apt-get install default-jdk-headless libpostgresql-jdbc-java)'
        return
    fi
    both_ways pgjdbc '' java -cp "$classes" Says
    recorded_well pgjdbc 251
}

# Starts pgbouncer before a port. Leaves its process in $bouncing, its port in $bouncer_port.
start_bouncer() {
    bouncer_port=$(free_port)
    mkdir -p "$work/bouncer"
    cat > "$work/bouncer/ini" << INI
[databases]
* = host=127.0.0.1 port=$1
[pgbouncer]
listen_addr = 127.0.0.1
listen_port = $bouncer_port
unix_socket_dir =
pidfile = $work/bouncer/pid
auth_type = trust
auth_file = $work/bouncer/users
pool_mode = transaction
admin_users = postgres
default_pool_size = 3
server_idle_timeout = 3600
server_lifetime = 3600
INI
    echo '"postgres" ""' > "$work/bouncer/users"
    chown -R "${owner:-$(id -un)}" "$work/bouncer"
    chmod a+rx "$work"
    as_owner pgbouncer -q "$work/bouncer/ini" > "$work/bouncer.log" 2>&1 &
    bouncing=$!
    await eval "(exec 3<> /dev/tcp/127.0.0.1/$bouncer_port) 2> /dev/null"
}

# What the pooler says to an administrator's words.
ask_bouncer() {
    "$bin/psql" -h 127.0.0.1 -p "$bouncer_port" -U postgres -X -w -Atc "$1" pgbouncer
}

has_no_server() {
    [ -z "$(ask_bouncer 'SHOW SERVERS')" ]
}

# Stops the pooler once it has ended its connections, which it does by a Terminate only where they were idle for a while.
stop_bouncer() {
    ask_bouncer 'SET server_idle_timeout = 1' > /dev/null
    await has_no_server
    kill "$(cat "$work/bouncer/pid")"
    reap "$bouncing"
}

# What passes through a pooler to a port.
through_bouncer() {
    start_bouncer "$1"
    at_port "$bouncer_port" bash -c "pgbench_without_times -M simple -c 6 -j 2 -t 10" 2>&1 | tr -d '\0'
    stop_bouncer
}

test_real_bouncer() {
    if ! command -v pgbouncer > /dev/null || [ ! -x "$bin/pgbench" ]; then
        echo 'left out: replays with pgbouncer between, without pgbouncer or pgbench (apt-get install pgbouncer postgresql)'
        return
    fi
    "$bin/pgbench" -i -q -s 1 2> /dev/null
    start_tape "$work/bouncer.tape"
    through_bouncer "$tape_port" > "$work/bouncer.recorded"
    stop_tape
    same 'record: pgbouncer between' "$(grep -o '60/60' "$work/bouncer.recorded")" 60/60
    start_replay "$work/bouncer.tape"
    through_bouncer "$replay_port" > "$work/bouncer.replayed"
    stop_replay
    same 'replay: pgbouncer between, the same output' "$(cat "$work/bouncer.replayed")" "$(cat "$work/bouncer.recorded")"
    same 'replay: pgbouncer between, no difference' "$(grep -c "isn't the recorded one" "$work/errors.replay")" 0
}

# Runs tests of the example in a folder.
run_example() {
    (cd "$1" && at_port "$replay_port" /usr/bin/python3 -B -m unittest "${@:2}")
}

# The example's tests, on the recording that is kept of them.
test_replay_example() {
    local folder=programs/examples/recorded taken
    if ! /usr/bin/python3 -c 'import psycopg2' 2> /dev/null; then
        echo 'left out: the tests of the example on its recording, since there is no python3-psycopg2'
        return
    fi
    start_replay $folder/tapes/test_people.tape
    try run_example $folder
    taken=$(grep -o 'Ran [0-9]* tests in [0-9.]*s' <<< "$errors")
    expect "replay: the example, $taken" 0 'Ran 10 tests'
    same 'replay: the example takes less than a second' "${taken##* }" "0${taken##* 0}"
    end_replay
    expect 'replay: the example, each session' 0 '10 of 10 sessions are replayed'
    start_replay $folder/tapes/test_people.tape --any-order --again
    try run_example $folder test_people.PeopleTest.test_pays test_people.PeopleTest.test_adds
    expect 'replay: two tests of the example, in another order' 0 'Ran 2 tests'
    try run_example $folder
    expect 'replay: the example again' 0 'Ran 10 tests'
    stop_replay
    cp -r $folder "$work/example"
    sed -i 's/coins DESC, name/coins DESC/' "$work/example/people.py"
    start_replay $folder/tapes/test_people.tape --any-order --go-on
    try run_example "$work/example"
    expect 'replay: a program that changed' 1 'errors=3'
    end_replay
    expect 'replay: where it changed' 11 '7 of 10 sessions are replayed'
}

test_replay_real() {
    [ -n "$(sql "SELECT 1 FROM pg_roles WHERE rolname = 'by_md5'")" ] || make_users
    export -f pgbench_without_times
    export bin
    test_real_python
    test_real_node
    test_real_go
    test_real_java
    test_real_bouncer
}
