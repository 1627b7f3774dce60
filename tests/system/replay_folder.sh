# Unix sockets on which pg_record and pg_replay listen, where libpq looks for a server. Sourced by `run`.

# Starts a program that listens in a folder. Leaves its process in $in_folder.
begin_in_folder() {
    : > "$work/errors.folder"
    "$@" 2> "$work/errors.folder" &
    in_folder=$!
    await has_begun "$work/errors.folder" "$in_folder"
}

# What psql answers in a folder.
answer_in_folder() {
    PGHOST=$1 PGPORT=6000 timeout 60 "$bin/psql" -X -A -t -c 'SELECT 6 * 7' 2>&1
}

end_in_folder() {
    reap "$in_folder"
    status=$?
    errors=$(cat "$work/errors.folder")
}

test_record_in_folder() {
    local sockets=$1 tape=$2
    local recording=("$programs/pg_record" -h 127.0.0.1 -p "$PGPORT" -o)
    begin_in_folder "${recording[@]}" "$tape" --folder "$sockets" 6000
    same 'folder: a session over a Unix socket is recorded' "$(answer_in_folder "$sockets")" 42
    try "${recording[@]}" "$tape.2" --folder "$sockets" 6000
    expect 'folder: no second program on a socket' 2 "can't be used: Address already in use"
    sleep 0.1
    kill "$in_folder"
    end_in_folder
    same 'folder: SIGTERM' "$status" 143
    same 'folder: the socket is taken away' "$(ls -A "$sockets")" ''
    same 'folder: the client is named as in a log' "$(grep -o -a -F '[local]' "$tape")" '[local]'
}

test_replay_in_folder() {
    local sockets=$work/sockets tape=$work/folder.tape
    local replaying=("$programs/pg_replay" --folder "$sockets" "$tape")
    mkdir "$sockets"
    test_record_in_folder "$sockets" "$tape"
    begin_in_folder "${replaying[@]}" 6000
    same 'folder: a session over a Unix socket is replayed' "$(answer_in_folder "$sockets")" 42
    end_in_folder
    expect 'folder: all of it' 0 '1 of 1 sessions are replayed'
    same 'folder: the socket of a replay is taken away' "$(ls -A "$sockets")" ''
    begin_in_folder "${replaying[@]}" 6000
    kill -9 "$in_folder"
    end_in_folder 2> /dev/null
    same 'folder: one that is killed leaves its socket' "$(ls -A "$sockets")" .s.PGSQL.6000
    begin_in_folder "${replaying[@]}" 6000
    same 'folder: the next one takes its place' "$(answer_in_folder "$sockets")" 42
    end_in_folder
    test_refused_folders "$sockets" "$tape"
}

test_refused_folders() {
    local sockets=$1 tape=$2
    echo text > "$sockets/.s.PGSQL.6000"
    try "$programs/pg_replay" --folder "$sockets" "$tape" 6000
    expect 'folder: a file that is no socket' 2 "can't be used: Address already in use"
    same 'folder: that file is left alone' "$(cat "$sockets/.s.PGSQL.6000")" text
    try "$programs/pg_replay" --folder "$sockets/none" "$tape" 6000
    expect 'folder: one that is not there' 2 "can't be used: No such file or directory"
    try "$programs/pg_replay" --folder "$(printf '/%0120d' 0)" "$tape" 6000
    expect 'folder: a name that is too long' 2 'is too long'
    try "$programs/pg_replay" --folder "$sockets" "$tape" 0
    expect 'folder: a port is named' 1 'usage: pg_replay'
    try "$programs/pg_record" -h 127.0.0.1 -p "$PGPORT" --folder "$sockets" 0
    expect 'folder: a port is named to record' 1 'usage: pg_record'
}
