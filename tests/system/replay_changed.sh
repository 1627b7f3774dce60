# Recordings that others change while they are served. Sourced by `run`.

# The offset of the last record of a kind in a recording.
last_record() {
    read_recording "$1" | awk -v kind="$2" '$4 == kind { at = $1 } END { print at }'
}

# Tests that pg_replay ends and says why, and that its client got nothing but what was recorded.
serves_no_other() {
    end_replay
    expect "replay: $1" 10 'was changed while it was served'
    case "$(cat "$work/first.tape.output")" in
    "$(sed -E '/^(end|broken)/,$d' <<< "$replayed")"*) ok "replay: $1, the client gets nothing else" ;;
    *) bad "replay: $1, the client gets" "${replayed:0:300}" ;;
    esac
}

# Changes a recording by a command once it is served, before its client comes.
changed_before() {
    cp "$work/first.tape" "$work/served.tape"
    start_replay "$work/served.tape"
    "${@:2}"
    replayed=$(at_port "$replay_port" "${client[@]}" "${session[@]}" 2>&1 | tr -d '\0')
    serves_no_other "$1"
}

# The same once the client has its first answers.
changed_between() {
    cp "$work/first.tape" "$work/served.tape"
    start_replay "$work/served.tape"
    at_port "$replay_port" "${client[@]}" "${session[@]:0:2}" sleep:1 "${session[@]:2}" > "$work/replayed" 2>&1 &
    local waiting=$!
    await grep -q '^Z' "$work/replayed"
    "${@:2}"
    wait "$waiting"
    replayed=$(cat "$work/replayed")
    serves_no_other "$1"
}

overwrite() {
    cat "$1" > "$work/served.tape"
}

cut_to() {
    truncate -s "$1" "$work/served.tape"
}

# Writes bytes, as printf takes them, at an offset.
write_at() {
    printf "$2" | dd of="$work/served.tape" bs=1 seek="$1" conv=notrunc status=none
}

test_replay_changed() {
    local session at size
    session=("$as_postgres" read "query:SELECT repeat('x', 30000)" read terminate end)
    record_command "$work/second.tape" "${client[@]}" "${session[@]}"
    session=("$as_postgres" read 'query:SELECT 1' read 'query:SELECT 2' read terminate end)
    record_command "$work/first.tape" "${client[@]}" "${session[@]}"
    at=$(last_record "$work/first.tape" B)
    size=$(stat -c %s "$work/first.tape")
    changed_before 'a recording that is written over' overwrite "$work/second.tape"
    changed_before 'a recording that is cut to nothing' cut_to 0
    changed_before 'a recording whose last answer is cut' cut_to $((at + 30))
    changed_before 'a recording with a changed byte' write_at $((at + 21 + 40)) '!'
    changed_between 'a recording that is written over beside a client' overwrite "$work/second.tape"
    changed_between 'a recording that is cut beside a client' cut_to $((at + 30))
    cp "$work/first.tape" "$work/served.tape"
    start_replay "$work/served.tape"
    write_at "$at" '\0\0\135\300'
    replayed=$(at_port "$replay_port" "${client[@]}" "${session[@]}" 2>&1 | tr -d '\0')
    end_replay
    same 'replay: another length of a record is not looked at' "$status $replayed" "0 $(cat "$work/first.tape.output")"
}
