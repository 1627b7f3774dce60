# Servers that break the protocol, by fake_server. No PostgreSQL is needed. Sourced by `run`.

# A sanitizer's finding is no status of ours.
export ASAN_OPTIONS=exitcode=99 LSAN_OPTIONS=exitcode=98 UBSAN_OPTIONS=exitcode=97

logged_in='R\0\0\0\10\0\0\0\0Z\0\0\0\5I'
listens='C\0\0\0\13LISTEN\0'
ready='Z\0\0\0\5I'
waits_for_rows='G\0\0\0\11\0\0\1\0\0'

# Starts a server that says the bytes of a file, and leaves its port in $fake_port.
start_fake() {
    : > "$work/port"
    "$programs/fake_server" "$work/said" "$work/heard" > "$work/port" 2> "$work/errors.fake" &
    faking=$!
    await test -s "$work/port" || bad 'start of a fake server' "$(cat "$work/errors.fake")"
    fake_port=$(cat "$work/port")
}

# Runs a client against a server that says the bytes of a file.
against_file() {
    start_fake
    PGHOST=127.0.0.1 PGPORT=$fake_port PGUSER=ann PGDATABASE=ann PGPASSWORD=pw try timeout 60 "$@"
    reap "$faking"
}

# The same for bytes that printf writes.
against() {
    printf "$1" > "$work/said"
    against_file "${@:2}"
}

# Tests what a listener makes of some bytes.
listen_to() {
    against "$2" "$programs/pg_listen" channel
    expect "hostile: $1" "$3" "${4:-}"
}

test_hostile_logins() {
    listen_to 'hangs up' '' 5 closed
    listen_to 'a web server' 'HTTP/1.1 400 Bad Request\r\n\r\n' 6 'too long'
    listen_to 'an unknown tag' 'v\0\0\0\4' 6 'unknown message type: 118'
    listen_to 'a length below 4' 'R\0\0\0\3' 6 'bad message length: 3'
    listen_to 'a method of two bytes' 'R\0\0\0\6\0\0' 6 'type R may not come'
    listen_to 'an unknown method' 'R\0\0\0\10\0\0\0\7' 3 'authentication method: 7'
    listen_to 'a salt of two bytes' 'R\0\0\0\12\0\0\0\5\1\2' 6 'expected 4 bytes'
    listen_to 'ready before a login' "$ready" 6 'type Z may not come'
    listen_to 'a status that is none' 'R\0\0\0\10\0\0\0\0Z\0\0\0\5Q' 6 'type Z may not come'
    listen_to 'accepts twice' 'R\0\0\0\10\0\0\0\0R\0\0\0\10\0\0\0\0' 6 'type R may not come'
    listen_to 'asks for the password twice' 'R\0\0\0\14\0\0\0\5abcdR\0\0\0\10\0\0\0\3' 6 'type R may not come'
    listen_to 'an error without a field' 'E\0\0\0\5\0' 3 'no reason'
    listen_to 'an error without an end' 'E\0\0\0\10SERR' 3 'no reason'
    listen_to 'an error that a terminal would obey' 'E\0\0\0\16M\33[2Jred\0\0' 3 '?[2Jred'
    listen_to 'an error with a control character above ASCII' 'E\0\0\0\14M\302\233red\0\0' 3 '??red'
    listen_to 'a message of two gigabytes' 'N\177\377\377\377' 6 'too long'
}

test_hostile_scram() {
    local offer='R\0\0\0\27\0\0\0\12SCRAM-SHA-256\0\0'
    listen_to 'no mechanism' 'R\0\0\0\11\0\0\0\12\0' 3 'no SCRAM-SHA-256'
    listen_to 'another mechanism' 'R\0\0\0\15\0\0\0\12ABC\0\0' 3 'no SCRAM-SHA-256'
    listen_to 'accepts without a proof' "$offer"'R\0\0\0\10\0\0\0\0' 6 'type R may not come'
    listen_to 'a challenge before an offer' 'R\0\0\0\36\0\0\0\13r=abcdef,s=AQID,i=4096' 6 'may not come'
    listen_to 'the nonce of another' "$offer"'R\0\0\0\36\0\0\0\13r=abcdef,s=AQID,i=4096' 6 "client's"
    listen_to 'a challenge without a salt' "$offer"'R\0\0\0\20\0\0\0\13r=abcdef' 6 'salt'
    listen_to 'a challenge that is no list' "$offer"'R\0\0\0\11\0\0\0\13r' 6 'SASL item'
    listen_to 'a verifier before a challenge' "$offer"'R\0\0\0\16\0\0\0\14v=AQID' 6 'may not come'
    listen_to 'a password in clear instead' "$offer"'R\0\0\0\10\0\0\0\3' 6 'may not come'
}

test_hostile_sessions() {
    listen_to 'a notification of two bytes' "$logged_in"'A\0\0\0\6\0\0' 6 'expected 4 bytes'
    listen_to 'a channel without an end' "$logged_in"'A\0\0\0\12\0\0\0\1ab' 6 'expected NUL'
    listen_to 'a row' "$logged_in"'D\0\0\0\6\0\0' 6 'type D may not come'
    listen_to 'ready twice' "$logged_in$ready$ready" 6 'type Z may not come'
    against "$logged_in$listens${ready}A\0\0\0\16\0\0\0\7a\033\0b\n\0" "$programs/pg_listen" -n 1 channel
    same 'a notification' "$status $output" $'0 a\\x1b\t7\tb\\n'
    against "$logged_in$listens${ready}A\0\0\0\21\0\0\0\7a\0\233\342\200\256\303\274\0" "$programs/pg_listen" -n 1 channel
    same 'a notification of bytes that a terminal obeys' "$status $output" $'0 a\t7\t\\x9b\\xe2\\x80\\xae\u00fc'
    same 'the session is ended' "$(tail -c 5 "$work/heard" | od -An -tx1 | tr -d ' ')" 5800000004
}

# Tests what a load of a row makes of some bytes.
load_to() {
    against "$logged_in$2" "$programs/pg_copy" t "$work/row"
    expect "hostile load: $1" "$3" "${4:-}"
}

test_hostile_loads() {
    printf '1\n' > "$work/row"
    load_to 'hangs up' '' 5 'no row is stored'
    load_to 'ready at once' "$ready" 6 'type Z may not come'
    load_to 'rows come and are not taken' 'H\0\0\0\11\0\0\1\0\0' 6 'type H may not come'
    load_to 'codes are missing' 'G\0\0\0\7\0\0\1' 6 'expected 2 bytes'
    load_to 'waits for another format' 'G\0\0\0\11\1\0\1\0\1' 6 'another format'
    load_to 'waits twice' "$waits_for_rows$waits_for_rows" 6 'type G may not come'
    load_to 'is done before the end' "${waits_for_rows}C\0\0\0\13COPY 1\0" 6 'type C may not come'
    load_to 'an error at once' "$waits_for_rows"'E\0\0\0\15SERROR\0\0\0'"$ready" 4 ERROR
    load_to 'an error, and hangs up' "$waits_for_rows"'E\0\0\0\15SERROR\0\0\0' 4 'no row is stored'
}

# Bytes without a sense: no crash, and a status of ours.
test_random_bytes() {
    local turn wrong=
    for turn in {1..20}; do
        {
            printf "$logged_in"
            [ "$((turn % 2))" = 0 ] || printf 'A\0\0\0\14'
            head -c 300 /dev/urandom
        } > "$work/said"
        against_file "$programs/pg_listen" channel
        case $status in
        4 | 5 | 6) ;;
        *) wrong="status $status of $(od -An -tx1 "$work/said" | tr -d ' \n'); $errors" ;;
        esac
    done
    verdict 'hostile: random bytes' "$wrong"
}

# Tests the lines of a recording of some bytes, and that they pass unchanged.
record_of() {
    printf "$2" > "$work/said"
    start_fake
    start_recording "$work/lines" -1 -h 127.0.0.1 -p "$fake_port"
    exec 3<> "/dev/tcp/127.0.0.1/$record_port"
    printf 'any client' >&3
    cat <&3 > "$work/passed"
    exec 3>&-
    reap "$recording"
    same "recording: $1" "$? $(cat "$work/lines")" "0 $3"
    reap "$faking"
    cmp "$work/said" "$work/passed" > "$work/difference" 2>&1
    same "recording: $1, passed unchanged" "$(cat "$work/difference")$(cat "$work/heard")" 'any client'
    if [ -n "${PG_TOOL:-}" ]; then
        same "recording: $1, as pg_tool stream" "$(cat "$work/lines")" "$("$PG_TOOL" stream < "$work/said")"
    fi
}

test_hostile_recordings() {
    if [ ! -x "$programs/pg_record" ]; then
        echo "left out: recordings of servers that break the protocol, since pg_record isn't built, for what the build says"
        return
    fi
    record_of 'nothing' '' ''
    record_of 'a rest' 'Z\0\0\0\5IC\0\0\0\12BEGIN\0001\0\0' \
        $'ReadyForQuery 5 49\nCommandComplete 10 424547494e00\nrest 3'
    record_of 'an unknown tag' 'Z\0\0\0\5I!\0\0\0\3Z\0\0\0\5I' $'ReadyForQuery 5 49\nunknown message type: 33'
    record_of 'a length below 4' '1\0\0\0\0041\377\377\377\377' $'ParseComplete 4 -\nbad message length: -1'
    record_of 'less than a length' '1\0\0\0' 'rest 4'
    record_of 'a long message that ends early' 'D\177\377\377\377\0' 'rest 6'
}

test_hostile() {
    test_hostile_logins
    test_hostile_scram
    test_hostile_sessions
    test_hostile_loads
    test_random_bytes
    test_hostile_recordings
}
