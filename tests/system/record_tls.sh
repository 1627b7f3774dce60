# TLS of a recorder with clients and with the server, addresses to listen on, and requests to cancel. Sourced by `run`.

# Makes a root, and certificates of it: of localhost for the server and for the recorder, and of another host.
make_authority() {
    local name authority=$work/authority
    mkdir -p "$authority"
    openssl req -x509 -newkey rsa:2048 -nodes -days 2 -subj "/CN=root $1" -keyout "$authority/$1.key" \
        -out "$authority/$1.crt" 2> /dev/null
    for name in "${@:2}"; do
        openssl req -newkey rsa:2048 -nodes -subj "/CN=$name" -keyout "$authority/$1.$name.key" \
            -out "$authority/request" 2> /dev/null
        openssl x509 -req -in "$authority/request" -CA "$authority/$1.crt" -CAkey "$authority/$1.key" \
            -CAcreateserial -days 2 -extfile <(printf 'subjectAltName=DNS:%s' "$name") \
            -out "$authority/$1.$name.crt" 2> /dev/null
    done
}

# Gives the server a certificate and its key.
certify_server() {
    as_owner tee "$server_folder/data/server.crt" < "$1.crt" > /dev/null
    as_owner tee "$server_folder/data/server.key" < "$1.key" > /dev/null
    as_owner chmod 600 "$server_folder/data/server.key"
    sql 'ALTER SYSTEM SET ssl = on' && sql 'SELECT pg_reload_conf()' > /dev/null
    await is_encrypted
}

# Runs a query over TLS to the recorder, whose host is verified.
verified() {
    PGHOST=localhost PGPORT=$record_port PGSSLMODE=verify-full PGSSLROOTCERT=$work/authority/${root:-own}.crt \
        "$bin/psql" -X -q -A -t -c "$1"
}

its_encryption='SELECT ssl FROM pg_stat_ssl WHERE pid = pg_backend_pid()'

# TLS on both sides: what passes is recorded in clear.
test_both_encrypted() {
    local tape=$work/tls.tape
    start_taping "$tape" -h localhost --sslmode verify-full --sslrootcert "$trusted.crt" "${certificate[@]}"
    try verified "$its_encryption"
    same 'verify-full on both sides' "$status $output" '0 t'
    try through "$bin/psql" -X -q -A -t -c "$its_encryption"
    same 'a client without TLS beside them' "$status $output" '0 t'
    PGSSLMODE=verify-full root=other try verified 'SELECT 7'
    expect 'a client that does not trust the recorder' 2 'certificate verify failed'
    stop_taping "$tape"
    read_back 'TLS on both sides' "$tape"
    same 'both are recorded in clear, and not as encrypted' \
        "$(count_records O) $(count_records E) $(grep -a -o 'pg_stat_ssl' "$tape" | wc -l)" '2 0 2'
    same 'it says that a client failed at TLS' "$(grep -c 'fails at TLS' "$work/errors.record")" 1
    start_replay "$tape" "${certificate[@]}"
    same 'verify-full on both sides, replayed' "$(record_port=$replay_port verified "$its_encryption")" t
    same 'a client without TLS, replayed' "$(at_port "$replay_port" "$bin/psql" -X -q -A -t -c "$its_encryption")" t
    end_replay
    expect 'TLS on both sides, replayed' 0 '2 of 2 sessions are replayed'
}

# Starts a recorder with options, and tests that a session through it ends with words of the recorder.
refuses_server() {
    start_taping "$work/refused.tape" "${@:3}"
    try query_through 'SELECT 7'
    same "TLS with the server: $1" "$status $(grep -c -e "$2" "$work/errors.record")" '2 1'
    stop_recording
}

test_refused_servers() {
    refuses_server 'another host' 'ostname mismatch\|IP address mismatch' -h 127.0.0.1 --sslmode verify-full --sslrootcert "$trusted.crt"
    refuses_server 'an unknown root' 'certificate is refused' -h localhost --sslmode verify-ca --sslrootcert "$work/authority/other.crt"
    refuses_server 'require, and roots that are named' 'certificate is refused' -h localhost --sslmode require \
        --sslrootcert "$work/authority/other.crt"
    SSL_CERT_FILE=$trusted.crt refuses_server 'roots that are named, and no others of the system' 'certificate is refused' \
        -h localhost --sslmode verify-ca --sslrootcert "$work/authority/other.crt"
    start_taping "$work/refused.tape" -h 127.0.0.1 --sslmode verify-ca --sslrootcert "$trusted.crt"
    same 'TLS with the server: verify-ca takes another host' "$(query_through "$its_encryption")" t
    stop_recording
    start_taping "$work/refused.tape" -h localhost --sslmode disable
    same 'TLS with the server: disable asks for none' "$(query_through "$its_encryption")" f
    stop_recording
    try timeout 10 "$programs/pg_record" -h localhost --sslmode require --sslrootcert system 0
    expect 'TLS with the server: roots of the system for a weak mode' 1 'need the sslmode verify-full'
    try timeout 10 env PGSSLMODE=whatever "$programs/pg_record" -h localhost 0
    expect 'TLS with the server: a PGSSLMODE that is none' 1 'no sslmode has the name whatever'
    PGSSLMODE=verify-full PGSSLROOTCERT=$trusted.crt start_taping "$work/refused.tape" -h localhost
    same 'TLS with the server: PGSSLMODE and PGSSLROOTCERT' "$(query_through "$its_encryption")" t
    stop_recording
    PGSSLMODE=verify-full SSL_CERT_FILE=$trusted.crt start_taping "$work/refused.tape" -h localhost --sslmode disable
    same 'TLS with the server: --sslmode before PGSSLMODE' "$(query_through "$its_encryption")" f
    stop_recording
    SSL_CERT_FILE=$trusted.crt start_taping "$work/refused.tape" -h localhost --sslrootcert system
    same 'TLS with the server: the roots of the system, which have their mode' "$(query_through "$its_encryption")" t
    stop_recording
    try env HOME="$work" "$programs/pg_record" -h localhost --sslmode verify-full 0
    expect 'TLS with the server: no roots' 7 'no file of trusted roots'
    try "$programs/pg_record" --cert "$work/authority/own.localhost.crt" --key "$work/authority/own.elsewhere.key" 0
    expect 'TLS with clients: the key of another certificate' 7 'elsewhere.key'
    try "$programs/pg_record" --cert "$work/none.crt" --key "$work/none.key" 0
    expect 'TLS with clients: no certificate' 7 'none.crt'
}

# What a server without TLS is to each mode.
test_no_encryption() {
    sql 'ALTER SYSTEM RESET ssl' && sql 'SELECT pg_reload_conf()' > /dev/null
    await is_plain
    refuses_server 'a server without it' 'the server has no TLS' -h localhost --sslmode require
    start_taping "$work/refused.tape" -h localhost --sslmode prefer
    same 'TLS with the server: prefer takes one without' "$(query_through "$its_encryption")" f
    stop_recording
}

is_plain() {
    ! is_encrypted
}

# Has the server take sessions of a user over TLS alone, and of another one without it alone.
split_users() {
    local rules=$server_folder/data/pg_hba.conf
    as_owner cp "$rules" "$rules.kept"
    as_owner tee "$rules" > /dev/null << 'RULES'
local all all trust
hostssl all only_tls 127.0.0.1/32 trust
hostnossl all only_plain 127.0.0.1/32 trust
RULES
    sql 'CREATE ROLE only_tls LOGIN; CREATE ROLE only_plain LOGIN; CREATE ROLE nobody LOGIN; SELECT pg_reload_conf()' > /dev/null
    await refuses_tcp
}

refuses_tcp() {
    ! PGHOST=127.0.0.1 "$bin/psql" -X -c 'SELECT 7'
}

# Whether a session of a user is encrypted, through a program at a port.
encryption_of() {
    PGUSER=$2 at_port "$1" "$bin/psql" -X -q -A -t -c "$its_encryption" "${@:3}" 2>&1
}

# Modes with another way for sessions that the server refuses in the first one.
test_other_ways() {
    local mode tape
    split_users
    for mode in allow prefer; do
        tape=$work/$mode.tape
        start_taping "$tape" -h localhost --sslmode "$mode"
        same "TLS with the server: $mode has both ways" \
            "$(encryption_of "$record_port" only_tls) $(encryption_of "$record_port" only_plain)" 't f'
        same "TLS with the server: $mode, refused in both ways, shows what the server says" \
            "$(encryption_of "$record_port" nobody | grep -c 'no pg_hba.conf entry')" 1
        stop_taping "$tape"
        read_back "sslmode $mode" "$tape"
        same "sslmode $mode: a session that is asked for twice is recorded once" \
            "$(count_records O) $(grep -a -o -e 'user.only_' -e 'user.nobody' "$tape" | wc -l)" '3 3'
        start_replay "$tape"
        same "sslmode $mode, replayed" "$(encryption_of "$replay_port" only_tls) $(encryption_of "$replay_port" only_plain)" 't f'
        stop_replay
        start_replay "$tape" --record-missing -h localhost -p "$PGPORT" --sslmode "$mode"
        same "sslmode $mode: a replay passes on what is missing, and all of a session" \
            "$(encryption_of "$replay_port" only_tls -c 'SELECT 8' | tr '\n' ' ')$(PGAPPNAME=other encryption_of "$replay_port" only_plain)" 't 8 f'
        stop_replay
    done
    refuses_user disable only_tls
    refuses_user require only_plain
    as_owner mv "$server_folder/data/pg_hba.conf.kept" "$server_folder/data/pg_hba.conf"
    sql 'SELECT pg_reload_conf()' > /dev/null
    await is_encrypted
}

# A mode with one way, in which the server refuses a user.
refuses_user() {
    start_taping "$work/refused.tape" -h localhost --sslmode "$1"
    same "TLS with the server: $1 has one way" "$(encryption_of "$record_port" "$2" | grep -c 'no pg_hba.conf entry')" 1
    stop_recording
}

# Channel binding: dropped where a client can't bind to the server's certificate, and kept where both have it.
test_binding() {
    local to_server=(-h localhost --sslmode verify-full --sslrootcert "$trusted.crt")
    local as_scram=(env PGUSER=by_scram "PGPASSWORD=pass word '1" PGDATABASE=postgres)
    start_taping "$work/binding.tape" "${to_server[@]}"
    try through "${as_scram[@]}" "$bin/psql" -X -q -A -t -c "$its_encryption"
    same 'channel binding is not offered to a client without TLS' "$status $output" '0 t'
    stop_recording
    start_taping "$work/binding.tape" "${to_server[@]}" "${certificate[@]}"
    PGUSER=by_scram PGPASSWORD="pass word '1" PGCHANNELBINDING=disable try verified "$its_encryption"
    same 'with another certificate than the server a client passes that does not bind' "$status $output" '0 t'
    PGUSER=by_scram PGPASSWORD="pass word '1" PGCHANNELBINDING=require try verified 'SELECT 7'
    expect 'and one is refused that has to' 2 'channel binding'
    stop_recording
    start_taping "$work/binding.tape" "${to_server[@]}" --cert "$trusted.localhost.crt" --key "$trusted.localhost.key"
    PGUSER=by_scram PGPASSWORD="pass word '1" PGCHANNELBINDING=require root=servers try verified "$its_encryption"
    same 'with the certificate of the server channel binding passes' "$status $output" '0 t'
    stop_recording
}

# TLS that a client begins without a request, and bytes before the handshake that it asked for.
test_handshakes() {
    start_taping "$work/handshakes.tape" -h 127.0.0.1 "${certificate[@]}"
    try tests/system/record_handshakes.py "$record_port" "$work/authority/own.crt"
    expect "handshakes: $output" 0
    stop_taping "$work/handshakes.tape"
    same 'handshakes: it says what it refuses' "$(grep -c -e 'goes on without the encryption' -e 'names no protocol' \
        -e 'asks for encryption again' "$work/errors.record")" 3
}

# Several addresses at once.
test_addresses_of_recordings() {
    local tape=$work/addresses.tape folder=$work/sockets port
    mkdir "$folder"
    start_taping "$tape" --listen '[::1]:0' --listen "$folder:6432" --listen "$folder/own" --listen 127.0.0.2:0
    port=$(sed -n 's/^listening on ::1 port //p' "$work/errors.record")
    same 'a port of IPv6' "$(PGHOST=::1 PGPORT=$port "$bin/psql" -X -A -t -c 'SELECT 7')" 7
    same 'a Unix socket of a folder and a port' "$(PGHOST=$folder PGPORT=6432 "$bin/psql" -X -A -t -c 'SELECT 7')" 7
    same 'they are said' "$(grep -c '^listening on' "$work/errors.record") $(grep -c "on $folder port 6432$" "$work/errors.record")" '5 1'
    same 'a port of this host beside them' "$(query_through 'SELECT 7')" 7
    same 'a Unix socket of any name is there' "$(test -S "$folder/own" && echo there)" there
    stop_taping "$tape"
    read_back 'addresses' "$tape"
    same 'where clients came from is recorded' "$(count_records O) $(ls "$folder")" '3 '
    try "$programs/pg_record" --listen nowhere.invalid:1
    expect 'an address that is not there' 2 "can't be used"
}

# A request to cancel over the recorder, counted.
test_counted_cancel() {
    local tape=$work/cancelled.tape
    start_taping "$tape" -h localhost --sslmode verify-full --sslrootcert "$trusted.crt" "${certificate[@]}"
    PGHOST=localhost PGPORT=$record_port PGSSLMODE=require "$bin/psql" -X -c 'SELECT pg_sleep(60)' > /dev/null 2> "$work/errors.cancel" &
    interrupt $! 'SELECT pg_sleep'
    same 'a request to cancel passes between two of TLS' "$(grep -c 'due to user request' "$work/errors.cancel")" 1
    stop_taping "$tape"
    same 'and is counted' "$(grep -c '1 request to cancel was passed on' "$work/errors.record")" 1
}

test_record_tls() {
    local trusted=$work/authority/servers certificate
    if ! command -v openssl > /dev/null; then
        echo 'left out: TLS of pg_record, without openssl (apt-get install openssl)'
        return
    fi
    make_authority servers localhost && make_authority own localhost elsewhere && make_authority other
    certificate=(--cert "$work/authority/own.localhost.crt" --key "$work/authority/own.localhost.key")
    [ -n "$(sql "SELECT 1 FROM pg_roles WHERE rolname = 'by_scram'")" ] || make_users
    test_addresses_of_recordings
    if ! certify_server "$trusted.localhost"; then
        echo 'left out: TLS of pg_record with a server, since the server has none'
        return
    fi
    test_both_encrypted
    test_refused_servers
    test_binding
    test_handshakes
    test_counted_cancel
    test_other_ways
    test_no_encryption
}
