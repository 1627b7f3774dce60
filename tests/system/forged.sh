# The example clients of each language, and servers by forged.py that forge a login, tell a terminal what to do, or stop. No
# PostgreSQL is needed. Sourced by `run`.

# Starts a server that says words of tests/system/forged.py, and leaves its port in $fake_port.
start_forger() {
    : > "$work/port"
    python3 tests/system/forged.py "$work/heard" "$@" > "$work/port" 2> "$work/errors.forger" &
    faking=$!
    await test -s "$work/port" || bad 'start of a forger' "$(cat "$work/errors.forger")"
    fake_port=$(cat "$work/port")
}

# Sets $readers to the clients that are built and print a table, and $followers to those that write the changes of a
# publication to a file.
find_clients() {
    readers=(read_table) followers=()
    if find_builder; then
        prepare_package
        readers+=(read_table.py read_table_asyncio.py) followers+=(follow.py)
    fi
    if build_rust_examples; then
        # It needs crates of others.
        [ ! -x "$rust_examples/read_table" ] || readers+=(read_table.rs)
        followers+=(follow.rs)
    fi
}

# Sets $client to the command of a client of the server at $fake_port.
find_client() {
    local python=(env PYTHONPATH="$work/package" "${builder:-}" -B -W error "bindings/python/examples/$1") rust=$rust_examples/${1%.rs}
    case $1 in
    read_table) client=("$programs/read_table" -h 127.0.0.1 -p "$fake_port" -U ann -d shop t) ;;
    read_table*.py) client=("${python[@]}" 127.0.0.1 "$fake_port" ann shop t) ;;
    read_table.rs) client=("$rust" "127.0.0.1:$fake_port" ann 'known to both' shop t) ;;
    follow.py) client=("${python[@]}" 127.0.0.1 "$fake_port" ann shop s p "$work/changes") ;;
    follow.rs) client=("$rust" "127.0.0.1:$fake_port" ann shop s p "$work/changes") ;;
    esac
}

# Runs a client, by the command $within where there is one, against a server that says these words.
against_words() {
    local client
    start_forger $2
    find_client "$1"
    rm -f "$work/changes"
    PGPASSWORD='known to both' try "${within[@]}" timeout 60 "${client[@]}"
    reap "$faking"
}

# Words of servers that forge a login by SCRAM, and of those that ask for the password again where one was right.
forgeries=(
    'ready rows' 'rows' 'offer ready rows' 'offer rows' 'offer challenge ready rows' 'offer challenge final ready rows'
    'offer ok ready rows' 'offer challenge ok ready rows' 'offer clear ok ready rows' 'offer challenge final clear ok ready rows'
    'offer challenge offer challenge final ok ready rows' 'offer endless final ok ready rows'
    'offer challenge offer costly offer costly offer costly offer costly offer costly'
)
asking_later=('offer challenge final ok ready clear rows' 'offer challenge final ok ready offer rows')
accepted='offer challenge final ok ready'

# Tests that a client ends with an error in a few seconds, takes nothing of the server, and doesn't say such words.
test_forged_login() {
    local wrong= begun=$SECONDS
    against_words "$1" "$2"
    case $status in 0 | 124) wrong="status $status" ;; esac
    [[ $output != *forged* && ! -s $work/changes ]] || wrong+="; it takes $output$(cat "$work/changes" 2> /dev/null)"
    ! grep -qaE "$3" "$work/heard" || wrong+="; it says $(grep -aoE "$3" "$work/heard")"
    [ $((SECONDS - begun)) -lt 10 ] || wrong+="; it takes $((SECONDS - begun)) seconds"
    verdict "forged login, $1: $2" "$wrong"
}

test_forged_reads() {
    local words
    against_words "$1" "$accepted rows"
    same "no forged login, $1" "$status $errors $(grep -o forged <<< "$output")" '0  forged'
    for words in "${forgeries[@]}"; do
        test_forged_login "$1" "$words" 'TABLE|known to both'
    done
    for words in "${asking_later[@]}"; do
        test_forged_login "$1" "$words" 'known to both'
    done
}

# What a terminal obeys: control characters of ASCII and others, in UTF-8 and as one byte, and those that turn a text.
orders='[\0-\x08\x0b-\x1f\x7f]|\xc2[\x80-\x9f]|(?<![\x80-\xf4])[\x80-\x9f]|\xe2\x80[\xaa-\xae]|\xe2\x81[\xa6-\xa9]'

# Tests that what a client prints where a server says such words has nothing of these, and has all else.
test_orders() {
    local words
    for words in "${@:2}"; do
        against_words "$1" "$words"
        LC_ALL=C grep -haP "$orders" "$work/output" "$work/errors" > "$work/obeyed"
        same "a terminal isn't told what to do, $1: $words" "$(od -An -c "$work/obeyed")" ''
        [[ $words = *byte || $output$errors = *'grün 漢'* ]] || bad "other characters stay, $1: $words" "$output$errors"
    done
}

# What a client heard, in hexadecimal.
heard() {
    od -An -v -tx1 "$work/heard" | tr -d ' \n'
}

# The status of a standby, up to its position of what is flushed: 77.
confirms=640000002672????????????????000000000000004d

test_forged_changes() {
    local words within=()
    for words in 'ready follows' 'follows' 'notice ok ready follows' 'offer ready follows' 'offer ok ready follows' \
        'offer challenge ready follows'; do
        test_forged_login "$1" "$words" 'START_REPLICATION|known to both'
    done
    # A server that is logged in to says its changes, or is ready, out of turn.
    for words in 'ok ready early' 'ok ready ready follows' 'ok ready done follows'; do
        test_forged_login "$1" "$words" 'known to both'
    done
    against_words "$1" 'version ok notice ready follows'
    expect "the server stops, $1" 1 'the server closed the connection'
    same "the server stops, $1: changes" "$(grep -o forged "$work/changes") $(grep -c commit "$work/changes")" 'forged 1'
    [[ $(heard) == *$confirms* ]] || bad "the server stops, $1: no position is confirmed" "$(heard)"
    against_words "$1" 'ok ready follows done over'
    expect "the server ends its changes, $1" 1 'the server has ended the changes'
    [[ $(heard) == *6300000004 ]] || bad "the server ends its changes, $1: the client doesn't end its data" "$(heard)"
    against_words "$1" 'ok ready latin'
    same "a text that isn't UTF-8, $1" "$status $(grep -c commit "$work/changes")" '1 0'
    [[ $(heard) != *$confirms* ]] || bad "a text that isn't UTF-8, $1: it is confirmed" "$(heard)"
    same "the encoding that is asked for, $1" "$(grep -acP 'client_encoding\0UTF8\0' "$work/heard")" 1
    within=(prlimit --as=1000000000)
    against_words "$1" 'ok ready long'
    expect "two gigabytes that don't come, $1" 1
}

# The examples of each language.
test_forged() {
    local client readers followers within=()
    if ! has_python; then
        echo 'left out: forged logins, which need Python 3.11 (apt-get install python3)'
        return
    fi
    find_clients
    for client in "${readers[@]}"; do
        test_forged_reads "$client"
        test_orders "$client" error "$accepted error" "$accepted orders" "$accepted byte"
    done
    for client in "${followers[@]}"; do
        test_forged_changes "$client"
        test_orders "$client" error 'version ok notice error'
    done
}
