# Messages that sessions of today's drivers seldom have, read by the package. Sourced by `run`.

# A file as a large object, there and back by libpq's functions, through pg_record.
test_objects() {
    local file=$work/object id
    if [ ! -x "$programs/pg_record" ]; then
        echo 'left out: large objects through pg_record, which is not built'
        return
    fi
    head -c 100000 /dev/urandom > "$file"
    start_tape "$work/objects.tape"
    id=$(at_port "$tape_port" "$bin/psql" -X -q -c "\\lo_import $file" -c '\echo :LASTOID' | tail -n 1)
    at_port "$tape_port" "$bin/psql" -X -q -c "\\lo_export $id $file.back"
    stop_tape
    try cmp "$file" "$file.back"
    expect 'protocol: a large object by psql through pg_record' 0
    run_test protocol objects "$work/objects.tape" "$file"
    expect "protocol: ${output:-no calls of functions}" 0
}

# A session of 3.2 with a server of 3.0, and with the example server in Rust, which speaks 3.2.
test_versions() {
    run_test protocol version "$PGPORT" 2 0 4
    expect "protocol: 3.2 asked of a server of 3.0: ${output:-no session}" 0
    if ! build_rust_examples; then
        echo "left out: a server of 3.2, which needs rustc and cargo from $oldest_rust on"
        return
    fi
    start_canned "$rust_examples/canned_server"
    run_test protocol version "$canned_port" 2 2 32
    expect "protocol: 3.2 asked of a server of 3.2: ${output:-no session}" 0
    run_test protocol version "$canned_port" 3 2 32
    expect "protocol: 3.3 asked of a server of 3.2: ${output:-no session}" 0
    same 'protocol: requests to cancel name the key of 32 bytes' "$(grep -c '^the request to cancel names the session$' "$work/port")" 2
    kill "$canned"
    reap "$canned"
}

test_protocol() {
    if ! find_builder; then
        echo 'left out: messages that are seldom, which need Python 3.11 (apt-get install python3-dev python3-cffi python3-setuptools python3-wheel pkg-config)'
        return
    fi
    prepare_package
    test_objects
    test_versions
}
