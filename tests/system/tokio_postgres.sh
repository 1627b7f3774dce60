# The crate with the interface of postgres-protocol, and the tests of tokio-postgres on it and on the original.
# Sourced by `run`. What it builds takes the crates of Debian.

drop_in_crates=(postgres-protocol bytes fallible-iterator)
driver_crates=(tokio-postgres geo-types futures-executor bit-vec chrono env_logger eui48 serde_json time uuid)

# The port that the driver's tests name.
driver_port=5433

# The folder of the programs on the driver as it is, where they are built.
on_original=

# The packages that are missing for them, each after a space.
driver_lacks=

# Builds the programs on the driver as it is, where there is what they need, and with them its tests, which ask for more
# of the same crates.
build_on_original() {
    local cargo_folder
    if ! read -r cargo_folder _ < <(rust_folders $oldest_rust); then
        driver_lacks=' cargo rustc'
    elif ! has_crates "${drop_in_crates[@]}" "${driver_crates[@]}"; then
        driver_lacks=$lacking
    else
        bindings/rust/tokio-postgres/prepare out/original
        try by_cargo out/original build --workspace --all-features --bins --tests
        expect 'programs on tokio-postgres' 0
        # The driver's tests may build another one of its name.
        mkdir -p out/on-original
        cp out/cargo/debug/spoken out/on-original
        on_original=out/on-original
    fi
}

test_drop_in() {
    local cargo_folder patches=(--config "patch.crates-io.pgmsg.path='$PWD/bindings/rust/pgmsg'" "${core_patches[@]}")
    if ! has_crates "${drop_in_crates[@]}" || ! read -r cargo_folder _ < <(rust_folders $oldest_rust); then
        echo "left out: the crate postgres-protocol-pgmsg, which needs the packages cargo rustc$lacking"
        return
    fi
    try by_strict_cargo bindings/rust/postgres-protocol-pgmsg test -- --nocapture
    expect 'postgres-protocol-pgmsg, without a warning' 0
    grep -E 'alike' <<< "$output"
    try by_cargo bindings/rust/postgres-protocol-pgmsg doc --no-deps
    expect 'postgres-protocol-pgmsg: documentation without a warning' 0
    try by_cargo bindings/rust/postgres-protocol-pgmsg package --allow-dirty "${patches[@]}"
    expect 'postgres-protocol-pgmsg: packed, and built from that' 0
}

# Runs the driver's tests in a workspace, and leaves how many passed in $count.
run_driver() {
    local name=$1 workspace=$2
    try by_cargo "$workspace" test --all-features
    count=$(awk '/^test result:/ { passed += $4 } END { print passed + 0 }' <<< "$output")
    expect "tokio-postgres on $name: $count passed" 0
}

test_tokio_postgres() {
    local cargo_folder ours
    if [ -z "$on_original" ]; then
        echo "left out: the tests of tokio-postgres, which need the packages$driver_lacks"
        return
    fi
    read -r cargo_folder _ < <(rust_folders $oldest_rust)
    if (exec 3<> "/dev/tcp/127.0.0.1/$driver_port") 2> /dev/null; then
        echo "left out: the tests of tokio-postgres, which need port $driver_port of this machine"
        return
    fi
    start_driver_server
    bindings/rust/tokio-postgres/prepare
    run_driver pgmsg bindings/rust/tokio-postgres
    ours=$count
    run_driver postgres-protocol out/original
    same 'tokio-postgres passes as many tests on pgmsg as on postgres-protocol' "$ours" "$count"
}

# Starts the server again as the driver's tests ask for it.
start_driver_server() {
    as_owner tee -a "$server_folder/data/postgresql.conf" > /dev/null <<< "port = $driver_port"
    as_owner tee -a "$server_folder/data/pg_hba.conf" > /dev/null << 'RULES'
host all pass_user 127.0.0.1/32 password
host all md5_user 127.0.0.1/32 md5
host all scram_user 127.0.0.1/32 scram-sha-256
RULES
    halt_server fast
    run_server
    export PGPORT=$driver_port
    sql "SET password_encryption = 'md5'
        ; CREATE ROLE pass_user LOGIN PASSWORD 'password'; CREATE ROLE md5_user LOGIN PASSWORD 'password'
        ; SET password_encryption = 'scram-sha-256'; CREATE ROLE scram_user LOGIN PASSWORD 'password'
        ; CREATE EXTENSION hstore; CREATE EXTENSION citext; CREATE EXTENSION ltree"
}
