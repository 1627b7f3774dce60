# The crates for Rust: their tests, documentation and packages, and a program that takes them. Sourced by `run`.

oldest_rust=1.87

# The folder of the examples of the crate, where they are built.
rust_examples=

# The packages of the core, which no registry has, for cargo to pack what depends on them.
core_patches=(--config "patch.crates-io.pgmsg-core.path='$PWD/plain/core'" --config "patch.crates-io.pgmsg-rattle.path='$PWD/plain/rattle'"
    --config "patch.crates-io.pgmsg-erase.path='$PWD/plain/erase'")

# The crates that they take, of which the core needs the first.
rust_crates=(base64 byteorder hex itoa memchr smallvec bytes hmac serde serde_json sha2 tokio-util)

features=(--features 'pgmsg/codec,pgmsg/serde,pgmsg/sha2')

# Sets $cargo_folder and $version to the first cargo that is new enough. False where there is none, or no crates.
find_rust() {
    read -r cargo_folder version < <(rust_folders $oldest_rust) && has_crates "${rust_crates[@]}"
}

# Builds the crate, its examples and its tests, where that isn't done; false where there is no cargo.
build_rust_examples() {
    local cargo_folder version
    if [ -z "$rust_examples" ] && find_rust; then
        # What a newer cargo wrote an older one may not read.
        rm -f bindings/rust/Cargo.lock
        try by_strict_cargo bindings/rust test --no-run --workspace "${features[@]}"
        expect 'the Rust crates, with their examples and tests' 0
        rust_examples=out/cargo/debug/examples
    fi
    [ -n "$rust_examples" ]
}

test_rust() {
    local cargo_folder version
    if ! find_rust; then
        echo "left out: the tests of the Rust crates, which need rustc and cargo from $oldest_rust on$lacking"
        return
    fi
    try by_strict_cargo bindings/rust test --workspace "${features[@]}"
    expect "the Rust crates, $version, without a warning" 0
    expect_format bindings/rust
    test_rust_words
    test_rust_package
    test_rust_program
    while read -r -u 3 cargo_folder version; do
        # What one version locks another may not read.
        rm -f bindings/rust/Cargo.lock
        try by_cargo bindings/rust test --target-dir "$PWD/out/cargo-alone" --workspace --lib
        rm -f bindings/rust/Cargo.lock
        expect "the Rust crates, $version" 0
    done 3< <(rust_folders $oldest_rust | tail -n +2)
}

# The crate without std, and the documentation.
test_rust_words() {
    try by_cargo bindings/rust check --package pgmsg --no-default-features
    expect 'the Rust crate without std' 0
    try by_cargo bindings/rust doc --no-deps "${features[@]}"
    expect 'the Rust crates: documentation without a warning' 0
}

# What would be published.
test_rust_package() {
    try by_cargo bindings/rust package --allow-dirty --package pgmsg "${core_patches[@]}"
    expect 'pgmsg: packed, and built from that' 0
}

# A program that takes the crate by `cargo add`.
test_rust_program() {
    local program=$work/program name='a Rust program by cargo add'
    mkdir -p "$program/src"
    printf '[package]\nname = "program"\nversion = "0.1.0"\nedition = "2021"\n' > "$program/Cargo.toml"
    cat > "$program/src/main.rs" << 'END'
fn main() -> Result<(), pgmsg::Refusal> {
    let mut out = Vec::new();
    pgmsg::frontend::Message::Query("SELECT 1".into()).write(&mut out)?;
    print!("{}", out.len());
    Ok(())
}
END
    cp -r bindings/rust/.cargo "$program"
    try env -C "$program" "$cargo_folder/cargo" add --offline --quiet --path "$PWD/bindings/rust/pgmsg"
    expect "$name: is added" 0
    try env -C "$program" PATH="$cargo_folder:$PATH" RUSTC="$cargo_folder/rustc" CARGO_TARGET_DIR="$program/target" \
        "$cargo_folder/cargo" run --offline --quiet
    same "$name" "$status $output" '0 14'
}

# The crates of the programs.
test_tape() {
    local cargo_folder count inputs
    read -r cargo_folder _ < <(rust_folders 1.87)
    expect_format programs
    same 'the crates of pg_record: each file that is compiled by itself forbids unsafe code' \
        "$(grep -L '^#!\[forbid(unsafe_code)\]$' programs/*/src/{lib,main}.rs programs/*/{examples,tests}/*.rs 2> /dev/null)" ''
    PG_RECORD=$(realpath "$programs/pg_record") PG_REPLAY=$(realpath "$programs/pg_replay") \
        try by_strict_cargo programs test --workspace -- --show-output
    count=$(grep -o '[0-9]* passed' <<< "$output" | awk '{ count += $1 } END { print count }')
    expect "the crates of pg_record, without a warning: $count tests" 0
    inputs=$(sed -n 's/^\([0-9]*\) .* by the seed .*/\1/p' <<< "$output" | awk '{ count += $1 } END { print count + 0 }')
    same "the crates of pg_record: $inputs random and mutated inputs, without a panic or growth, at least a million" \
        "$((inputs >= 1000000))" 1
}

# Logs in by SCRAM and reads a table, by the example of the crate.
test_rust_scram() {
    build_rust_examples && [ -x "$rust_examples/read_table" ] || return
    local read_table=("$rust_examples/read_table" "127.0.0.1:$PGPORT")
    sql "SET password_encryption = 'scram-sha-256'; CREATE ROLE by_scram_of_rust LOGIN PASSWORD 'pass word ''1'
         ; ALTER ROLE by_scram_of_rust SET client_encoding = latin1
         ; CREATE TABLE of_rust AS SELECT * FROM (VALUES (1, U&'\\00E4'), (2, NULL)) AS rows
         ; GRANT SELECT ON of_rust TO by_scram_of_rust"
    try "${read_table[@]}" by_scram_of_rust "pass word '1" postgres of_rust
    same 'a login by SCRAM by Rust' "$status $output" $'0 1\tä\n2\tNULL'
    try "${read_table[@]}" by_scram_of_rust wrong postgres of_rust
    expect 'a login by SCRAM by Rust with a wrong password' 1 'password authentication failed'
    try "${read_table[@]}" postgres any postgres of_rust
    expect 'a server that trusts where Rust asks for SCRAM' 1 'OutOfTurn'
}
