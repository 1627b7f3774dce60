# Cargo, and the crates of Debian's packages, for `packaging/build` and `run`. To be sourced.

# What Debian's packages install, which .cargo/config.toml names.
registry=/usr/share/cargo/registry

# Prints the folders of a cargo and a rustc from a version on, with the version: the first of the PATH, and the system's.
rust_folders() {
    local folder version seen=
    for folder in "$(dirname "$(command -v cargo 2> /dev/null)")" /usr/bin; do
        version=$("$folder/rustc" --version 2> /dev/null | cut -d ' ' -f 2)
        if [ -x "$folder/cargo" ] && [ -n "$version" ] && [[ " $seen " != *" $version "* ]] \
            && [ "$(printf '%s\n' "$1" "$version" | sort -V | head -n 1)" = "$1" ]; then
            echo "$folder $version"
            seen+=" $version"
        fi
    done
}

# Answers whether the registry has some crates, else leaves the packages of those that it lacks in $lacking.
has_crates() {
    local crate
    lacking=
    for crate in "$@"; do
        compgen -G "$registry/$crate[-.][0-9]*" > /dev/null || lacking+=" librust-${crate//_/-}-dev"
    done
    [ -z "$lacking" ]
}

# The crates of others that the workspace of programs takes.
tape_crates=(anyhow base64 bytes clap crc32fast hex indicatif memchr once_cell openssl rand regex rlimit rustix serde serde_json similar socket2 tempfile thiserror tokio tokio-openssl toml)

# Compiles these, which takes no library, where they are there.
compile_tape_crates() {
    local cargo_folder
    if read -r cargo_folder _ < <(rust_folders 1.87) && has_crates "${tape_crates[@]/%clap/clap-4}"; then
        # What a newer cargo wrote an older one may not read.
        rm -f programs/Cargo.lock
        by_cargo programs build "${tape_crates[@]/#/--package=}"
    fi
}

# Runs cargo of $cargo_folder in a folder, without what only a debugger takes. What it builds is in one place
# for all that take the same crates.
by_cargo() {
    env -C "$1" PATH="$cargo_folder:$PATH" RUSTC="$cargo_folder/rustc" RUSTDOC="$cargo_folder/rustdoc" \
        RUSTDOCFLAGS=-Dwarnings CARGO_INCREMENTAL=0 CARGO_PROFILE_DEV_DEBUG=0 CARGO_TARGET_DIR="$PWD/out/cargo" \
        "$cargo_folder/cargo" "$2" --offline --quiet "${@:3}"
}

# The same where each warning of the compiler and of clippy about the workspace's own crates is an error: they are compiled
# by clippy's driver, where it is there.
by_strict_cargo() {
    local driver=out/cargo/strict
    mkdir -p out/cargo
    if "$cargo_folder/cargo" clippy --version > /dev/null 2>&1; then
        printf '#!/bin/sh\nexec "%s" "$@" -Dwarnings\n' "$cargo_folder/clippy-driver" > $driver
    else
        printf '#!/bin/sh\nexec "$@" -Dwarnings\n' > $driver
    fi
    chmod +x $driver
    RUSTC_WORKSPACE_WRAPPER=$PWD/$driver by_cargo "$@"
}

# Tests that all sources of a workspace are as rustfmt has them, where $cargo_folder has it.
expect_format() {
    if ! "$cargo_folder/cargo" fmt --version > /dev/null 2>&1; then
        echo "left out: the format of the workspace $1, which needs rustfmt"
        return
    fi
    try env -C "$1" PATH="$cargo_folder:$PATH" "$cargo_folder/cargo" fmt --all --check
    expect "the workspace $1 is formatted by rustfmt" 0
}

# Where the compiled crates of others are kept between clones, as `rt ci` keeps proofs: by all that they are compiled by and of.
kept_crates() {
    local folder
    echo "${XDG_CACHE_HOME:-$HOME/.cache}/tarnwhisk/crates-$({
        while read -r folder _; do
            "$folder/rustc" --version --verbose
            "$folder/cargo" --version
        done < <(rust_folders 1.87)
        ls -d "$registry"/*
        cat tests/system/cargo.sh bindings/rust/*/Cargo.toml plain/*/Cargo.toml bindings/rust/tokio-postgres/{,spoken/,postgres-protocol/}Cargo.toml programs/{,*/}Cargo.toml
    } | sha256sum | cut -c -16)"
}

# Takes them where nothing is built yet.
take_kept_crates() {
    local kept
    kept=$(kept_crates)
    if [ ! -d out/cargo ] && [ -d "$kept" ]; then
        mkdir -p out
        cp -a "$kept" out/cargo
        taken_crates=", with compiled crates that were kept in $kept"
    fi
}

# Keeps those that were built, without what is of this clone: its own crates, and copies of others.
keep_crates() {
    local kept own name new
    kept=$(kept_crates)
    [ -d out/cargo/debug ] && [ ! -d "$kept" ] || return 0
    new=$kept.$$
    mkdir -p "$(dirname "$kept")"
    cp -a out/cargo "$new"
    rm -rf "$new"/{doc,package,release,tmp,debug/examples,debug/incremental}
    mapfile -t own < <(sed -n 's/^name = "\(.*\)"/\1/p' bindings/rust/*/Cargo.toml plain/*/Cargo.toml bindings/rust/tokio-postgres/*/Cargo.toml programs/*/Cargo.toml)
    for name in "${own[@]}"; do
        rm -rf "$new"/debug/{.fingerprint,build}/"$name"-* "$new"/debug/deps/{,lib}"${name//-/_}"-*
    done
    find "$new/debug" -maxdepth 1 -type f -delete
    find "$new/debug/deps" -type f -executable ! -name '*.so' -delete
    mv -T "$new" "$kept" 2> /dev/null || rm -rf "$new"
}
