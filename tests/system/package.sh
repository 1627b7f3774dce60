# The packages of packaging/package, made and used by the commands of README.md, as a user would who has no rt: where one can be
# made, in a new Debian 12, else here, where they are unpacked. Sourced by `run`.

# The commands below a heading of that page.
commands_of() {
    sed -n "/^## $1\$/,/^## /s/^    //p" README.md | sed 's/ *#.*//'
}

# Makes a new Debian 12 in a folder, with a C compiler. Its packages come from the mirror, or from where apt keeps those that
# it has fetched here.
make_debian() {
    local fetched=/var/cache/apt/archives
    [ "$(id -u)" = 0 ] && command -v debootstrap > /dev/null || return
    timeout 1800 debootstrap --variant=minbase --include=gcc,libc6-dev,pkg-config --cache-dir=$fetched bookworm "$1" \
        > "$work/debootstrap" 2>&1 || return
    printf 'deb http://deb.debian.org/debian%s main\n' ' bookworm' '-security bookworm-security' > "$1/etc/apt/sources.list"
    # A Debian that is thrown away need not reach the disk after each package.
    echo force-unsafe-io > "$1/etc/dpkg/dpkg.cfg.d/thrown-away"
    mkdir "$1/root/tarnwhisk"
    in_debian "$1" 'apt-get -q update' > "$work/debootstrap" 2>&1
}

# Runs a command in that Debian, with nothing of this machine's environment. Its mount is seen by nobody else, and taken away
# again where this machine is such a Debian itself, whose mounts can't be hidden.
in_debian() {
    # shellcheck disable=SC2016
    unshare --mount --propagation unchanged sh -c 'mount --make-rprivate / 2> /dev/null
        mount -t proc proc "$0/proc" || exit
        chroot "$0" env -i -C /root/tarnwhisk HOME=/root LANG=C.UTF-8 PATH=/usr/sbin:/usr/bin:/sbin:/bin \
            DEBIAN_FRONTEND=noninteractive nice -n 10 bash -e -c "$1"
        status=$?
        umount "$0/proc"
        exit $status' "$1" "${2/#apt-get install/apt-get install --yes --quiet}"
}

# Runs a command where packages are unpacked in a folder.
in_unpacked() {
    PKG_CONFIG_PATH=$1/usr/lib/pkgconfig LD_LIBRARY_PATH=$1/usr/lib PATH=$1/usr/bin:$(dirname "$(command -v "$builder")"):$PATH \
        PYTHONPATH=$1/usr/lib/python3/dist-packages env -C "$1" bash -e -c "$2"
}

# Runs commands of README.md where some words say, by a function in a folder, to the first that fails. What each wrote is in
# $written.
follow_readme() {
    local command begun
    for command in "${@:4}"; do
        begun=$SECONDS
        try "$2" "$3" "$command"
        expect "package: $1, in $((SECONDS - begun)) seconds: $command" 0
        [ "$status" = 0 ] || return
        written+=("$output")
    done
}

# Follows README.md in a new Debian: builds and tests in one copy of it, of a clone of this commit, and uses the packages in
# another, which has nothing that they were built with.
use_in_debian() {
    cp -a "$1" "$work/building"
    # Links to what was fetched here already, where they can be made.
    cp -l /var/cache/apt/archives/*.deb "$work/building/var/cache/apt/archives" 2> /dev/null
    git clone --quiet . "$work/building/root/tarnwhisk"
    follow_readme 'a new Debian 12' in_debian "$work/building" '! command -v rt' "${building[@]}"
    [ "$status" = 0 ] || return
    cp -r "$work/building/root/tarnwhisk/packages" "$work/hello.c" "$1/root/tarnwhisk"
    # Its tests leave recordings that are broken on purpose.
    rm -rf "$work/building"
    follow_readme 'another new Debian 12' in_debian "$1" "${using[@]}"
    try in_debian "$1" "dpkg-query -W -f '\${Description}' libpgmsg0 libpgmsg-dev pg-record python3-pgmsg"
    same 'package: each that has code for messages says that it is a plain build' \
        "$(grep -c 'plain build' <<< "$output") $(grep -c 'proved build' <<< "$output")" '4 0'
}

# Makes the packages here, and runs the commands that install nothing on their files.
use_unpacked() {
    local package
    if [ -n "$(packaging/package --missing)" ]; then
        echo "left out: packages (apt-get install --no-install-recommends $(packaging/package --missing))"
        return
    fi
    PROGRAMS=$built try packaging/package "$work/packages"
    expect 'package: they are made' 0
    [ "$status" = 0 ] || return
    for package in "$work"/packages/*.deb; do
        dpkg -x "$package" "$1"
    done
    cp "$work/hello.c" "$1"
    find_builder
    follow_readme 'unpacked' in_unpacked "$1" "${using[@]:1}"
}

# The user of the image serves a recording that its owner alone can read, as pg_record makes it. Root is that owner with
# podman.
test_image_user() {
    local user
    if [ "$(id -u)" != 0 ]; then
        echo 'left out: the user of the image, without root'
        return
    fi
    user=$(sed -n 's/^USER //p' packaging/Containerfile)
    install -m 600 programs/examples/recorded/tapes/test_people.tape "$work/image.tape"
    chmod 711 "$work"
    : > "$work/errors.replay"
    runuser -u "${user:-root}" -- "$built/pg_replay" "$work/image.tape" 0 2> "$work/errors.replay" &
    replaying=$!
    await has_begun "$work/errors.replay" "$replaying"
    kill "$replaying" 2> /dev/null
    end_replay
    expect 'package: the user of the image reads a recording' 143 listening
}

test_package() {
    local building using written=()
    test_image_user
    mapfile -t building < <(commands_of Install | sed '/^apt-get install \.\//,$d')
    mapfile -t using < <(commands_of Install | sed -n '/^apt-get install \.\//,$p')
    awk '/^```c$/ { shown = 1; next } /^```$/ { if (shown) exit } shown' bindings/c/README.md > "$work/hello.c"
    if make_debian "$work/debian"; then
        use_in_debian "$work/debian"
    else
        echo 'left out: packages in a new Debian, for which debootstrap, root and a mirror are needed; they are unpacked'
        use_unpacked "$work/unpacked"
    fi
    # The compiler writes nothing.
    same 'package: what a program in Rust, one in C and one in Python write' "${written[*]: -4}" \
        "pg_record $released plain build  Q"$'\r'"SELECT 1 b'S\\x00\\x00\\x00\\x04'"
}
