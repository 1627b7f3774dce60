# The Python package: its unit tests, on a wheel that its build backend makes, and its examples with a server. Sourced by
# `run`.

# Whether there is a Python from 3.11 on.
has_python() {
    python3 -c 'import sys; sys.exit(sys.version_info < (3, 11))' 2> /dev/null
}

# What a Python that can build the package ends with 0 for.
builds='import os, sys, sysconfig, cffi, setuptools, wheel, pip
sys.exit(sys.version_info < (3, 11) or not os.path.exists(sysconfig.get_path("include") + "/pyconfig.h"))'

# Sets $builder to a Python that can build the package without a network and run it, or answers false.
find_builder() {
    command -v pkg-config > /dev/null || return
    for builder in python3 /usr/bin/python3; do
        if "$builder" -c "$builds" 2> /dev/null; then
            return
        fi
    done
    return 1
}

# Runs Python on the package in a folder.
run_python() {
    local package=$1
    shift
    PYTHONPATH=$package "$builder" -B -W error "$@"
}

# Makes a source distribution of the package in a folder, of a copy, since setuptools writes beside its sources.
make_sdist() {
    cp -r bindings/python "$work/python"
    (cd "$work/python" && PKG_CONFIG_PATH=$work/installed/lib/pkgconfig "$builder" -W ignore -c \
        'import sys; from setuptools import build_meta; build_meta.build_sdist(sys.argv[1])' "$1" > /dev/null 2>&1)
}

# Makes a wheel of a source distribution, with the library that is installed in a folder, by more options of pip.
make_wheel() {
    PKG_CONFIG_PATH=$1/lib/pkgconfig "$builder" -m pip wheel --quiet --no-build-isolation --no-deps \
        --disable-pip-version-check -w "$2" "${@:4}" "$3"/pgmsg-*.tar.gz
}

# Makes a wheel with the library that is installed in a folder, and unpacks the wheel in another.
unpack_wheel() {
    local prefix=$1 made=$2
    try make_wheel "$prefix" "$made.wheels" "$work/sdist"
    expect "python: a wheel, $(basename "$made")" 0
    try "$builder" -m zipfile -e "$made".wheels/pgmsg-*.whl "$made"
    expect "python: the wheel is unpacked, $(basename "$made")" 0
}

# Makes the shared library where an earlier part didn't.
install_library() {
    if [ ! -e "$work/installed/lib/libpg_message.so" ]; then
        try packaging/library --install "$work/installed"
        expect 'the shared library' 0
    fi
}

# Makes the package in $work/package where an earlier part didn't, of a source distribution.
prepare_package() {
    if [ ! -d "$work/package" ]; then
        install_library
        make_sdist "$work/sdist"
        unpack_wheel "$work/installed" "$work/package"
    fi
}

# The unit tests on the package in a folder.
test_python_units() {
    try run_python "$2" -m unittest discover -s bindings/python/tests "${@:3}"
    expect "python, $1: $(grep -o 'Ran [1-9][0-9]* tests' <<< "$errors")" 0 OK
}

# A copy of what is installed whose library can have its memory refused.
make_refusing() {
    cp -r "$work/installed" "$work/refusing"
    try cc -fPIC -c -o "$work/refusing.o" bindings/c/tests/refusing.c
    ar r "$work/refusing/lib/libpg_message.a" "$work/refusing.o" 2> /dev/null
}

test_python() {
    if ! find_builder; then
        echo 'left out: the tests of the Python package, which needs Python 3.11 (apt-get install python3-dev python3-cffi python3-setuptools python3-wheel pkg-config)'
        return
    fi
    prepare_package
    # Freed memory gets other bytes at once, so that none is read as it was.
    GLIBC_TUNABLES=glibc.malloc.tcache_count=0:glibc.malloc.perturb=165 test_python_units 'the wheel' "$work/package"
    make_refusing
    LDFLAGS=-Wl,-Bsymbolic unpack_wheel "$work/refusing" "$work/package_refusing"
    test_python_units 'refused memory' "$work/package_refusing" -p refused_memory.py
    CFLAGS='-O1 -g -fsanitize=address,undefined -fno-sanitize-recover=all' LDFLAGS='-fsanitize=address,undefined' \
        unpack_wheel "$work/installed" "$work/package_sanitized"
    # The interpreter keeps memory to its end.
    LD_PRELOAD="$(cc -print-file-name=libasan.so) $(cc -print-file-name=libubsan.so)" ASAN_OPTIONS=detect_leaks=0 \
        PYTHONMALLOC=malloc test_python_units 'each access to memory is tested' "$work/package_sanitized"
    test_pip "$work"/package.wheels/pgmsg-*.whl
}

# The wheel by pip, which gets nothing else, in each Python that there is.
test_pip() {
    local each
    for each in python3 /usr/bin/python3; do
        if ! "$each" -c 'import cffi, venv' 2> /dev/null || ! "$each" -m venv --system-site-packages "$work/venv" > /dev/null 2>&1; then
            echo "left out: the wheel by pip of $each, without cffi or venv (apt-get install python3-cffi python3-venv)"
            continue
        fi
        try "$work/venv/bin/python" -m pip install --no-index --quiet --disable-pip-version-check "$1"
        expect "python: pip installs the wheel, $each" 0
        try "$work/venv/bin/python" -B -c 'import pgmsg; print(pgmsg.__version__, pgmsg.Sync().write())'
        same "python: the package that pip installed, $each" "$status $output" "0 $released b'S\\x00\\x00\\x00\\x04'"
        rm -r "$work/venv"
    done
}

# The types of the package, and those that its user sees, by mypy.
test_types() {
    if ! command -v mypy > /dev/null; then
        echo 'left out: the types of the Python package, without mypy (apt-get install mypy)'
        return
    fi
    if mypy --cache-dir "$work/mypy" -c 'import pytest' > /dev/null 2>&1; then
        try mypy --strict --cache-dir "$work/mypy" bindings/python/pgmsg
    else
        echo 'left out: the types of the plugin for pytest, without pytest (apt-get install python3-pytest)'
        try mypy --strict --cache-dir "$work/mypy" --exclude pytest_plugin bindings/python/pgmsg
    fi
    expect 'python: types' 0
    MYPYPATH=bindings/python try mypy --strict --cache-dir "$work/mypy" bindings/python/tests/typed.py
    expect 'python: types as a user sees them' 0
}

# Runs an example on the package of the wheel, with a password.
read_table() {
    PGPASSWORD=$2 try run_python "$work/package" "bindings/python/examples/$1.py" "${@:3}"
}

make_python_tables() {
    [ -n "$(sql "SELECT 1 FROM pg_roles WHERE rolname = 'by_scram'")" ] || make_users
    sql "CREATE TABLE python (id int, name text);
         INSERT INTO python VALUES (1, 'ann'), (2, NULL), (3, E'a\\tb\\\\c\\n'), (4, ''), (5, 'ä');
         GRANT SELECT ON python TO by_clear, by_md5, by_scram;
         CREATE TABLE python_many AS SELECT n, repeat('x', n % 500) FROM generate_series(1, 20000) n;
         CREATE TABLE python_empty (id int); GRANT SELECT ON python_empty TO by_clear"
}

test_python_copy() {
    local by_socket=("$PGHOST" "$PGPORT" "$PGUSER" "$PGDATABASE") rows example user
    if ! find_builder; then
        return
    fi
    prepare_package
    make_python_tables
    rows=$(printf '%s\n' "('1', 'ann')" "('2', None)" "('3', 'a\\tb\\\\c\\n')" "('4', '')" "('5', 'ä')")
    read_table read_table '' "${by_socket[@]}" python
    same 'python: a table by a Unix socket' "$status $output$errors" "0 $rows"
    read_table read_table '' "${by_socket[@]}" python_many
    same 'python: many rows' "$(grep -c "^('" <<< "$output") ${output: -5}" "20000 , '')"
    # The examples ask for UTF-8, whatever is set.
    sql 'ALTER ROLE by_clear SET client_encoding = latin1'
    for example in read_table read_table_asyncio; do
        for user in by_clear by_md5 by_scram; do
            read_table "$example" "pass word '1" 127.0.0.1 "$PGPORT" "$user" "$PGDATABASE" python
            same "python, $example: a table by TCP and a password, $user" "$status $output$errors" "0 $rows"
            read_table "$example" wrong 127.0.0.1 "$PGPORT" "$user" "$PGDATABASE" python
            same "python, $example: a wrong password, $user" "$status ${errors##*$'\n'}" \
                "1 ${said_of[$example]}password authentication failed for user \"$user\""
        done
        read_table "$example" "pass word '1" 127.0.0.1 "$PGPORT" by_clear "$PGDATABASE" missing
        same "python, $example: the words of an error" "$status ${errors##*$'\n'}" \
            "1 ${said_of[$example]}relation \"missing\" does not exist"
        read_table "$example" "pass word '1" 127.0.0.1 "$PGPORT" by_clear "$PGDATABASE" python_empty
        same "python, $example: a table without a row" "$status $(wc -c < "$work/output")" '0 0'
    done
    sql 'ALTER ROLE by_clear RESET client_encoding'
    test_python_saslprep
}

# A password that the server keeps in another form.
test_python_saslprep() {
    sql "SET password_encryption = 'scram-sha-256'; ALTER ROLE by_scram PASSWORD U&'\\FB01sh'"
    read_table read_table $'\uFB01sh' 127.0.0.1 "$PGPORT" by_scram "$PGDATABASE" python
    same 'python: a password that SASLprep changes' "$status ${output%%$'\n'*}$errors" "0 ('1', 'ann')"
    sql "SET password_encryption = 'scram-sha-256'; ALTER ROLE by_scram PASSWORD 'pass word ''1'"
}

# pgmsg.testing, which records with the server.
test_python_tapes() {
    if ! find_builder; then
        return
    fi
    prepare_package
    if ! "$builder" -c 'import pytest' 2> /dev/null; then
        echo "left out: the fixture for pytest, which $builder lacks (apt-get install python3-pytest)"
    fi
    PATH=$bin:$PATH PG_RECORD=$PWD/$programs/pg_record PG_REPLAY=$PWD/$programs/pg_replay \
        try run_python "$work/package" -m unittest discover -s tests -p python_tapes.py
    expect "python, tests on recordings: $(grep -o 'Ran [1-9][0-9]* tests' <<< "$errors")" 0 OK
    if ! "$builder" -c 'import pytest, psycopg2' 2> /dev/null; then
        echo "left out: the example by the fixture, which needs pytest and psycopg2 of $builder (apt-get install python3-pytest python3-psycopg2)"
        return
    fi
    PG_REPLAY=$PWD/$programs/pg_replay PGHOST=127.0.0.1 PGPORT=1 \
        try run_python "$work/package" -m pytest -q -p no:cacheprovider programs/examples/recorded
    expect "python, the example without a server: $(grep -o '[0-9]* passed' <<< "$output")" 0
}

# What an example says before the words of an error.
declare -A said_of=([read_table]='' [read_table_asyncio]='RuntimeError: ')
