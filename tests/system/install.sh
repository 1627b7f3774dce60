# What packaging/library installs, and programs that are built with it. Sourced by `run`.

# The version of all parts.
released=$(sed -n 's/^VERSION = "\(.*\)"/\1/p' packaging/header)

# The symbols that a library defines for others, but for those of the header.
foreign_symbols() {
    nm "$@" --defined-only | awk 'NF == 3 && $3 !~ /^pgmsg_/ { print $3 }'
}

# Makes a second library of the same objects, whose calls have other names and whose other symbols are open.
make_other() {
    local parts=$work/other
    mkdir -p "$parts"
    (cd "$parts" && ar x "$repository/crates/pg_c/out/exports/out/libpg_exports.a" && ar x "$kit/c/liblibc_c.a" && ld -r -o all.o.joined ./*.o)
    nm --defined-only -g "$parts/all.o.joined" | awk '$3 ~ /^pgmsg_/ { print $3, "other_" substr($3, 7) }' > "$parts/names"
    objcopy --redefine-syms="$parts/names" "$parts/all.o.joined" "$parts/other.o"
}

test_install() {
    local prefix=$work/installed program=$work/installed_program repository kit
    repository=$PWD
    try packaging/library --install "$prefix"
    expect 'install' 0
    same 'install: the symbols of the shared library' "$(foreign_symbols -D "$prefix/lib/libpg_message.so")" ''
    same 'install: the symbols of the static library' "$(foreign_symbols -g "$prefix/lib/libpg_message.a")" ''
    same 'install: a page for each call' "$(find "$prefix/share/man/man3" -name 'pgmsg_*.3' | wc -l)" \
        "$(grep -c '^[a-z].*pgmsg_[a-z0-9_]*(' "$prefix/include/pg_message.h")"
    try cc -std=c11 "-I$prefix/include" -c -o "$work/abi.o" bindings/c/tests/abi.c
    expect 'install: the numbers, sizes and offsets of the ABI' 0
    try cc -std=c11 "-I$prefix/include" -o "$program" bindings/c/tests/installed.c "$prefix/lib/libpg_message.a"
    expect 'install: a program with the static library is built' 0
    try "$program"
    same 'install: a program with the static library' "$status $output" "0 $released"
    test_pkg_config
    test_cmake
    if ! command -v rt > /dev/null; then
        echo 'left out: two libraries of the toolchain in one program, without rt'
        return
    fi
    kit=$(dirname "$(rt doc)")
    make_other
    try cc -std=c11 -DOTHER "-I$prefix/include" -o "$program" bindings/c/tests/installed.c "$work/other/other.o" "$prefix/lib/libpg_message.a"
    expect 'install: two libraries in one program are linked' 0
    try "$program"
    expect 'install: two libraries in one program' 0
}

test_pkg_config() {
    if ! command -v pkg-config > /dev/null; then
        echo 'left out: a program by pkg-config (apt-get install pkg-config)'
        return
    fi
    # The words of pkg-config are apart by spaces.
    # shellcheck disable=SC2046
    try cc -std=c11 -o "$program" bindings/c/tests/installed.c $(PKG_CONFIG_PATH=$prefix/lib/pkgconfig pkg-config --cflags --libs pg_message)
    expect 'install: a program by pkg-config is built' 0
    try env LD_LIBRARY_PATH="$prefix/lib" "$program"
    same 'install: a program by pkg-config' "$status $output" "0 $released"
}

test_cmake() {
    if ! command -v cmake > /dev/null; then
        echo 'left out: a program by CMake (apt-get install cmake)'
        return
    fi
    mkdir -p "$work/cmake"
    cat > "$work/cmake/CMakeLists.txt" << END
cmake_minimum_required(VERSION 3.13)
project(installed C)
find_package(pg_message ${released%.*} REQUIRED)
add_executable(installed "$PWD/bindings/c/tests/installed.c")
target_link_libraries(installed pg_message::SHARED)
END
    try cmake -S "$work/cmake" -B "$work/cmake/out" "-DCMAKE_PREFIX_PATH=$prefix"
    expect 'install: CMake finds the package' 0
    try cmake --build "$work/cmake/out"
    expect 'install: a program by CMake is built' 0
    try "$work/cmake/out/installed"
    same 'install: a program by CMake' "$status $output" "0 $released"
    sed -i 's/pg_message [0-9.]*/pg_message 0.1/' "$work/cmake/CMakeLists.txt"
    try cmake -S "$work/cmake" -B "$work/cmake/other" "-DCMAKE_PREFIX_PATH=$prefix"
    same 'install: CMake refuses it for another interface' "$((status > 0)) $(grep -c 'version: '"$released" <<< "$errors")" '1 1'
}
