# Loads by pg_copy that should go well, and wrong arguments. Sourced by `run`.

rows=1000000

# A file of many rows with NULLs and escapes.
make_rows() {
    sql "COPY (SELECT i, CASE WHEN i % 7 <> 0 THEN 'name ' || i END,
                      CASE i % 5 WHEN 0 THEN E'tab\\there' WHEN 1 THEN E'line\\nhere'
                                 WHEN 2 THEN E'back\\\\slash' WHEN 3 THEN 'Grüße \\N' ELSE '' END,
                      i / 8.0
               FROM generate_series(1, $rows) AS i) TO STDOUT" > "$work/rows"
}

make_table() {
    sql "DROP TABLE IF EXISTS $1; CREATE UNLOGGED TABLE $1 (id int, name text, odd text, amount numeric)"
}

# What a table holds, in one line.
sum_of() {
    sql "SELECT count(*), sum(hashtextextended(t::text, 0)::numeric) FROM $1 AS t"
}

load() {
    "$programs/pg_copy" "$@"
}

test_many_rows() {
    local wanted
    make_table by_psql
    "$bin/psql" -X -q -c "\\copy by_psql from '$work/rows'"
    wanted=$(sum_of by_psql)
    make_table by_copy
    try load by_copy "$work/rows"
    same 'a million rows of a file' "$status $output $(sum_of by_copy)" "0 COPY $rows $wanted"
    make_table by_copy
    try load -h 127.0.0.1 by_copy - < <(cat "$work/rows")
    same 'a million rows of a pipe, over TCP' "$status $output $(sum_of by_copy)" "0 COPY $rows $wanted"
}

test_names() {
    sql 'CREATE SCHEMA "Odd ""one"; CREATE TABLE "Odd ""one"."A b" (a int, "B,b" text, "C""c" int)'
    try load -c 'C"c,a' 'Odd "one.A b' < <(printf '1\t2\n3\t\\N\n')
    same 'a schema, and columns by name' "$status $output" '0 COPY 2'
    same 'what they hold' "$(sql 'TABLE "Odd ""one"."A b"')" $'2||1\n||3'
    try load 'A b' < /dev/null
    expect 'a table of another schema' 4 42P01
    try load 'by_copy; DROP TABLE by_psql' < /dev/null
    expect 'a table is a name, and no SQL' 4 42P01
    try load -c 'a,,b' by_copy < /dev/null
    expect 'an empty column' 1 empty
    try load '' < /dev/null
    expect 'an empty table' 1 empty
    try load $'\377' < /dev/null
    expect 'a table that is not UTF-8' 4 22021
    try load -c nothing by_copy < /dev/null
    expect 'a column that is not there' 4 42703
    try load
    expect 'no table' 1 usage
}

test_files() {
    make_table by_copy
    try load by_copy /dev/null
    same 'an empty file' "$status $output" '0 COPY 0'
    try load by_copy < <(printf '1\ta\tb\t2')
    same 'a file without a last line feed' "$status $output" '0 COPY 1'
    try load by_copy "$work/nowhere"
    expect 'a file that is not there' 7 'No such file'
    try load by_copy "$work"
    expect 'a folder as the file' 7 'Is a directory'
    same 'no row of a folder' "$(sql 'SELECT count(*) FROM by_copy')" 1
    try load by_copy <&-
    expect 'standard input is closed' 7 "can't be read"
    "$programs/pg_copy" by_copy /dev/null >&- 2> "$work/errors"
    same 'standard output is closed' "$?" 7
    "$programs/pg_copy" by_copy /dev/null > /dev/full 2> "$work/errors"
    same 'standard output is full' "$? $(cat "$work/errors")" \
        "7 pg_copy: 0 rows are stored, but that can't be written: No space left on device"
    PGCLIENTENCODING=LATIN1 try load by_copy < <(printf '5\t\344\tx\t1\n')
    same 'another encoding' "$status $(sql 'SELECT name FROM by_copy WHERE id = 5')" '0 ä'
}

# Loads what a file has after its first line, as standard input, and prints what is left of it then.
load_rest() {
    read -r
    load "$@"
    cat
}

# Standard input may stand anywhere in a file, and goes on where the data ended.
test_parts_of_files() {
    make_table by_copy
    try load_rest by_copy < "$work/rows"
    same 'a file from its second line on' "$status $output" "0 COPY $((rows - 1))"
    same 'it has the other lines' "$(sql 'SELECT count(*), min(id), max(id) FROM by_copy')" "$((rows - 1))|2|$rows"
}

# Regular files that say no length, or a wrong one.
test_files_of_the_system() {
    local file
    sql 'CREATE TABLE lines (line text)'
    for file in /proc/sys/kernel/ostype /sys/devices/system/cpu/online; do
        if ! [ -r "$file" ]; then
            echo "left out: $file, which is not there"
            continue
        fi
        sql 'TRUNCATE lines'
        try load lines "$file"
        same "$file" "$status $output $(sql 'TABLE lines')" "0 COPY 1 $(cat "$file")"
    done
}

# A trigger that says a kilobyte for each row: both sides write at once.
test_notices() {
    sql "CREATE TABLE noisy (a int);
         CREATE FUNCTION say() RETURNS trigger LANGUAGE plpgsql AS
             \$\$BEGIN RAISE NOTICE '%', repeat('x', 1000); RETURN NEW; END\$\$;
         CREATE TRIGGER say BEFORE INSERT ON noisy FOR EACH ROW EXECUTE FUNCTION say()"
    try load noisy < <(seq 20000)
    same 'a notice for each row' "$status $output" '0 COPY 20000'
    same 'all notices are printed' "$(grep -c '^NOTICE 00000: xxx' "$work/errors")" 20000
}

test_copy() {
    make_rows
    test_many_rows
    test_names
    test_files
    test_parts_of_files
    test_files_of_the_system
    test_notices
}
