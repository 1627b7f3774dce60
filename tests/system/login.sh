# Logins by each method, and what can be wrong before one. Sourced by `run`.

# Logs in by TCP, and out again.
log_in() {
    "$programs/pg_listen" -h 127.0.0.1 -U "$1" -d postgres -n 0 channel < /dev/null
}

make_users() {
    sql "SET password_encryption = 'scram-sha-256'; CREATE ROLE by_scram LOGIN PASSWORD 'pass word ''1'
         ; CREATE ROLE by_clear LOGIN PASSWORD 'pass word ''1'; CREATE ROLE by_trust LOGIN
         ; SET password_encryption = md5; CREATE ROLE by_md5 LOGIN PASSWORD 'pass word ''1'"
}

test_passwords() {
    local user
    for user in by_clear by_md5 by_scram; do
        PGPASSWORD="pass word '1" try log_in "$user"
        expect "login $user" 0 listening
        PGPASSWORD=wrong try log_in "$user"
        expect "login $user with a wrong password" 3 28P01
        try log_in "$user"
        expect "login $user without a password" 3 PGPASSWORD
    done
    try log_in by_trust
    expect 'login by_trust' 0 listening
    PGPASSWORD=$'\377' try log_in by_clear
    expect 'a password that is not UTF-8' 3 28P01
    try log_in nobody_is_called_so
    expect 'login of an unknown user' 3 28000
}

test_addresses() {
    local listen=$programs/pg_listen
    try "$listen" -n 0 channel
    expect 'a Unix socket' 0
    try "$listen" -h no.such.host.invalid -n 0 channel
    expect 'a host that is not there' 2 no.such.host.invalid
    try "$listen" -h 127.0.0.1 -p "$(free_port)" -n 0 channel
    expect 'a port where nobody waits' 2 'Connection refused'
    try "$listen" -h /nowhere -n 0 channel
    expect 'a folder without a socket' 2 'No such file'
    try "$listen" -h "/$(printf '%0200d' 0)" -n 0 channel
    expect 'a folder with a long name' 2 'too long'
    try "$listen" -p 123456 -n 0 channel
    expect 'a port that no port can be' 1 123456
    try "$listen" -d no_such_database -n 0 channel
    expect 'a database that is not there' 3 3D000
    try "$listen"
    expect 'no channel' 1 usage
    try "$listen" -n -1 channel
    expect 'a count below 0' 1 usage
    try "$listen" -x channel
    expect 'an unknown option' 1 usage
    try "$listen" --help
    expect 'help' 0
}

# Reads a table by the example in C, as those of Rust and Python do.
test_read_table() {
    local read_table=("$programs/read_table" -h 127.0.0.1 -d postgres -U)
    sql "CREATE TABLE of_c AS SELECT * FROM (VALUES (1, 'a'), (2, NULL)) AS rows; GRANT SELECT ON of_c TO by_scram, by_trust"
    PGPASSWORD="pass word '1" try "${read_table[@]}" by_scram of_c
    same 'read_table by SCRAM' "$status $output" $'0 1\ta\n2\tNULL'
    PGPASSWORD=wrong try "${read_table[@]}" by_scram of_c
    expect 'read_table by SCRAM with a wrong password' 3 28P01
    try sh -c '"$@" > /dev/full' sh "${read_table[@]}" by_trust of_c
    expect 'read_table whose output can not be written' 7 'standard output'
    try "${read_table[@]}" by_trust no_such_table
    expect 'read_table of a table that is not there' 4 42P01
    try "${read_table[@]}" by_trust
    expect 'read_table without a table' 1 usage
}

test_login() {
    make_users
    test_read_table
    test_passwords
    test_addresses
}
