# Speeds that are promised, as `bench/run record` and `bench/run replay` measure them, and the memory of a recording of 10 GB. Sourced by
# `run`, which runs this part where it is named alone: it takes minutes, on a machine with nothing else at work.

# Tests that there are lines of a table that fit a pattern, and that each has at least a quotient in a column.
at_least() {
    local name=$1 table=$2 pattern=$3 column=$4 least=$5
    verdict "$name: at least $least" "$(awk -F '|' -v pattern="$pattern" -v column="$column" -v least="$least" '
        $0 ~ pattern { lines++; if ($column + 0 < least) print "less in:" $0 }
        END { if (!lines) print "no line" }' "$table")"
}

test_speeds() {
    bench/run record | tee "$work/record_speed"
    at_least 'speeds: a COPY is recorded, over socat' "$work/record_speed" '^[|] COPY' 5 0.9
    at_least 'speeds: pgbench of 8 clients is recorded, over socat' "$work/record_speed" '^[|] pgbench' 5 0.9
    bench/run replay | tee "$work/replay_speed"
    at_least 'speeds: pgbench of 8 clients is replayed, over the server' "$work/replay_speed" '^[|] a Unix socket .* [|] 8 ' 8 5
    if find_server && start_server; then
        RECORD_MEGABYTES=10240 test_taped_memory
        stop_server
    else
        bad 'start of a server' 'see above'
    fi
}
