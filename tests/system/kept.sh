# Exports and imports of each recording that a test makes or uses, and the order of its messages. Sourced by `run`.
#
# The tests run the programs of a folder in which the script `keeper` stands for those that make and read recordings. It keeps
# each recording that they make or are given, so that no test has to do anything for it.

# Makes that folder of the programs that are built, and has the tests take the programs from there.
keep_recordings() {
    local program
    built=$programs
    programs=out/kept
    kept_known=$work/known
    : > "$kept_known"
    rm -rf $programs
    mkdir -p $programs
    ln -s "$PWD/$built"/* $programs
    for program in pg_record pg_replay pg_tape; do
        if [ -x "$built/$program" ]; then
            install tests/system/keeper "$programs/$program"
        fi
    done
}

# Runs a part, and tries the recordings that it makes or uses.
keeping() {
    local -x KEPT_RECORDINGS=$work/kept
    mkdir -p "$KEPT_RECORDINGS"
    "test_$1"
    test_kept "$1"
    rm -rf "$KEPT_RECORDINGS"
}

# The parts in which real clients are recorded, none of which breaks the order.
in_order=(python_tapes passed_on tokio_postgres replication logical replay_real)

# A recording that is whole or cut comes back with the same bytes, and the fault of a damaged one is named. What an earlier
# part had isn't tried again.
test_kept() {
    local files order=any
    [[ " ${in_order[*]} " != *" $1 "* ]] || order=ordered
    mapfile -d '' files < <(find "$KEPT_RECORDINGS" -type f -print0; find "$work" -name '*.tape' -type f -print0)
    if [ ${#files[@]} -gt 0 ] && has_python; then
        mkdir -p "$work/scratch"
        try tests/system/kept.py "$built/pg_tape" "$kept_known" "$work/scratch" $order "${files[@]}"
        expect "$1: recordings are exported and imported with the same bytes, and damaged ones refused by name: $output" 0
    elif [[ " tape ${of_recordings[*]} ${of_replays[*]} ${of_other_replays[*]} " == *" $1 "* ]]; then
        bad "$1: recordings are exported and imported" 'none was kept'
    fi
}

# How many there were in all parts.
test_all_kept() {
    if [ -s "$kept_known" ]; then
        ok "exported and imported, $(wc -l < "$kept_known") recordings of all parts: $(cut -d ' ' -f 2 "$kept_known" \
            | sort | uniq -c | awk '{ printf "%s%d %s", (NR > 1 ? ", " : ""), $1, $2 }')"
        ok "checked, the order of $(awk '{ sessions += $3; messages += $4; broken += $5; left += $6 } END {
            printf "%d sessions with %d messages: %d break it, as they are meant to, and %d can'"'"'t be followed to their end", \
                sessions, messages, broken, left }' "$kept_known")"
    fi
}
