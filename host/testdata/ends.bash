# How the host ends, for host/test: by signals with a slow reader, in a replay and in a long run; by a closed pipe and
# a file that may not grow; and after a refusal where nobody reads what is said.

# A pipe for the host, of which this test has an end.
pipe() {
    rm -f "$made/pipe"
    mkfifo "$made/pipe"
    exec {reader}<>"$made/pipe"
}

# Reads a pipe in small pieces with a pause before each while the host is there, and then to its end.
slowly() {
    while kill -0 $box 2>/dev/null; do
        sleep "$1"
        head -c 4096
    done
    cat
}

# A reader that is slow but lives is waited for, longer than five seconds in all: no line is cut.
slow_reader() {
    local slow
    pipe
    "${under[@]}" $host "$names/long.table" $numbers/two_groups.trace --forever --party north:high >"$made/pipe" \
        2>"$made/err" {reader}>&- &
    box=$!
    slowly 2 <"$made/pipe" >"$made/read" {reader}>&- &
    slow=$!
    awaits has '^cycle' "$made/read"
    exec {reader}>&-
    # The pipe has room for two lines: with the third the host waits.
    sleep 1
    stop_box
    wait $slow
    lost none "$made/read"
    [ "$(tail -c 1 "$made/read" | od -An -tu1)" -eq 10 ] || fail "the last line is cut"
    grep -qx "$(grep -c . "$made/read") cycles, .*" "$made/err" || fail "another number of lines: $(cat "$made/err")"
}

# Without files: a reader that goes, and a file that may not grow, are outputs that cannot be written.
broken_output() {
    local got=0
    pipe
    outstation "$names/long.table" /dev/null --cycles 100000 --fast >"$made/pipe" 2>"$made/err" {reader}>&- &
    box=$!
    head -c 1 <&$reader >"$made/read"
    exec {reader}>&-
    wait $box || got=$?
    box=
    [ $got = 2 ] || fail "a closed pipe: status $got"
    grep -qx 'standard output: cannot be written: Broken pipe' "$made/err" || fail "a closed pipe: $(cat "$made/err")"
    got=0
    (
        ulimit -S -f 512
        outstation "$names/long.table" /dev/null --cycles 200 --fast >"$made/out"
    ) 2>"$made/err" || got=$?
    [ $got = 2 ] || fail "a file that may not grow: status $got"
    grep -qx 'standard output: cannot be written: File too large' "$made/err" || fail "$(cat "$made/err")"
    runs=$((runs + 2))
}

# A replay that a slow reader of the north's pipe holds up: it opens its files anew, and ends with whole lines.
replay_signals() {
    local slow signal
    for signal in TERM INT; do
        folder
        mkfifo "$made/records/north.record"
        exec {reader}<>"$made/records/north.record"
        "${under[@]}" $host "$names/long.table" /dev/null --replay --cycles 20000 --party south:low \
            --party north:high --records "$made/records" 2>"$made/err" {reader}>&- &
        box=$!
        slowly 0.1 <"$made/records/north.record" >"$made/read" {reader}>&- &
        slow=$!
        awaits has '^cycle' "$made/records/south.record"
        awaits has '^cycle' "$made/read"
        exec {reader}>&-
        mv "$made/records/south.record" "$made/south.1"
        kill -HUP $box
        awaits has '^cycle' "$made/records/south.record"
        kill -$signal $box
        wait $box || fail "a replay that was asked to end: status $?: $(cat "$made/err")"
        box=
        wait $slow
        grep -qE '^[0-9]+ cycles, 0 records replayed, 0 of them superseded' "$made/err" || fail "$(cat "$made/err")"
        grep -q '^# caisson record, .*, continued, cycle ' "$made/records/south.record" || fail "not opened anew"
        cat "$made/south.1" "$made/records/south.record" >"$made/all"
        lost none "$made/all"
        runs=$((runs + 1))
    done
}

# A long run of a heavy design, as fast as possible, ends with a summary: here a million cycles would take ten seconds.
long_run() {
    local got=0
    HELD_RUN=10 "${under[@]}" $held "$names/two_groups.table" /dev/null --fast --cycles 100000000 --every 100000000 \
        >"$made/out" 2>"$made/err" &
    box=$!
    # The signal is to come in the run.
    sleep 2
    stop_box
    [ ! -s "$made/out" ] || fail "a sample"
}

gone() {
    ! kill -0 $box 2>/dev/null
}

# Starts the host with a standard error that takes nothing, and looks how it ends.
unheard() {
    local status=$1 got=0
    shift
    pipe
    dd if=/dev/zero bs=65536 count=1 status=none >&$reader
    "$@" 2>"$made/pipe" {reader}>&- &
    box=$!
    if [ -n "${refuses:-}" ]; then
        awaits has '^cycle 5 ' "$made/records/south.record"
        touch "$refuses"
    fi
    awaits gone
    wait $box || got=$?
    box=
    exec {reader}>&-
    [ $got = "$status" ] || fail "nobody reads standard error: status $got, not $status"
    runs=$((runs + 1))
}

# No process stays without control: neither behind a refusal in mid-run nor at the end of its cycles.
unheard_ends() {
    local refuses=$made/refuses
    # A host that the alarm ends leaves its threads as they are, which valgrind would count.
    [ ${#under[@]} = 0 ] || return 0
    folder
    : >"$made/err"
    rm -f "$refuses"
    HELD_REFUSE=$refuses unheard 1 $held "$names/two_groups.table" /dev/null --forever --party south:low \
        --records "$made/records"
    lost none "$made/records/south.record"
    refuses=
    unheard 2 $host "$names/two_groups.table" /dev/null --cycles 5 --party south:low \
        --records "$made/records"
    # Lines that are wrong hold no cycle.
    seq -f 'readin %g' 3000 >"$made/lines"
    unheard 2 $host "$names/two_groups.table" --readings - --cycles 20 --party south:low \
        --records "$made/records" <"$made/lines"
    tail -n 1 "$made/records/south.record" | grep -q '^cycle 20 ' || fail "the cycles have waited for standard error"
}

ends() {
    anew slow_reader
    anew broken_output
    anew replay_signals
    anew long_run
    anew unheard_ends
    rm "$made/pipe"
}
