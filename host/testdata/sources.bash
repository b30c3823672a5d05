# A source of its own for each sender, for host/test: the ports that it may write, and what a flood, a cut line or an
# end of one leaves of another. From a file all lines of the first 4,096 bytes are there before cycle 1.

# Two senders with these lines, more options, and the records that they give.
sent() {
    local north=$1 south=$2 expected=$3
    shift 3
    printf '%b' "$north" >"$made/north"
    printf '%b' "$south" >"$made/south"
    printf '%b' "$expected" >"$made/expected"
    records "$made/expected" "$names/two_groups.table" --readings north="$made/north" --ports north=reading \
        --readings south="$made/south" --ports south=switch --fast --party a:high "$@"
}

# What is said of arguments for two_groups, with a file for each of two senders.
source_refused() {
    local words=$1
    shift
    says 2 "$words" "$names/two_groups.table" --fast --cycles 1 "$@"
}

wrong_sources() {
    local north=(--readings north="$made/north") south=(--readings south="$made/south") given
    : >"$made/north"
    : >"$made/south"
    for given in north = north= ="$made/north" 'no rth=x' "$(printf '%064d' 0)=x"; do
        source_refused "--readings takes -, standard input, or NAME=PATH, not $given" --readings "$given"
        source_refused "--ports takes NAME=PORT,PORT.., not $given" --ports "$given"
    done
    source_refused '--readings NAME=PATH needs --ports NAME=PORT,PORT..' "${north[@]}"
    source_refused '--readings NAME=PATH needs --ports NAME=PORT,PORT..' "${north[@]}" --ports north=2 "${south[@]}"
    source_refused '--ports NAME=.. needs --readings NAME=PATH' --ports north=2
    source_refused "a second source of the same name: north=$made/south" "${north[@]}" --ports north=2 \
        --readings north="$made/south"
    source_refused 'a second list of ports for the same name: north=3' "${north[@]}" --ports north=2 --ports north=3
    source_refused 'readings come from a trace, from standard input or from sources of their own' "${north[@]}" \
        --ports north=2 two_groups.trace
    source_refused 'readings come from a trace, from standard input or from sources of their own' "${north[@]}" \
        --ports north=2 --readings -
    source_refused '--readings NAME=PATH goes with neither --console nor --replay' "${north[@]}" --ports north=2 \
        --console
    source_refused '--readings NAME=PATH goes with neither --console nor --replay' "${north[@]}" --ports north=2 \
        --replay
    says 2 'with --readings NAME=PATH either --cycles N or --forever' "$names/two_groups.table" "${north[@]}" \
        --ports north=2
    # What is listed is a port of the design, and of one source alone.
    for given in timer readin 0 4 4294967296 -1 2x; do
        source_refused "readings north: $given is no port of the design" "${north[@]}" --ports north="$given"
        source_refused "readings north: $given is no port of the design" "${north[@]}" --ports north=switch,"$given"
    done
    source_refused 'readings north:  is no port of the design' "${north[@]}" --ports north=reading,
    source_refused 'readings north: port 2 belongs to it already' "${north[@]}" --ports north=reading,2
    source_refused 'readings south: port reading belongs to readings north already' "${north[@]}" \
        --ports north=reading "${south[@]}" --ports south=switch,reading
    source_refused "readings north: $made/none cannot be opened: No such file or directory" \
        --readings north="$made/none" --ports north=2
    source_refused "readings north: $made cannot be opened: it is no FIFO, no file and no character device" \
        --readings north="$made" --ports north=2
}

# Each has what it sent, whatever the other does.
senders_apart() {
    local first='cycle 1 party a: timer=3 mode=1' second='cycle 2 party a: timer=2 mode=1' wrong
    sent 'reading 5\n' 'switch 6\n' "$first reading=5 switch=6\n" --cycles 1
    grep -qx '1 cycles, 2 port writes, 0 late cycles' "$made/err" || fail "two sources: $(cat "$made/err")"
    # By number, and the list before the source.
    printf '%s\n' "$first reading=5 switch=6" >"$made/expected"
    records "$made/expected" "$names/two_groups.table" --ports north=2 --ports south=3 --readings south="$made/south" \
        --readings north="$made/north" --fast --party a:high --cycles 1
    # A port that is another's, one of nobody's, what is no port, and what is no line: told by name and line.
    for wrong in 'switch 9' 'timer 9' '4294967295 9'; do
        sent "reading 5\n$wrong\n" 'switch 6\n' "$first reading=5 switch=6\n" --cycles 1
        grep -qx 'readings north:2: the register is no port of this source' "$made/err" || fail "$(cat "$made/err")"
        grep -qx '1 cycles, 2 port writes, 0 late cycles' "$made/err" || fail "$wrong: $(cat "$made/err")"
        grep -qx '1 lines of readings were left out' "$made/err" || fail "$wrong: $(cat "$made/err")"
    done
    sent 'reading\n' 'switch 6\n' "$first reading=0 switch=6\n" --cycles 1
    grep -q '^readings north:1: the value is no number' "$made/err" || fail "$(cat "$made/err")"
    printf 'wanted 1024\n' >"$made/north"
    "${under[@]}" $host "$names/valves.table" --readings north="$made/north" --ports north=wanted --fast --cycles 1 \
        >"$made/out" 2>"$made/err" || fail "a reading too large: status $?"
    grep -qx 'readings north:1: refused by rule 17: the port takes 0 to 1023, not 1024' "$made/err" ||
        fail "a reading too large: $(cat "$made/err")"
    # A flood, whoever sends it: the other's reading holds in cycle 1, and its own when its bytes have come.
    local flood
    flood=$(printf '%*s' 900 '')'\n'
    flood=$flood$flood$flood$flood$flood
    sent "$flood""reading 5\n" 'switch 6\n' "$first reading=0 switch=6\n$second reading=5 switch=6\n" --cycles 2
    sent 'reading 5\n' "$flood""switch 6\n" "$first reading=5 switch=0\n$second reading=5 switch=6\n" --cycles 2
    # A line that was cut takes nothing of another's, and is not made: its value may be cut too.
    sent 'reading 1' 'switch 6\n' "$first reading=0 switch=6\n$second reading=0 switch=6\n" --cycles 2
    grep -qx 'readings north:1: the line was cut: it has no line feed' "$made/err" || fail "$(cat "$made/err")"
    sent "reading 5\nreading 1 $(printf '%1000s' '')" '' "$second reading=5 switch=0\n" --cycles 2 --every 2
    grep -qx 'readings north:2: the line was cut: it has no line feed' "$made/err" || fail "$(cat "$made/err")"
    # The end of one is told once, and the other's cycles go on.
    sent 'reading 5\n' '' "$second reading=5 switch=0\n" --cycles 2 --every 2
    [ "$(grep -c ' ended before cycle ' "$made/err")" = 2 ] || fail "two ends: $(cat "$made/err")"
    for wrong in 'north: ended before cycle 2' 'south: ended before cycle 1'; do
        grep -qx "readings $wrong; its ports keep their values" "$made/err" || fail "$(cat "$made/err")"
    done
}

# Starts a box with a FIFO for each of two senders, and more options.
start_senders() {
    # What is awaited must not be found in the files of an earlier box.
    rm -f "$made"/{north,south,out,err}
    mkfifo "$made"/{north,south}
    "${under[@]}" $host "$names/two_groups.table" --readings north="$made/north" --ports north=reading \
        --readings south="$made/south" --ports south=switch --party a:high "$@" >"$made/out" 2>"$made/err" &
    box=$!
}

# A sender that goes, in the midst of a line too, holds nothing of the other; one that comes again is read on.
senders_go_and_come() {
    local north south
    start_senders --cycles 1000000000
    exec {north}>"$made/north" {south}>"$made/south"
    printf 'reading 1\nread' >&$north
    printf 'switch 1\n' >&$south
    awaits has ' reading=1 switch=1$' "$made/out"
    exec {north}>&-
    awaits has '^readings north:2: the line was cut: it has no line feed$' "$made/err"
    printf 'switch 2\n' >&$south
    awaits has ' reading=1 switch=2$' "$made/out"
    exec {north}>"$made/north"
    printf 'reading 3\n' >&$north
    awaits has ' reading=3 switch=2$' "$made/out"
    exec {north}>&- {south}>&-
    stop_box
    # Before the first writer and behind the last: a line a minute at most for each.
    for sender in north south; do
        [ "$(grep -c "^readings $sender: nobody writes to it before cycle [0-9]*; its ports keep their values\$" \
            "$made/err")" -le 1 ] || fail "$sender is told more than once a minute: $(cat "$made/err")"
    done
}

# With --forever, too, an end is heard of: of a FIFO, and of the common stream.
ends_are_told() {
    start_senders --forever
    awaits has '^readings north: nobody writes to it before cycle [0-9]*; its ports keep their values$' "$made/err"
    awaits has '^readings south: nobody writes to it before cycle [0-9]*; its ports keep their values$' "$made/err"
    stop_box
    rm "$made"/{out,err}
    "${under[@]}" $host "$names/two_groups.table" --readings - --forever --party a:high <<<'reading 4' >"$made/out" \
        2>"$made/err" &
    box=$!
    awaits has '^standard input: ended before cycle [0-9]*; all ports keep their values$' "$made/err"
    awaits has ' reading=4 ' "$made/out"
    stop_box
    [ "$(grep -c ' ended ' "$made/err")" = 1 ] || fail "an end is told twice: $(cat "$made/err")"
}

# A device that cannot be read is no end as any other.
broken_sources() {
    local got=0
    "${under[@]}" $host "$names/two_groups.table" --readings north=/proc/self/mem --ports north=reading --fast \
        --cycles 3 --party a:high >"$made/out" 2>"$made/err" || got=$?
    [ $got = 2 ] || fail "a source that cannot be read: status $got: $(cat "$made/err")"
    grep -qx 'readings north:1: cannot be read: Input/output error' "$made/err" || fail "$(cat "$made/err")"
    [ "$(wc -l <"$made/out")" = 3 ] || fail "a source that cannot be read: $(cat "$made/out")"
    runs=$((runs + 1))
}

own_sources() {
    # Nobody reads the FIFOs of an earlier turn, and another test has a folder there.
    rm -rf "$made"/{north,south}
    anew wrong_sources
    anew senders_apart
    anew broken_sources
    anew senders_go_and_come
    anew ends_are_told
}
