# A file for each party, for host/test: what stands in it, and what becomes of it on a full disk, with a reader that
# stops or goes, and with signals. No cycle waits for it.

# Tries a command until it succeeds. The time is there to end a test that fails, not to be measured.
awaits() {
    for ((try = 0; try < 1200; try++)); do
        if "$@"; then return; fi
        sleep 0.05
    done
    fail "in vain: $*; $(cat "$made/err")"
}

# An empty folder for records.
folder() {
    rm -rf "$made/records"
    mkdir "$made/records"
}

# The last cycle in the south's file.
reached() {
    tail -n 1 "$made/records/south.record" | sed -nE 's/^cycle ([0-9]+) .*/\1/p'
}

# Waits for so many more cycles in the south's file.
cycles_more() {
    local last=
    awaits has '^cycle' "$made/records/south.record"
    while [ -z "$last" ]; do last=$(reached); done
    awaits has "^cycle $((last + $1)) " "$made/records/south.record"
}

# Prints how many cycles a record says it lost, or what is wrong: it is to have every other cycle from its first on.
whole() {
    awk '$1 == "#" && $2 == "lost" {
            if ($4 != last + 1 || $6 < $4) { wrong = substr($0, 1, 60); exit }
            lost += $6 - $4 + 1
            last = $6
            next
        }
        $1 == "#" { next }
        $1 == "cycle" && (last == "" || $2 == last + 1) && $0 ~ /:( [a-z_]+=[0-9]+)+$/ { last = $2; next }
        { wrong = substr($0, 1, 60); exit }
        END { print wrong != "" ? "after " last ": " wrong : lost + 0 }' "$1"
}

# Of a record that is whole but for so many cycles: none, or some.
lost() {
    local found
    found=$(whole "$2")
    case $1:$found in
    none:0 | some:[1-9]*) ;;
    *) fail "$1 to be lost in $2: $found" ;;
    esac
}

first_lines() {
    local sum
    sum=$(sha256sum <"$names/two_groups.table" | cut -d ' ' -f 1)
    folder
    for run in 1 2; do
        records /dev/null "$names/two_groups.table" two_groups.trace --fast --party south:low --party north:high \
            --records "$made/records"
        grep -qx "$made/records/south.record: 16 lines, 0 lost" "$made/err" || fail "$(cat "$made/err")"
        # The sum of the whole design is for who operates the box.
        grep -qx "$names/two_groups.table: design sha256 $sum" "$made/err" || fail "no sum: $(cat "$made/err")"
        ! grep -rq "$sum" "$made/records" || fail "a party's file has the sum of the whole design"
    done
    for party in 'south low' 'north high'; do
        read -r name level <<<"$party"
        grep "party $name:" two_groups.expected >"$made/expected"
        # The first lines in the place of what they are to be.
        sed -E "s/^# caisson record, party $name, level $level, library [0-9.]+, started \
20[0-9]{2}-[01][0-9]-[0-3][0-9]T[0-2][0-9]:[0-5][0-9]:[0-6][0-9]Z\$/first/" "$made/records/$name.record" |
            diff <(echo first; cat "$made/expected"; echo first; cat "$made/expected") - >&2 || fail "$name.record"
    done
    # By number. A line that was cut is ended.
    printf 'cycle 9 par' >"$made/records/a.record"
    records /dev/null $designs/lease.table $numbers/lease.trace --replay --records "$made/records" --party a:1
    sed -n 2p "$made/records/a.record" | grep -q "^# caisson record, party a, level 1, library " ||
        fail "$(cat "$made/records/a.record")"
    plainly $designs/lease.table $numbers/lease.trace --fast --party a:1 2>"$made/err" |
        diff - <(tail -n +3 "$made/records/a.record") ||
        fail "a.record has other lines than standard output"
    [ "$(stat -c %a "$made/records/a.record")" != 666 ] || fail "a record that everybody may write"
}

# What hinders the start: no cycle is run, and no file has a first line.
not_started() {
    local words=$1
    says 2 "$made/records/$words" "$names/two_groups.table" two_groups.trace --fast --party south:low --party north:high \
        --records "$made/records"
    ! grep -q cycles "$made/err" || fail "cycles without records: $(cat "$made/err")"
    [ ! -s "$made/records/south.record" ] || fail "a first line of a run that was not: $words"
}

wrong_folders() {
    rm -rf "$made/records"
    says 2 "$made/records: cannot be kept for this host: No such file or directory" "$names/two_groups.table" \
        two_groups.trace --fast --records "$made/records"
    folder
    mkdir "$made/records/north.record"
    not_started 'north.record: cannot be opened: Is a directory'
    folder
    mkfifo "$made/records/north.record"
    not_started 'north.record: cannot be opened: nobody reads this pipe'
    folder
    ln -s /dev/full "$made/records/south.record"
    not_started 'south.record: cannot be written: No space left on device'
    folder
    : >"$made/file"
    says 2 "$made/file: cannot be kept for this host: Not a directory" "$names/two_groups.table" two_groups.trace \
        --fast --records "$made/file"
    # A slip of typing is not followed, nor is a link out of the folder.
    folder
    ln -s "$made/nothing" "$made/records/south.record"
    not_started 'south.record: cannot be opened: it is a link to nothing'
    [ ! -e "$made/nothing" ] || fail "a link was followed"
}

# A design whose lines are long for the north, so that its file or pipe is soon full, and short for the south.
long_lines() {
    local long
    printf -v long '%025000d' 0
    cp ../designs/two_groups.table "$names/long.table"
    sed -E "s/^register 2 reading/&${long//0/_}/" "$names/two_groups.table.names" |
        testdata/summed >"$names/long.table.names"
}

# Starts a box that runs on, with a record for the south and one for the north, and more options. It must not have the
# test's end of a pipe, or it would be its own reader.
start_box() {
    "${under[@]}" ${box_host:-$host} "$names/${box_design:-long}.table" $numbers/two_groups.trace --forever \
        --party south:low --party north:high --records "$made/records" "$@" 2>"$made/err" {reader}>&- &
    box=$!
}

# Ends it, and looks whether it counts what the files say was lost.
stop_box() {
    kill -"${1:-TERM}" $box
    wait $box || fail "a box that was asked to end: status $?: $(cat "$made/err")"
    box=
    grep -qE '^[0-9]+ cycles, [0-9]+ port writes' "$made/err" || fail "no summary: $(cat "$made/err")"
    runs=$((runs + 1))
}

has() {
    grep -q "$1" "$2" 2>/dev/null
}

counts_lost() {
    grep -qxE "$made/records/$1.record: [0-9]+ lines, $2" "$made/err" || fail "not $2: $(cat "$made/err")"
}

# A reason among those that lines were lost by: on a busy machine a file may also have been too slow before.
lost_by() {
    counts_lost "$1" "[1-9][0-9]* lost: (.*, )?$2(, .*)?"
}

# The first line of a file that continues another names the first cycle in it, or the first that is lost.
continues() {
    awk 'NR == 1 && !/ started .*Z, continued, cycle [0-9]+$/ { exit }
        NR == 1 { cycle = $NF }
        NR == 2 { found = ($1 == "#" ? $4 : $2) == cycle; exit }
        END { exit !found }' "$1" || fail "not continued: $(head -n 2 "$1" | cut -c 1-200)"
}

# The file may not grow any more, which a write meets as a full disk: then it is renamed, and the new one has the gap.
full_disk() {
    folder
    # The limit is for the box alone.
    ulimit -S -f 512
    start_box
    ulimit -S -f unlimited
    cycles_more 100
    for party in south north; do mv "$made/records/$party.record" "$made/$party.1"; done
    kill -HUP $box
    awaits has '^# lost cycles' "$made/records/north.record"
    awaits has '^cycle' "$made/records/south.record"
    stop_box
    counts_lost south '0 lost'
    lost_by north 'File too large'
    # The line that the old file has cut is whole in the new one, which may be full in its turn.
    for party in south north; do
        continues "$made/records/$party.record"
        cat "$made/$party.1" "$made/records/$party.record" | grep -E '^#|=[0-9]+$' >"$made/$party.both"
    done
    lost none "$made/south.both"
    lost some "$made/north.both"
}

# A reader that stops holds neither the cycles nor the other party; when it reads again it finds the gap.
stopped_reader() {
    folder
    mkfifo "$made/records/north.record"
    exec {reader}<>"$made/records/north.record"
    start_box
    cycles_more 100
    rm -f "$made/read"
    timeout 120 cat "$made/records/north.record" >"$made/read" {reader}>&- &
    local cat=$!
    awaits has '^# caisson' "$made/read"
    exec {reader}>&-
    awaits has '^# lost cycles' "$made/read"
    stop_box INT
    wait $cat || fail "the pipe was not closed"
    lost none "$made/records/south.record"
    counts_lost south '0 lost'
    lost_by north 'its reader does not read'
    # A gap may be the last thing in the pipe that was not read.
    lost some "$made/read"
}

# The reader goes, and another one comes: it begins with a whole line.
closed_pipe() {
    folder
    mkfifo "$made/records/north.record"
    exec {reader}<>"$made/records/north.record"
    rm -f "$made/read"
    cat <&$reader >"$made/read" &
    local cat=$!
    start_box
    awaits has '^cycle' "$made/read"
    exec {reader}>&-
    kill $cat
    wait $cat 2>/dev/null || true
    cycles_more 100
    rm "$made/read"
    timeout 120 cat "$made/records/north.record" >"$made/read" &
    cat=$!
    awaits has '^# lost cycles' "$made/read"
    stop_box
    wait $cat || fail "the pipe was not closed"
    lost none "$made/records/south.record"
    lost_by north 'Broken pipe'
    # The pipe had lines that nobody has read, so the first cycle is not 1.
    lost some "$made/read"
}

# Rotation: no line is lost, none stands twice, and the new first line names the cycle that follows.
rotated() {
    local cycle box_design=two_groups
    folder
    start_box
    for turn in 1 2; do
        awaits has '^cycle' "$made/records/south.record"
        for party in south north; do mv "$made/records/$party.record" "$made/$party.$turn"; done
        kill -HUP $box
        awaits has '^cycle' "$made/records/north.record"
    done
    stop_box INT
    for party in south north; do
        cat "$made/$party".{1,2} "$made/records/$party.record" >"$made/all"
        lost none "$made/all"
        cycle=$(sed -nE '1s/.*, continued, cycle //p' "$made/records/$party.record")
        sed -n 2p "$made/records/$party.record" | grep -q "^cycle $cycle party $party: " || fail "not cycle $cycle"
        head -n 1 "$made/$party.1" | grep -q continued && fail "the first file continues none"
        counts_lost $party '0 lost'
    done
    # Where a file cannot be opened anew, the old one is written on.
    folder
    start_box
    awaits has '^cycle' "$made/records/south.record"
    mv "$made/records/north.record" "$made/north.1"
    ln -s /dev/full "$made/records/north.record"
    kill -HUP $box
    awaits has 'north.record: cannot be opened anew: No space left on device; the old file is written on' "$made/err"
    stop_box
    lost none "$made/north.1"
    lost none "$made/records/south.record"
}

# As fast as possible: a slow file is waited for, one that takes nothing is not, and the end is no success.
fast_files() {
    local got=0
    folder
    records /dev/null "$names/long.table" /dev/null --fast --cycles 200 --party north:high --records "$made/records"
    lost none "$made/records/north.record"
    counts_lost north '0 lost'
    folder
    (
        ulimit -S -f 512
        outstation "$names/long.table" /dev/null --fast --cycles 200 --party north:high --records "$made/records"
    ) 2>"$made/err" || got=$?
    [ $got = 2 ] || fail "a full disk: status $got: $(cat "$made/err")"
    grep -qx '200 cycles, 0 port writes, 0 late cycles' "$made/err" || fail "cycles lost: $(cat "$made/err")"
    [ "$(stat -c %s "$made/records/north.record")" = 524288 ] || fail "the file is not full"
    runs=$((runs + 1))
}

# Without files, too, a signal ends the cycles with a summary.
signals() {
    local signal
    for signal in TERM INT; do
        # What an earlier box has written must not be taken for this one's: it would be sent the signal too early.
        rm -f "$made/out"
        "${under[@]}" $host "$names/two_groups.table" two_groups.trace --forever --party a:low >"$made/out" \
            2>"$made/err" &
        box=$!
        awaits has '^cycle 20 ' "$made/out"
        stop_box $signal
        lost none "$made/out"
    done
}

# A reader of standard output that has stopped holds the cycles, but not the end.
held_output() {
    # The one that ends after five seconds, under valgrind too.
    local got=0 host=$folder/outstation
    mkfifo "$made/pipe"
    exec {reader}<>"$made/pipe"
    "${under[@]}" $host "$names/long.table" $numbers/two_groups.trace --forever >"$made/pipe" \
        2>"$made/err" {reader}>&- &
    box=$!
    # It has begun with the first byte; a pipe has room for two lines, so that it waits at the third.
    head -c 1 <&$reader >"$made/read"
    sleep 2
    kill -TERM $box
    wait $box || got=$?
    box=
    [ $got = 2 ] || fail "a stopped reader of standard output: status $got"
    exec {reader}>&-
    rm "$made/pipe"
    runs=$((runs + 1))
}

files() {
    exec {reader}</dev/null
    first_lines
    wrong_folders
    long_lines
    anew full_disk
    anew stopped_reader
    anew closed_pipe
    anew rotated
    anew fast_files
    anew signals
    anew held_output
}
