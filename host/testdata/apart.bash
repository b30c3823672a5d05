# What the host does for one party is seen by no other, for host/test: a disk that holds one file, an edit for a
# neighbour, who may read a file, two hosts on one folder. Beside it the time of cycles, and what tells that they run.

held=$folder/outstation_held

# A disk holds the north's file for seconds: the south has each of its lines meanwhile, and the north the gap.
held_disk() {
    local box_host=$held
    folder
    rm -f "$made/hold"
    export HELD_FILE=$made/records/north.record HELD_WHILE=$made/hold
    start_box
    awaits has '^cycle' "$made/records/south.record"
    touch "$made/hold"
    cycles_more 300
    rm "$made/hold"
    awaits has '^# lost cycles' "$made/records/north.record"
    cycles_more 20
    stop_box
    lost none "$made/records/south.record"
    counts_lost south '0 lost'
    lost some "$made/records/north.record"
    # It is held at the end too: the south's file is whole, and the host does not wait.
    folder
    start_box
    awaits has '^cycle' "$made/records/south.record"
    touch "$made/hold"
    cycles_more 20
    # What such a thread has is not given back.
    if [ ${#under[@]} = 0 ]; then
        stop_box
        lost none "$made/records/south.record"
        counts_lost south '0 lost'
        grep -qx "$made/records/north.record: the disk holds it: what it has not taken is lost" "$made/err" ||
            fail "a disk that holds on: $(cat "$made/err")"
    else
        rm "$made/hold"
        stop_box
    fi
    rm -f "$made/hold"
    unset HELD_FILE HELD_WHILE
}

# The south's file after a run of a table, without the time of its start.
souths_file() {
    folder
    records /dev/null "$1" $numbers/two_groups.trace --fast --party south:0 --party north:1 --records "$made/records"
    sed 's/, started .*//' "$made/records/south.record"
}

# A neighbour's edit, here the reset value of its port, changes no byte.
edit_for_a_neighbour() {
    local at
    at=$(od -An -tu2 -j4 -N2 $designs/two_groups.table)
    cp $designs/two_groups.table "$made/edited.table"
    # The third register has its reset value behind its label and its kind.
    printf '\001' | dd of="$made/edited.table" bs=1 seek=$((at + 2 * 7 + 2)) conv=notrunc status=none
    ! cmp -s $designs/two_groups.table "$made/edited.table" || fail "no edit"
    souths_file $designs/two_groups.table >"$made/before"
    souths_file "$made/edited.table" >"$made/after"
    grep -q '^cycle 1 party north: .* r2=1 ' "$made/records/north.record" || fail "the edit is not seen by the north"
    cmp "$made/before" "$made/after" || fail "the south sees an edit for the north"
}

group_of() {
    stat -c '%g %a' "$made/$1.record"
}

# Each party's file is its own group's, at the start and after rotation, whatever the umask is.
groups() {
    local south north turn box_design=two_groups before
    before=$(umask)
    read -r south north _ <<<"$(id -G) $(id -g)"
    [ "$(id -u)" != 0 ] || { south=1001 north=1002; }
    folder
    rm -rf "$made/north"
    mkdir "$made/north"
    umask 077
    start_box --group south=$south --group north=$north --folder north="$made/north"
    umask "$before"
    for turn in 1 2; do
        awaits has '^cycle' "$made/records/south.record"
        awaits has '^cycle' "$made/north/north.record"
        [ "$(group_of records/south)" = "$south 640" ] || fail "group and mode: $(group_of records/south)"
        [ "$(group_of north/north)" = "$north 640" ] || fail "group and mode: $(group_of north/north)"
        mv "$made/records/south.record" "$made/south.$turn"
        mv "$made/north/north.record" "$made/north.$turn"
        kill -HUP $box
    done
    awaits has '^cycle' "$made/north/north.record"
    stop_box
    [ ! -e "$made/records/north.record" ] || fail "a record in a folder of others"
    # A file that is there keeps its group, and must have the one asked for.
    chmod 644 "$made/north/north.record"
    says 2 "$made/north/north.record: cannot be opened: others than its group may use it" "$names/two_groups.table" \
        two_groups.trace --fast --party north:high --records "$made/north" --group north=$north
    chmod 640 "$made/north/north.record"
    records /dev/null "$names/two_groups.table" two_groups.trace --fast --party north:high --records "$made/north" \
        --group north=$north
    if [ "$south" != "$north" ]; then
        says 2 "$made/north/north.record: cannot be opened: it is of another group than --group says" \
            "$names/two_groups.table" two_groups.trace --fast --party north:high --records "$made/north" \
            --group north=$south
    fi
    says 2 'party north: has no record: 0' "$names/two_groups.table" two_groups.trace --party south:low \
        --records "$made/records" --group north=0
    says 2 'party south: no such group: no-such-group' "$names/two_groups.table" two_groups.trace --party south:low \
        --records "$made/records" --group south=no-such-group
    says 2 'party south: a second group: 0' "$names/two_groups.table" two_groups.trace --party south:low \
        --records "$made/records" --group south=0 --group south=0
    says 2 'party low: a second folder: .' "$names/two_groups.table" two_groups.trace --records "$made/records" \
        --folder low=. --folder low=.
}

# A folder is one host's, until that ends, also by SIGKILL.
one_host() {
    local box_design=two_groups
    folder
    start_box
    awaits has '^cycle' "$made/records/north.record"
    says 2 "$made/records: another host writes its records there" "$names/two_groups.table" two_groups.trace --fast \
        --party other:low --records "$made/records"
    [ ! -e "$made/records/other.record" ] || fail "a second host has begun a file"
    mkdir "$made/records/other"
    says 2 "$made/records: another host writes its records there" "$names/two_groups.table" two_groups.trace --fast \
        --party other:low --records "$made/records/other" --folder other="$made/records"
    kill -KILL $box
    wait $box 2>/dev/null || true
    box=
    records /dev/null "$names/two_groups.table" two_groups.trace --fast --party other:low --records "$made/records"
}

# What is said to nobody goes into no party's file.
no_standard_error() {
    folder
    plainly "$names/two_groups.table" two_groups.trace --fast --party south:low --records "$made/records" 2>&- ||
        fail "without standard error: status $?"
    [ "$(grep -vc '^cycle' "$made/records/south.record")" = 1 ] || fail "$(cat "$made/records/south.record")"
    runs=$((runs + 1))
}

# Times are those at which cycles were due, 10 ms apart, also of cycles that a stopped host has run late.
times() {
    local before after box_design=two_groups
    folder
    before=$(date -u +%FT%T.000Z)
    start_box --time
    awaits has '^cycle 20 ' "$made/records/north.record"
    kill -STOP $box
    sleep 0.2
    kill -CONT $box
    cycles_more 20
    stop_box
    after=$(date -u +%FT%T.999Z)
    for party in south north; do
        awk -v before="$before" -v after="$after" -v party=$party '/^#/ { next }
            $3 != "at" || $5 != "party" || $6 != party ":" || $4 !~ /^20..-..-..T..:..:..\.[0-9][0-9][0-9]Z$/ { exit 1 }
            {
                split(substr($4, 12), parts, /[:Z]/)
                now = int((parts[1] * 3600 + parts[2] * 60 + parts[3]) * 1000 + 0.5)
                if (last != "" && (now - last + 86400000) % 86400000 != 10) exit 1
                if ($4 < before || $4 > after) exit 1
                last = now
                count++
            }
            END { exit count < 20 }' "$made/records/$party.record" || fail "times of $party"
    done
    cmp <(cut -d ' ' -f 2,4 "$made/records/south.record" | tail -n +2) \
        <(cut -d ' ' -f 2,4 "$made/records/north.record" | tail -n +2) || fail "other times for another party"
}

touched() {
    [ "$(stat -c %Y "$made/alive")" -gt "$1" ]
}

twice() {
    [ "$(grep -c "$1" "$2")" -ge 2 ]
}

untouched() {
    [ $(($(date +%s) - $(stat -c %Y "$made/alive"))) -ge 4 ]
}

# While the cycles run, and no longer: here a reader of standard output holds them.
tells_alive() {
    local since waiter got=0
    # A host that the alarm ends leaves its threads as they are, which valgrind would count.
    [ ${#under[@]} = 0 ] || return 0
    gcc -std=c11 -D_POSIX_C_SOURCE=200809L -Wall -Wextra -Werror testdata/notified.c -o $folder/notified
    rm -f "$made/socket" "$made/alive" "$made/notices" "$made/pipe"
    $folder/notified "$made/socket" >"$made/notices" &
    waiter=$!
    awaits test -S "$made/socket"
    mkfifo "$made/pipe"
    exec {reader}<>"$made/pipe"
    NOTIFY_SOCKET=$made/socket $host "$names/long.table" $numbers/two_groups.trace --forever \
        --alive "$made/alive" >"$made/pipe" 2>"$made/err" {reader}>&- &
    box=$!
    cat <&$reader >/dev/null &
    local cat=$!
    awaits has READY=1 "$made/notices"
    [ "$(head -n 1 "$made/notices")" = READY=1 ] || fail "ready too late: $(cat "$made/notices")"
    for turn in 1 2; do
        since=$(stat -c %Y "$made/alive")
        awaits touched "$since"
    done
    awaits twice WATCHDOG=1 "$made/notices"
    kill $cat
    wait $cat 2>/dev/null || true
    awaits untouched
    since=$(wc -l <"$made/notices")
    sleep 2
    [ "$(wc -l <"$made/notices")" = "$since" ] || fail "a box whose cycles wait is alive"
    kill -TERM $box
    wait $box || got=$?
    box=
    [ $got = 2 ] || fail "a stopped reader of standard output: status $got"
    kill $waiter
    wait $waiter 2>/dev/null || true
    exec {reader}>&-
    rm "$made/pipe"
    runs=$((runs + 1))
    says 2 "$made/no/alive: cannot be touched: No such file or directory" "$names/two_groups.table" two_groups.trace \
        --alive "$made/no/alive"
}

apart() {
    gcc -std=c11 -Wall -Wextra -Werror -I../include -pthread ${sanitize:-} -Wl,--wrap=write,--wrap=caisson_run \
        testdata/held.c "${host%/*}"/*.o ../target/staticlib/libcaisson.a -o $held
    anew held_disk
    anew edit_for_a_neighbour
    anew groups
    anew one_host
    anew no_standard_error
    anew times
    anew tells_alive
}
