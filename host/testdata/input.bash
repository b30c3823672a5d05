# Readings from standard input as they come, for host/test. From a file all lines are there before cycle 1.

# Lines of a file for two_groups by name, more options, and the records that they give.
feeds() {
    local lines=$1 expected=$2
    shift 2
    printf '%b' "$lines" >"$made/lines"
    printf '%b' "$expected" >"$made/expected"
    outstation "$names/two_groups.table" --readings - --fast --party a:high "$@" <"$made/lines" >"$made/out" \
        2>"$made/err" || fail "readings $lines: status $?: $(cat "$made/err")"
    cmp "$made/out" "$made/expected" || fail "readings $lines: $(cat "$made/out")"
    runs=$((runs + 1))
}

# A line that is wrong: told with its number, and left out.
bad_reading() {
    feeds "reading 5\n$2\nswitch 6\n" 'cycle 1 party a: timer=3 mode=1 reading=5 switch=6\n'
    [ "$(head -n 1 "$made/err")" = "standard input:2: $1" ] || fail "a bad line $2: $(cat "$made/err")"
    grep -qx '1 cycles, 2 port writes, 0 late cycles' "$made/err" || fail "a bad line $2: $(cat "$made/err")"
    grep -qx '1 lines of readings were left out' "$made/err" || fail "a bad line $2: $(cat "$made/err")"
}

wrong_readings() {
    local register='the register is no name of one of the design and no number from 0 to 4294967295'
    bad_reading "$register" 'readin 1'
    bad_reading "$register" 'r2 1'
    bad_reading "$register" '-1 1'
    bad_reading "$register" '4294967296 1'
    bad_reading "$register" 'read\0000ing 1'
    bad_reading 'the value is no number from -2147483648 to 4294967295' reading
    bad_reading 'the value is no number from -2147483648 to 4294967295' 'reading x'
    bad_reading 'the value is no number from -2147483648 to 4294967295' 'reading 4294967296'
    bad_reading 'the value is no number from -2147483648 to 4294967295' 'reading 1x'
    bad_reading 'more than REGISTER VALUE' 'reading 1 1'
    bad_reading 'more than REGISTER VALUE' '1 2 1'
    bad_reading 'the line is too long' "reading 1 $(printf '%1000s' '')"
    bad_reading 'refused by rule 13: the register is no port' 'timer 1'
    bad_reading 'refused by rule 13: the register is no port' '4 1'
    printf 'wanted 1023\nwanted 1024\n' >"$made/lines"
    outstation "$names/valves.table" --readings - --fast --party a:north <"$made/lines" >"$made/out" \
        2>"$made/err" || fail "a reading too large: status $?"
    grep -qx 'standard input:2: refused by rule 17: the port takes 0 to 1023, not 1024' "$made/err" ||
        fail "a reading too large: $(cat "$made/err")"
    grep -q ' wanted=1023 ' "$made/out" || fail "a reading too large: $(cat "$made/out")"
    # An input that cannot be read ends, and so do the cycles, without success.
    local got=0
    outstation "$names/two_groups.table" --readings - --fast <. >"$made/out" 2>"$made/err" || got=$?
    [ $got = 2 ] || fail "an input that cannot be read: status $got"
    grep -qx 'standard input:1: cannot be read: Is a directory' "$made/err" || fail "$(cat "$made/err")"
}

# A value that comes through a pipe is in the records before the next one is sent; then the input ends.
as_they_come() {
    mkfifo "$made/pipe"
    "${under[@]}" $host "$names/two_groups.table" --readings - --cycles trace --party a:high <"$made/pipe" \
        >"$made/out" 2>"$made/err" &
    box=$!
    local value
    exec {sender}>"$made/pipe"
    for value in 7 8 9; do
        # Not a whole line at once, nor one line alone.
        printf 'swi' >&$sender
        sleep 0.02
        printf 'tch 1\nswitch %d\n' $value >&$sender
        awaits grep -q " switch=$value\$" "$made/out"
    done
    exec {sender}>&-
    wait $box || fail "readings through a pipe: status $?: $(cat "$made/err")"
    box=
    grep -qE '^[0-9]+ cycles, 6 port writes' "$made/err" || fail "readings through a pipe: $(cat "$made/err")"
    rm "$made/pipe"
    runs=$((runs + 1))
}

# At most a message a minute, however many lines are wrong, and the cycles go on behind the end of the input.
forever() {
    for ((line = 0; line < 3000; line++)); do echo "readin $line"; done >"$made/lines"
    echo 'reading 77' >>"$made/lines"
    "${under[@]}" $host "$names/two_groups.table" --readings - --forever --party a:high <"$made/lines" >"$made/out" \
        2>"$made/err" &
    box=$!
    awaits grep -q ' reading=77 ' "$made/out"
    stop_box
    [ "$(grep -c 'lines of readings left out, the last standard input:' "$made/err")" = 1 ] ||
        fail "--forever: $(cat "$made/err")"
    grep -qx '3000 lines of readings were left out' "$made/err" || fail "--forever: $(cat "$made/err")"
    grep -q '^standard input: ended before cycle ' "$made/err" || fail "--forever: no end is told: $(cat "$made/err")"
    [ "$(grep -vc "^late by " "$made/err")" = 4 ] || fail "--forever says more: $(cat "$made/err")"
}

input() {
    feeds '' ''
    # What has come may go on, so that a cycle is run before the end is met.
    feeds '# nothing\n\n \t\r\n' 'cycle 1 party a: timer=3 mode=1 reading=0 switch=0\n'
    feeds 'reading 5\nswitch 6\n' 'cycle 1 party a: timer=3 mode=1 reading=5 switch=6\n'
    # A last line without a line feed is whole once the input has ended.
    feeds 'reading 5\nreading -1 # corrected\r\n 3\t6' "cycle 1 party a: timer=3 mode=1 reading=4294967295 switch=0\n\
cycle 2 party a: timer=2 mode=1 reading=4294967295 switch=6\n"
    # --cycles counts, whatever the input does.
    feeds '' 'cycle 1 party a: timer=3 mode=1 reading=0 switch=0\ncycle 2 party a: timer=2 mode=1 reading=0 switch=0\n' \
        --cycles 2
    feeds 'reading 5\n' 'cycle 2 party a: timer=2 mode=1 reading=5 switch=0\n' --cycles 3 --every 2
    feeds 'reading 5\n' '' --cycles 0
    # 4,096 bytes are taken before a cycle; a line over their end is made once it is whole.
    printf '%999s\n' '' '' '' '' >"$made/blanks"
    feeds "$(cat "$made/blanks")\n$(printf '%90s' '')reading 5\n" \
        'cycle 1 party a: timer=3 mode=1 reading=0 switch=0\ncycle 2 party a: timer=2 mode=1 reading=5 switch=0\n'
    wrong_readings
    as_they_come
    forever
}
