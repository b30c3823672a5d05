# Designs with names files, for host/test: the examples, parties, traces, records, refusals, the console and replays by
# name, and names files that are refused. The names are those of the texts in the folder of designs.

names=$made/names
mkdir "$names"

# A table with its names file.
named() {
    local design
    for design in "$@"; do
        cp ../designs/"$design".table "$names"
        testdata/names ../designs/"$design".caisson "$names/$design".table >"$names/$design".table.names
    done
}

# What the host shows of a design in names, from what it shows in numbers.
in_names() {
    sed -E "$(awk '$1 == "label" { printf "s/\\<label%d\\>/%s/g\n", $2, $3 }
        $1 == "register" || $1 == "state" { printf "s/\\<%s%d\\>/%s/g\n", substr($1, 1, 1), $2, $3 }' \
        "../designs/$1.table.names")" "$2"
}

# The examples, on the stored tables with their stored names files: what is stored by number, under names.
runs_by_name() {
    local design output way
    for design in lease tank two_groups two_groups_shared; do
        named $design
        cmp "$names/$design.table.names" ../designs/$design.table.names || fail "testdata/names: another names file"
        cp ../designs/$design.table.names "$names"
    done
    for output in lease tank two_groups two_groups_shared two_groups_console; do
        in_names ${output%_console} $numbers/$output.expected | diff - $output.expected >&2 ||
            fail "$output.expected: other values (>) than by number (<)"
        ! grep -qE '\<[rs][0-9]|\<label[0-9]' $output.expected || fail "$output.expected: a number for a name"
    done
    for way in --fast --replay; do
        # Without parties each label has a record under its name.
        records lease.expected "$names/lease.table" lease.trace $way
        records tank.expected "$names/tank.table" tank.trace $way --party town:town --party works:works
        for design in two_groups two_groups_shared; do
            records $design.expected "$names/$design.table" two_groups.trace $way --party south:low --party north:high
            # Numbers are taken all the same.
            records $design.expected "$names/$design.table" $numbers/two_groups.trace $way --party south:0 \
                --party north:high
            records $design.expected "$names/$design.table" two_groups.trace $way --cycles 16 --party south:low \
                --party north:1
        done
    done
    session two_groups_console.expected two_groups.console "$names/two_groups.table" two_groups.trace --cycles 0 \
        --party south:low --party north:high
    # All that is shown of commands by number is in names, but for themselves in the history.
    sed 's/  write reading/  write r2/' two_groups_console.expected >"$made/expected"
    session "$made/expected" $numbers/two_groups.console "$names/two_groups.table" $numbers/two_groups.trace \
        --cycles 0 --party south:low --party north:high
}

# What is said of the console's commands on the named design.
console_says() {
    printf '%b' "$1" >"$made/commands"
    outstation "$names/two_groups.table" --console <"$made/commands" >"$made/out" 2>&1 ||
        fail "a console by name: $(cat "$made/out")"
    tail -n +3 "$made/out" | diff <(printf '%s\n' "$2") - >&2 || fail "a console by name on: $1"
    runs=$((runs + 1))
}

commands_by_name() {
    console_says 'write reading 7\nwrite 2 8\nwrite r2 9\n' $'reading=7\nreading=8\nreading=9'
    console_says 'write readin 7' 'write takes a register by its name or as its number, 2 or r2, not readin'
    console_says 'write Reading 7' 'write takes a register by its name or as its number, 2 or r2, not Reading'
    console_says 'write timer 7' "refused by rule 13 at register 0 (timer): A port write or a record of a port trace \
names a register that does not exist or that is inner."
    printf 'help\n' >"$made/commands"
    outstation "$names/two_groups.table" --console <"$made/commands" 2>"$made/err" |
        grep -q '^write .*write a port: its name, 2 or r2, ' || fail "help without names"
    # A name comes first, also one that looks as a number does elsewhere.
    cp $designs/lease.table "$names/exchanged.table"
    testdata/names ../designs/lease.caisson "$names/exchanged.table" |
        sed 's/register 0 timer/register 0 r1/; s/register 1 wish/register 1 r0/' |
        testdata/summed >"$names/exchanged.table.names"
    printf 'write r0 5\nshow\n' >"$made/commands"
    outstation "$names/exchanged.table" --console --party a:high <"$made/commands" >"$made/out" 2>&1 ||
        fail "exchanged names: $(cat "$made/out")"
    grep -qx 'cycle 0 party a: r1=3 r0=5' "$made/out" || fail "exchanged names: $(cat "$made/out")"
}

# A line of a trace for the named two_groups, and what is said of it.
bad_line() {
    printf '3 reading 1\n%b\n' "$2" >"$made/bad.trace"
    says "${3:-2}" "$made/bad.trace:2: $1" "$names/two_groups.table" "$made/bad.trace" --fast
}

wrong_names() {
    named valves low_child no_lattice wide_reset own_parent default_parameter leak
    for word in readin Reading reading2 r2 s0 low root _; do
        bad_line 'the register is no name of one of the design and no number from 0 to 4294967295' "4 $word 1"
    done
    bad_line 'the value is no number' '4 reading'
    bad_line 'the value is no number' '4 reading switch'
    bad_line 'more than the three numbers' '4 reading 1 1'
    bad_line 'the cycle is no number' 'reading 1'
    bad_line 'refused by rule 13 at register 0 (timer): ' '4 timer 1' 1
    bad_line 'refused by rule 13 at register 4: ' '4 4 1' 1
    printf '1 wanted 1023\n2 wanted 1024\n' >"$made/bad.trace"
    for way in --fast --replay; do
        says 1 "$made/bad.trace:2: refused by rule 17 at re" "$names/valves.table" "$made/bad.trace" $way
        grep -qxF '  register 2 (wanted) has width 10: it takes 0 to 1023, not 1024' "$made/err" ||
            fail "$(cat "$made/err")"
    done
    # Without a names file a name is no register.
    printf '3 reading 1\n' >"$made/bad.trace"
    says 2 "$made/bad.trace:1: the register is no number from 0 to 4294967295, and the design has no names file" \
        $designs/two_groups.table "$made/bad.trace" --fast

    says 2 'party north: level hihg is no label of the design, which has low, high' "$names/lease.table" lease.trace \
        --party south:low --party north:hihg
    says 2 'party north: level wish is no label of the design, which has low, high' "$names/lease.table" lease.trace \
        --party north:wish
    says 2 'party north: level 2 is no label of the design, which has labels 0 to 1' "$names/lease.table" lease.trace \
        --party north:2
    says 2 'party north: level high is no number, and the design has no names file' $designs/lease.table \
        $numbers/lease.trace --party north:high
    says 2 'a second party of the same name: north:low' "$names/lease.table" lease.trace --party north:high \
        --party north:low

    says 1 'low_child.table: refused by rule 9 at state 2 (open): ' "$names/low_child.table" lease.trace
    says 1 'no_lattice.table: refused by rule 2 at label 1 (left): ' "$names/no_lattice.table" lease.trace
    says 1 'wide_reset.table: refused by rule 3 at register 1 (flag): ' "$names/wide_reset.table" lease.trace
    says 1 'own_parent.table: refused by rule 4 at state 1 (loop): ' "$names/own_parent.table" lease.trace
    says 1 'default_parameter.table: refused by rule 19 at state 1 (count) or command 1: ' \
        "$names/default_parameter.table" lease.trace
    says 1 'leak.table: refused by rule 10 at command 1: ' "$names/leak.table" lease.trace
}

# An edit of the names file of two_groups_shared, whose line 17 has the sum of those before it: what is said of it.
bad_names() {
    local line=$1 words=$2 file=$names/edited.table
    shift 2
    cp ../designs/two_groups_shared.table "$file"
    sed "$@" "$names/two_groups_shared.table.names" >"$file.names"
    says 2 "$file.names:$line: $words" "$file" lease.trace --fast
}

# The largest file that there may be, by the length of a name, is read.
large_names() {
    local more file=$names/large.table
    more=$((1048576 - $(stat -c %s "$names/two_groups.table.names")))
    cp ../designs/two_groups.table "$file"
    # The name is too long for an argument.
    {
        sed '/^register 2 /,$d' "$names/two_groups.table.names"
        printf 'register 2 reading'
        head -c $more /dev/zero | tr '\0' _
        sed -n 's/^register 2 reading//; T; :rest; p; n; b rest' "$names/two_groups.table.names"
    } | testdata/summed >"$file.names"
    [ "$(stat -c %s "$file.names")" = 1048576 ] || fail "not the largest names file"
    grep 'party south' two_groups.expected >"$made/expected"
    records "$made/expected" "$file" $numbers/two_groups.trace --fast --cycles 16 --party south:low
}

wrong_names_files() {
    local other='is not of this table: it was made for another, or the table was changed; assemble it again or remove '
    local changed='the sum is not that of the lines above: the names file was changed; assemble it again or remove the '
    bad_names 1 'is no names file: it does not begin with `caisson names`' 's/caisson/Caisson/'
    bad_names 1 'is no names file: it does not begin with `caisson names`' d
    bad_names 1 'is no names file: it does not begin with `caisson names`' 's/names 2 /names  2 /'
    bad_names 1 'is no names file: it does not begin with `caisson names`' '1s/ 2 / two /'
    bad_names 1 'is a names file of version 1, which has no sum of itself; assemble it again' '1s/ 2 / 1 /'
    bad_names 1 'is a names file of version 3; only 2 is known' '1s/ 2 / 3 /'
    bad_names 1 'is no names file: the first line has no checksum' '1s/sha256/sha512/'
    bad_names 1 'is no names file: the first line has no checksum' '1s/sha256 ./sha256 /'
    bad_names 1 'is no names file: the first line has no checksum' '1s/sha256 \(.*\) labels/sha256 \U\1\E labels/'
    bad_names 1 "$other"'the names file' '1s/sha256 ./sha256 0/'
    bad_names 1 'is not of a design: the first line has no number of labels' '1s/labels.*/inputs 2 flipflops 6 gates 5/'
    bad_names 1 'has 3 labels, and the table has 2' '1s/labels 2/labels 3/'
    bad_names 1 'has 5 registers, and the table has 6' '1s/registers 6/registers 5/'
    bad_names 1 'has 64 states, and the table has 5' '1s/states 5/states 64/'
    bad_names 1 'is not of a design: the first line has no number of states' '1s/states 5/states 05/'
    bad_names 1 'more than the counts stands in the first line' '1s/$/ 1/'
    bad_names 1 'more than the counts stands in the first line' '1s/$/ /'
    bad_names 2 'the line `source FILE` is missing' 2d
    bad_names 2 'the line `source FILE` is missing' '2s/two_/two /'
    bad_names 3 '`label 0` is expected here, in the order of the numbers, not `label 1 high 11`' 3d
    bad_names 4 '`label 1` is expected here, in the order of the numbers, not `label 2 high 11`' '4s/1/2/'
    bad_names 4 '`label 1` is expected here, in the order of the numbers, not `label 10 high 11`' '4s/1/10/'
    bad_names 4 'the label name low stands here a second time' '4s/high/low/'
    bad_names 8 'the register name mode stands here a second time' '8s/switch/mode/'
    bad_names 5 '`register 0` is expected here' '5s/register/port/'
    bad_names 5 'a name and the line of its declaration are expected behind `register 0`' '5s/timer/ti-mer/'
    bad_names 5 'a name and the line of its declaration are expected behind `register 0`' '5s/timer/2timer/'
    bad_names 5 'a name and the line of its declaration are expected behind `register 0`' '5s/ 13//'
    bad_names 5 'a name and the line of its declaration are expected behind `register 0`' '5s/13/0/'
    bad_names 5 'a name and the line of its declaration are expected behind `register 0`' '5s/13/13 /'
    bad_names 5 'a name and the line of its declaration are expected behind `register 0`' '5s/$/\r/'
    bad_names 13 'the state name choose stands here a second time' '13s/group/choose/'
    bad_names 16 '`parameter 2 0` is expected here, in the order of the numbers, not `sum ' 16d
    bad_names 16 'the file ends where `parameter 2 0` is expected' '16,$d'
    bad_names 16 '`parameter 2 0` is expected here' '16s/ 0 / 1 /'
    bad_names 17 '`sum SHA256` is expected here, not `parameter 2 1 more 25`' '16s/$/\nparameter 2 1 more 25/'
    bad_names 17 '`sum SHA256` is expected here, not ``' '16s/$/\n/'
    bad_names 17 'the file ends where `sum SHA256` is expected' 17d
    bad_names 17 '`sum SHA256` is expected here' '17s/.$//'
    bad_names 17 '`sum SHA256` is expected here' '17s/$/ /'
    # A line below the sum is above none, so that the sum is judged as that of other lines.
    bad_names 17 "$changed" '17s/$/\nparameter 2 1 more 25/'
    bad_names 17 "$changed" '17s/$/\n/'
    # What no other line tells: two names exchanged, another line of the text.
    bad_names 17 "$changed" '3s/low/high/; 4s/high/low/'
    bad_names 17 "$changed" '7s/reading/switch/; 8s/switch/reading/'
    bad_names 17 "$changed" '5s/13/14/'
    bad_names 17 "$changed" '2s/shared/edited/'
    # A last line without its line feed was cut; a NUL would hide the rest of a line.
    cp "$names/two_groups_shared.table" "$names/edited.table"
    head -c -1 "$names/two_groups_shared.table.names" >"$names/edited.table.names"
    says 2 'edited.table.names:17: the file ends where `sum SHA256` is expected' "$names/edited.table" lease.trace
    sed '5s/timer/ti\x00mer/' "$names/two_groups_shared.table.names" >"$names/edited.table.names"
    says 2 'edited.table.names:5: the file ends where `register 0` is expected' "$names/edited.table" lease.trace
    truncate -s 1048577 "$names/edited.table.names"
    says 2 'edited.table.names: is larger than 1048576 bytes, which no names file is' "$names/edited.table" lease.trace
    large_names
    rm "$names/edited.table.names"
    mkdir "$names/edited.table.names"
    says 2 'edited.table.names: cannot be read: Is a directory' "$names/edited.table" lease.trace
    rmdir "$names/edited.table.names"
    # Beside what is no design no names are read.
    cp ../designs/counter.table "$names"
    echo 'caisson names 1 sha256' >"$names/counter.table.names"
    says 1 'counter.table: refused by rule 1:' "$names/counter.table" lease.trace
}

by_name() {
    runs_by_name
    commands_by_name
    wrong_names
    wrong_names_files
}
