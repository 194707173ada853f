#!/bin/sh
# program.sh: runs decide, panel and figures on tables and events of every kind, and compares what they write with an independent
# implementation of documents 01 and 02. The table files have to stay as they were.
. "$(dirname "$0")/../scripts/machine.sh"
need rustc=rustc
build_programs
out=$repository/target/program
rm -rf "$out"
mkdir -p "$out"
rustc -O --edition 2021 -o "$out/expected" "$repository/tests/outside/program.rs"
rustc -O --edition 2021 -o "$out/day" "$repository/tests/figures.rs"
cd "$out"
programs='decide panel figures'
cases=0

# should PROGRAM: what it should write, by the file circuits.bin and standard input.
should() { if [ "$1" = figures ]; then ./day; else ./expected "$1"; fi; }

# hold WHAT: the three programs on the files circuits.bin and events; nothing may be said on standard error.
hold() {
    rm -f kept.bin
    [ ! -f circuits.bin ] || cp circuits.bin kept.bin
    for program in $programs; do
        run_linked "$bin/$program" <events >given 2>said
        should "$program" <events >wanted
        cmp -s wanted given || { diff wanted given | head -n 5; die "$program, $1: another output"; }
        [ ! -s said ] || die "$program, $1: $(cat said)"
    done
    [ ! -f kept.bin ] || cmp kept.bin circuits.bin || die "$1: the table file was written"
    cases=$((cases + 1))
}

# only WORDS: what the programs wrote last is this one line.
only() { [ "$(cat given)" = "$1" ] && [ "$(wc -l <given)" = 1 ] || die "not the only line '$1'"; }

# zeros COUNT: so many zero octets.
zeros() { head -c "$1" /dev/zero; }

# draw CIRCUITS EVENTS SEED: a table and events that meet the calls in it.
draw() {
    ./expected table "$1" "$3" >circuits.bin
    ./expected events "$2" "$3" >events
}

cp "$repository/crates/decide/stdin" events
hold 'no table'
only 'no table'
mkdir circuits.bin
hold 'a folder for a table'
only 'no table'
rmdir circuits.bin
for size in 0 1 31 33 8191 8193 8224 100000; do
    zeros $size >circuits.bin
    hold "a table of $size octets"
    only 'bad table 20'
done

# Reason, record, and octets in octal by their places: two circuits, of which the first is held at ROUTINE by call 1, point code 1; these
# octets of them are then changed. Each reason in each record, two in one record, in two, a repeated reference beside another reason, level 15
# where it may not stand, and octet 30 that is too great, is left where no holder is, or is 1 under a reservation.
while read -r reason record changes <&3; do
    { printf '\001\004\000\000\000\000\000\001\000\000\001' && zeros 53; } >circuits.bin
    for change in $changes; do
        printf '%b' "\\0${change#*=}" | dd of=circuits.bin bs=1 seek="${change%=*}" conv=notrunc status=none
    done
    hold "two circuits with $changes"
    only "bad table $reason $record"
done 3<<'END'
41 0  0=2
41 0  1=5
41 1  32=2
41 1  44=2
42 0  2=240
42 0  11=100
42 1  32=1 35=12
43 0  0=0
43 0  28=1
43 1  33=2
43 1  60=2
44 0  12=1 13=4 19=2
44 0  12=1 13=3 18=1 19=2
45 0  12=1 13=3 19=1 22=1
45 1  32=1 39=1 42=1
45 1  44=1 51=1 54=1
41 0  2=240 12=2
42 0  2=240 31=1
43 0  31=1 32=2
44 0  12=1 13=4 19=1 22=1 32=1 39=1 42=1
43 1  12=1 13=3 19=1 22=1 60=1
41 0  1=16
41 0  1=17 6=1
41 0  1=17 2=240
41 1  44=1 45=17
42 0  1=17 11=100
43 1  33=17
44 0  1=17 12=1 13=3 19=2
44 0  1=17 12=1 13=3 18=1 19=2
41 0  30=2
41 0  30=377
41 0  12=1 13=3 19=2 30=2
41 0  1=17 30=2
42 0  11=100 30=1
43 0  30=1 31=1
43 1  62=1
43 1  62=2
43 1  44=1 51=2 62=1
44 0  12=1 13=3 19=2 30=1
44 0  12=1 13=4 19=2 30=1
44 0  12=1 13=3 18=1 19=2 30=1
44 0  1=17 12=1 13=3 19=2 30=1
45 1  30=1 32=1 39=1 42=1
END
for record in 7 10 99 100 255; do
    { zeros $((record * 32 + 31)) && printf '\001'; } >circuits.bin
    hold "the last octet of record $record damaged"
    only "bad table 43 $record"
done

zeros 64 >circuits.bin
hold "01's listing"
run_linked "$bin/decide" <events | diff "$repository/crates/decide/stdout" -
run_linked "$bin/figures" <events | diff "$repository/crates/figures/stdout" -

# play WHAT: kind, level and call of each event on a route of one circuit, and the line that decide writes for it, on standard input.
play() {
    zeros 32 >circuits.bin
    cat >script
    while read -r kind level call _; do
        printf '%b' "\\0$kind\\0$level\\0\\0\\0\\0\\0\\0$call\\0\\0\\01\\0\\0\\0\\0\\0"
    done <script >events
    hold "$1"
    sed 's/.*  //' script >wanted
    run_linked "$bin/decide" <events | sed 1d | diff wanted -
}

# A mark comes off, with a reservation above it and with none, and no call of the zero domain takes the circuit from then on: by document 02's L4.
play 'a mark that comes off' <<'END'
1 4 1  1 1 0 0 - -
7 0 1  2 9 0 0 - -
3 3 2  3 3 0 0 - -
6 0 2  4 27 0 - - -
6 0 1  5 8 0 0 - 2/1
6 0 1  6 8 0 0 - -
1 0 3  7 31 46 - - -
3 0 3  8 32 0 - - -
2 0 1  9 5 0 0 - -
1 0 3  10 1 0 0 - -
END

# Nobody takes a call or reserves above it before it is answered; who takes it then rings too, and so does its reserver that is set up: by L7.
play 'a call that rings' <<'END'
7 0 1  1 27 0 - - -
1 4 1  2 1 0 0 - -
1 0 2  3 31 46 - - -
3 0 2  4 32 0 - - -
7 1 1  5 22 0 - - -
7 0 1  6 9 0 0 - -
7 0 1  7 9 0 0 - -
1 3 2  8 2 0 0 1/1 -
1 0 3  9 31 46 - - -
7 0 2  10 9 0 0 - -
3 2 3  11 3 0 0 - -
7 0 3  12 27 0 - - -
7 0 2  13 9 0 0 - -
1 2 3  14 2 0 0 2/1 -
3 0 4  15 32 0 - - -
6 0 3  16 8 0 0 - -
7 0 3  17 9 0 0 - -
2 0 3  18 5 0 0 - -
3 2 4  19 3 0 0 - -
1 1 5  20 2 0 0 - 4/1
1 0 6  21 31 46 - - -
2 0 5  22 5 0 0 - -
END

for circuits in 1 2 64 65 256; do
    for count in 0 1 100; do
        draw $circuits $count $((circuits + count))
        hold "$count events on $circuits circuits"
    done
done
for count in 4095 4096 4097 8192 10000; do
    draw 30 $count $count
    hold "$count events"
done

for left in 1 2 3 4 5 6 7 8 9 10 11 12 13 14 15; do
    draw 5 $left $left
    head -c $((left * 16)) events >whole
    for whole in 0 1 $left; do
        { head -c $((whole * 16)) whole && zeros $left; } >events
        hold "$left octets after $whole events"
    done
done
for count in 4096 8192; do
    draw 30 $count $count
    zeros 15 >>events
    hold "15 octets after $count events"
done

# By a pipe, in pieces that end anywhere, and into one.
draw 30 10000 1
zeros 3 >>events
for program in $programs; do
    should "$program" <events >wanted
    ./expected drip <events | run_linked "$bin/$program" | cat | cmp wanted -
done
cases=$((cases + 1))

# A read and a write that fail are named on standard error, and so is a pipe that nobody reads any more.
zeros 64 >circuits.bin
for program in $programs; do
    should "$program" </dev/null >wanted
    run_linked "$bin/$program" <. >given 2>said
    cmp wanted given
    [ "$(cat said)" = 'standard input: Is a directory' ] || die "$program, a read that fails: $(cat said)"
    run_linked "$bin/$program" <events >/dev/full 2>said
    [ "$(cat said)" = 'standard output: No space left on device' ] || die "$program, a write that fails: $(cat said)"
    { sleep 1 && run_linked "$bin/$program" <events 2>said; } | :
    [ "$(cat said)" = 'standard output: Broken pipe' ] || die "$program, a closed pipe: $(cat said)"
done
cases=$((cases + 1))

# The handbook's evening and morning: its first listing.
octet() { printf '%b' "\\0$(printf %o "$1")"; }
handbook=$repository/docs/HANDBOOK.md
for digits in $(sed -n '/^## An evening/,/^## A reservation/s/^    event  \(\([0-9a-f]* \)*[0-9a-f]*\)   .*/\1/p' "$handbook"); do octet "0x$digits"; done >events
sed -n '/^    event answer cause/,/^$/{/^$/q;s/^    //p}' "$handbook" >wanted
run_linked "$bin/decide" <events | diff wanted -
cases=$((cases + 1))

# figures on files by name. Each is a table and its events: an hour, a full list, two and a rest, a rest alone, and nothing.
pair() { draw "$2" "$3" "$2" && zeros "$4" >>events && mv circuits.bin "$1.table" && mv events "$1.events"; }
pair hour 30 100 0
pair list 5 4096 0
pair lists 256 8192 3
pair rest 64 0 15
pair nothing 2 0 0
cksum ./*.table ./*.events >kept

# by_name WHAT FILE..: figures on these files; nothing may be said on standard error.
by_name() {
    what=$1
    shift
    run_linked "$bin/figures" "$@" </dev/null >given 2>said
    ./day "$@" >wanted
    cmp -s wanted given || { diff wanted given | head -n 5; die "figures, $what: another output"; }
    [ ! -s said ] || die "figures, $what: $(cat said)"
    cases=$((cases + 1))
}

# last WORDS: these are what figures wrote last, behind the rows.
last() { [ "$(sed '1,/^ROUTINE/d' given | tr '\n' ' ')" = "$1" ] || die "not last, behind the totals: '$1'"; }

for name in hour list lists rest nothing; do
    by_name "the pair $name" $name.table $name.events
    by_name "the pair $name twice" $name.table $name.events $name.table $name.events
    by_name "the pair $name with another" hour.table hour.events $name.table $name.events
done
by_name 'a file by its whole path' "$out/hour.table" "$out/hour.events"
by_name 'the events of another table' hour.table list.events
by_name 'two rests' lists.table lists.events hour.table hour.events rest.table rest.events
last 'short 3 short 15 '
by_name 'two rests the other way round' rest.table rest.events lists.table lists.events
last 'short 15 short 3 '
cksum ./*.table ./*.events | cmp kept - || die "a file was written"

# 65,536 lists are added, however many tables they are of; no empty list follows a full one, and no line is lost.
zeros 32 >t
: >none
zeros 5 >five
{ printf '\001\004' && zeros 30; } >held.table
# shellcheck disable=SC2046
set -- $(yes 't none' | head -n 65535)
by_name '65,536 lists' t five "$@"
last 'short 5 '
by_name '65,536 lists, the last one full' "$@" list.table list.events
last ''
by_name '65,537 lists' "$@" t five t none t none
last 'short 5 60 '
by_name '65,537 lists, the last one with a rest' "$@" t none t five
last '60 '
by_name '65,537 lists, the last one of a table with holders' "$@" t none held.table none
last '60 '
by_name '65,537 lists, the last two of one table' "$@" lists.table lists.events t five
last '60 '

# ended WHAT LINE WORDS FILE..: figures writes this line alone, or nothing, and says these words on standard error, also after a good pair.
ended() {
    what=$1 line=$2 words=$3
    shift 3
    for good in '' 'hour.table hour.events'; do
        # shellcheck disable=SC2086
        run_linked "$bin/figures" $good "$@" </dev/null >given 2>said
        printf '%b' "$line" | cmp -s - given || die "figures, $what: $(head -n 3 given)"
        printf '%s\n' "$words" | cmp -s - said || die "figures, $what: $(cat said)"
        cases=$((cases + 1))
    done
}

long=$(zeros 5000 | tr '\000' x)
cut=$(printf %.4096s "$long")
octets=$(printf 'caf\351')
mkdir folder
zeros 33 >20.table
{ printf '\002' && zeros 31; } >41.table
{ zeros 60 && printf '\001' && zeros 3; } >43.table
ended 'a missing table' 'no table\n' 'missing: No such file or directory' missing hour.events
ended 'a folder for a table' 'no table\n' 'folder: Is a directory' folder hour.events
ended 'no name for a table' 'no table\n' ': No such file or directory' '' hour.events
ended 'a name too long for a table' 'no table\n' "$cut: File name too long" "$long" hour.events
ended 'a table of 33 octets' 'bad table 20\n' '20.table: bad table' 20.table hour.events
ended 'a table with a wrong flag' 'bad table 41 0\n' '41.table: bad table' 41.table hour.events
ended 'a table with an octet that should be zero' 'bad table 43 1\n' '43.table: bad table' 43.table hour.events
ended 'missing events' '' 'missing: No such file or directory' hour.table missing
ended 'a folder for events' '' 'folder: Is a directory' hour.table folder
ended 'a name too long for events' '' "$cut: File name too long" hour.table "$long"
cp hour.table "$octets"
ended 'a name for a table that is not UTF-8' 'no table\n' "$octets: the name is not UTF-8" "$octets" hour.events
ended 'a name for events that is not UTF-8' '' "$octets: the name is not UTF-8" hour.table "$octets"
ended 'neither table nor events' 'no table\n' 'missing: No such file or directory' missing folder
ended 'a table without events' '' 'figures: each table needs its events: figures TABLE EVENTS ..' hour.table
run_linked "$bin/figures" hour.table hour.events >/dev/full 2>said
[ "$(cat said)" = 'standard output: No space left on device' ] || die "figures, a write that fails: $(cat said)"
cases=$((cases + 1))

echo "program: decide, panel and figures write what they should in $cases cases"
