#!/bin/sh
# handbook.sh [ARCHIVE]: applies the events in docs/HANDBOOK.md and compares the answers and circuits printed there with the library's;
# reads the message and writes the list that it shows; provokes every number in each way that its table of the numbers names; finds in its
# round for training every number that an event over a valid table is answered by; compiles the C that it shows; and follows its links.
# ARCHIVE: the library where it is built already.
. "$(dirname "$0")/../scripts/machine.sh"
need_compiler
archive=${1:-$(library)}
handbook=$repository/docs/HANDBOOK.md out=$repository/target/handbook
mkdir -p "$out"

# The C that it shows compiles without a warning.
printf '#include <%s>\n' stdio.h naustvri.h >"$out/shown.c"
sed -n '/^```c$/,/^```$/{/^```/!p;}' "$handbook" >>"$out/shown.c"
"$xcc" -Wall -Wextra -Werror -Wno-unused-function -I "$repository/include" -fsyntax-only "$out/shown.c"

# build PROGRAM WORDS..: a program of tests/ that calls the library.
build() {
    program=$1
    shift
    "$xcc" -O2 -Wall -Wextra -I "$repository/include" "$@" -static -no-pie -o "$out/$program" "$repository/tests/$program.c" "$archive"
}

# The indented lines that replay.c reads, without the words that follow after three spaces.
build replay
sed -E '/^    (route [0-9]|event  [0-9a-f]|answer ([0-9a-f]{2} ){15}|circuit [0-9]+ \|)/!d; s/^    //; s/   .*//' "$handbook" >"$out/printed"
run_x86 "$out/replay" <"$out/printed" >"$out/given"
diff "$out/printed" "$out/given"
events=$(grep -c '^event' "$out/printed") || die "no event found in HANDBOOK.md"

# The indented lines that message.c reads, without the words that follow after three spaces; it calls the C that is shown.
build message -I "$out" -Wno-unused-function
sed -E '/^    (message|place|found|listed|written) [0-9a-f]/!d; s/^    //; s/   .*//' "$handbook" >"$out/shown-message"
run_x86 "$out/message" <"$out/shown-message" >"$out/read-message"
diff "$out/shown-message" "$out/read-message"
for line in message place found listed written; do
    grep -q "^$line " "$out/shown-message" || die "no line that begins with $line in HANDBOOK.md"
done

# The fifth column's ways, each after the number in the second.
build provoke
awk -F ' *[|] *' '
    /^[|] no[.] [|]/ { numbers = 1 }
    !NF { numbers = 0 }
    numbers && $2 ~ /^[0-9]+$/ {
        ways = split($5, way, "; ")
        for (i = 1; i <= ways; i++) print $2, way[i]
    }' "$handbook" >"$out/ways"
run_x86 "$out/provoke" >"$out/provoked"
diff "$out/ways" "$out/provoked"

# The round for training gives every number of that table but 0, 20 and 60 to 63, which answer no event, and 41 to 45 of a bad table.
for octet in $(sed -n '/^## A round through/,/^## [^A]/s/^    answer \([0-9a-f]*\) .*/\1/p' "$handbook"); do printf '%d\n' "0x$octet"; done |
    sort -u >"$out/round"
sed 's/ .*//' "$out/ways" | grep -vxE '0|20|4[1-5]|6[0-3]' | sort -u >"$out/answering"
diff "$out/answering" "$out/round"

# Every link within the handbook leads to a heading.
sed -n 's/^##* //p' "$handbook" | tr 'A-Z ' 'a-z-' | tr -cd 'a-z0-9\n-' | sort >"$out/headings"
grep -o '(#[^)]*)' "$handbook" | tr -d '(#)' | sort -u >"$out/links"
lost=$(comm -23 "$out/links" "$out/headings")
[ -z "$lost" ] || die "links of HANDBOOK.md that lead nowhere: $lost"
echo "handbook: $events events answered as printed, numbers provoked in $(wc -l <"$out/ways") ways"
