#!/bin/sh
# demo.sh: 01's table of two free circuits and the ten events of its listing, of which 02's L7 added the second, in a folder of their own: the lamps
# before and after the events, decide's line for each, and their figures.
. "$(dirname "$0")/machine.sh"
echo "demo: proves the three programs and links them; some minutes where nothing is proved yet" >&2
build_programs
room=$(mktemp -d)
trap 'rm -rf "$room"' EXIT
cd "$room"

# octets NUMBER..: an octet for each.
octets() { for number; do printf '%b' "\\0$(printf %o "$number")"; done; }

# event KIND LEVEL CALL POINT-CODE CLOCK: zero domain, LFB allowed.
event() { octets "$1" "$2" 0 0 0 0 0 "$3" 0 0 "$4" 0 $(($5 % 256)) $(($5 / 256)) 0 0; }

# The events' octets, and the words that stand beside their lines.
cat >script <<'END'
1 4 1 1 0     set-up of call 1, ROUTINE
7 0 1 1 0     call 1 is answered
3 2 2 1 100   look-ahead of call 2, IMMEDIATE, at clock 100
1 3 3 1 0     set-up of call 3, PRIORITY
1 3 4 1 0     set-up of call 4, PRIORITY
2 0 1 1 0     release of call 1
5 0 0 0 3099  clock 3099
5 0 0 0 3100  clock 3100
1 3 4 1 0     set-up of call 4, PRIORITY
1 4 5 1 0     set-up of call 5, ROUTINE
END
head -c 64 /dev/zero >circuits.bin
while read -r kind level call point clock _; do event "$kind" "$level" "$call" "$point" "$clock"; done <script >events
{ echo && sed -E 's/^([0-9]+ +){5}/# /' script; } >words

echo "\$ panel <events    the lamps of the free circuits, before the events and after them"
run_linked "$bin/panel" <events
echo
echo "\$ decide <events    what each event is answered"
run_linked "$bin/decide" <events | paste -d '\t' - words | expand -t 44 | sed 's/ *$//'
echo
echo "\$ figures <events    what they did, in all"
run_linked "$bin/figures" <events
