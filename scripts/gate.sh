#!/bin/sh
# gate.sh: rt ci proves the crates, tries the wrong edits and runs the tests and programs; each wrong edit has to be refused, and none may be a bad
# one. Then the outside tests run on the same sources; the proofs' verdict is the last line.
. "$(dirname "$0")/machine.sh"
cd "$repository"
room=$(mktemp -d)
trap 'rm -rf "$room"' EXIT
{ "$rt" ci && touch "$room/proved"; } 2>&1 | tee "$room/log"
[ -f "$room/proved" ]
! grep '^rt: ok;.* [1-9][0-9]* bad' "$room/log" >&2 || die "some wrong edits do not fit the text, and show nothing"
grep -q '^rt: ok;' "$room/log" || die "rt ci ended with no line rt: ok"
tests/run.sh
tail -n 1 "$room/log"
