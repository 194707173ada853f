#!/bin/sh
# edits.sh [CRATE..]: tries every wrong edit, or those of these crates, in a copy of the crates: those of must-fail, which the gate tries too, and
# those of more-edits, which say again, or of a smaller thing, what one of those says.
set -eu
cd "$(dirname "$0")/.."
room=$(mktemp -d)
trap 'rm -rf "$room"' EXIT
tar -c --exclude='crates/*/out' crates crates.txt | tar -x -C "$room"
cd "$room"
for more in crates/*/more-edits; do
    mkdir -p "${more%/*}/must-fail"
    mv "$more"/*.edit "${more%/*}/must-fail"
    rmdir "$more"
done
rt must-fail "$@"
