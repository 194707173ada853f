#!/bin/sh
# reproducible.sh: the archive is octet for octet the same in whatever folder it is built: here, and from nothing in a folder with a longer name.
. "$(dirname "$0")/../scripts/machine.sh"
here=$(library)
room=$(mktemp -d)
trap 'rm -rf "$room"' EXIT
there=$room/another/folder/with/a/longer/name
mkdir -p "$there"
tar -C "$repository" -c --exclude='crates/*/out' crates crates.txt | tar -C "$there" -x
# rt takes a library that it built of the same text in another folder. With a remark more in the lowest crate it builds each of them anew.
echo '// The end.' >>"$there/crates/octets/src/lib.rt"
echo "reproducible: proving and building the library a second time, which takes some minutes"
repository=$there
cmp "$here" "$(library)"
echo "reproducible: $(wc -c <"$here") octets, the same in two folders"
