#!/bin/sh
# rust.sh [ARCHIVE]: the Rust package: its constants and tables are those of the header, the README shows its first page, what the handbook shows
# compiles, it says what to do where it finds no archive, it compiles with the standard library and without, and on x86-64 its tests pass against
# the library. Elsewhere there is no Rust standard library for x86-64, so nothing is linked. ARCHIVE: the library where it is built already.
. "$(dirname "$0")/../scripts/machine.sh"
need rustc=rustc cargo=cargo
archive=${1:-$(library)}
out=$repository/target/rust header=$repository/include/naustvri.h package=$repository/rust
mkdir -p "$out"

# same WHAT: two lists that were drawn from the header and from the package.
same() {
    [ -s "$out/header" ] || die "no $1 found in naustvri.h"
    diff "$out/header" "$out/package"
}

# Versions, sizes, limits and offsets, by name and value; then the rows of the tables, by name, value and meaning, in their order.
sed -nE 's/^#define NAUSTVRI_([A-Z_]+) ([0-9]+)( .*)?$/\1 \2/p' "$header" | sort >"$out/header"
sed -nE 's/^pub const ([A-Z_]+): [a-z0-9]+ = ([0-9]+);$/\1 \2/p' "$package/src/constants.rs" | sort >"$out/package"
same constant
constants=$(wc -l <"$out/header")
sed -nE 's/^ *(first|next)\(NAUSTVRI_([A-Z_]+), ([0-9]+), (".*")\)( \\)?$/\2 \3 \4/p' "$header" >"$out/header"
sed -nE 's/^ *([A-Z_]+) = ([0-9]+), (".*");$/\1 \2 \3/p' "$package/src/tables.rs" >"$out/package"
same row
rows=$(wc -l <"$out/header")

sed -n '/^```rust$/,/^```$/{/^```/!p;}' "$repository/README.md" >"$out/shown"
sed -n '/^\/\/! ```$/,/^\/\/! ```$/{/```/!p;}' "$package/src/lib.rs" | sed -E 's/^\/\/! ?//' | diff - "$out/shown"

# compiled WORDS..: one crate as far as the compiler checks it, with nothing linked.
compiled() { rustc --edition 2021 --crate-type lib --emit metadata "$@"; }
compiled --crate-name naustvri --cfg 'feature="std"' -o "$out/libnaustvri.rmeta" "$package/src/lib.rs"
sed -n '/^```rust$/,/^```$/{/^```/!p;}' "$repository/docs/HANDBOOK.md" >"$out/shown.rs"
compiled --extern naustvri="$out/libnaustvri.rmeta" -A dead_code -o "$out/shown.rmeta" "$out/shown.rs"

# refused ARCHIVE WORDS: the build is refused for a folder of the archive, by a line with these words.
rustc --edition 2021 -o "$out/build" "$package/build.rs"
refused() {
    ! NAUSTVRI_ARCHIVE=$1 "$out/build" >"$out/log" 2>&1 || die "taken as the archive's folder: $1"
    grep -q "^naustvri: $2" "$out/log" || die "$1 is refused by: $(cat "$out/log")"
}
refused target/staticlib 'NAUSTVRI_ARCHIVE is a relative path, target/staticlib: give the whole path of the folder'
refused "$out/nowhere" "there is no $out/nowhere/libnaustvri.a: build it by"

export CARGO_TARGET_DIR="$out" NAUSTVRI_ARCHIVE
NAUSTVRI_ARCHIVE=$(cd "$(dirname "$archive")" && pwd -P)

# cargo_quietly WORDS..: says something only where it fails.
cargo_quietly() {
    log=$(cargo "$@" --quiet --offline --locked --manifest-path "$package/Cargo.toml" 2>&1) || { printf '%s\n' "$log" >&2; exit 1; }
}
cargo_quietly check --no-default-features
if [ "$machine" = x86_64 ]; then
    cargo_quietly test
    found='its tests pass'
else
    cargo_quietly check --tests
    found='it compiles'
fi
echo "rust: $constants constants and $rows rows of the tables as in the header; $found"
