#!/bin/sh
# version.sh [ARCHIVE]: header, archive, Rust package, man pages and the newest heading of CHANGELOG.md have one version. ARCHIVE: the library
# where it is built already.
. "$(dirname "$0")/../scripts/machine.sh"
need_compiler
archive=${1:-$(library)}
out=$repository/target/version
mkdir -p "$out"
"$xcc" -O2 -Wall -Wextra -I "$repository/include" -static -no-pie -o "$out/version" "$repository/tests/version.c" "$archive"
run_x86 "$out/version" >"$out/said"
read -r version header library <"$out/said"
[ "$header" = "$library" ] || die "the header's number is $header, the archive's $library"
IFS=. read -r major minor patch <<END
$version
END
[ "$header" = $((major * 10000 + minor * 100 + patch)) ] || die "the header's number is $header, its parts are $version"

# same WHERE VERSION: another place has the header's version.
same() { [ "$2" = "$version" ] || die "$1 has version '$2', the header $version"; }
cd "$repository"
same rust/Cargo.toml "$(sed -n 's/^version = "\(.*\)"$/\1/p' rust/Cargo.toml)"
same rust/Cargo.lock "$(sed -n '/^name = "naustvri"$/{n;s/^version = "\(.*\)"$/\1/p}' rust/Cargo.lock)"
same CHANGELOG.md "$(sed -n 's/^## //p' CHANGELOG.md | head -n 1)"
for page in man/*.1; do
    same "$page" "$(sed -n 's/^\.TH .* "Naustvri \([0-9.]*\)".*/\1/p' "$page")"
done
echo "version: $version in header, archive, Rust package, man pages and CHANGELOG.md"
