#!/bin/sh
# typed.sh: types what docs/HANDBOOK.md shows after a `$`, line by line in an empty folder, and compares what comes with what it shows.
. "$(dirname "$0")/../scripts/machine.sh"
need xxd=xxd
build_programs
out=$repository/target/typed
rm -rf "$out"
mkdir -p "$out/folder"
cd "$out/folder"
decide() { run_linked "$bin/decide"; }
panel() { run_linked "$bin/panel"; }
figures() { run_linked "$bin/figures" "$@"; }

# A block begins with a line that is typed, and an empty line ends it.
sed -n '/^    \$ /,/^$/s/^    //p' "$repository/docs/HANDBOOK.md" >../shown
while IFS= read -r line <&3; do
    case $line in
    '$ '*)
        printf '%s\n' "$line"
        eval "${line#??}" </dev/null 2>&1 || die "this fails: $line"
        ;;
    esac
done 3<../shown >../came
diff ../shown ../came
lines=$(grep -c '^\$ ' ../shown) || die "nothing to type found in HANDBOOK.md"
echo "typed: $lines lines of the handbook give what it shows"
