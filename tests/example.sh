#!/bin/sh
# example.sh [ARCHIVE]: compiles each host of examples/ against the library, runs it, and compares what it prints; the README shows two_calls.c
# and the lines that it prints.
# ARCHIVE: the library where it is built already.
. "$(dirname "$0")/../scripts/machine.sh"
need_compiler
archive=${1:-$(library)}
examples=$repository/examples out=$repository/target/example
mkdir -p "$out"
sed -n '/^```c$/,/^```$/{/^```/!p}' "$repository/README.md" | diff "$examples/two_calls.c" -
grep '^    call ' "$repository/README.md" | sed 's/^    //' | diff "$examples/two_calls.stdout" -
for host in two_calls optional_part; do
    "$xcc" -std=c99 -O2 -Wall -Wextra -Wpedantic -Werror -I "$repository/include" -static -no-pie -o "$out/$host" "$examples/$host.c" "$archive"
    run_x86 "$out/$host" >"$out/$host.stdout"
    diff "$examples/$host.stdout" "$out/$host.stdout"
done
echo "example: two_calls and optional_part print what they should"
