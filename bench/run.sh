#!/bin/sh
# run.sh [ARCHIVE..]: counts the library's instructions beside those of plain C, prints the tables, in Markdown, and draws docs/benchmark.svg.
# ARCHIVE: other archives with the functions of naustvri.h, in place of the library as it stands; their drawing goes to target/bench.
. "$(dirname "$0")/../scripts/machine.sh"
need_compiler
need qemu-x86_64=qemu-user
bench=$repository/bench out=$repository/target/bench
mkdir -p "$out"
drawing=$out/benchmark.svg
if [ $# = 0 ]; then
    archive=$(library)
    drawing=$repository/docs/benchmark.svg
    set -- "$archive"
fi
clang_x86 -O3 -Wall -Wextra -I "$repository/include" -c -o "$out/plain.o" "$bench/plain.c"
"$xcc" -O2 -Wall -Wextra -I "$repository/include" -static -no-pie -o "$out/bench" \
    "$bench/bench.c" "$bench/workload.c" "$bench/stack.c" "$out/plain.o" "$@"

# The results are compared before anything is counted.
run_x86 "$out/bench" >"$out/rows"

# The interface's version that this qemu takes is found by trying.
mark=0x$("${xbin}nm" "$out/bench" | awk '$3 == "bench_mark" { print $1 }')
for version in 1 2 3 4 5; do
    gcc -O2 -Wall -Wextra -shared -fPIC -fvisibility=hidden -DPLUGIN_VERSION=$version -o "$out/counter.so" "$bench/counter.c"
    rm -f "$out/marks"
    env -i "$(command -v qemu-x86_64)" -cpu qemu64 -plugin "$out/counter.so,out=$out/marks,mark=$mark" "$out/bench" \
        >"$out/rows.counted" 2>"$out/counter.log" && [ -s "$out/marks" ] && break
done
[ -s "$out/marks" ] || die "qemu counted nothing: $(cat "$out/counter.log")"
cmp "$out/rows" "$out/rows.counted"

# The stack over every path is read from the object code.
frames() {
    side=$1
    shift
    for file; do
        "${xbin}objdump" -r "$file"
        "${xbin}objdump" -dr --no-show-raw-insn "$file"
    done | awk -v side="$side" -f "$bench/frames.awk" >>"$out/rows"
}
frames library "$@"
frames plain "$out/plain.o"
awk -f "$bench/counts.awk" -f "$bench/table.awk" "$out/marks" "$out/rows"
awk -f "$bench/counts.awk" -f "$bench/drawing.awk" "$out/marks" "$out/rows" >"$drawing"
