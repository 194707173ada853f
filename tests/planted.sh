#!/bin/sh
# planted.sh: shows that the outside tests find errors. Plain C stands in for the library: as it is, nothing is found; with each single
# error of planted.txt, a difference is found, and the line says after how long.
. "$(dirname "$0")/build.sh"
need_compiler
build_driver
plain=$repository/bench/plain.c planted=$repository/tests/planted.txt

# serve_plain FILE: builds the serving program with FILE's functions under the library's names.
serve_plain() {
    names=$(sed -n 's/.*\bplain_\([a-z_]*\)(.*/-Dplain_\1=naustvri_\1/p' "$repository/bench/plain.h")
    # shellcheck disable=SC2086
    "$xcc" -O2 -w -I "$repository/include" -I "$repository/bench" $names -c -o "$out/planted.o" "$1"
    build_server "$out/planted" "$out/planted.o"
}

serve_plain "$plain"
outside 1 rounds 200 "$out/planted"

missed=0
errors=$(awk 'BEGIN { RS = "" } !/^#/ { n++ } END { print n }' "$planted")
for i in $(seq "$errors"); do
    # The error's three lines: its name, the line that it changes, and what that becomes.
    awk -v i="$i" 'BEGIN { RS = "" } !/^#/ && ++n == i' "$planted" >"$out/error"
    awk 'NR == FNR { error[NR] = $0; next } $0 == error[2] { print error[3]; n++; next } { print } END { exit n != 1 }' \
        "$out/error" "$plain" >"$out/planted.c" || die "not one line of plain.c to change: $(cat "$out/error")"
    serve_plain "$out/planted.c"
    began=$(date +%s%N)
    if outside 1 rounds 200 "$out/planted" >"$out/planted.log" 2>&1; then
        found='NOT FOUND' missed=$((missed + 1))
    else
        found=$(grep '^seed' "$out/planted.log")
    fi
    printf '%5d ms  %s: %s\n' $((($(date +%s%N) - began) / 1000000)) "$(head -n 1 "$out/error")" "$found"
done
echo "planted: $errors errors, $missed not found"
[ "$missed" = 0 ]
