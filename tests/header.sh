#!/bin/sh
# header.sh [ARCHIVE]: include/naustvri.h compiles without a warning by every standard from C89 and C++98 on; a host lends empty buffers to
# each function of the library, and lets a call ring until it is answered; and the text for each value is what the handbook's tables say.
# ARCHIVE: the library where it is built already.
. "$(dirname "$0")/../scripts/machine.sh"
need_compiler
need g++=g++
archive=${1:-$(library)}
out=$repository/target/header host=$repository/tests/host.c handbook=$repository/docs/HANDBOOK.md
rm -rf "$out"
mkdir -p "$out"
warnings='-Wall -Wextra -Wpedantic -Wconversion -Werror'

# strict COMPILER WORDS..: compiles with every warning as an error.
# shellcheck disable=SC2086
strict() { "$@" $warnings -I "$repository/include"; }

standards=0
for standard in c89 c99 c11 c17; do
    strict gcc -std=$standard -fsyntax-only "$host"
    standards=$((standards + 1))
done
for standard in c++98 c++11 c++14 c++17 c++20 c++23; do
    strict g++ -x c++ -std=$standard -fsyntax-only "$host"
    standards=$((standards + 1))
done
# A compiler of C89 that knows no inline function: there the texts are left out.
printf '#include <%s>\n' stdio.h string.h stdint.h >"$out/plain.c"
printf '#undef __GNUC__\n#include "%s"\n' "$host" >>"$out/plain.c"
strict "$xcc" -std=c89 -static -no-pie -o "$out/plain" "$out/plain.c" "$archive"
[ "$(run_x86 "$out/plain")" = 'no text' ] || die "without inline functions there is text all the same"

# promised PROGRAM: the host, which says where the library does otherwise than the header promises.
promised() { run_x86 "$1" >"$out/said" || { grep '^not so' "$out/said"; die "the library does otherwise than the header promises"; }; }
strict "$xcc" -static -no-pie -o "$out/host" "$host" "$archive"
promised "$out/host"
# In C++ too, where the compiler is for x86-64.
if [ "$machine" = x86_64 ]; then
    strict g++ -o "$out/host++" -x c++ "$host" -x none "$archive"
    mv "$out/said" "$out/said-in-c"
    promised "$out/host++"
    diff "$out/said-in-c" "$out/said"
fi

# The handbook's rows of the tables of numbers, causes, levels, LFB indicators, kinds and names, as the host prints them.
{
    sed -nE 's/^\| ([0-9]+) \| `([A-Z_]+)` \| ([^|]*) \|.*/\1 \2 \3/p' "$handbook" | sed -E '/ CAUSE_/!s/^/number /; / CAUSE_/s/^/cause /'
    sed -nE 's/^\| ([0-9]+) \| ([A-Z ]+) \| .*/level \1 \2/p' "$handbook"
    sed -nE 's/^.*\| 00 \| ([a-z ]+) \|$/LFB 0 \1/p; s/^.*\| 01 \| ([a-z ]+) \|$/LFB 1 \1/p; s/^.*\| 10 \| ([a-z ]+) \|$/LFB 2 \1/p' "$handbook"
    sed -n '/^| kind |/,/^$/p' "$handbook" | sed -nE 's/^\| ([0-9]) \| ([a-z -]+) \| .*/kind \1 \2/p'
    sed -n '/^| name of a parameter |/,/^$/p' "$handbook" | sed -nE 's/^\| ([0-9]+) \| ([A-Za-z ]+) \| .*/name \1 \2/p'
} | sort >"$out/handbook"
# A level, an LFB indicator, a kind and a name have no name of a constant there.
sed -E 's/^((level|LFB|kind|name) [0-9]+) [A-Z_]+ /\1 /' "$out/said" | sort >"$out/header"
[ -s "$out/handbook" ] || die "no table found in HANDBOOK.md"
diff "$out/handbook" "$out/header"
echo "header: no warning by $standards standards; empty buffers and a ringing call as promised; $(wc -l <"$out/header") texts as in the handbook"
