#!/bin/sh
# install.sh: what make install puts into a folder is enough for a host. The examples compile by pkg-config and print what they should; the
# man pages have no warning, and their examples are what the installed programs write; make uninstall leaves nothing behind.
. "$(dirname "$0")/../scripts/machine.sh"
need_compiler
need make=make pkg-config=pkgconf groff=groff-base
room=$(mktemp -d)
trap 'rm -rf "$room"' EXIT
host=$room/host stage=$room/stage

# target NAME WORDS..: a target of the Makefile.
target() { make --no-print-directory -C "$repository" "$@" >>"$room/log" 2>&1 || { cat "$room/log" >&2; die "make $1 failed"; }; }

# installed FOLDER: the files in it, by name.
installed() { (cd "$1" && find . ! -type d | LC_ALL=C sort); }

target install PREFIX="$host"
target install PREFIX=/usr DESTDIR="$stage"
cat >"$room/files" <<'END'
./bin/naustvri-decide
./bin/naustvri-figures
./bin/naustvri-panel
./include/naustvri.h
./lib/libnaustvri.a
./lib/pkgconfig/naustvri.pc
./share/doc/naustvri/CHANGELOG.md
./share/doc/naustvri/HANDBOOK.md
./share/doc/naustvri/LICENSE
./share/doc/naustvri/optional_part.c
./share/doc/naustvri/two_calls.c
./share/man/man1/naustvri-decide.1
./share/man/man1/naustvri-figures.1
./share/man/man1/naustvri-panel.1
END
installed "$host" | diff "$room/files" -
installed "$stage/usr" | diff "$room/files" -
grep -q '^prefix=/usr$' "$stage/usr/lib/pkgconfig/naustvri.pc" || die "DESTDIR stands in naustvri.pc"

export PKG_CONFIG_PATH="$host/lib/pkgconfig"
grep -q "^## $(pkg-config --modversion naustvri)\$" "$host/share/doc/naustvri/CHANGELOG.md" || die "naustvri.pc has no version of CHANGELOG.md"
if [ "$machine" = x86_64 ]; then static=; else static=-static; fi
for example in two_calls optional_part; do
    # shellcheck disable=SC2046,SC2086
    "$xcc" -O2 -Wall -Wextra $static -o "$room/$example" "$host/share/doc/naustvri/$example.c" $(pkg-config --cflags --libs naustvri)
    run_x86 "$room/$example" | diff "$repository/examples/$example.stdout" -
done

# run_installed PROGRAM: a program as it was installed; on another machine under the toolchain's emulator.
run_installed() { if [ "$machine" = x86_64 ]; then "$@"; else run_linked "$@"; fi; }

# A page's example: the commands after '$ ', and what they write.
for page in "$host"/share/man/man1/*.1; do
    groff -man -Tascii -ww -z "$page" 2>"$room/warnings"
    [ ! -s "$room/warnings" ] || die "$(cat "$room/warnings")"
    sed -n '/^\.nf$/,/^\.fi$/{/^\./!p;}' "$page" | sed 's/^\\&//; s/\\-/-/g; s/\\(aq/'\''/g; s/\\e/\\/g' >"$room/example"
    sed -n 's/^\$ //p' "$room/example" | sed "s|^naustvri-|run_installed $host/bin/naustvri-|" >"$room/commands"
    grep -q '^run_installed' "$room/commands" || die "$page has no example"
    (cd "$room" && . ./commands) >"$room/written"
    sed '/^\$ /d' "$room/example" | diff - "$room/written" || die "the example of $page"
done

touch "$host/lib/another"
target uninstall PREFIX="$host"
target uninstall PREFIX=/usr DESTDIR="$stage"
left=$(find "$host" "$stage" -name '*naustvri*' -o ! -type d)
[ "$left" = "$host/lib/another" ] || die "left behind, or taken away: $left"
echo "install: $(wc -l <"$room/files") files, the examples and those of the man pages as they should be, nothing left behind"
