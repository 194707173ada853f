#!/bin/sh
# build.sh: proves and builds what make install puts: the library that hosts link, and the three programs. make runs it where one of them is
# older than a source.
. "$(dirname "$0")/machine.sh"
echo "build: proving and building the library and the programs, which takes some minutes" >&2
build_programs
archive=$(library)
# What was found unchanged is as new as its sources.
touch "$archive" "$bin/decide" "$bin/panel" "$bin/figures"
