# shellcheck shell=sh
# Sourced by the scripts of bench/ and tests/: names the tools of this machine for x86-64 programs, and installs what is missing.
# Sets: repository, machine, xcc (gcc for x86-64), xbin (the prefix of its binutils), clang (the Rattle toolchain's own).
set -eu
die() { printf '%s: %s\n' "${0##*/}" "$*" >&2; exit 2; }
repository=$(cd "$(dirname "$0")/.." && pwd -P)
machine=$(uname -m)
rt=$(command -v rt) || die "rt, the command of the Rattle toolchain, is not on the PATH"
toolchain=$(cd "$(dirname "$(readlink -f "$rt")")/.." && pwd -P)/toolchain
clang=$toolchain/bin/clang
[ -x "$clang" ] || die "the Rattle toolchain has no clang"
case $machine in
x86_64) xcc=gcc xbin='' ;;
aarch64) xcc=x86_64-linux-gnu-gcc xbin=x86_64-linux-gnu- ;;
*) die "programs for x86-64 are not built on $machine" ;;
esac

# need COMMAND=PACKAGE..: installs by name from Debian each PACKAGE whose COMMAND is missing; asks for root where something is.
need() {
    missing=
    for pair; do
        command -v "${pair%%=*}" >/dev/null 2>&1 || missing="$missing ${pair#*=}"
    done
    [ -n "$missing" ] || return 0
    [ "$(id -u)" = 0 ] || die "missing packages, to be installed as root:$missing"
    {
        apt-get update -q
        # shellcheck disable=SC2086
        DEBIAN_FRONTEND=noninteractive apt-get install -y -q --no-install-recommends $missing
    } >&2
}

# The C compiler for x86-64 with its C library, and what runs x86-64 programs on another machine.
need_compiler() {
    need gcc="gcc libc6-dev"
    [ "$machine" = x86_64 ] ||
        need x86_64-linux-gnu-gcc="gcc-x86-64-linux-gnu libc6-dev-amd64-cross" qemu-x86_64=qemu-user
}

# run_x86 PROGRAM ARGUMENTS..: natively, or under the emulator.
run_x86() {
    if [ "$machine" = x86_64 ]; then "$@"; else qemu-x86_64 -cpu qemu64 "$@"; fi
}

# clang_x86 WORDS..: the Rattle toolchain's clang, for x86-64, with the C compiler's headers.
clang_x86() {
    headers=$("$xcc" -xc -E -v /dev/null 2>&1 >/dev/null | sed -n '/^#include </,/^End/s/^ / -isystem /p')
    # shellcheck disable=SC2086
    "$clang" --target=x86_64-linux-gnu -nostdinc $headers "$@"
}

# sources: a sum of the kit and of all that the library and the programs are made from.
sources() {
    (cd "$repository" && "$rt" version && find crates crates.txt -name out -prune -o -type f -print | LC_ALL=C sort | xargs sha256sum) | sha256sum
}

# made FOLDER FILE..: whether FOLDER has these files, built from the sources as they stand.
made() (
    cd "$1" 2>/dev/null || exit 1
    shift
    for file in sources "$@"; do [ -s "$file" ] || exit 1; done
    [ "$(cat sources)" = "$(sources)" ]
)

# rt_in CRATE COMMAND: proves and builds a crate by an rt command, for every x86-64 processor; says something only where that fails.
rt_in() {
    log=$(cd "$repository/crates/$1" && "$rt" "$2" --cpu x86-64 2>&1 </dev/null) || { printf '%s\n' "$log" >&2; exit 1; }
}

# library: proves and builds the archive that C links, where its sources have changed, and names it.
library() {
    archives=$repository/target/staticlib
    if ! made "$archives" libnaustvri.a; then
        rm -rf "$archives"
        mkdir -p "$archives"
        from=$(sources)
        rt_in naustvri_c lib
        cp "$repository/crates/naustvri_c/out/libnaustvri_c.a" "$archives/libnaustvri.a"
        printf '%s\n' "$from" >"$archives/sources"
    fi
    printf '%s\n' "$archives/libnaustvri.a"
}

# build_programs: proves and links decide, panel and figures, where their sources have changed, in the folder $bin.
build_programs() {
    bin=$repository/target/bin
    if ! made "$bin" decide panel figures; then
        rm -rf "$bin"
        mkdir -p "$bin"
        from=$(sources)
        for program in decide panel figures; do
            rt_in "$program" run
            cp "$repository/crates/$program/out/$program" "$bin"
        done
        printf '%s\n' "$from" >"$bin/sources"
    fi
}

# run_linked PROGRAM ARGUMENTS..: a program that rt has linked, under the toolchain's loader and C library, and its emulator where it has one.
run_linked() {
    emulator=$toolchain/bin/qemu-x86_64
    [ -x "$emulator" ] || emulator=
    ${emulator:+"$emulator"} "$toolchain/lib/ld-linux-x86-64.so.2" --library-path "$toolchain/lib" "$@"
}
