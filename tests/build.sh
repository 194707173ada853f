# shellcheck shell=sh
# Sourced by the scripts of tests/: builds the two programs of the outside tests in $out.
. "$(dirname "$0")/../scripts/machine.sh"
out=$repository/target/outside
mkdir -p "$out"

# build_driver: the independent implementation with its cases, for this machine.
build_driver() {
    need rustc=rustc
    rustc -O --edition 2021 -o "$out/outside" "$repository/tests/outside/main.rs"
}

# build_server PROGRAM OBJECT..: the program that serves the functions of OBJECT, for x86-64.
build_server() {
    program=$1
    shift
    "$xcc" -O2 -Wall -Wextra -I "$repository/include" -static -no-pie -o "$program" "$repository/tests/serve.c" "$@"
}

# outside SEED UNIT COUNT PROGRAM: holds a serving program to the independent implementation.
outside() {
    if [ "$machine" = x86_64 ]; then "$out/outside" "$@"; else "$out/outside" "$1" "$2" "$3" qemu-x86_64 -cpu qemu64 "$4"; fi
}
