#!/bin/sh
# run.sh                        the outside tests of the gate: the examples, the header, the version, the handbook, the Rust package, the
#                               programs, what is installed, then the library against the independent implementation, always the same cases
# run.sh seconds COUNT [SEED]   other cases for so many seconds, every ten seconds a line with how many a second, and the seed of any difference
# run.sh rounds COUNT SEED      so many rounds from a seed; one round where a difference is to come again
. "$(dirname "$0")/build.sh"
unit=${1:-rounds} count=${2:-200} seed=${3:-1}
[ "$unit" = rounds ] || seed=${3:-$(date +%s)}
[ "$unit" = rounds ] || echo "outside: builds the tests and the library, which is proved first where it has changed"
need_compiler
build_driver
[ $# != 0 ] || build_programs
archive=$(library)
if [ $# = 0 ]; then
    "$repository/tests/example.sh" "$archive"
    "$repository/tests/header.sh" "$archive"
    "$repository/tests/version.sh" "$archive"
    "$repository/tests/handbook.sh" "$archive"
    "$repository/tests/rust.sh" "$archive"
    "$repository/tests/program.sh"
    "$repository/tests/typed.sh"
    "$repository/tests/install.sh"
fi
build_server "$out/serve" "$archive"
[ "$unit" = rounds ] || echo "outside: from seed $seed"
outside "$seed" "$unit" "$count" "$out/serve"
