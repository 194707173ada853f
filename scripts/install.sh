#!/bin/sh
# install.sh install PREFIX [DESTDIR]     puts what a host needs under DESTDIR/PREFIX, from the repository where it is built
# install.sh uninstall PREFIX [DESTDIR]   takes the same files away
set -eu
verb=$1 prefix=$2 root=${3:-}$2
case $prefix in /*) ;; *) echo "PREFIX has to start with /: $prefix" >&2 && exit 2 ;; esac

# For each file that is installed: where it stands in the repository, where it goes, and its mode.
files() {
    cat <<'END'
include/naustvri.h              include/naustvri.h                 644
target/staticlib/libnaustvri.a  lib/libnaustvri.a                  644
target/install/naustvri.pc      lib/pkgconfig/naustvri.pc          644
target/bin/decide               bin/naustvri-decide                755
target/bin/panel                bin/naustvri-panel                 755
target/bin/figures              bin/naustvri-figures               755
man/naustvri-decide.1           share/man/man1/naustvri-decide.1   644
man/naustvri-panel.1            share/man/man1/naustvri-panel.1    644
man/naustvri-figures.1          share/man/man1/naustvri-figures.1  644
docs/HANDBOOK.md                share/doc/naustvri/HANDBOOK.md     644
CHANGELOG.md                    share/doc/naustvri/CHANGELOG.md    644
LICENSE                         share/doc/naustvri/LICENSE         644
examples/two_calls.c            share/doc/naustvri/two_calls.c     644
examples/optional_part.c        share/doc/naustvri/optional_part.c 644
END
}

case $verb in
install)
    cd "$(dirname "$0")/.."
    mkdir -p target/install
    version=$(sed -nE 's/^#define NAUSTVRI_VERSION_[A-Z]+ ([0-9]+)$/\1/p' include/naustvri.h | paste -s -d .)
    sed "s|@PREFIX@|$prefix|; s|@VERSION@|$version|" include/naustvri.pc.in >target/install/naustvri.pc
    files | while read -r from to mode; do
        install -D -m "$mode" "$from" "$root/$to"
    done
    echo "install: header, archive, programs, man pages and handbook are under $root"
    ;;
uninstall)
    files | while read -r _ to _; do
        rm -f "$root/$to"
    done
    rmdir "$root/share/doc/naustvri" 2>/dev/null || true
    ;;
*)
    echo "neither install nor uninstall: $verb" >&2
    exit 2
    ;;
esac
