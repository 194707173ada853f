#                     minutes, on two cores
# make test           10 to 30   the gate: proofs, wrong edits, outside tests; its last line is 'N passed, 0 failed'
# make library        2 to 4     the archive that a host links, target/staticlib/libnaustvri.a
# make demo           2 to 4     the three programs on the listing's ten events, on one screen; seconds where they are proved
# make bench          2 to 4     the library's instructions beside those of plain C, in tables and docs/benchmark.svg; 1 where it is proved
# make edits          15 to 40   every wrong edit, the gate's and more
# make planted        1          errors planted in a stand-in for the library, each of which the outside tests find
# make soak           10         the outside tests on ever other cases, with the seed of any difference; SECONDS=600, SEED=1
# make install        2 to 4     header, archive, programs, man pages and handbook, for hosts to use; PREFIX=/usr/local, DESTDIR=
# make uninstall      0          takes them away; PREFIX=/usr/local, DESTDIR=
# make reproducible   4 to 10    the archive, built in two folders, is octet for octet the same
.PHONY: help test library edits demo bench soak planted install uninstall reproducible

help:
	@sed -n 's/^# //p' Makefile

test:
	@scripts/gate.sh

library:
	@scripts/library.sh

edits:
	@scripts/edits.sh

demo:
	@scripts/demo.sh

bench:
	@bench/run.sh

SECONDS = 600
soak:
	@tests/run.sh seconds $(SECONDS) $(SEED)

planted:
	@tests/planted.sh

built = target/staticlib/libnaustvri.a target/bin/decide target/bin/panel target/bin/figures
$(built) &: $(shell find crates crates.txt -name out -prune -o -type f -print)
	@scripts/build.sh

PREFIX = /usr/local
install: $(built)
	@scripts/install.sh install '$(PREFIX)' '$(DESTDIR)'

uninstall:
	@scripts/install.sh uninstall '$(PREFIX)' '$(DESTDIR)'

reproducible:
	@tests/reproducible.sh
