# The front door: build, run, test, bench, install. PREFIX says where to; DESTDIR, for packagers, is put before it.
PREFIX = /usr/local
DESTDIR =

library = target/lib/libstrigol.a
program = target/bin/strigol
register = target/bin/strigol-register
to = $(DESTDIR)$(PREFIX)

.PHONY: all build run library program register test bench install uninstall clean

all: build
	@echo 'built: $(library), $(program), $(register). Next: make run, which runs the deck LOTS; make test; make install'

# the proved library and the proved program, one after the other: both call rt; then the program for the register, in C over the library
.NOTPARALLEL:
build: library program register

# builds what isn't built, runs the deck LOTS on its three lines of trade and shows what it prints
run: build
	@mkdir -p target/lots
	@cp examples/lots.deck target/lots/deck
	@echo 'examples/lots.deck on examples/lots.in prints:'
	@cd target/lots && ../bin/strigol <../../examples/lots.in
	@echo 'Next: write a deck of your own (docs/DECKS.md) into a file named deck, and run $(CURDIR)/$(program) <input beside it'

library program register:
	@tools/$@

# all proofs and all tests: the last line is 'N passed, 0 failed' exactly when all passed
test:
	bash .ci/run

# how fast: runs all benchmarks and puts their figures into these pages; nothing that is timed passes or fails
bench: build
	bench/pages docs/BENCH.md docs/GATEWAY.md

# header, static library, programs, manual page, pkg-config file, and the pages of the layouts that the header names
install: build
	install -d $(to)/include $(to)/lib/pkgconfig $(to)/bin $(to)/share/doc/strigol $(to)/share/man/man1
	install -m 644 include/strigol.h $(to)/include/strigol.h
	install -m 644 $(library) $(to)/lib/libstrigol.a
	install -m 755 $(program) $(to)/bin/strigol
	install -m 755 $(register) $(to)/bin/strigol-register
	install -m 644 man/strigol-register.1 $(to)/share/man/man1/strigol-register.1
	install -m 644 docs/TABLE.md docs/REGISTER.md docs/WINDOW.md $(to)/share/doc/strigol
	sed 's,@PREFIX@,$(PREFIX),' include/strigol.pc >$(to)/lib/pkgconfig/strigol.pc

uninstall:
	rm -f $(to)/include/strigol.h $(to)/lib/libstrigol.a $(to)/lib/pkgconfig/strigol.pc $(to)/bin/strigol $(to)/bin/strigol-register
	rm -f $(to)/share/man/man1/strigol-register.1 $(to)/share/doc/strigol/TABLE.md $(to)/share/doc/strigol/REGISTER.md $(to)/share/doc/strigol/WINDOW.md
	rmdir $(to)/share/doc/strigol 2>/dev/null || true

# what tools and tests made; the folders crates/*/out are rt's, and hold what is proved
clean:
	rm -rf target
