# make: proves and builds the static library and the programs. make install PREFIX=/usr/local: these, the header, a file for
# pkg-config and the manual pages. Needs the Rattle toolchain, a C compiler and cargo.
PREFIX ?= /usr/local
DESTDIR ?=
VERSION := $(shell sed -n 's/^\#define SAB_VERSION "\(.*\)"$$/\1/p' include/sab.h)
MAN := target/man
PAGES := $(MAN)/readout.1 $(MAN)/sab.3 $(MAN)/sab1.5

all: library readout visits command pages

library:
	scripts/build library

readout:
	scripts/build readout

visits:
	scripts/build visits

command: library
	cd hosts/rust/cli && cargo build --release --quiet --offline --locked --bin sab

pages: $(PAGES)

$(MAN)/readout.1: docs/READOUT.md scripts/man-page include/sab.h
	mkdir -p $(MAN)
	scripts/man-page readout 1 'list an archive file of the record folder' $< >$@

$(MAN)/sab.3: include/sab.h scripts/man-page
	mkdir -p $(MAN)
	scripts/man-page sab 3 'the record folder of bench analysers' $< >$@

$(MAN)/sab1.5: docs/FORMAT.md scripts/man-page include/sab.h
	mkdir -p $(MAN)
	scripts/man-page sab1 5 'the archive files SAB1 and SAB2' $< >$@

target/sab.pc: include/sab.h
	mkdir -p target
	printf '%s\n' 'prefix=$(PREFIX)' 'libdir=$${prefix}/lib' 'includedir=$${prefix}/include' '' 'Name: sab' \
	    'Description: The record folder of bench analysers' 'Version: $(VERSION)' 'Libs: -L$${libdir} -lsab' \
	    'Cflags: -I$${includedir}' >$@

install: library readout visits command pages target/sab.pc
	install -d $(DESTDIR)$(PREFIX)/lib/pkgconfig $(DESTDIR)$(PREFIX)/include $(DESTDIR)$(PREFIX)/bin \
	    $(DESTDIR)$(PREFIX)/share/man/man1 $(DESTDIR)$(PREFIX)/share/man/man3 $(DESTDIR)$(PREFIX)/share/man/man5
	install -m 644 target/staticlib/libsab.a $(DESTDIR)$(PREFIX)/lib
	install -m 644 target/sab.pc $(DESTDIR)$(PREFIX)/lib/pkgconfig
	install -m 644 include/sab.h $(DESTDIR)$(PREFIX)/include
	install -m 755 target/bin/readout target/bin/visits $(DESTDIR)$(PREFIX)/bin
	install -m 755 hosts/rust/target/cli/release/sab $(DESTDIR)$(PREFIX)/bin
	install -m 644 $(MAN)/readout.1 docs/man/sab.1 $(DESTDIR)$(PREFIX)/share/man/man1
	install -m 644 $(MAN)/sab.3 $(DESTDIR)$(PREFIX)/share/man/man3
	install -m 644 $(MAN)/sab1.5 $(DESTDIR)$(PREFIX)/share/man/man5

.PHONY: all library readout visits command pages install target/sab.pc
