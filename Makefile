# Makes the two archives, and installs the header, libtvarchula.a and a pkg-config file. Installing builds nothing.
PREFIX ?= /usr/local
TVARCHULA_LIB_DIR ?= target/staticlib

archive = $(TVARCHULA_LIB_DIR)/libtvarchula.a
prefix = $(abspath $(PREFIX))
version = $(shell sed -n 's/^.define TV_VERSION "\(.*\)"/\1/p' include/tvarchula.h)

.PHONY: usage libtvarchula.a libproducts.a install uninstall

usage:
	@echo 'make libtvarchula.a, and for the benchmark libproducts.a: into target/staticlib, with the Rattle kit'
	@echo 'make install [PREFIX=/usr/local] [DESTDIR=] [TVARCHULA_LIB_DIR=target/staticlib], and uninstall with the same'

# The crate NAME_c exports what C calls of the crate NAME: `rt lib` proves it and makes its archive, which callers know as libNAME.a. It is
# for every x86-64; by itself rt would take x86-64-v2.
libtvarchula.a libproducts.a: lib%.a:
	cd crates/$*_c && rt lib --cpu x86-64
	install -d target/staticlib
	install -m 644 crates/$*_c/out/lib$*_c.a target/staticlib/lib$*.a

install:
	@test -f '$(archive)' || { echo 'there is no $(archive): make it with `make libtvarchula.a`' >&2; exit 2; }
	install -d '$(DESTDIR)$(prefix)/include' '$(DESTDIR)$(prefix)/lib/pkgconfig'
	install -m 644 include/tvarchula.h '$(DESTDIR)$(prefix)/include/tvarchula.h'
	install -m 644 '$(archive)' '$(DESTDIR)$(prefix)/lib/libtvarchula.a'
	sed -e 's|@PREFIX@|$(prefix)|' -e 's|@VERSION@|$(version)|' c/tvarchula.pc.in > '$(DESTDIR)$(prefix)/lib/pkgconfig/tvarchula.pc'

uninstall:
	rm -f '$(DESTDIR)$(prefix)/include/tvarchula.h' '$(DESTDIR)$(prefix)/lib/libtvarchula.a' '$(DESTDIR)$(prefix)/lib/pkgconfig/tvarchula.pc'
