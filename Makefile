# make            build the program and list the sample book
# make all        build the program, the archive and the shared library
# make check      all proofs and tests
# make compare    COUNT generated books from SEED through the product and through the second program
# make bench      the product's speed and stack beside the second program's
# make install    what make all built, below PREFIX (/usr/local); a packager sets DESTDIR
# make uninstall  take away what make install put there
# make clean      remove all that was built
# make help       this text
#
# Building needs the Rattle kit (rt) and make alone; compare and bench need cargo and a C compiler too; check says what it needs. The
# product is for x86-64, and so is the kit. On another machine an emulator (Debian's qemu-user) runs what was made on such a one, and bench
# times its code compiled for that machine, where a kit has a compiler there.

PREFIX = /usr/local
DESTDIR =
VERSION = 0.11.1
RT = rt
RUN = .ci/x86-64
INSTALL = install
# What the package is installed for. Somebody who packs it on another machine sets MACHINE=x86_64.
MACHINE = $(shell uname -m)

program = target/bin/allot
cutback = target/bin/cutback
moves = target/bin/moves
ladder = target/bin/ladder
sheet = target/bin/sheet
archive = target/staticlib/libfrundavel.a
# the call worked in rows, for the comparison of both layouts
rows = target/staticlib/librows.a
shared = target/lib/libfrundavel.so.$(VERSION)
# what a build can depend on: not the wrong programs, definitions and contracts that the gate tries, nor what rt made
sources := crates.txt $(shell find crates \( -name must-fail -o -name wrong -o -name weakened -o -name out \) -prune -o -type f -print)
build = program/build program/kit .ci/prover.py

bindir = $(PREFIX)/bin
includedir = $(PREFIX)/include
libdir = $(PREFIX)/lib
pkgconfigdir = $(libdir)/pkgconfig
mandir = $(PREFIX)/share/man
# as the pkg-config file has a folder: below its prefix, so that the whole can be moved
below = $(subst $(PREFIX)/,$${prefix}/,$(1))

COUNT = 1000000
SEED = 1
BENCH =
cargo = CARGO_TARGET_DIR=target/cargo cargo run --release --offline --quiet --manifest-path harness/Cargo.toml
export RT

# what a recipe needs, and what it is: said in words where it is missing
need = @command -v $(1) >/dev/null 2>&1 || { echo "$(1) is missing: $(2)" >&2; exit 1; }
need-rt = $(call need,$(RT),it is the command of the Rattle kit$(comma) which proves and compiles all that is built here)
need-cargo = $(call need,cargo,it is the command of Rust$(comma) which builds the comparison and the benchmark)
need-cc = $(call need,cc,it is a C compiler$(comma) with which cargo links what it builds (Debian: gcc))
comma = ,

# Folders that make, the shell or pkg-config would read as something else are refused, before a line of a recipe holds one.
odd = ' " ` \ \# $$
folders = PREFIX DESTDIR bindir includedir libdir pkgconfigdir mandir
has-odd = $(strip $(foreach mark,$(odd),$(findstring $(mark),$(1))))
odd-folder = $(firstword $(or $(strip $(foreach folder,PREFIX DESTDIR,$(if $(call has-odd,$(value $(folder))),$(folder)))), \
	$(foreach folder,$(folders),$(if $(call has-odd,$($(folder))),$(folder)))))
plain-folders = $(if $(odd-folder),$(error make $@: $(odd-folder) has one of these in it: $(odd)))

.PHONY: sample all help check compare bench install uninstall clean
# rt works on one thing at a time in a folder
.NOTPARALLEL:
.DELETE_ON_ERROR:

sample: $(program)
	$(RUN) $(program) examples/listing.book

all: $(program) $(cutback) $(moves) $(ladder) $(sheet) $(archive) $(shared)

help:
	@sed -n 's/^# \(make\)/\1/p' Makefile

check:
	.ci/run

# A machine that cannot link the archive asks the product under the emulator.
compare: $(archive) $(rows)
	$(need-cargo)
	$(need-cc)
	if [ "$$(uname -m)" = x86_64 ]; then $(cargo) --bin compare -- $(COUNT) $(SEED) --folder target; \
	else harness/emulated/make && $(cargo) --bin compare -- $(COUNT) $(SEED) --folder target --through target/emulated/run; fi

bench: $(archive) $(rows)
	$(need-cargo)
	$(need-cc)
	if [ "$$(uname -m)" = x86_64 ]; then $(cargo) --bin bench -- $(BENCH); \
	else harness/native/make && FRUNDAVEL_ARCHIVE=target/native $(cargo) --bin bench -- $(BENCH); fi

# an archive for C is that of a thin crate over the library of its name
target/staticlib/lib%.a: $(sources) $(build)
	$(need-rt)
	program/build $*_c $@

$(cutback): $(sources) $(build)
	$(need-rt)
	program/build cutting $@

target/bin/%: $(sources) $(build)
	$(need-rt)
	program/build $* $@

$(shared): $(archive) include/frundavel.h program/share program/kit
	$(need-rt)
	program/share $(VERSION)

# Nothing is built here, so that nothing is built as root.
install:
	$(plain-folders)
	@[ "$(MACHINE)" = x86_64 ] || { echo "make install: Frundavel is for x86-64 Linux, and this machine is $(MACHINE)" >&2; exit 1; }
	@case "$(PREFIX)" in /*) ;; *) echo "make install: PREFIX must begin with /: $(PREFIX)" >&2; exit 1 ;; esac
	@$(MAKE) --no-print-directory -q all 2>/dev/null || { echo "make install builds nothing, and what it installs is not there" \
		"or is older than its sources: run make all first" >&2; exit 1; }
	$(INSTALL) -d "$(DESTDIR)$(bindir)" "$(DESTDIR)$(includedir)" "$(DESTDIR)$(pkgconfigdir)" "$(DESTDIR)$(mandir)/man1" \
		"$(DESTDIR)$(mandir)/man3"
	$(INSTALL) -m 755 $(program) "$(DESTDIR)$(bindir)/allot"
	$(INSTALL) -m 755 $(cutback) "$(DESTDIR)$(bindir)/cutback"
	$(INSTALL) -m 755 $(moves) "$(DESTDIR)$(bindir)/moves"
	$(INSTALL) -m 755 $(ladder) "$(DESTDIR)$(bindir)/ladder"
	$(INSTALL) -m 755 $(sheet) "$(DESTDIR)$(bindir)/sheet"
	$(INSTALL) -m 755 examples/show-book "$(DESTDIR)$(bindir)/show-book"
	$(INSTALL) -m 644 include/frundavel.h "$(DESTDIR)$(includedir)/frundavel.h"
	$(INSTALL) -m 644 $(archive) "$(DESTDIR)$(libdir)/libfrundavel.a"
	$(INSTALL) -m 755 $(shared) "$(DESTDIR)$(libdir)/libfrundavel.so.$(VERSION)"
	ln -sf libfrundavel.so.$(VERSION) "$(DESTDIR)$(libdir)/libfrundavel.so.0"
	ln -sf libfrundavel.so.0 "$(DESTDIR)$(libdir)/libfrundavel.so"
	$(INSTALL) -m 644 docs/allot.1 "$(DESTDIR)$(mandir)/man1/allot.1"
	$(INSTALL) -m 644 docs/cutback.1 "$(DESTDIR)$(mandir)/man1/cutback.1"
	$(INSTALL) -m 644 docs/moves.1 "$(DESTDIR)$(mandir)/man1/moves.1"
	$(INSTALL) -m 644 docs/ladder.1 "$(DESTDIR)$(mandir)/man1/ladder.1"
	$(INSTALL) -m 644 docs/sheet.1 "$(DESTDIR)$(mandir)/man1/sheet.1"
	$(INSTALL) -m 644 docs/frundavel.3 "$(DESTDIR)$(mandir)/man3/frundavel.3"
	printf '%s\n' 'prefix=$(PREFIX)' 'includedir=$(call below,$(includedir))' 'libdir=$(call below,$(libdir))' '' 'Name: frundavel' \
		'Description: Forced offsetting allotment' 'Version: $(VERSION)' 'Cflags: -I"$${includedir}"' \
		'Libs: -L"$${libdir}" -lfrundavel' > "$(DESTDIR)$(pkgconfigdir)/frundavel.pc"
	chmod 644 "$(DESTDIR)$(pkgconfigdir)/frundavel.pc"

# The folders stay: others may have files there.
uninstall:
	$(plain-folders)
	rm -f "$(DESTDIR)$(bindir)/cutback" "$(DESTDIR)$(mandir)/man1/cutback.1"
	rm -f "$(DESTDIR)$(bindir)/allot" "$(DESTDIR)$(bindir)/show-book" "$(DESTDIR)$(includedir)/frundavel.h"
	rm -f "$(DESTDIR)$(libdir)/libfrundavel.a" "$(DESTDIR)$(libdir)/libfrundavel.so" "$(DESTDIR)$(libdir)/libfrundavel.so.0" \
		"$(DESTDIR)$(libdir)/libfrundavel.so.$(VERSION)" "$(DESTDIR)$(pkgconfigdir)/frundavel.pc"
	rm -f "$(DESTDIR)$(bindir)/moves" "$(DESTDIR)$(mandir)/man1/moves.1"
	rm -f "$(DESTDIR)$(bindir)/ladder" "$(DESTDIR)$(mandir)/man1/ladder.1"
	rm -f "$(DESTDIR)$(bindir)/sheet" "$(DESTDIR)$(mandir)/man1/sheet.1"
	rm -f "$(DESTDIR)$(mandir)/man1/allot.1" "$(DESTDIR)$(mandir)/man3/frundavel.3"

clean:
	rm -rf target
