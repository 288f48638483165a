# make               build the command `raddlehue` over the proved archive, and show today's Sun and Moon
# make test          the gate: outside checks, every proof, every must-fail edit, every program (what `rt ci` proved of the same files on this machine is kept)
# make differential  a million random requests and 5,000 whole days, the archive against the ordinary Rust version
# make memcheck      a million damaged strips, and turning points at their edges, under valgrind: nothing is read or written outside of what was lent (minutes)
# make figures       measure, and write docs/FIGURES.md
# make lib           prove and build the archive for C and Rust, target/lib/libraddlehue.a
# make install       install it, the command, the header, the documents and a pkg-config file: PREFIX=/usr/local, and DESTDIR before it
# make watch         the same module for the watch's processor, tried against the archive under qemu: target/watch/libraddlehue.a (CORE, FLOAT, OPT: docs/PORTS.md)
# make phone         likewise for AArch64: target/phone/libraddlehue.a
# make wasm          likewise for browsers and node: target/wasm/raddlehue.wasm and raddlehue.mjs
SHELL := /bin/bash -o pipefail

PREFIX ?= /usr/local
BINDIR ?= $(PREFIX)/bin
LIBDIR ?= $(PREFIX)/lib
INCLUDEDIR ?= $(PREFIX)/include
DOCDIR ?= $(PREFIX)/share/doc/raddlehue
INSTALL ?= install
RT := rt

LIB := target/lib/libraddlehue.a
COMMAND := target/bin/raddlehue
# the proved programs that answer lines
PROGRAMS := target/bin/sheet target/bin/places target/bin/days
SOURCES := crates.txt $(shell find crates -name out -prune -o \( -name '*.rt' -o -name '*.antt' \) -print)
COMMAND_SOURCES := $(shell find command bindings/rust -path '*/target' -prune -o -type f -print)
VERSION = $(shell sed -n 's/^\#define RADDLEHUE_VERSION "\(.*\)"/\1/p' include/raddlehue.h)

# the first line of every recipe that needs the kit, or Rust
define needs_rt
@command -v rt > /dev/null || { echo "make $@ needs rt, the Rattle kit (its compiler and prover; 'rt version' prints its identity), and no rt is on the PATH" >&2; exit 1; }
endef
define needs_cargo
@command -v cargo > /dev/null || { echo "make $@ needs cargo and rustc (Rust 1.84 or newer), and no cargo is on the PATH" >&2; exit 1; }
endef

.PHONY: today test differential memcheck figures lib install watch phone wasm

# Greenwich, where longitudes begin
today: $(COMMAND)
	@$(COMMAND) day "$$(date -u +%Y-%m-%d)" --lat 51.4779N --lon 0 --height 46

$(COMMAND): $(LIB) $(COMMAND_SOURCES)
	$(needs_cargo)
	@echo "building the command $(COMMAND)"
	@CARGO_TARGET_DIR=target/command cargo build --release --offline --locked --quiet --manifest-path command/Cargo.toml
	@mkdir -p $(dir $(COMMAND))
	@cp target/command/release/raddlehue $(COMMAND)

test:
	$(needs_rt)
	@.ci/run

differential:
	$(needs_rt)
	@tools/build-tests differential
	@target/tests/differential 1000000

# strip by strip, each list at the end of its own allocation
memcheck:
	$(needs_rt)
	@command -v valgrind > /dev/null || { echo "make $@ needs valgrind (Debian's package valgrind), and no valgrind is on the PATH" >&2; exit 1; }
	@tools/build-tests strip_edges proposal_edges fuzz_strips
	@valgrind --quiet --error-exitcode=1 target/tests/strip_edges
	@valgrind --quiet --error-exitcode=1 target/tests/proposal_edges
	@valgrind --quiet --error-exitcode=1 target/tests/fuzz_strips 1000000

figures:
	$(needs_rt)
	@tools/figures

# rt keeps what is proved in each crate's out/, knows by itself what has changed, and prints a line for each crate that it begins; the archive is for every x86-64, and not for rt's
# newer ones alone
lib:
	$(needs_rt)
	@echo "proving and building the archive: some minutes the first time, a line for each crate"
	@mkdir -p $(dir $(LIB))
	@(cd crates/capi && $(RT) lib --cpu=x86-64) 2>&1 | tee $(LIB:.a=.log) | sed -un '/^rt: /p' || { tail -n 20 $(LIB:.a=.log) >&2; exit 1; }
	@cp crates/capi/out/libcapi.a $(LIB)
	@echo "$(LIB)"

# who installs what `make lib` has made needs no kit, unless the sources are newer
$(LIB): $(SOURCES)
	@$(MAKE) --no-print-directory lib

# rt builds a program and runs it: on the crate's own input, it has to print what the crate says
$(PROGRAMS): $(SOURCES)
	$(needs_rt)
	@echo "proving and building the program $@"
	@mkdir -p $(@D)
	@(cd crates/$(@F) && $(RT) run < stdin 2> ../../$@.log | cmp - stdout) || { tail -n 20 $@.log >&2; exit 1; }
	@cp crates/$(@F)/out/$(@F) $@

install: $(LIB) $(COMMAND)
	@$(INSTALL) -d "$(DESTDIR)$(BINDIR)" "$(DESTDIR)$(LIBDIR)/pkgconfig" "$(DESTDIR)$(INCLUDEDIR)" "$(DESTDIR)$(DOCDIR)/docs"
	@$(INSTALL) -m 755 $(COMMAND) "$(DESTDIR)$(BINDIR)"
	@$(INSTALL) -m 644 $(LIB) "$(DESTDIR)$(LIBDIR)"
	@$(INSTALL) -m 644 include/raddlehue.h "$(DESTDIR)$(INCLUDEDIR)"
	@$(INSTALL) -m 644 README.md "$(DESTDIR)$(DOCDIR)"
	@$(INSTALL) -m 644 docs/*.md docs/*.svg "$(DESTDIR)$(DOCDIR)/docs"
	@sed 's|@PREFIX@|$(PREFIX)|; s|@LIBDIR@|$(LIBDIR:$(PREFIX)/%=$${prefix}/%)|; s|@INCLUDEDIR@|$(INCLUDEDIR:$(PREFIX)/%=$${prefix}/%)|; s|@VERSION@|$(VERSION)|' packaging/raddlehue.pc.in \
		> "$(DESTDIR)$(LIBDIR)/pkgconfig/raddlehue.pc"
	@chmod 644 "$(DESTDIR)$(LIBDIR)/pkgconfig/raddlehue.pc"
	@echo "raddlehue $(VERSION) is installed under $(DESTDIR)$(PREFIX)"

watch phone wasm:
	$(needs_rt)
	@ports/need $@
	@ports/module
	@ports/build $@
	@ports/compare $@
