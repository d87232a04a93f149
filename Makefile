# Everything built goes to target/; .cargo/config.toml tells Cargo. What rt keeps of a crate is in its out/. Git ignores both.
CARGO := cargo
HOST := --locked --quiet --manifest-path host/Cargo.toml
LIBRARY := target/staticlib/librelay.a
BOX := target/host/release/bhajnolith

# Where `make install` puts the library, its header and relay.pc, the program, its manual page and its systemd unit; a package's
# build sets DESTDIR too.
PREFIX := /usr/local
prefix := $(abspath $(PREFIX))
BINDIR := $(prefix)/bin
LIBDIR := $(prefix)/lib
INCLUDEDIR := $(prefix)/include
MANDIR := $(prefix)/share/man
UNITDIR := $(prefix)/lib/systemd/system
VERSION = $(shell sed -n 's/^version = "\(.*\)"/\1/p' host/Cargo.toml)
# All that is installed, by its place.
INSTALLED = $(INCLUDEDIR)/relay.h $(LIBDIR)/librelay.a $(LIBDIR)/pkgconfig/relay.pc $(BINDIR)/bhajnolith \
	$(MANDIR)/man1/bhajnolith.1 $(UNITDIR)/bhajnolith@.service

.PHONY: run test mistakes library box demo quickstart install uninstall bench fuzz vectors arguments seconds
# Libraries and programs share the crates below them, of which rt proves each once; and arguments are tested before the library
# is made.
.NOTPARALLEL:

# The soak: 64 clients send through the relay for an hour of the simulated clock. ARGS="--minutes 5" for a short one.
run: PROGRAM := soak
run: arguments library
	@$(CARGO) run --release $(HOST) -p $(PROGRAM) -- $(ARGS)

# The program's own test of its arguments, which needs no library.
arguments:
	@tools/need cargo=cargo-web
	@mkdir -p target/host
	@rustc --edition 2021 -A dead_code -o target/host/arguments host/$(PROGRAM)/src/arguments.rs
	@target/host/arguments $(ARGS)

# The merge gate.
test:
	@.ci/run

# Mistakes made alike in a definition and in the code, which some statement has to refuse (docs/PROVING.md). No part of the gate.
# ARGS="rounds_12 salts_255" for some of them.
mistakes:
	@tools/need rt python3=python3
	tools/mistakes $(ARGS)

library: $(LIBRARY)

# A library or a program in Rattle is made again when a crate's code, definitions or proofs changed.
RATTLE := crates.txt $(shell find crates/*/src crates/*/specs crates/*/proofs -type f)

target/staticlib/lib%.a: $(RATTLE)
	@tools/library $*

target/bin/%: $(RATTLE)
	@tools/program $*

# The program: relay box, branch box and their tools. With it made, `make install` needs no Cargo.
box: $(BOX)

$(BOX): $(LIBRARY) host/Cargo.toml host/Cargo.lock $(shell find host/cli host/relay -type f)
	@tools/need cargo=cargo-web
	@$(CARGO) build --release $(HOST) -p bhajnolith
	@touch $@

# A relay and a branch on loopback, as README shows them.
demo: box
	@tools/need python3=python3
	@examples/loopback.py $(BOX)

# The C program of the README.
quickstart: library
	@mkdir -p target/examples
	cc -std=c11 -Wall -Wextra -Wpedantic -Werror -Iinclude examples/quickstart.c $(LIBRARY) -o target/examples/quickstart
	target/examples/quickstart

# Puts the places and the version where a file wants them.
FILL_IN = sed -e 's|@PREFIX@|$(prefix)|' -e 's|@BINDIR@|$(BINDIR)|' -e 's|@LIBDIR@|$(LIBDIR)|' \
	-e 's|@INCLUDEDIR@|$(INCLUDEDIR)|' -e 's|@VERSION@|$(VERSION)|'

install: library box
	install -d $(addprefix $(DESTDIR),$(dir $(INSTALLED)))
	install -m 644 include/relay.h $(DESTDIR)$(INCLUDEDIR)/relay.h
	install -m 644 $(LIBRARY) $(DESTDIR)$(LIBDIR)/librelay.a
	$(FILL_IN) include/relay.pc.in >target/relay.pc
	install -m 644 target/relay.pc $(DESTDIR)$(LIBDIR)/pkgconfig/relay.pc
	install -m 755 $(BOX) $(DESTDIR)$(BINDIR)/bhajnolith
	install -m 644 docs/bhajnolith.1 $(DESTDIR)$(MANDIR)/man1/bhajnolith.1
	$(FILL_IN) host/cli/bhajnolith@.service.in >target/bhajnolith@.service
	install -m 644 target/bhajnolith@.service $(DESTDIR)$(UNITDIR)/bhajnolith@.service

uninstall:
	rm -f $(addprefix $(DESTDIR),$(INSTALLED))

# The table of speeds and its plot, in target/bench. ARGS=--quick for a short run. The box on loopback is measured beside ss-server
# where it is installed. docs/PERFORMANCE.md speaks of copies of a full run's: cp target/bench/speed.txt target/bench/speed.svg docs/
bench: PROGRAM := bench
bench: arguments library target/staticlib/libbench.a
	@tools/need libcrypto.so=libssl-dev libnettle.so=nettle-dev libbearssl.so=libbearssl-dev libsodium.so=libsodium-dev \
		libgcrypt.so=libgcrypt20-dev libmbedcrypto.so=libmbedtls-dev
	@$(CARGO) build --release $(HOST) -p bhajnolith
	@$(CARGO) run --release $(HOST) -p $(PROGRAM) -- $(ARGS)

# The fuzz target under AddressSanitizer, for so many seconds.
SECONDS := 60
fuzz: seconds library
	@tests/fuzz/run $(SECONDS)

seconds:
	@bash -c 'source tests/common.sh && require_seconds "$(SECONDS)"'

# The data of the program vectors and what it must print.
vectors:
	tools/need python3=python3
	python3 tools/make-vectors.py
