# make demo            rebuilds a sample picture out of order and writes build/demo/jiwarbend.png
# make test            the gate: every proof, every must-fail edit and every program; of a crate that has not changed rt keeps what it proved
# make check           what a maintainer runs before a release beside the gate: the demo, everything from lib to diff below, and a short benchmark
# make lib             build/lib/libjiwarbend.a, the proved library for x86-64 (include/jiwarbend.h)
# make symbols         the archive has the header's functions, no state, and needs nothing but memory copied and filled
# make languages       in seconds and without the library: header, signatures, layout and examples of the other languages
# make rust-test       the Rust crate's tests
# make examples        the C example and the Rust examples, linked and run
# make stress          workers over shared pictures that forget, repeat, come late and start anew: SECONDS of it by WORKERS
# make diff            the port against the Rust it was ported from, call by call
# make install         header, archive and pkg-config file below PREFIX (/usr/local); DESTDIR is put before it
#
# make bench           the port and the Rust side by side; writes build/bench/, with instructions where valgrind is installed
# make bench-docs      the same, and the figures go into docs/BENCHMARK.md and README.md
# make diff-x86-64     make diff under an emulator, on a machine of another kind that was brought the x86-64 archive
# make oracle-list     the fixed list of the Rust's answers, made anew
# make macroblock-list the fixed list of macroblocks that the Rust's routines rebuilt, made anew
# make vector-list     the fixed list of blocks that others transformed, made anew
#
# ORACLE is the folder of the Rust that was ported (diff, bench and the lists), VECTORS that of the blocks that others transformed (vector-list).
# ROUNDS is how often the benchmark times each side. SECONDS and WORKERS are those of the stress run.
# Everything that is made stands in build/, which `make test` leaves alone.
ORACLE ?= ../shared/docs/src
VECTORS ?= ../shared/vectors
CARGO ?= cargo
CC ?= cc
PREFIX ?= /usr/local
ROUNDS ?= 41
SECONDS ?= 60
WORKERS ?= 4

ARCHIVE = build/lib/libjiwarbend.a
SOURCES = $(shell find crates -name out -prune -o '(' -name '*.rt' -o -name '*.antt' ')' -print) crates.txt
export JIWARBEND_ARCHIVE = $(abspath $(ARCHIVE))
export JIWARBEND_ORACLE = $(abspath $(ORACLE))
OF_RUST = --quiet --offline --manifest-path rust/Cargo.toml
RUN = $(CARGO) run --release $(OF_RUST)
# The Rust is timed in its strongest build: link-time optimisation over all crates.
TIME = $(CARGO) run --profile fastest $(OF_RUST) -p harness --bin bench
WARNINGS = -Wall -Wextra -Wpedantic -Werror
VERSION = $(shell scripts/signatures --version)

.PHONY: demo test check lib symbols languages rust-test examples stress diff install bench bench-docs bench-short diff-x86-64 oracle-list macroblock-list vector-list
demo: $(ARCHIVE)
	mkdir -p build/demo
	$(RUN) -p demo build/demo/jiwarbend.png

test:
	.ci/run

check: demo languages symbols rust-test examples diff bench-short
	@echo "check: demo, languages, symbols, tests, examples, differential runs and the short benchmark passed"

lib: $(ARCHIVE)

$(ARCHIVE): $(SOURCES) scripts/archive
	scripts/archive $@

symbols: $(ARCHIVE)
	scripts/symbols $(ARCHIVE)

languages:
	scripts/languages

rust-test: $(ARCHIVE)
	$(CARGO) test --release $(OF_RUST)

examples: $(ARCHIVE)
	mkdir -p build/examples
	$(CC) -std=c99 $(WARNINGS) -O2 -Iinclude examples/rebuild.c $(ARCHIVE) -o build/examples/rebuild
	build/examples/rebuild
	$(RUN) --example workers
	$(RUN) --example cores
	$(RUN) --example night 5
	$(RUN) --example wave
	$(RUN) --example partner

stress: $(ARCHIVE)
	$(RUN) --example stress $(SECONDS) $(WORKERS)

diff: $(ARCHIVE)
	$(RUN) -p harness --bin diff

bench: $(ARCHIVE)
	$(TIME) build/bench $(ROUNDS)

bench-docs: bench
	scripts/bench-docs

# Too short for figures: it sees that all sides rebuild the same pictures.
bench-short: $(ARCHIVE)
	$(TIME) build/bench-short 3

diff-x86-64:
	scripts/diff-x86-64

oracle-list: $(ARCHIVE)
	$(RUN) -p harness --bin oracle_list > crates/oracle_list/stdin

macroblock-list: $(ARCHIVE)
	$(RUN) -p harness --bin macroblock_list > crates/macroblocks/stdin

vector-list: $(ARCHIVE)
	$(RUN) -p harness --bin vector_list $(VECTORS) > crates/vectors/stdin

install: $(ARCHIVE)
	install -d $(DESTDIR)$(PREFIX)/include $(DESTDIR)$(PREFIX)/lib/pkgconfig
	install -m 644 include/jiwarbend.h $(DESTDIR)$(PREFIX)/include/
	install -m 644 $(ARCHIVE) $(DESTDIR)$(PREFIX)/lib/
	sed -e 's|@PREFIX@|$(abspath $(PREFIX))|' -e 's|@VERSION@|$(VERSION)|' scripts/jiwarbend.pc.in \
		> $(DESTDIR)$(PREFIX)/lib/pkgconfig/jiwarbend.pc
	chmod 644 $(DESTDIR)$(PREFIX)/lib/pkgconfig/jiwarbend.pc
