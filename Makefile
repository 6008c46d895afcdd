# Two commands matter: `make run` builds a controller and starts it, `make test` runs everything that the gate runs.
SHELL := /bin/bash
.SHELLFLAGS := -euo pipefail -c
.DEFAULT_GOAL := help
.NOTPARALLEL:
.PHONY: help run watch test install uninstall host archive program proved soak bench built wrong twins must-fail-list figures format tools \
        clean

# How many histories make soak compares.
COUNT := 2000

# Which old results make watch asks for, or in which revision it subscribes to results.
FETCH :=
REVISION :=

# Where make install puts things.
PREFIX := /usr/local

help:
	@echo "make run     proves the library, builds the host around it, and starts that with a simulated tool on 127.0.0.1:4545"
	@echo "make watch   a small line server, for another terminal; FETCH=17-23 asks for old results, REVISION=5 for results in revision 5"
	@echo "make test    everything that the gate runs: layout, proofs, must-fail edits, the comparison with the implementation in C, the host"
	@echo "make archive proves the library for C, and writes $(ARCHIVE)"
	@echo "make install the library for C, the host, serifladder-replay, ladder, watch, unit file and man pages, to PREFIX=$(PREFIX)"
	@echo "make uninstall removes them"
	@echo "make proved  proves every crate and lists the public functions"
	@echo "make soak    a longer comparison: COUNT=2000 histories, a million calls, every planted fault; the host under load and with faults"
	@echo "make bench   the library's time, instructions and stack beside those of two implementations in C"
	@echo "make wrong   the wrong programs that the gate leaves out for its time: the prover must refuse each"
	@echo "make twins   harmless twins of the gate's wrong programs: the prover must accept each"
	@echo "make must-fail-list writes the list of all wrong programs, docs/MUST-FAIL.md, from what they say of themselves"
	@echo "make figures writes the counts, tables and lists of the documents that the tree gives"
	@echo "make format  lays the sources out"
	@echo "make clean   removes what was built"

# What the commands need besides the toolchain, from Debian's packages. What rt builds is for x86-64: on another processor C code that
# links it takes a cross compiler, and an emulator runs it.
FOREIGN := $(filter-out x86_64,$(shell uname -m))
COMMANDS := git gcc g++ pkg-config python3 $(if $(FOREIGN),x86_64-linux-gnu-gcc x86_64-linux-gnu-g++ qemu-x86_64)
PACKAGES := git gcc g++ libc6-dev pkg-config python3 $(if $(FOREIGN),gcc-x86-64-linux-gnu g++-x86-64-linux-gnu libc6-dev-amd64-cross \
  qemu-user)
tools:
	@missing=; for tool in $(COMMANDS); do command -v $$tool > /dev/null || missing="$$missing $$tool"; done; \
	if [ -n "$$missing" ]; then \
	  apt-get update -qq && apt-get install -y -qq $(PACKAGES) || { echo "missing:$$missing (Debian's packages: $(PACKAGES))" >&2; exit 1; }; \
	fi
	@command -v rt > /dev/null || { echo "the Rattle toolchain's command rt is not on the PATH" >&2; exit 1; }

# The archive under the name by which C links it, and the program that replays the host's journal, where rt leaves it.
ARCHIVE := target/staticlib/libserifladder.a
PROGRAM := crates/replay/out/replay
PROVED_FROM := crates.txt $(shell find crates -type f -not -path '*/must-fail/*' -not -path '*/out/*')

# The host with a simulated tool. Its state and its journal stay in target/demo, so that the numbers go on the next time.
DEMO := target/demo
run: host
	@mkdir -p $(DEMO)
	@echo "The host begins, with a simulated tool; Ctrl-C ends it. Its log follows: < is received from a session, > is sent to it."
	@echo "In another terminal:"
	@echo "  make watch                          a line server that shows each result"
	@echo "  tools/ladder $(DEMO)/journal    the journal drawn: what was sent to whom, and what was lost; --svg for a picture"
	@exec tests/x86-64 target/host/serifladder-host --settings host/demo.settings --state $(DEMO)/state --new-state 0 \
	  --journal $(DEMO)/journal --demo

watch:
	@exec tools/watch $(FETCH:%=--fetch %) $(REVISION:%=--revision %)

host: tools $(ARCHIVE) $(PROGRAM)
	@$(MAKE) --silent --no-print-directory -C host

# Both are proved anew when a source has changed.
$(ARCHIVE): $(PROVED_FROM) | tools
	@echo "Proving the library: this takes some minutes where nothing is proved yet."
	@$(MAKE) --silent --no-print-directory archive

$(PROGRAM): $(PROVED_FROM) | tools
	@echo "Proving the test program: this takes some minutes where nothing is proved yet."
	@$(MAKE) --silent --no-print-directory program

# rt lib leaves the archive under the name of its crate, until the next rt ci.
archive: tools
	@said=$$(cd crates/serifladder_c && rt lib 2>&1) || { echo "$$said" >&2; exit 1; }; echo "$$said" | tail -n 1
	@install -D -m 644 crates/serifladder_c/out/libserifladder_c.a $(ARCHIVE)

# rt builds a program where it runs it: here on an empty input.
program: tools
	@said=$$(cd crates/replay && rt run 2>&1 < /dev/null) || { echo "$$said" >&2; exit 1; }; echo "$$said" | grep '^logic=' | tail -n 1
	@touch $(PROGRAM)

install: host
	@$(MAKE) --silent --no-print-directory -C host install PREFIX=$(PREFIX)
	@test -z "$(FOREIGN)" || echo "archive and host are for x86-64: tests/x86-64 $(PREFIX)/bin/serifladder-host runs the host here"

uninstall:
	@$(MAKE) --silent --no-print-directory -C host uninstall PREFIX=$(PREFIX)

proved: tools
	@rt all check | grep --line-buffered -E '^(==|rt:) '
	@echo "each of these public functions is proved to answer what its ensures says:"
	@grep -oE '^ *pub (extern "C" )?fn [a-z0-9_]+' crates/*/src/*.rt | sed -E 's#crates/([a-z_]+)/.*fn (.*)#  \1::\2#'

# That nothing is assumed, that the must-fail edits fit and are listed, that the documents name what is there and count it right, that
# files have their form; then the gate itself, which sees to the layout too, and lets edits pass that it could not apply or read: here
# they fail. Then the archive, and the comparison over it and the program that the gate left, three parts at a time, since the host's
# tests mostly wait. The gate's own last line is said again at the end: it is the last line of a run in which nothing failed. What fails
# behind the gate says so in the last line.
test: tools
	@python3 tests/wrong/assumptions.py
	@python3 tests/wrong/check.py
	@python3 tests/docs/names.py
	@python3 tests/docs/figures.py --check
	@python3 tests/docs/form.py
	@said=$$(mktemp); trap 'rm -f "$$said"' EXIT; \
	rt ci | tee "$$said"; \
	{ grep -q '^rt: ok' "$$said" && ! grep -qE '^rt: ok.*, [0-9]+ bad' "$$said"; } || { echo "test: failed, rt ci has bad edits"; exit 1; }; \
	$(MAKE) --silent --no-print-directory archive || { echo "test: failed, make archive"; exit 1; }; \
	$(MAKE) --silent --no-print-directory -j 3 -C tests product || { echo "test: failed, make -C tests product"; exit 1; }; \
	tail -n 1 "$$said"

# The program and the archive for C, proved.
built: program archive

soak: built
	@$(MAKE) --silent --no-print-directory -C tests soak COUNT=$(COUNT) LEAST_CALLS=1000000 \
		LINKED_COUNT=$$(( $(COUNT) > 2000 ? $(COUNT) : 2000 ))

bench: built
	@$(MAKE) --silent --no-print-directory -C tests bench

# The further must-fail edits of tests/wrong, each in its crate, in a copy of the tree outside of it, since rt ci lets no source lie in
# another folder; before them, that all edits fit and are listed.
wrong: tools
	@python3 tests/wrong/check.py
	@copy=$$(mktemp -d); trap 'rm -rf "$$copy"' EXIT; \
	tar --exclude='crates/*/out' --exclude='crates/*/must-fail' -cf - crates crates.txt | tar -xf - -C "$$copy"; \
	for crate in crates/*/; do \
	  name=$$(basename $$crate); \
	  ! test -d tests/wrong/$$name || cp -r tests/wrong/$$name "$$copy"/crates/$$name/must-fail; \
	done; \
	cd "$$copy" && rt must-fail

# The harmless twins of the gate's must-fail edits, each in its crate, in a copy of the tree.
twins: tools
	@python3 tests/twins/run.py

# docs/MUST-FAIL.md behind its introduction, from the first lines of all must-fail edits.
must-fail-list: tools
	@python3 tests/wrong/check.py --write

# The counts, tables and lists of README, tests/README and docs that the tree gives.
figures:
	@python3 tests/docs/figures.py

format: tools
	@for crate in crates/*/; do (cd $$crate && rt fmt); done

clean:
	@rm -rf target crates/*/out
