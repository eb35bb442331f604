# make: lists what there is to make.
# make run: formats FILE, or a small text where none is named, with the proved program where it is built and newer than
#   the sources, else with the engine built without proofs, which is kept in out/unproved.
# make test: the gate, `rt ci`. Its checks hand no memory back before they end, which spares the system's work for it, and each
#   has one job, since each further job loads what the check stands on once more: as many run side by side as there are
#   processors, as far as memory holds, or as RT_JOBS says.
# make program: proves and builds crates/yaml_cli/out/yaml_cli, and says how far it is.
# make install: puts the proved program that is built into PREFIX/bin, and its man page and completions below PREFIX/share, below
#   DESTDIR where that is set. It builds nothing, and says which command does.
# make library: proves and builds the library for C and what calls C: out/library/libyaml_c.a and libyaml_c.so, whose
#   header is bindings/c/yaml_c.h. It needs a C compiler and binutils, and a machine with x86-64.
# make install-library: puts the library that is built, its header and yaml_c.pc for pkg-config into PREFIX/lib and PREFIX/include, below DESTDIR where
#   that is set.
# make libyaml: builds out/libyaml/libyaml-0.so.2, libyaml's own interface over that library (docs/LIBYAML.md).
# make install-libyaml: puts the one that is built into PREFIX/lib/yaml_round, below DESTDIR where that is set.
# make dist: packs what `make program library libyaml` has built as out/dist: an archive for any Linux, three packages for Debian, a
#   wheel for Python, their sums, and what was proved (tools/dist.py). It proves nothing.
# make dist-test: tries each of these packages in an empty folder (tools/dist_test.sh).
# make libyaml-test: tests it, beside Debian's libyaml and its bindings where they are there (tools/libyaml_test.sh).
# make bench: the program beside C's libyaml (docs/BENCHMARK.md). It needs python3, a C compiler and libyaml's headers.
# make bench-counts: the same by counts of instructions; it needs valgrind.
# make bench-peers: the program beside other readers of YAML, as a table and as docs/speed.svg (bench/peers.py). It needs python3, a C
#   compiler and libyaml's headers; peers that aren't here are left out.
# make bench-python: the package for Python beside PyYAML. It needs python3 with PyYAML that has libyaml.
# make docs: writes docs/EDITS.md, docs/PROVED.md from the README.md of each crate, and the quoted definitions of
#   docs/MEANING.md again, and looks for names in the documents that are gone; where the program is built and newer than the
#   sources, also docs/man/yaml_cli.1 and completions/ from its help. It needs python3.
# make bindings-test: builds the library, runs the C example and Python's tests over it, under AddressSanitizer where that
#   is there, and tries both as they are installed. It needs a C compiler and python3 (3.10).
# make faults: runs the program with every allocation refused in turn, every read, write and open failing, short or
#   interrupted in turn, and judges each run; then replays vectors, call by call, with each request for memory refused in turn,
#   where `tools/program.py yaml_cli_vectors` has built what replays them, or with NEAR=1 by a build of it that isn't proved. It
#   needs glibc, a C compiler and python3.
# make fuzz SECONDS=60: feeds the program changed texts and judges its answers, beside libyaml's where its header is there.
#   It needs python3; for libyaml a C compiler too.
.PHONY: help run test program install library install-library libyaml install-libyaml libyaml-test dist dist-test bench bench-counts bench-peers bench-python docs bindings-test faults fuzz

PREFIX ?= /usr/local
program = crates/yaml_cli/out/yaml_cli
share = $(DESTDIR)$(PREFIX)/share

help:
	@awk 'function show() { if (said) { sub(/\. .*/, ".", said); at = index(said, ": "); printf "%-42s %s\n", substr(said, 1, at - 1), substr(said, at + 2) } said = "" } \
		/^# make [a-z]/ { show(); said = substr($$0, 3); next } /^#   / { said = said " " substr($$0, 5); next } { show() }' Makefile

run:
	@tools/run.sh "$$FILE"

test:
	@tools/kit.sh 'make test'
	MIMALLOC_PURGE_DELAY=-1 RT_JOBS=$${RT_JOBS:-$$(python3 tools/lanes.py)} rt ci

program:
	@tools/program.py

install:
	@tools/is_built.sh || { echo 'make install: the proved program is not built, or older than the sources: make program builds it' >&2; exit 2; }
	install -d '$(DESTDIR)$(PREFIX)/bin'
	install -m 755 $(program) '$(DESTDIR)$(PREFIX)/bin/yaml_cli'
	install -D -m 644 docs/man/yaml_cli.1 '$(share)/man/man1/yaml_cli.1'
	install -D -m 644 completions/yaml_cli.bash '$(share)/bash-completion/completions/yaml_cli'
	install -D -m 644 completions/_yaml_cli '$(share)/zsh/site-functions/_yaml_cli'
	install -D -m 644 completions/yaml_cli.fish '$(share)/fish/vendor_completions.d/yaml_cli.fish'

library:
	@tools/library.sh

install-library:
	@DESTDIR='$(DESTDIR)' tools/library.sh install '$(PREFIX)'

libyaml: library
	@tools/libyaml.sh

install-libyaml:
	@DESTDIR='$(DESTDIR)' tools/libyaml.sh install '$(PREFIX)'

libyaml-test: libyaml
	@tools/libyaml_test.sh

dist:
	@tools/dist.py

dist-test:
	@tools/dist_test.sh

bench: program
	@python3 bench/run.py $(program)

bench-counts: program
	@python3 bench/run.py $(program) --instructions

bench-peers: program
	@python3 bench/peers.py $(program)
	@python3 bench/chart.py

bench-python: library
	@python3 bench/python.py

docs:
	@tools/meaning.py
	@tools/edits.py
	@tools/proved.py
	@tools/paths.py
	@tools/help.py --if-built

bindings-test: library
	@tools/bindings_test.sh

faults:
	@tools/faults.py
	@tools/faults_calls.py $(if $(NEAR),--near)

fuzz:
	@tools/fuzz.py --seconds '$(or $(SECONDS),60)'
