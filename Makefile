# README.md says what to install, what each target shows, and how long it takes.

RT      = rt
PYTHON  = python3 -B
PREFIX  = /usr/local
# The words of 'make try' and 'make edits'.
ARGS    =

MAKEFLAGS += --no-print-directory

.PHONY: run try build lib test quick edits bench install install-program install-lib clean needs needs-cc needs-ar

# Says what is missing before minutes have passed.
needs:
	@for it in $(firstword $(RT)) $(firstword $(PYTHON)); do command -v "$$it" > /dev/null || { echo "$$it is not on PATH: README.md says what to install" >&2; exit 2; }; done

needs-cc:
	@command -v cc > /dev/null || command -v clang > /dev/null || { echo "there is no C compiler, neither cc nor clang, on PATH: README.md says what to install" >&2; exit 2; }

needs-ar: needs-cc
	@for it in ar objcopy; do command -v "$$it" > /dev/null || { echo "$$it is not on PATH: README.md says what to install" >&2; exit 2; }; done

# The main job on a shipped example, without proofs.
run: needs
	@$(PYTHON) scripts/try.py --rt "$(RT)" validate examples/readings.cddl examples/readings.cborseq

# Any command without proofs: make try ARGS="validate SPEC FILE".
try: needs
	@$(PYTHON) scripts/try.py --rt "$(RT)" $(ARGS)

# Proves the program and every crate below it, and leaves it at build/cddlseq.
build: needs
	@$(PYTHON) scripts/build.py --rt "$(RT)" cddlseq build/cddlseq

# Proves the calls for programs in C and every crate below them, and leaves libcddlseq.a and libcddlseq.so in build.
lib: needs needs-ar
	@$(PYTHON) scripts/library.py --rt "$(RT)" build

# Every proof and test, and the rows on the built programs.
test: needs needs-ar
	@$(PYTHON) tests/gate.py --rt "$(RT)"

# For work in progress: what changed is proved, over what earlier checks kept, and all tests and rows are run.
quick: needs needs-ar
	@$(PYTHON) tests/gate.py --quick --rt "$(RT)"

# Tries the wrong bodies of crates/*/wrong; ARGS may have --anew, --inner and names of crates.
edits: needs
	@$(PYTHON) tests/edits.py --rt "$(RT)" $(ARGS)

bench: build lib
	@$(PYTHON) bench/run.py build/cddlseq
	@$(PYTHON) bench/rewrites.py build/cddlseq
	@$(PYTHON) bench/decoders.py build/cddlseq
	@$(PYTHON) scripts/build.py --rt "$(RT)" cddl_outline build/cddl_outline
	@$(PYTHON) bench/tokens.py build/cddl_outline
	@$(PYTHON) bench/specifications.py build/cddlseq
	@$(PYTHON) bench/explanations.py build/cddlseq
	@$(PYTHON) bench/limits.py build/cddlseq
	@$(PYTHON) bench/package.py build/cddlseq build

# The program and the libraries; each also by itself.
install: needs needs-ar install-program install-lib

install-program: build
	install -D -m 755 build/cddlseq "$(DESTDIR)$(PREFIX)/bin/cddlseq"
	install -D -m 644 man/cddlseq.1 "$(DESTDIR)$(PREFIX)/share/man/man1/cddlseq.1"
	install -D -m 644 completions/cddlseq.bash "$(DESTDIR)$(PREFIX)/share/bash-completion/completions/cddlseq"
	install -D -m 644 completions/_cddlseq "$(DESTDIR)$(PREFIX)/share/zsh/site-functions/_cddlseq"

install-lib: lib
	install -D -m 644 build/libcddlseq.a "$(DESTDIR)$(PREFIX)/lib/libcddlseq.a"
	install -D -m 755 build/libcddlseq.so.1 "$(DESTDIR)$(PREFIX)/lib/libcddlseq.so.1"
	ln -sf libcddlseq.so.1 "$(DESTDIR)$(PREFIX)/lib/libcddlseq.so"
	install -D -m 644 include/cddlseq.h "$(DESTDIR)$(PREFIX)/include/cddlseq.h"
	sed 's|@PREFIX@|$(PREFIX)|' include/cddlseq.pc.in > build/cddlseq.pc
	install -D -m 644 build/cddlseq.pc "$(DESTDIR)$(PREFIX)/lib/pkgconfig/cddlseq.pc"

clean:
	rm -rf build bench/data crates/*/out
