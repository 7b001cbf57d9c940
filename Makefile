# make         proves the program and builds it at target/sokopar; what the prover says is kept in target/build.log
# make install builds it and copies it to PREFIX/bin, with its man page and completions to PREFIX/share
# make quick   builds target/quick/sokopar from the program's text alone, in two or three minutes, with nothing proved
# make install-quick   does so, and copies that program as `make install` does
# make demo    runs the proved program on the collections of levels/, or the unproved one where no proved one is built
# make test    checks what documents cite, proves everything, tries the must-fail edits and runs the tests (`rt ci`),
#              and then tests the built program as a process
# make check   tries in minutes what a change touches, for its author
# make bench   measures it

RT ?= rt
PREFIX ?= /usr/local
SHARE = $(DESTDIR)$(PREFIX)/share
SOURCES = $(shell find crates -name out -prune -o -name '*.rt' -print)

.PHONY: all install quick install-quick demo test check bench toolchain needs

all: toolchain
	@RT=$(RT) exec build/all

install: all
	@$(call copy,target/sokopar)

quick: target/quick/sokopar
	@echo "It is not proved. To use it in this shell:"
	@echo "    export PATH='$(CURDIR)/target/quick':\"\$$PATH\""
	@echo "    sokopar check '$(CURDIR)/levels/first-steps.xsb'"

install-quick: target/quick/sokopar
	@$(call copy,target/quick/sokopar)
	@echo "This program is not proved; \`make install\` proves it first."

# Copies a program, its man page and its completions
define copy
install -D -m 755 $(1) "$(DESTDIR)$(PREFIX)/bin/sokopar"
install -D -m 644 share/sokopar.1 "$(SHARE)/man/man1/sokopar.1"
install -D -m 644 share/sokopar.bash "$(SHARE)/bash-completion/completions/sokopar"
install -D -m 644 share/_sokopar "$(SHARE)/zsh/site-functions/_sokopar"
install -D -m 644 share/sokopar.fish "$(SHARE)/fish/vendor_completions.d/sokopar.fish"
echo "$(DESTDIR)$(PREFIX)/bin/sokopar; its man page and completions are in $(SHARE)"
endef

target/quick/sokopar: $(SOURCES) crates.txt build/quick | toolchain
	@echo "$@: two or three minutes of compiling, with nothing proved"
	@RT=$(RT) exec build/quick cli $@

demo:
	@[ -x target/sokopar ] || $(MAKE) --no-print-directory target/quick/sokopar
	@if [ -x target/sokopar ]; then levels/demo target/sokopar; else levels/demo target/quick/sokopar; fi

# the tests that run what `rt ci` built
TESTS = cli workers prove moves hostile fuzz

test: needs
	@tests/timed believed tests/believed
	@tests/timed cited tests/cited
	@tests/timed sources tests/sources
	@tests/timed ci $(RT) ci
	@for it in $(TESTS); do tests/timed $$it tests/$$it/run crates/cli/out/cli || exit 1; done
	@tests/timed refusals tests/refusals/run crates/lower_examples/out/lower_examples_tests

check: needs
	@RT=$(RT) tests/check $(BASE)

bench: all
	@bench/run target/sokopar

toolchain:
	@command -v $(RT) > /dev/null || { echo "The Rattle toolchain is not here: no command '$(RT)' on PATH."; exit 1; }

# What the tests need: all of it that is missing in one line
needs:
	@missing=; for it in $(RT) python3; do command -v $$it > /dev/null || missing="$$missing, $$it"; done; \
	command -v cc > /dev/null || command -v gcc > /dev/null || command -v clang > /dev/null || \
		missing="$$missing, a C compiler (cc, gcc or clang)"; \
	[ -z "$$missing" ] || { echo "Not on PATH, and the tests need it: $${missing#, }"; exit 1; }
