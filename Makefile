# Installs the program, its manual page, and what completes its words in bash. Wants the program built, as README.md says.
#
#     make install PREFIX=..   below PREFIX, which is /usr/local without a word
#     make install DESTDIR=..  below that folder, as for a package
#     make uninstall           takes the same files away
#
# The library for C has a Makefile of its own, in bindings/.

PROGRAM := crates/purvilgo/out/purvilgo
PREFIX ?= /usr/local
BIN := $(DESTDIR)$(PREFIX)/bin
MAN := $(DESTDIR)$(PREFIX)/share/man/man1
COMPLETIONS := $(DESTDIR)$(PREFIX)/share/bash-completion/completions

all: $(PROGRAM)

# The prover makes it, from the proofs on: that takes long enough to be asked for by its name.
$(PROGRAM):
	@printf '%s\n' 'purvilgo is not built: cd crates/purvilgo && rt run < stdin' >&2
	@false

install: $(PROGRAM)
	install -d $(BIN) $(MAN) $(COMPLETIONS)
	install -m 755 $(PROGRAM) $(BIN)/purvilgo
	install -m 644 docs/purvilgo.1 $(MAN)/purvilgo.1
	install -m 644 completions/purvilgo $(COMPLETIONS)/purvilgo

uninstall:
	rm -f $(BIN)/purvilgo $(MAN)/purvilgo.1 $(COMPLETIONS)/purvilgo

.PHONY: all install uninstall
