# Guzveldra. `make help` says what each target does.
PREFIX ?= /usr/local
DESTDIR ?=
JOBS ?= $(shell nproc)

export PATH := /opt/rattle/bin:$(PATH)

program := crates/sdv/out/sdv
.PHONY: help quick test build firmware check install uninstall

help:
	@echo "make quick       a first look in two minutes, without proofs; with SCRIPT=FILE at a script of yours"
	@echo "make test        the tests and the scripts of checks/ without proofs, in less than ten minutes; over $(program)"
	@echo "                 where no source is newer, and over a program without proofs else. It says what it leaves out"
	@echo "make build       proves what changed, with JOBS=$(JOBS) crates side by side, and builds $(program)"
	@echo "make firmware    puts the players of script tables and the sample driver in out/firmware; proves the player in Rattle"
	@echo "                 where there is no library of it that is newer than its sources, for PROCESSORS=x86_64 aarch64"
	@echo "make check       the gate: every proof, must-fail edits, tests and examples"
	@echo "make install     builds the program if its sources changed, and copies it, its man page and completions below"
	@echo "                 PREFIX=$(PREFIX)"
	@echo "make uninstall   removes what make install copied"

quick:
	sh examples/quick.sh $(if $(SCRIPT),"$(SCRIPT)")

test:
	checks/quick-test

build:
	rt all check --jobs $(JOBS)
	cd crates/sdv && rt run -- frame 0 0

firmware:
	sh firmware/build.sh

check:
	bash .ci/run

install: build
	install -D -m 755 $(program) $(DESTDIR)$(PREFIX)/bin/sdv
	install -D -m 644 docs/sdv.1 $(DESTDIR)$(PREFIX)/share/man/man1/sdv.1
	install -D -m 644 completions/sdv.bash $(DESTDIR)$(PREFIX)/share/bash-completion/completions/sdv
	install -D -m 644 completions/_sdv $(DESTDIR)$(PREFIX)/share/zsh/site-functions/_sdv
	install -D -m 644 completions/sdv.fish $(DESTDIR)$(PREFIX)/share/fish/vendor_completions.d/sdv.fish

uninstall:
	rm -f $(DESTDIR)$(PREFIX)/bin/sdv $(DESTDIR)$(PREFIX)/share/man/man1/sdv.1
	rm -f $(DESTDIR)$(PREFIX)/share/bash-completion/completions/sdv $(DESTDIR)$(PREFIX)/share/zsh/site-functions/_sdv
	rm -f $(DESTDIR)$(PREFIX)/share/fish/vendor_completions.d/sdv.fish
