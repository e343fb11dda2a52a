# make        proves the crates and builds bin/lrat-check, bin/drat-forward and bin/model-check
# make test   the gate and all other tests; its last line is "N passed, M failed"
# make bench  measures; see bench/README.md
# make clean  removes what these made, but for what the proofs keep in crates/*/out
#
# make install       copies the programs in bin/, their manual pages, the documents, and completions for bash, zsh and fish to
#                    PREFIX, under DESTDIR where that is set; lrat-check by the name LRAT_NAME
# make uninstall     removes them there
# make dist          makes the release, a tarball in packaging/out that needs no kit
#
# make test-solvers  runs real SAT solvers, and the programs on what they wrote; also those in SOLVERS=FOLDER
# make test-cluster  has jobs of Slurm check many proofs
# make test-package  builds the Debian package, and runs the programs that are in it
# make test-dist     makes the release, and tries it in systems that have nothing else
# make test-mutants  tries the wrong bodies of tests/mutants, which the gate doesn't, and their controls
#
# The first two and the last need the Rattle kit's command rt on the PATH, or named by RT=..

RT ?= rt
PREFIX ?= /usr/local
BINDIR ?= $(PREFIX)/bin
MANDIR ?= $(PREFIX)/share/man
BASHDIR ?= $(PREFIX)/share/bash-completion/completions
ZSHDIR ?= $(PREFIX)/share/zsh/site-functions
FISHDIR ?= $(PREFIX)/share/fish/vendor_completions.d
DOCDIR ?= $(PREFIX)/share/doc/gazhumbe
INSTALL ?= install
# DRAT-trim has a program lrat-check too
LRAT_NAME ?= lrat-check

PROGRAMS := drat-forward lrat-check model-check

# none in a release
SOURCES := $(if $(wildcard crates.txt),crates.txt HANDLES $(shell find crates -name out -prune -o -type f -print))

.DELETE_ON_ERROR:
.PHONY: all test test-solvers test-cluster test-package test-dist test-mutants bench clean install uninstall dist

NO_RT = there is no $(RT) on the PATH, the command of the Rattle kit, which proves and builds the programs; \
	the release needs no kit, since it has them built (README, Installation)

# One run proves and builds all three, side by side where they don't stand on each other. Each is run on what lies in its crate,
# so that this fails unless that proof or model is verified.
ifneq ($(SOURCES),)
all: $(PROGRAMS:%=bin/%)

$(PROGRAMS:%=bin/%) &: $(SOURCES) tests/prove.py
	$(if $(shell command -v "$(RT)"),,$(error $(NO_RT)))
	RT="$(RT)" tests/prove.py drat_forward lrat_check model_check
	mkdir -p bin
	cp crates/drat_forward/out/drat_forward bin/drat-forward
	cp crates/lrat_check/out/lrat_check bin/lrat-check
	cp crates/model_check/out/model_check bin/model-check
else
# a release, which has the programs, and not what they are made of
all:
	@echo "make: nothing to make: the programs of this release are in bin/, and make install copies them to $(PREFIX)"
endif

test:
	@RT="$(RT)" tests/run.sh

test-solvers:
	tests/solvers.sh

test-cluster:
	tests/cluster.sh

test-package:
	packaging/test-deb.sh

test-dist:
	packaging/test-dist.sh

test-mutants:
	@RT="$(RT)" tests/mutants.sh
	@RT="$(RT)" python3 tests/controls.py

bench: bin/lrat-check bin/drat-forward bin/model-check
	bench/run.sh

dist: $(PROGRAMS:%=bin/%)
	packaging/build-dist.sh

# nothing is proved here: root, who often installs, need not have the kit
install uninstall: export DESTDIR := $(DESTDIR)
install uninstall: FOLDERS = BINDIR="$(BINDIR)" MANDIR="$(MANDIR)" BASHDIR="$(BASHDIR)" ZSHDIR="$(ZSHDIR)" \
	FISHDIR="$(FISHDIR)" DOCDIR="$(DOCDIR)" LRAT_NAME="$(LRAT_NAME)" INSTALL="$(INSTALL)"
install uninstall:
	@$(FOLDERS) packaging/install.sh $@

clean:
	rm -rf bin bench/out
