# What is built, tested and installed: README.md and tests/README.md say what that needs; benchmarks/run says what it lacks.
.PHONY: all help test benchmarks fuzz pinned install uninstall

all:
	@./build

help:
	@echo 'make              proves the library and builds target/cedunmi'
	@echo 'make install      installs command, library, header and manual pages under PREFIX (/usr/local), in DESTDIR where that is set'
	@echo 'make uninstall    removes just what it installs'
	@echo 'make test         every proof, every edit that must be refused, every program, every test'
	@echo 'make benchmarks   measures, and renews docs/BENCHMARKS.md and its picture'
	@echo 'make fuzz         fuzzes each of the ten calls for SECONDS (600)'
	@echo 'make pinned       sees that definitions that are wrong together with their code are refused'

# Where things are installed; DESTDIR goes before each.
PREFIX = /usr/local
prefix = $(PREFIX)
exec_prefix = $(prefix)
bindir = $(exec_prefix)/bin
libdir = $(exec_prefix)/lib
includedir = $(prefix)/include
datarootdir = $(prefix)/share
mandir = $(datarootdir)/man
pkgconfigdir = $(libdir)/pkgconfig
completionsdir = $(datarootdir)/bash-completion/completions
export DESTDIR prefix bindir libdir includedir mandir pkgconfigdir completionsdir

install: all
	@install/files install

uninstall:
	@install/files uninstall

# How long `make fuzz` fuzzes each of the ten calls.
SECONDS = 600

test:
	@tests/gate

benchmarks: all
	@benchmarks/run --write

fuzz: all
	@tests/fuzz/run $(SECONDS)

pinned:
	@tests/pinned/run
