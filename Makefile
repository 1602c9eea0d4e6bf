# make            builds the program quic-wire by cargo and, with the Rattle kit, quic-show and the library for C in out/lib
# make check      checks all that needs no kit, on what is installed, and says what is missing: two to ten minutes
# make ci         the gate: proves everything, and checks the rest: an hour on four cores; needs the kit
# make proofs     only the proofs, mutants and proved tests of the gate
# make install    installs what make left below PREFIX, the libraries in PREFIX/LIBDIR, all below DESTDIR if it is set
# make dist       packs a release in out/dist, for a trial
# make docs       makes again what is made of other files: the format as data and as a page, the page of laws, tables, the
#                 erased crate
# make lint       checks the format and the habits of Rust, shell and Python
# make vectors    runs the test vectors through what is built
# make page       makes the web page in out/page
# make bench      counts instructions and takes times
# make stacks     builds and tests other stacks with the library in them
# make help       prints this
#
# Most call a script of scripts/, whose --help says more; CC, AR, CPU and CRATES are as there.
PREFIX ?= /usr/local
LIBDIR ?= lib
CPU ?=
CRATES ?=
CARGO = cargo $(CRATES:%=--config %/config.toml)
KIT := $(shell command -v rt)

.PHONY: all check ci proofs install dist docs lint vectors page bench stacks help
all:
	$(CARGO) build --release -p quic-wire-cli
ifneq ($(KIT),)
	scripts/library out/lib $(CPU:%=--cpu %)
	scripts/build
else
	@echo 'without the Rattle kit neither quic-show nor the library for C is built'
endif

check:
	scripts/layers

ci:
	.ci/run

proofs:
	rt ci

install:
	scripts/install $(PREFIX) --lib out/lib --libdir $(LIBDIR) $(DESTDIR:%=--destdir %)

dist:
	scripts/release --stale out/dist

docs:
	scripts/make/formats
	mkdir -p out && scripts/make/format-page >out/FORMAT.md && mv out/FORMAT.md docs/FORMAT.md
	scripts/make/laws >out/LAWS.md && mv out/LAWS.md docs/LAWS.md
	scripts/make/tables
	scripts/erase

lint:
	cargo fmt --all --check
	$(CARGO) clippy --workspace --all-targets -- -D warnings
	scripts/check/docs

vectors:
	scripts/vectors $(wildcard out/lib)

page:
	scripts/make/page out/page

bench:
	scripts/bench

stacks:
	scripts/stacks

help:
	@sed -n 's/^# \{0,1\}//p' Makefile
