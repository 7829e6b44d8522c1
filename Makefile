# The ways in; `make help` lists them. What tests and steps do is in scripts/.
PREFIX = /usr/local
LIBDIR = $(PREFIX)/lib
INSTALL = install
# The library, by a word of scripts/archive: rust, a target of rustc for another processor, or x86-64 and aarch64 of the kit.
LIBRARY = rust
# How long `make fuzz` runs a target.
SECONDS = 600

build:
	@scripts/archive $(LIBRARY)

help:
	@echo 'make                        the library for C, by cargo, in out/archive/rust: a quarter of a minute'
	@echo 'make program                the program mlsign, by cargo, in out/archive/mlsign: half a minute'
	@echo 'make install PREFIX=/DIR    install the library, and mlsign if `make program` built it, by default below $(PREFIX)'
	@echo 'make uninstall PREFIX=/DIR  take that out again'
	@echo 'make run                    build the program mldsa of the proved source, and run it: half a minute'
	@echo 'make test                   every test that needs no proof: 6 minutes'
	@echo 'make fuzz SECONDS=N         what strangers give C, Rust and Python, N seconds a target, by default $(SECONDS)'
	@echo 'make check                  make test, and with the Rattle kit each proof and mutation, and the tests of what it builds: an hour and a quarter'
	@echo 'make roots                  as root: the first lines of the pages in bare roots of Debian 12, 13 and sid: an hour'
	@echo 'make generated              make again what is made of other files, and name what changed: a minute'
	@echo 'make release                make the packages, with the kit, in dist/: an hour, then 5 minutes'

program:
	@scripts/archive mlsign

run:
	@scripts/programs run

test:
	@scripts/gate test

check:
	@scripts/gate check

# (the first one writes the corpus)
fuzz:
	c/fuzz/run --seconds $(SECONDS)
	FUZZ_SECONDS=$(SECONDS) FUZZ_CORPUS=$(CURDIR)/out/fuzz/corpus cargo test --release --package corkaife-fips204 \
		$$(scripts/registry.py) --test strangers -- --nocapture
	FUZZ_SECONDS=$(SECONDS) python/test --processor rust

roots:
	packaging/roots

generated:
	@scripts/generated

release:
	scripts/release

include scripts/steps.mk
include packaging/install.mk

.PHONY: build help program run test fuzz check roots generated release
