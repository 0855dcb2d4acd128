# make run [JOURNAL=path]       play a journal (default: examples/sample.journal); standard output is just the listing
# make run-tally [JOURNAL=path] count a journal's traffic (the same default); standard output is just its line
# make run-to1 [JOURNAL=path]   convert a journal to fabric=1 (default: examples/drop-writeback.journal); standard output is just the result
# make run-to2 [JOURNAL=path]   convert a journal to fabric=2 (default: examples/evict.journal); standard output is just the result
# make build                    prove and build the programs (target/bin) and the libraries (target/lib)
# make test                     prove every crate, try the must-fail edits, run the programs and the project's other tests
# make selftest                 the tests of the tests alone, after make build (part of make test)
# make bench                    speed of the engine, the line check, steps, to1 and to2 (not part of make test)
# make wrong-programs           try further wrong programs, which the prover must refuse (not part of make test)
# make memcheck                 the C test of the library under valgrind
# make install [PREFIX=path]    all programs, libraries, the header, the Python module, the kit, manual pages (default: /usr/local; DESTDIR is heeded)
# make uninstall [PREFIX=path]  remove these files
# make clean                    remove what was built, and what rt keeps of proofs
# make help                     this list

PREFIX = /usr/local
JOURNAL = examples/sample.journal
# Where none is named, a journal of the form that is converted.
ifneq ($(origin JOURNAL),command line)
run-to1: override JOURNAL = examples/drop-writeback.journal
run-to2: override JOURNAL = examples/evict.journal
endif

# Recipes have these paths from the environment, byte for byte: a blank, a quote or a $ in them is one like any other.
override PREFIX := $(value PREFIX)
override DESTDIR := $(value DESTDIR)
override JOURNAL := $(value JOURNAL)
export PREFIX DESTDIR JOURNAL

# What a parent make was told is not for the programs that run here.
unexport MAKEFLAGS MFLAGS

NEEDED = need-rt need-gcc need-python3 need-cargo need-valgrind
need-rt: what = the Rattle toolchain
need-gcc: what = a C compiler
need-python3: what = Python
need-cargo: what = the Rust toolchain
need-valgrind: what = valgrind

.PHONY: help run run-tally run-to1 run-to2 build test selftest bench wrong-programs memcheck install uninstall clean journal $(NEEDED)

help:
	@sed -n 's/^# \(make .*\)/\1/p' Makefile

run: journal need-rt
	@lib/prove steps
	@target/bin/steps <"$$JOURNAL"

run-tally: journal need-rt
	@lib/prove tally
	@target/bin/tally <"$$JOURNAL"

run-to1: journal need-rt
	@lib/prove to1
	@target/bin/to1 <"$$JOURNAL"

run-to2: journal need-rt
	@lib/prove to2
	@target/bin/to2 <"$$JOURNAL"

build: need-rt need-gcc
	@lib/prove steps tally to1 to2 host_c
	@lib/build

test: need-rt need-gcc need-python3 need-cargo
	@tests/run

selftest: need-gcc need-python3 need-cargo
	@tests/selftest
	@tests/edges/selftest
	@tests/host/selftest

bench: need-rt need-gcc need-cargo need-valgrind build
	@tests/bench

wrong-programs: need-rt
	@tests/wrong-programs/run

memcheck: need-rt need-gcc need-cargo need-valgrind build
	@tests/host/memcheck

install: build
	@lib/install install

uninstall:
	@lib/install uninstall

clean:
	@rm -rf target tests/reference/target python/__pycache__ crates/*/out

# The journal can be read: looked at before anything is proved.
journal:
	@[ -r "$$JOURNAL" ] && [ ! -d "$$JOURNAL" ] || { \
	    printf 'make: no journal that can be read: %s\n' "$$JOURNAL" >&2; \
	    exit 1; \
	}

$(NEEDED): need-%:
	@command -v $* >/dev/null || { \
	    echo 'make: this needs $(what), and its command $* is not on the PATH' >&2; \
	    exit 1; \
	}
