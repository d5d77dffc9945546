# Tussockbell. `make help` says what can be made here.
SHELL := /bin/bash
.SHELLFLAGS := -o pipefail -c

SAMPLE := tests/fixtures/sample
DESCRIPTION ?= $(SAMPLE)/description
FOOTER ?= $(SAMPLE)/footer
TREE ?= $(SAMPLE)/tree
OFFSETS ?= $(SAMPLE)/offsets

VERSION := $(shell cat VERSION)
# The name that programs are linked with: it changes when a function that they may call changes.
SONAME := libtussockbell.so.$(basename $(basename $(VERSION)))
PREFIX ?= /usr/local
INSTALL ?= install

# A path as one word for the shell, whatever stands in it.
quoted = '$(subst ','\'',$(1))'

.PHONY: help report lib install uninstall wheel sdist test test-large test-old soak soak-widening fuzz bench clean FORCE

help:
	@printf '%s\n' \
	    'make report   run the report on a sample fragment, or on the files DESCRIPTION=.. FOOTER=.. TREE=.. OFFSETS=..' \
	    'make lib      build/libtussockbell.a and build/libtussockbell.so, for include/tussockbell.h' \
	    'make install  the libraries, the header and a pkg-config file below PREFIX=/usr/local; libraries in LIBDIR=..' \
	    'make uninstall  remove what make install puts there, for the same PREFIX and LIBDIR; folders stay' \
	    'make wheel    a wheel of the Python package, with the library in it, in build/dist; make sdist makes an sdist there' \
	    'make test     prove every crate, try the must-fail edits, run the programs and the other tests' \
	    'make test-large  compare trees and lists of 16,777,216 tiles with the rules; takes 1 GB of memory' \
	    'make test-old  build the version before float32 was retired, and compare its answers with those of converted trees' \
	    'make soak-widening  every finite float32 pattern through the converter, against the C compiler; some minutes' \
	    'make soak     compare 100,000,000 generated inputs with the rules; goes on where it was ended' \
	    'make fuzz     change inputs of a corpus for TIME=60 seconds, guided by the branches that they take, and compare' \
	    'make bench    measure the library beside plain Rust and two R-tree libraries; writes docs/BENCHMARKS.md' \
	    'make clean    remove all that was made here' \
	    'The Python package: pip install bindings/python, after make lib or without it.'

# The program is proved before it is linked, and run once with nothing; what is said then goes to build/report.log. The
# program has no status, so its text decides: 0 only for a report, which begins with the number of tiles.
report:
	@mkdir -p build
	@(cd crates/report && rt run < /dev/null) 2>&1 | tee build/report.log | tools/progress 15 report || { cat build/report.log >&2; exit 1; }
	@said=$$(crates/report/out/report $(foreach file,DESCRIPTION FOOTER TREE OFFSETS,$(call quoted,$($(file))))) || exit 1; \
	    [ -z "$$said" ] || printf '%s\n' "$$said" || exit 1; \
	    [[ $$said = tiles$$'\t'* ]]

# The crates that export C functions. Each is an object of its own, in which only the exported names are seen. Each
# function starts at a multiple of 32 bytes, so that its speed does not hang on what stands before it.
EXPORTS := c_footer c_cells c_lists c_plan c_values c_values_at c_counts c_open c_query c_box_test c_writer c_convert c_dense c_commits c_replay c_report
EXPORTS += c_version

# Made anew where a file that the proofs or the code rest on is newer; what the prover says goes to build/lib.log. One crate
# after the other: what one has proved of the crates below, the next need not prove.
lib: build/libtussockbell.so

SOURCES := find crates -name out -prune -o '(' -name '*.rt' -o -name '*.antt' ')' -print | sort

# The names of the sources, written where they changed, so that one which is gone is noticed too.
build/sources: FORCE
	@mkdir -p build
	@$(SOURCES) | cmp -s - $@ || $(SOURCES) > $@

build/libtussockbell.a: crates.txt Makefile build/sources $(shell $(SOURCES))
	@mkdir -p build/objects
	@rm -f build/objects/* $@
	@for crate in $(EXPORTS); do (cd crates/$$crate && rt lib) || exit 1; done 2>&1 | tee build/lib.log | \
	    tools/progress 30 $(EXPORTS) || { cat build/lib.log >&2; exit 1; }
	@for crate in $(EXPORTS); do (cd build/objects && ar x ../../crates/$$crate/out/lib$$crate.a) || exit 1; done
	@for object in build/objects/*.o; do objcopy --set-section-alignment '.text*=32' $$object || exit 1; done
	@ar rcs $@ build/objects/*.o

build/libtussockbell.so: build/libtussockbell.a VERSION
	@gcc -shared -o build/libtussockbell.so.$(VERSION) -Wl,-soname,$(SONAME) \
	    -Wl,--whole-archive $< -Wl,--no-whole-archive
	@ln -sf libtussockbell.so.$(VERSION) build/$(SONAME)
	@ln -sf libtussockbell.so.$(VERSION) $@

# Where things are installed, as absolute paths. DESTDIR is put before them, and the pkg-config file knows nothing of it.
PLACES = set -e; prefix=$$(realpath -ms -- $(call quoted,$(PREFIX))); \
    libdir=$$(realpath -ms -- $(call quoted,$(or $(LIBDIR),$(PREFIX)/lib))); \
    header=$(call quoted,$(DESTDIR))$$prefix/include; lib=$(call quoted,$(DESTDIR))$$libdir

install: lib
	@$(PLACES); $(INSTALL) -d "$$header" "$$lib/pkgconfig"; \
	$(INSTALL) -m 644 include/tussockbell.h "$$header"; \
	$(INSTALL) -m 644 build/libtussockbell.a "$$lib"; \
	$(INSTALL) -m 755 build/libtussockbell.so.$(VERSION) "$$lib"; \
	ln -sf libtussockbell.so.$(VERSION) "$$lib/$(SONAME)"; \
	ln -sf libtussockbell.so.$(VERSION) "$$lib/libtussockbell.so"; \
	about=$$(< include/tussockbell.pc.in); below=$${libdir#"$$prefix/"}; \
	[ "$$below" = "$$libdir" ] || libdir="\$${prefix}/$$below"; \
	about=$${about//@PREFIX@/"$$prefix"}; about=$${about//@LIBDIR@/"$$libdir"}; about=$${about//@VERSION@/$(VERSION)}; \
	printf '%s\n' "$$about" > "$$lib/pkgconfig/tussockbell.pc"

# Libraries of this soname, also of versions before this one.
uninstall:
	@$(PLACES); rm -f "$$header/tussockbell.h" "$$lib/pkgconfig/tussockbell.pc" "$$lib"/libtussockbell.{a,so} \
	    "$$lib/$(SONAME)" "$$lib/$(SONAME)".*

# The Python package as pip takes it; DIST is the folder.
DIST := build/dist
wheel sdist: lib
	@mkdir -p $(DIST)
	@python3 bindings/python/make_wheel.py $@ $(DIST)

test:
	@tests/run

test-large:
	@INPUTS=0 TILES=16777216 tests/differential/run

test-old:
	@tests/old/compare

soak-widening: lib
	@gcc -O2 -std=c11 -Wall -Wextra -Werror -pedantic -Iinclude -o build/soak-widening tests/soak/widening.c \
	    build/libtussockbell.a
	@time build/soak-widening

soak:
	@tests/differential/soak

fuzz:
	@tests/differential/fuzz

bench:
	@bench/run

clean:
	@rm -rf build crates/*/out tests/*/target bindings/rust/target bindings/python/build bench/target
	@find tests bench bindings -name __pycache__ -type d -exec rm -rf {} +
