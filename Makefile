# make            prove the library and the verdict program, and write target/staticlib/libzuvaropy.a and
#                 target/bin/verdict
# make quick      prove what changed, run the tests, and say which must-fail edits are left to try
# make test       prove everything, then run the C tests, bounded fuzzing, the comparison with the Rust
#                 implementation, the tests of the verdict program and those of the installed library;
#                 the last line is 'N passed, M failed'
# make demo       look a vehicle up in a book and explain it in words; validate the samples, print their normal tables,
#                 ask which subsumes which, check the sample evidence, print common pictures, look up cards and
#                 explain them, look up cards that use a defined name, and run the verdict program
# make bench      print one table of the time of each call beside the same call hand-written in Rust, three of them in
#                 C too, and how it grows with the size
# make count      print how many instructions each call takes, whatever else the machine does, beside C, Rust and what
#                 is kept in bench/count.txt; fail if one takes more than 2 % more; KEEP=1 writes that file anew
# make fuzz       fuzz all calls with libFuzzer, each for a minute; or CALL=lcs SECONDS=600
# make valgrind   run the calls, the fuzz targets and the smaller C tests under valgrind
# make judge      compare the library with the reasoner FaCT++ on random pictures; BOOKS=1000 SEED=7 FIRST=0
# make shared     link the built library as build/shared/libzuvaropy.so
# make install    put the built library, its headers, manual pages and examples and the verdict program below PREFIX
# make uninstall  remove what make install put there
# make clean      remove what the others made
# make help       print this

CC = gcc
CFLAGS = -std=c99 -O2 -Wall -Wextra -Wpedantic -Werror
LIBRARY = target/staticlib/libzuvaropy.a
PROGRAM = target/bin/verdict
SHARED = build/shared

# Where make install puts things; DESTDIR comes in front of every path.
PREFIX = /usr/local
BINDIR = $(PREFIX)/bin
INCLUDEDIR = $(PREFIX)/include
LIBDIR = $(PREFIX)/lib
PKGCONFIGDIR = $(LIBDIR)/pkgconfig
MANDIR = $(PREFIX)/share/man
DOCDIR = $(PREFIX)/share/doc/zuvaropy
INSTALL = install

.PHONY: all library program quick test gate demo bench count fuzz valgrind judge shared install uninstall clean tools

all: library program

# Always run: rt knows what has to be proved again.
library: tools
	@sh tools/build.sh

program: tools library
	@sh tools/build.sh program

quick: tools
	@CC='$(CC)' sh tests/quick.sh

# Where a recipe fails, the last line is make's own. So that it counts the failures all the same, the
# gate leaves its status and its last line, and make's message is made of that line.
test: gate
	@$(if $(filter 0,$(shell cat build/gate.status)),,$(error $(shell cat build/gate.last)))

gate: tools
	@mkdir -p build
	@CC='$(CC)' sh tests/gate.sh; echo $$? >build/gate.status

EXAMPLES = readout bytes validate normalize subsumes verify lcs most_specific explain definitions
EXAMPLE_PARTS = examples/show.c
HEADING = printf '\n== %s\n'

demo: library program
	@mkdir -p build/examples
	@for example in $(EXAMPLES); do \
	    $(CC) $(CFLAGS) -Iinclude examples/$$example.c $(EXAMPLE_PARTS) $(LIBRARY) -o build/examples/$$example || \
	        exit; \
	done
	@$(HEADING) 'readout: a vehicle and three cards in words. Which cards subsume it, which are most specific, and why'
	@build/examples/readout
	@$(HEADING) 'bytes: a picture as bytes, and the same built row by row'
	@build/examples/bytes
	@$(HEADING) 'validate: which files are pictures, and what is wrong with the others'
	@sh samples/validate.sh build/examples/validate
	@$(HEADING) 'normalize: the normal tables. Names and roles are numbers; samples/make.sh has the words'
	@sh samples/normalize.sh build/examples/normalize
	@$(HEADING) 'subsumes: is every instance of the first an instance of the second? With evidence, which is checked'
	@sh samples/subsumes.sh build/examples/subsumes build/examples/verify
	@$(HEADING) 'verify: is this evidence, which somebody else wrote, taken?'
	@sh samples/verify.sh build/examples/verify
	@$(HEADING) 'lcs: what two or more pictures have in common'
	@sh samples/lcs.sh build/examples/lcs
	@$(HEADING) 'most_specific: the most specific cards of a book that subsume a case'
	@sh samples/most_specific.sh build/examples/most_specific
	@$(HEADING) 'explain: the same with the reasons'
	@sh samples/explain.sh build/examples/explain
	@$(HEADING) 'definitions: cards that use a defined name, and definitions books that are refused'
	@sh samples/definitions.sh build/examples/definitions build/examples/most_specific build/examples/explain
	@$(HEADING) 'verdict: a program that is proved too, on two files'
	@sh samples/verdict.sh $(PROGRAM)

# What the library is timed beside: the plain C, and the Rust of tests/rust.
PLAIN = $(patsubst %,build/bench/%.o,scan merge audit)

BENCH = build/bench/bench

bench: $(BENCH)
	@$(BENCH)

KEEP =

count: $(BENCH)
	@CC='$(CC)' sh bench/count.sh $(BENCH) $(KEEP)

.PHONY: $(BENCH) bench_tools
$(BENCH): bench_tools library $(PLAIN)
	@rustc --edition 2021 -O -C panic=abort -D warnings bench/bench.rs \
	    $(patsubst %,-C link-arg=%,$(PLAIN) $(LIBRARY)) -o $@

bench_tools:
	@$(call need,rustc,the Rust compiler)

build/bench/%.o: bench/%.c bench/%.h include/zuvaropy.h
	@mkdir -p $(@D)
	@$(CC) $(CFLAGS) -Iinclude -c $< -o $@

CALL =
SECONDS = 60

fuzz: library
	@CC='$(CC)' sh tests/fuzz/run.sh $(LIBRARY) $(SECONDS) $(CALL)

valgrind: library
	@CC='$(CC)' sh tests/valgrind/run.sh $(LIBRARY)

# Each book has 32 pictures; FIRST is the number of the first book, to run one again.
BOOKS = 1000
SEED = 7
FIRST = 0

judge: library
	@$(MAKE) -s shared
	@python3 tests/judge/judge.py $(SHARED)/$(LINK_NAME) --books $(BOOKS) --seed $(SEED) --first $(FIRST)

# What is built is taken as it is: shared and install prove nothing.
$(LIBRARY) $(PROGRAM):
	@echo '$@ is not there: run make first' >&2; false

# The header has the version. Any minor version may take other arguments than the one before, so the soname has both
# numbers.
version_number = $(shell sed -n 's/^.define ZUVAROPY_VERSION_$(1) *//p' include/zuvaropy.h)
MINOR_VERSION := $(call version_number,MAJOR).$(call version_number,MINOR)
VERSION := $(MINOR_VERSION).$(call version_number,PATCH)
LINK_NAME = libzuvaropy.so
SONAME = $(LINK_NAME).$(MINOR_VERSION)
SHARED_NAME = $(LINK_NAME).$(VERSION)

# link_shared FOLDER: the names by which programs and linkers find the shared library.
link_shared = ln -sf $(SHARED_NAME) '$(1)/$(SONAME)' && ln -sf $(SONAME) '$(1)/$(LINK_NAME)'

# copy_shared FOLDER: the same names in the checkout, as copies, since rt takes no link there.
copy_shared = for name in $(SONAME) $(LINK_NAME); do \
    rm -f '$(1)'/$$name && cp '$(1)/$(SHARED_NAME)' '$(1)'/$$name || exit; done

shared: $(SHARED)/$(SHARED_NAME)

# Without start files, since there is nothing to start: they would bring symbols of their own.
$(SHARED)/$(SHARED_NAME): $(LIBRARY) package/zuvaropy.map
	@mkdir -p $(@D)
	@$(CC) -shared -nostartfiles $(LDFLAGS) -Wl,-soname,$(SONAME) -Wl,--version-script=package/zuvaropy.map \
	    -Wl,-z,defs,-z,relro,-z,now -Wl,--whole-archive $(LIBRARY) -Wl,--no-whole-archive -o $@
	@$(call copy_shared,$(@D))

# The date of the version is that of its entry in the changelog, so that what is installed depends on the sources alone.
DATE := $(shell sed -n 's/^.. $(VERSION) (\(.*\))$$/\1/p' CHANGELOG.md)

# below_prefix PATH: as the pkg-config file says it, so that the prefix can be changed there.
below_prefix = $(patsubst $(PREFIX)/%,$${prefix}/%,$(1))
fill = sed -e 's|@PREFIX@|$(PREFIX)|' -e 's|@INCLUDEDIR@|$(call below_prefix,$(INCLUDEDIR))|' \
    -e 's|@LIBDIR@|$(call below_prefix,$(LIBDIR))|' -e 's|@VERSION@|$(VERSION)|' -e 's|@DATE@|$(DATE)|' \
    -e 's|@PKGCONFIGDIR@|$(PKGCONFIGDIR)|' -e 's|@MANDIR@|$(MANDIR)|' -e 's|@DOCDIR@|$(DOCDIR)|' \
    -e 's|@EXAMPLES@|$(EXAMPLES)|' -e 's|@EXAMPLE_PARTS@|$(notdir $(EXAMPLE_PARTS))|'

HEADERS = zuvaropy.h zuvaropy_parts.h
FUNCTIONS = $(shell sh package/functions.sh)
EXAMPLE_FILES = $(wildcard examples/*.[ch])
SAMPLE_FILES = $(wildcard samples/*)

# Every file that is installed, and the folders that have no other.
INSTALLED = $(BINDIR)/zuvaropy-verdict $(addprefix $(INCLUDEDIR)/,$(HEADERS)) \
    $(addprefix $(LIBDIR)/,libzuvaropy.a $(LINK_NAME) $(SONAME) $(SHARED_NAME)) $(PKGCONFIGDIR)/zuvaropy.pc \
    $(patsubst %,$(MANDIR)/man3/%.3,zuvaropy $(FUNCTIONS)) $(MANDIR)/man5/zuvaropy.5 \
    $(MANDIR)/man1/zuvaropy-verdict.1 \
    $(addprefix $(DOCDIR)/,README.md CHANGELOG.md $(EXAMPLE_FILES) examples/Makefile $(SAMPLE_FILES))
OWN_FOLDERS = $(DOCDIR)/examples $(DOCDIR)/samples $(DOCDIR)
installed = '$(DESTDIR)$(1)'
all_installed = $(foreach path,$(1),$(call installed,$(path)))

# fill_in SOURCE,PATH: the source with what stands between @ filled in.
fill_in = $(fill) $(1) >$(call installed,$(2)) && chmod 644 $(call installed,$(2))

install: $(LIBRARY) $(PROGRAM) shared
	$(INSTALL) -d $(call all_installed,$(sort $(dir $(INSTALLED))))
	$(INSTALL) -m 644 $(addprefix include/,$(HEADERS)) $(call installed,$(INCLUDEDIR))
	$(INSTALL) -m 644 $(LIBRARY) $(call installed,$(LIBDIR)/libzuvaropy.a)
	$(INSTALL) -m 755 $(SHARED)/$(SHARED_NAME) $(call installed,$(LIBDIR)/$(SHARED_NAME))
	$(call link_shared,$(DESTDIR)$(LIBDIR))
	$(call fill_in,package/zuvaropy.pc.in,$(PKGCONFIGDIR)/zuvaropy.pc)
	$(call fill_in,docs/zuvaropy.3,$(MANDIR)/man3/zuvaropy.3)
	for name in $(FUNCTIONS); do ln -sf zuvaropy.3 $(call installed,$(MANDIR)/man3)/$$name.3; done
	$(call fill_in,docs/zuvaropy.5,$(MANDIR)/man5/zuvaropy.5)
	$(call fill_in,docs/zuvaropy-verdict.1,$(MANDIR)/man1/zuvaropy-verdict.1)
	$(INSTALL) -m 755 $(PROGRAM) $(call installed,$(BINDIR)/zuvaropy-verdict)
	$(call fill_in,package/README.md,$(DOCDIR)/README.md)
	$(INSTALL) -m 644 CHANGELOG.md $(call installed,$(DOCDIR))
	$(INSTALL) -m 644 $(EXAMPLE_FILES) $(call installed,$(DOCDIR)/examples)
	$(call fill_in,package/examples.mk.in,$(DOCDIR)/examples/Makefile)
	$(INSTALL) -m 644 $(SAMPLE_FILES) $(call installed,$(DOCDIR)/samples)

# A folder stays in which somebody else has put a file.
uninstall:
	rm -f $(call all_installed,$(INSTALLED))
	for folder in $(call all_installed,$(OWN_FOLDERS)); do \
	    [ ! -d "$$folder" ] || rmdir --ignore-fail-on-non-empty "$$folder" || exit; \
	done

clean:
	rm -rf build target

.PHONY: help
help:
	@sed -n '/^#/!q; s/^# //p' Makefile

# A missing tool stops make with one line.
need = $(if $(shell command -v $(1) 2>/dev/null),,$(error $(1) is not on the PATH: it is $(2)))
tools:
	@$(call need,rt,the Rattle toolchain)$(call need,$(CC),the C compiler)
