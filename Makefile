# make               build/librights.a, with rights.h and rights.pc beside it
# make install       these three into /usr/local: make install PREFIX=/opt/rights DESTDIR=stage
# make uninstall     and out of it, with the same PREFIX and DESTDIR
# make demo          the example program
# make test          every test and every proof
# make check-c       the tests in C alone
# make check-pkg-config check-install
#                    the example against build/ and against an installed library, as pkg-config finds them
# make bench         how fast the library is beside the reference: make bench BEFORE=HEAD~9 also beside the archive
#                    of that revision, one of today's kit, which it builds first
# make instructions  how many instructions each row of the benchmark takes, whatever else the machine does; with BEFORE
#                    also by that archive
# make fuzz          a fuzzer for a while: make fuzz SECONDS=60
# make stack-use     how much stack a call takes
# make cases-data    the data file of the test program `cases`, made again
# make reading-lines how many lines of definitions and statements there are to believe
# make lines         for each crate: lines of code, of definitions, of proofs, and its must-fail edits

CC = gcc
CXX = g++
CLANG = clang-14
WARNINGS = -Wall -Wextra -pedantic -Werror
CFLAGS = -std=c11 $(WARNINGS) -O2 -Iinclude -Ireference -Itests
SANITIZE = -g -fsanitize=address,undefined -fno-sanitize-recover=undefined
SECONDS = 60
CALLS = 250000
LISTS = 1500

# another archive to test: make check-c LIB=other/librights.a
LIB = build/librights.a
# the calls of tests/trials.h, for tests alone
TRIALS = build/libtrials.a
CASES_DATA = crates/cases/data/calls

# where to install; absolute, since rights.pc names it
PREFIX = /usr/local
override PREFIX := $(abspath $(PREFIX))
LIBDIR = $(PREFIX)/lib
INCLUDEDIR = $(PREFIX)/include
PKGCONFIGDIR = $(LIBDIR)/pkgconfig

BOTH = tests/calls.c tests/live.c tests/build.c reference/reference.c reference/live.c reference/notation.c \
	reference/dates.c
BOTH_AND_LIB = $(BOTH) tests/library.c $(LIB) $(TRIALS)
RANDOM = tests/random_calls.c tests/coverage.c
COMPARE = tests/fences.c tests/run.c $(RANDOM) $(BOTH_AND_LIB)
BENCH = bench/bench.c bench/jobs.c bench/measure.c bench/live_rows.c bench/hand_live.c $(RANDOM) $(BOTH) \
	tests/library.c build/aligned-rights.a build/aligned-trials.a
HEADERS = $(wildcard include/*.h reference/*.h tests/*.h bench/*.h)

# out/ is what rt made
CRATES = crates.txt $(shell find crates -name out -prune -o \( -name '*.rt' -o -name '*.antt' \) -print)

library: build/librights.a build/rights.h build/rights.pc

# crates/NAME_c exports NAME: rt builds it once it and every crate below it are proved
build/librights.a build/libtrials.a: build/lib%.a: $(CRATES) | build
	cd crates/$*_c && rt lib
	cp crates/$*_c/out/lib$*_c.a $@

build/rights.h: include/rights.h | build
	cp $< $@

version_of = sed -n 's/^.define RIGHTS_VERSION //p'

# rights.pc with a prefix, the library's folder and the header's; its version is the header's
VERSION = $(shell $(version_of) include/rights.h)
rights_pc = sed -e 's|@VERSION@|$(VERSION)|' -e 's|@PREFIX@|$1|' -e 's|@LIBDIR@|$2|' -e 's|@INCLUDEDIR@|$3|' \
	include/rights.pc.in

build/rights.pc: include/rights.pc.in include/rights.h Makefile | build
	$(call rights_pc,$${pcfiledir},$${pcfiledir},$${pcfiledir}) >$@

build:
	mkdir -p $@

# Debian's packages, where they are missing
c-tools:
	@scripts/need $(CC) $(CXX) libc6-dev pkg-config

fuzz-tools:
	@scripts/need $(CLANG) lib$(CLANG:clang-%=clang-rt-%)-dev

# ---- Installing ----

install: library
	install -d $(DESTDIR)$(LIBDIR) $(DESTDIR)$(INCLUDEDIR) $(DESTDIR)$(PKGCONFIGDIR)
	install -m 644 build/librights.a $(DESTDIR)$(LIBDIR)
	install -m 644 build/rights.h $(DESTDIR)$(INCLUDEDIR)
	$(call rights_pc,$(PREFIX),$(LIBDIR),$(INCLUDEDIR)) | install -m 644 /dev/stdin $(DESTDIR)$(PKGCONFIGDIR)/rights.pc

uninstall:
	rm -f $(DESTDIR)$(LIBDIR)/librights.a $(DESTDIR)$(INCLUDEDIR)/rights.h $(DESTDIR)$(PKGCONFIGDIR)/rights.pc

# ---- Programs ----

PROGRAMS = build/header build/first build/workflow build/worked_cases build/compare build/compare_live \
	build/stack_use build/make_cases build/bench

build/header: tests/header.c tests/coverage.c $(BOTH) build/rights.pc
build/first: build/first.c $(LIB)
build/workflow: examples/workflow.c $(LIB)
build/worked_cases: tests/worked_cases.c $(BOTH_AND_LIB)
build/compare: tests/compare.c $(COMPARE)
build/compare_live: tests/compare_live.c tests/random_live.c $(COMPARE)
build/stack_use: tests/stack_use.c tests/random_live.c $(RANDOM) $(BOTH_AND_LIB)
build/make_cases: tests/make_cases.c tests/random_live.c $(RANDOM) $(BOTH)
build/bench: $(BENCH)

build/header: CFLAGS += -DPC_VERSION=$$(PKG_CONFIG_PATH=build pkg-config --modversion rights)
build/worked_cases build/compare build/compare_live: CFLAGS += $(SANITIZE)
build/stack_use: CFLAGS += -pthread

# functions on cache lines of their own, in the archives too: where one happens to stand can matter more than a change
BENCH_CFLAGS = -O3 -falign-functions=64
ALIGNED = --set-section-alignment '.text*=64'

build/bench: CFLAGS += $(BENCH_CFLAGS)

build/aligned-rights.a: $(LIB)
build/aligned-trials.a: $(TRIALS)

build/aligned-rights.a build/aligned-trials.a: | build c-tools
	objcopy $(ALIGNED) $< $@

BENCH_PROGRAM = build/bench

# the benchmark with the archive of an earlier revision, whose entry points get other names; by its version, 0 where
# its rights.h has none, the benchmark knows how they are called
ifdef BEFORE
REVISION := $(or $(shell git rev-parse --verify --short '$(BEFORE)^{commit}'),$(error no revision $(BEFORE)))
BEFORE_VERSION := $(or $(shell git show $(REVISION):include/rights.h | $(version_of)),0)
BENCH_PROGRAM = build/bench-$(REVISION)
PROGRAMS += $(BENCH_PROGRAM)
RIGHTS_C := $(or $(shell git ls-tree -d --name-only $(REVISION) crates/rights_c),$(error $(REVISION) has no \
	crate rights_c: its archive took the kit of its time))
ENTRY_POINTS = rights_acts_for rights_flows_to rights_extract rights_short_form rights_check_derivation

$(BENCH_PROGRAM): $(BENCH) bench/before.c build/before-$(REVISION).a
$(BENCH_PROGRAM): CFLAGS += $(BENCH_CFLAGS) -DBEFORE='"$(REVISION)"' -DBEFORE_VERSION=$(BEFORE_VERSION)

# Made outside of the repository: rt would look for crates among its files. Today's kit builds it, so the revision must
# have the crate rights_c; the archives of revisions before that took an earlier kit, and its command.
build/before-$(REVISION).a: | build
	tree=$$(mktemp -d) && git archive $(REVISION) | tar -x -C $$tree && (cd $$tree/$(RIGHTS_C) && rt lib) && \
		objcopy $(ALIGNED) $(foreach e,$(ENTRY_POINTS),--redefine-sym $e=before_$e) \
		$$tree/$(RIGHTS_C)/out/librights_c.a $@; \
		status=$$?; rm -rf $$tree; exit $$status
endif

# the README's first program
build/first.c: README.md | build
	sed -n '/^    #include "rights.h"/,/^    }/s/^    //p' $< >$@

$(PROGRAMS): $(HEADERS) | build c-tools
	$(CC) $(CFLAGS) $(filter %.c %.a,$^) -o $@

build/from_cpp: tests/from_cpp.cpp include/rights.h $(LIB) | build c-tools
	$(CXX) -std=c++11 $(WARNINGS) -Iinclude $(filter %.cpp %.a,$^) -o $@

# the example with the flags that pkg-config gives in an environment
with_pkg_config = $(CC) $(WARNINGS) examples/workflow.c $$($1 pkg-config --cflags --libs rights) -o $@

build/workflow_by_pkg_config: examples/workflow.c library | c-tools
	$(call with_pkg_config,PKG_CONFIG_PATH=build)

# installed in /opt/rights of a machine whose root is build/stage
STAGE = build/stage
STAGED = DESTDIR=$(STAGE) PREFIX=/opt/rights

build/workflow_installed: examples/workflow.c library | c-tools
	rm -rf $(STAGE)
	$(MAKE) install $(STAGED)
	$(call with_pkg_config,PKG_CONFIG_SYSROOT_DIR=$(STAGE) PKG_CONFIG_PATH=$(STAGE)/opt/rights/lib/pkgconfig)

build/fuzz: fuzz/fuzz.c tests/coverage.c $(BOTH_AND_LIB) $(HEADERS) | build fuzz-tools
	$(CLANG) $(CFLAGS) $(SANITIZE) -fsanitize=fuzzer $(filter %.c %.a,$^) -o $@

# ---- What to run ----

demo: build/workflow
	build/workflow

test:
	.ci/run

check-c: $(PROGRAMS) build/from_cpp check-cases-data
	! nm $(LIB) | grep trials_
	build/header
	grep -F "It prints \`$$(build/first)\`" README.md
	build/worked_cases
	build/from_cpp
	build/workflow | diff examples/workflow.stdout -
	build/stack_use
	build/compare $(CALLS)
	build/compare_live $(LISTS)

check-pkg-config: build/workflow_by_pkg_config
	build/workflow_by_pkg_config | diff examples/workflow.stdout -

check-install: build/workflow_installed
	build/workflow_installed | diff examples/workflow.stdout -
	$(MAKE) uninstall $(STAGED)
	test -z "$$(find $(STAGE) -type f)"

stack-use: build/stack_use
	build/stack_use

bench: $(BENCH_PROGRAM)
	$(BENCH_PROGRAM)

instructions: $(BENCH_PROGRAM)
	@scripts/need valgrind
	@scripts/instructions $(BENCH_PROGRAM)

fuzz: build/fuzz
	mkdir -p build/corpus
	build/fuzz -max_total_time=$(SECONDS) -max_len=1024 -use_value_profile=1 -artifact_prefix=build/ build/corpus

cases-data: build/make_cases
	mkdir -p $(dir $(CASES_DATA))
	build/make_cases $(CASES_DATA)

check-cases-data: build/make_cases
	build/make_cases build/cases-data >build/cases-data.txt
	cmp build/cases-data $(CASES_DATA)

reading-lines:
	@for crate in model demands algebra requests sperner; do \
		echo "crates/$$crate/specs: $$(cat crates/$$crate/specs/*.antt | grep -cvE '^(use |pub mod |$$)')"; done

# Blank lines are not counted, nor comments in code, nor what rt made in out/.
lines:
	@printf '%-12s %6s %6s %6s %6s\n' crate code specs proofs edits; for crate in crates/*/; do \
		printf '%-12s %6d %6d %6d %6d\n' "$$(basename $$crate)" \
		"$$(cat /dev/null $$(find $$crate -name out -prune -o -path '*/src/*.rt' -print) | grep -cvE '^ *(//|$$)')" \
		"$$(cat /dev/null $$(find $$crate -name out -prune -o -path '*/specs/*.antt' -print) | grep -cv '^$$')" \
		"$$(cat /dev/null $$(find $$crate -name out -prune -o -path '*/proofs/*.antt' -print) | grep -cv '^$$')" \
		"$$(find $$crate -path '*/must-fail/*.edit' | wc -l)"; done

clean:
	rm -rf build

.PHONY: library install uninstall c-tools fuzz-tools demo test check-c check-pkg-config check-install stack-use bench \
	instructions fuzz cases-data check-cases-data reading-lines lines clean
