# make run      the command on an element file, and its results in a table: make run ELEMENTS=FILE
# make state    one state of an orbit: make state STATE='MU X Y Z VX VY VZ TAU'
# make check    all that must hold; the last line is rt's own 'N passed, 0 failed'
# make test     the C tests alone
# make wrong    the wrong programs of tests/wrong: all, or those of crates and of what uses them: make wrong files_compare bits
# make tables   writes anew what pages have from elsewhere: the refusals in words, the list of wrong programs
# make fuzz     the library against the second program, by families and guided, as long as told: make fuzz N=1000000 SEED=7
# make bench    instructions per call (and time on x86-64) beside plain C of the same rules: see bench/README.md
# make accuracy how far positions are from the exact ones, before T-04 and after: see docs/ACCURACY.md
# make command  build/kelubashi, the station's command, in C over the library
# make program  build/propagate, the program, for x86-64, proved
# make lib      build/libkelubashi.a, for x86-64, from proved crates only
# make install  what a station needs, under PREFIX: make install PREFIX=/usr/local DESTDIR=; make uninstall takes it away
# make clean    remove build/ and what rt keeps in crates/*/out/

X86 = sh tests/machine/x86.sh
STRICT = -std=c99 -Wall -Wextra -pedantic -Werror -O2 -ffp-contract=off

# One step at a time, in the order written: what is cheap to find wrong comes before what takes minutes.
.NOTPARALLEL:
.PHONY: run state check test wrong tables fuzz bench accuracy program command lib install install-files uninstall clean
.PHONY: kit layout columns map promises proved made verdict prefix machine header edition readme refusals selfcheck facts installed tried commanded sanitized

# What make run shows.
ELEMENTS = examples/orbits.elements

# What make state follows: a low Earth orbit, for ten minutes.
STATE = 398600.4418 1131.340 -2282.343 6672.423 -5.64305 4.30333 2.42879 600

# A status of 1 tells of refused requests, which the table has too.
run: command
	@$(X86) run build/kelubashi results '$(ELEMENTS)' -o build/results || [ $$? -eq 1 ]
	@$(X86) run build/kelubashi show '$(ELEMENTS)' build/results || [ $$? -eq 1 ]

state: command
	@$(X86) run build/kelubashi state $(STATE)

# ---- The C tests, by what the folders hold: a .c file in a room is a program, and what stands in folders beside it are parts.

parts = $(patsubst %.c,build/objects/%.o,$(wildcard $(addsuffix /*.c,$(1))))
SECOND = $(call parts,tests/second)
TRACED = $(SECOND:build/objects/%=build/traced/%)
SELFTEST = build/tests/second/selftest
HEADERS := $(shell find include host command tests -name '*.h')

# The library against the second program: states and partials, then files, then the summary, then another station's rows, then two
# stations' results; the same on inputs that find their own way, by those before them; and the root and the interval against the processor's.
COMPARISONS = $(patsubst %,build/tests/compared/%,states files summary rows compare)
GUIDED = build/tests/compared/guided
CASES = $(patsubst %.c,build/%,$(wildcard tests/cases/*.c))

# The longest first.
TESTS = $(COMPARISONS) $(SELFTEST) $(GUIDED) build/tests/compared/root build/tests/compared/interval $(CASES)

# ---- What must hold.

# rt ci judges the tree as it stands; what it proved of the same files on this machine it takes again. Its last line is held back until the tests have passed.
check: columns made header verdict promises map test
	@cat build/verdict

verdict: kit
	@sh tests/tree/verdict.sh

test: machine header lib program edition readme refusals selfcheck facts installed build/host/example tried commanded sanitized $(TESTS)
	@sh tests/machine/side_by_side.sh $(TESTS)

# Words behind wrong are crates.
ifeq ($(firstword $(MAKECMDGOALS)),wrong)
CRATES = $(wordlist 2,$(words $(MAKECMDGOALS)),$(MAKECMDGOALS))
.PHONY: $(CRATES)
$(CRATES): ; @:
endif

wrong: kit
	@sh tests/tree/wrong.sh $(CRATES)

tables: machine
	@sh tests/tree/tables.sh write

kit:
	@command -v rt >/dev/null || { echo 'rt is not found: put the Rattle kit on this machine and its rt on PATH'; exit 1; }

machine:
	@$(X86) ready

# ---- What is asked of the tree.

# rt ci refuses what is not laid out; this tells it in seconds.
layout: kit columns
	@sh tests/tree/layout.sh

columns:
	@sh tests/tree/columns.sh

# These two ask what rt has made of the crates. rt ci keeps what it proved for itself, and so they are proved for these and for what C links.
proved: kit
	@sh tests/machine/prove.sh proved

promises: proved
	@sh tests/tree/promises.sh
	@sh tests/tree/promises_tried.sh
	@sh tests/tree/exports.sh
	@sh tests/tree/exports_tried.sh

map: proved
	@sh tests/tree/map.sh

made: machine
	@sh tests/tree/tables.sh

readme: machine lib
	@sh tests/tree/readme.sh

refusals: machine
	@sh tests/tree/refusals.sh

installed: machine lib program command build/tests/command/second_results build/tests/command/second_rows
	@sh tests/tree/install.sh

# ---- The interface.

header:
	@sh tests/interface/header.sh

edition: machine lib
	@sh tests/interface/edition.sh

facts: machine lib program build/tests/interface/facts build/tests/interface/stack
	@sh tests/interface/facts.sh

selfcheck: machine lib command
	@sh tests/interface/selfcheck.sh

# ---- The command and the program.

tried: machine program command build/tests/command/second_results
	@sh tests/command/propagate.sh

# On the machine's own processor, with the second program for a library: sanitizers and valgrind.
sanitized: build/tests/command/second_results build/tests/command/second_rows
	@sh tests/command/sanitized.sh

commanded: machine command build/tests/command/faulty build/tests/command/second_results build/tests/command/second_rows
	@sh tests/command/suites.sh 'over the library' '$(X86) run build/kelubashi' '$(X86) run build/tests/command/faulty'

# ---- The library, the program and the command.

# What an archive or a program is proved from: its crate, the crates that it uses, and theirs.
sources = $(shell find crates.txt $(foreach crate,$(shell sh tests/tree/crates.sh below $(1)),$(addprefix crates/$(crate)/,src specs proofs)) 2>/dev/null)

# By the sources' times, and then by rt, which knows by content what it has proved already. The archive is kelubashi_c's, whose exports are kelubashi's
# functions; it has kelubashi's name.
lib: kit build/libkelubashi.a
build/libkelubashi.a: $(call sources,kelubashi_c)
	@sh tests/machine/prove.sh library archive kelubashi_c $@
	@echo 'library: build/libkelubashi.a is made of kelubashi_c, which is proved with it'

program: kit build/propagate
build/propagate: $(call sources,propagate)
	@sh tests/machine/prove.sh program program propagate $@

command: build/kelubashi

# The command: plain C99 and POSIX, with no warning of conversions either.
COMMAND = $(patsubst %.c,build/objects/%.o,$(wildcard command/*.c command/parts/*.c) host/kelubashi_selfcheck.c)
build/objects/command/%.o: STRICT += -Wconversion -D_XOPEN_SOURCE=700
build/host/% build/objects/host/%: STRICT += -Wconversion

build/kelubashi: $(COMMAND) build/libkelubashi.a | machine
	@$(X86) compile $(STRICT) -o $@ $(COMMAND) build/libkelubashi.a

# ---- The C tests. Of an archive the linker takes what a program uses.

build/tests/compared.a: $(call parts,tests/compared/*) build/objects/tests/second/selftest/formulas.o
build/tests/cases.a: $(call parts,tests/cases/shared)
build/tests/interface.a: $(call parts,tests/interface/shared)
build/tests/second.a: $(SECOND)
build/tests/traced.a: $(TRACED)

$(COMPARISONS) build/tests/compared/root build/tests/compared/interval: build/tests/compared.a build/tests/second.a
$(GUIDED): build/tests/compared.a build/tests/traced.a
$(CASES): build/tests/cases.a
build/tests/interface/facts build/tests/interface/stack: build/tests/interface.a
build/tests/interface/facts: STRICT += -pthread
build/host/example: build/objects/host/kelubashi_selfcheck.o

# The second program knows nothing of the library, and what asks it alone links without it.
$(SELFTEST): $(call parts,tests/second/selftest) build/tests/second.a | machine
	@mkdir -p $(@D)
	@$(X86) compile $(STRICT) -o $@ $^ -lm

build/tests/command/second_results build/tests/command/second_rows: build/%: build/objects/%.o build/tests/compared.a build/tests/second.a | machine
	@mkdir -p $(@D)
	@$(X86) compile $(STRICT) -o $@ $^ -lm

# The command with faults of the machine before the system's calls, and before three of the library's.
build/tests/command/faulty: $(COMMAND) build/objects/tests/command/faults.o build/libkelubashi.a tests/command/wrapped | machine
	@mkdir -p $(@D)
	@$(X86) compile $(STRICT) @tests/command/wrapped -o $@ $(COMMAND) build/objects/tests/command/faults.o build/libkelubashi.a

build/%: %.c $(HEADERS) build/libkelubashi.a | machine
	@mkdir -p $(@D)
	@$(X86) compile $(STRICT) -Iinclude -Itests -o $@ $< $(filter %.o,$^) $(filter build/tests/%.a,$^) build/libkelubashi.a -lm

build/tests/%.a:
	@mkdir -p $(@D)
	@rm -f $@
	@$(X86) archive $@ $^

# Once more, with a call in every block that tells the guided program where it is.
build/traced/%.o: %.c $(HEADERS) | machine
	@mkdir -p $(@D)
	@$(X86) compile $(STRICT) -Itests -fsanitize-coverage=trace-pc -c -o $@ $<

build/objects/%.o: %.c $(HEADERS) | machine
	@mkdir -p $(@D)
	@$(X86) compile $(STRICT) -Iinclude -Itests -c -o $@ $<

# What make fuzz runs, for how many inputs each, of which seed, and, in the comparisons, from which number on; or one INPUT that the
# guided program told. Where none is named, the command is fuzzed too.
FUZZ = $(if $(INPUT),,$(COMPARISONS)) $(GUIDED)
N = 1000000
SEED := $(shell date +%s)
FIRST = 0
INPUT =

fuzz: machine $(FUZZ)
	@echo 'fuzz: $(if $(INPUT),$(INPUT),$(N) inputs of seed $(SEED) each, from number $(FIRST) on), to: $(strip $(FUZZ))'
	@for test in $(filter-out $(GUIDED),$(FUZZ)); do $(X86) run "$$test" $(N) $(SEED) $(FIRST) || exit 1; done
	@for test in $(filter $(GUIDED),$(FUZZ)); do $(X86) run "$$test" $(or $(INPUT),$(N) $(SEED)) || exit 1; done
	@$(if $(INPUT)$(filter command,$(origin FUZZ)),,sh tests/command/sanitized.sh fuzz $(N) $(SEED) $(FIRST))

# ---- The benchmark: its table's rows, and what stands beside them.

BENCH = root propagate partials years results interval check compare summary append withdraw
BESIDE = $(filter-out bench/row_% bench/accuracy.c bench/count.c,$(wildcard bench/*.c))

bench: machine $(BENCH:%=build/bench/%)
	@sh bench/run.sh $(BENCH)

accuracy: machine build/bench/accuracy
	@sh bench/accuracy.sh

build/bench/%: bench/row_%.c $(BESIDE) $(wildcard bench/*.h) include/kelubashi.h build/libkelubashi.a | machine
	@mkdir -p $(@D)
	@$(X86) compile $(STRICT) -Iinclude -o $@ $< $(BESIDE) build/libkelubashi.a -lm

build/bench/accuracy: bench/accuracy.c $(BESIDE) $(wildcard bench/*.h) include/kelubashi.h build/libkelubashi.a | machine
	@mkdir -p $(@D)
	@$(X86) compile $(STRICT) -Iinclude -o $@ $< $(BESIDE) build/libkelubashi.a -lm

# ---- Installing.

# Where the files go, and, for those who make packages, a folder that stands for the root. They go through
# the environment, so that no character of a name means anything to the shell.
PREFIX = /usr/local
DESTDIR =
install-files uninstall: export PREFIX := $(PREFIX)
install-files uninstall: export INTO = $(DESTDIR)$(PREFIX)

# What is installed, by folder, and the names that lead to the page of the calls.
PROGRAMS = propagate kelubashi
INTERFACE = kelubashi.h kelubashi_selfcheck.h
HOST = kelubashi_selfcheck.c kelubashi_selfcheck_cases.h
PAGES = $(notdir $(wildcard man/*))
CALLS = $(shell grep -o '^uint64_t kelubashi[0-9]*_[a-z_]*' include/kelubashi.h | cut -d ' ' -f 2)
LINKED = $(CALLS:%=%.3) $(patsubst %,kelubashi_%.3,propagate partials refusal_text refusal_advice)
FOLDERS = bin include lib/pkgconfig share/kelubashi share/man/man1 share/man/man3 share/man/man5

install: lib program command install-files

# Copies what is in build/ and writes nothing there, so that root can do it after another has built. A folder
# that is there is left alone: install -d would set its mode.
install-files: prefix
	for folder in $(FOLDERS); do [ -d "$$INTO/$$folder" ] || install -d "$$INTO/$$folder" || exit 1; done
	install -m 755 $(PROGRAMS:%=build/%) "$$INTO/bin"
	install -m 644 $(INTERFACE:%=include/%) "$$INTO/include"
	install -m 644 build/libkelubashi.a "$$INTO/lib"
	sed "s|@PREFIX@|$$PREFIX|" kelubashi.pc.in >"$$INTO/lib/pkgconfig/kelubashi.pc"
	chmod 644 "$$INTO/lib/pkgconfig/kelubashi.pc"
	install -m 644 $(HOST:%=host/%) "$$INTO/share/kelubashi"
	for page in $(PAGES); do install -m 644 man/$$page "$$INTO/share/man/man$${page##*.}" || exit 1; done
	for name in $(LINKED); do ln -sf kelubashi.3 "$$INTO/share/man/man3/$$name" || exit 1; done

# Takes away what install put down, and the one folder that is the project's own.
uninstall: prefix
	for name in $(PROGRAMS:%=bin/%) $(INTERFACE:%=include/%) lib/libkelubashi.a lib/pkgconfig/kelubashi.pc \
		$(HOST:%=share/kelubashi/%) $(LINKED:%=share/man/man3/%); do rm -f "$$INTO/$$name" || exit 1; done
	for page in $(PAGES); do rm -f "$$INTO/share/man/man$${page##*.}/$$page" || exit 1; done
	[ ! -d "$$INTO/share/kelubashi" ] || rmdir "$$INTO/share/kelubashi"

# pkg-config hands PREFIX to the shell, and so it has to be plain.
prefix: export PREFIX := $(PREFIX)
prefix:
	@case "$$PREFIX" in /*) ;; *) echo "install: PREFIX is '$$PREFIX': give it as a path from / on" >&2; exit 1 ;; esac
	@case "$$PREFIX" in *[!A-Za-z0-9/._+-]*) echo "install: PREFIX is '$$PREFIX': give one of letters, digits and / . _ + - alone" >&2; exit 1 ;; esac

clean:
	rm -rf build crates/*/out
