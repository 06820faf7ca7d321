# SPDX-License-Identifier: MIT
# fcore: see README.md. `rt` is the command of the Rattle kit.
PREFIX ?= /usr/local
PROGRAM = crates/fcore/out/fcore
CONVERTER = $(or $(wildcard $(dir $(PROGRAM))fconvert),crates/fconvert/out/fconvert)

INSTALLED = $(abspath $(DESTDIR)$(PREFIX))
PAGES = $(wildcard man/*.1 man/*.5)
COMPLETION = $(wildcard scripts/completion/*.bash)

.PHONY: all kit build install uninstall dist demo test check papers edits bench

all: build

kit:
	@command -v rt > /dev/null || { echo "The Rattle kit (rt on the PATH), which builds fcore, is missing; without it there are make check, fcdisc over a built fcore (FCORE=PATH scripts/fcdisc; make install PROGRAM=PATH CONVERTER=PATH) and tools/run reference/format_reader IMAGE." >&2; exit 1; }

# The proved programs. Each is run once on a small image, so that it is seen to work.
build: kit
	cd crates/fcore && rt run -- data/hello.adf < stdin
	cd crates/fconvert && rm -f out/new.adf && rt run -- F+ data/unread-bytes.adf out/new.adf
	@echo "the programs lie in $(PROGRAM) and $(CONVERTER)"

# fcdisc finds its parts in lib/fcore, and the programs beside itself. Nothing is built here: whoever installs may be root, without the kit.
install:
	@for one in $(PROGRAM) $(CONVERTER); do test -x $$one || { echo "$$one isn't there: run make first" >&2; exit 1; }; done
	install -D $(PROGRAM) $(INSTALLED)/bin/fcore
	install -D $(CONVERTER) $(INSTALLED)/bin/fconvert
	install -D scripts/fcdisc $(INSTALLED)/bin/fcdisc
	install -m 644 -D VERSION $(INSTALLED)/lib/fcore/VERSION
	cd scripts && find fcdisc_lib -name '*.py' -exec install -D -m 644 {} $(INSTALLED)/lib/fcore/{} \;
	-python3 -m compileall -q -d $(PREFIX)/lib/fcore/fcdisc_lib $(INSTALLED)/lib/fcore/fcdisc_lib  # a third of the time to start
	$(foreach one,$(COMPLETION),install -D -m 644 $(one) $(INSTALLED)/share/bash-completion/completions/$(notdir $(basename $(one))) &&) true
	$(foreach page,$(PAGES),install -D -m 644 $(page) $(INSTALLED)/share/man/man$(subst .,,$(suffix $(page)))/$(notdir $(page)) &&) true

uninstall:
	rm -f $(INSTALLED)/bin/fcore $(INSTALLED)/bin/fconvert $(INSTALLED)/bin/fcdisc
	rm -rf $(INSTALLED)/lib/fcore
	rm -f $(foreach one,$(COMPLETION),$(INSTALLED)/share/bash-completion/completions/$(notdir $(basename $(one))))
	rm -f $(foreach page,$(PAGES),$(INSTALLED)/share/man/man$(subst .,,$(suffix $(page)))/$(notdir $(page)))

# An archive of what was built, which runs where there is Python and nothing else.
dist:
	@tools/run dist $(PROGRAM) $(CONVERTER)

# Two fresh discs, E+ and F, the embedded image, and its conversion: each file of demo/fcore is a script, and NAME.args has the arguments
# of a run. The programs are built unproved, with checks at run time: make test proves.
demo: kit
	@head -n 20 demo/*/*
	cd crates/fcore && rt try --data hello.adf=data/hello.adf --cases ../../demo/fcore
	cd crates/fconvert && rt try --data hello.adf=../fcore/data/hello.adf --cases ../../demo/fconvert

# The gate: every proof, must-fail edit, test and program; then the program that it built, over real files. One check more runs at once than
# there are processors, since rt takes the sums of libraries in one thread; each has 4 GB of memory. (Left alone, rt plans with 12 GB for
# fc_volume, whose checks take 3.)
LANES = $(shell awk -v most=$$(($$(nproc) + 1)) '/MemAvailable/ {n = int($$2 / 4000000); print n < 1 ? 1 : n < most ? n : most}' /proc/meminfo)

# The last line that `times` prints says what the gate took of processors, as docs/ARCHITECTURE.md has it.
test: kit
	RT_JOBS=$(LANES) rt ci && times
	tools/run checks/run --gate --program $(PROGRAM) --fconvert $(CONVERTER)

# All that needs no kit, below two minutes; suites over the program if there is one. Some of it by names, as by
# make check CASES='readers fcdisc/get*'; tools/run checks/run --list names them all.
CASES =

check:
	@set -f; tools/run checks/run --program $(PROGRAM) --fconvert $(CONVERTER) $(CASES)

# What is made from the sources: definitions, lists of faults and refusals, the completion for bash, the line of the licence, exceptions that may shrink
papers:
	tools/run checks/definitions --write
	tools/run checks/faults --write
	tools/run checks/jobs --write
	tools/run checks/licence --write
	tools/run checks/bounds --write
	tools/run checks/copies --write

# Wrong bodies whose checks are too dear for the gate, or those of some crates, as by make edits EDITS=fc_change
edits:
	tools/run checks/edits $(EDITS)

# The rates of the lower layers and the time of compact, or of those that are named, as by make bench BENCHES=checks
BENCHES = $(LAYERS) compact
LAYERS = $(shell sed 's/^benches: //' crates/fc_bench/stdout)

bench:
	$(if $(filter $(LAYERS),$(BENCHES)),cd crates/fc_bench && rt run -- $(filter $(LAYERS),$(BENCHES)))
	$(if $(filter compact,$(BENCHES)),tools/run bench/compact $(PROGRAM))
