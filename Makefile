# `make help` names the targets.
.PHONY: help run try build test bench

EXAMPLE = examples/transmitter
FILES = $(CURDIR)/$(EXAMPLE)/spec $(CURDIR)/$(EXAMPLE)/driver.c $(CURDIR)/$(EXAMPLE)/choices
UNPROVED = nothing is proved by this run: make build proves the program

help:
	@echo "make run              finds a driver for the worked example, checks it and plays it, before any proof"
	@echo "make try ARGS='..'    runs the program with these words before any proof, in two to four minutes"
	@echo "make build            proves and builds the program, and prints where it lies"
	@echo "make test             the gate: proves all from nothing, tries the edits, runs the tests and programs"
	@echo "make bench            prints the machine, the commit, and what each script of bench/ measures"

# It runs the program of crates/test_commands, which obeys these lines in a new folder with two files of the example.
run:
	@echo "$(UNPROVED)" >&2
	@cd crates/test_commands && printf '%s\n' 'synth transmitter driver' 'show driver.c' \
	    'check transmitter driver.c driver.cert' 'run transmitter driver.c choices' | \
	    rt try --data transmitter=$(CURDIR)/$(EXAMPLE)/spec --data choices=$(CURDIR)/$(EXAMPLE)/demo_choices

# A word that is neither the command nor a number nor an option is a file: it is read and written where it lies.
try:
	@echo "$(UNPROVED)" >&2
	@words=; for word in $(ARGS); do \
	    case $$word in \
	        -*|/*) ;; \
	        *[!0-9]*) if [ -n "$$words" ]; then word="$(CURDIR)/$$word"; fi ;; \
	    esac; \
	    words="$$words $$word"; \
	done; \
	cd crates/termite && rt try -- $$words

build:
	@cd crates/termite && rt run -- run $(FILES) >/dev/null && echo crates/termite/out/termite

test:
	rt ci

bench:
	@bench/machine.sh
	@for script in $(filter-out bench/machine.sh, $(sort $(wildcard bench/*.sh))); do \
	    echo "== $$script" && bash "$$script" || exit 1; \
	done
