.PHONY: help run lib example trials soak bench bench-check test clean
.DELETE_ON_ERROR:
.NOTPARALLEL:

LIB = target/staticlib/libmastpickle.a
GROUPS = target/bin/groups
SOURCES = crates.txt $(shell find $(wildcard crates/*/src crates/*/specs crates/*/proofs) -type d -o -name '*.rt' -o -name '*.antt')
CARGO = cargo run --quiet --release --offline --locked
TRIALS = $(CARGO) --manifest-path trials/Cargo.toml --target-dir target/trials --
BENCH = $(CARGO) --manifest-path bench/Cargo.toml --target-dir target/bench --

# How long the soak runs, and where its random numbers begin; further options of the trials, such as --only NAME.
SECONDS = 600
SEED = 1
ARGS =

# Runs the prover (second argument) on a crate (first), with its notes in a log (fourth), and takes what it built there (third); where it fails,
# shows the end of the log.
define proved
@mkdir -p $(dir $@)
@echo 'proving and building $@; the notes of the prover go to $(4)' >&2
@(cd crates/$(1) && $(2)) >$(4) 2>&1 </dev/null || { status=$$?; tail -n 20 $(4) >&2; echo '$(2) in crates/$(1) failed: see $(4)' >&2; exit $$status; }
@cp crates/$(1)/out/$(3) $@
endef

help: ## print the targets
	@awk -F ':.*## ' '/^[a-z]/ && NF == 2 { printf "make %-12s %s\n", $$1, $$2 }' Makefile

run: $(GROUPS) ## prove and build the program, and run it on a sample
	@$(GROUPS) <examples/a.bin

lib: $(LIB) ## prove and build the library for C, C++, Rust and Python
	@echo 'built: $(LIB), with the header include/mastpickle.h'

example: $(LIB) ## build and run examples/c/groups.c over the library
	@gcc -std=c99 -Wall -Wextra -Werror -Iinclude examples/c/groups.c $(LIB) -o target/groups_c
	@target/groups_c >target/groups_c.out
	@cat target/groups_c.out
	@diff examples/c/groups.out target/groups_c.out

trials: $(LIB) $(GROUPS) ## compare library and program with another implementation
	$(TRIALS) $(ARGS)

soak: $(LIB) $(GROUPS) ## go on with other random cases: make soak SECONDS=3600 SEED=7
	$(TRIALS) --seed $(SEED) --soak $(SECONDS)

bench: $(LIB) ## time the library and its peers, and write bench/RESULTS.md
	$(BENCH)

bench-check: $(LIB) ## compare what the library and its peers find, and time nothing
	$(BENCH) --check

test: ## the gate: prove all, try the edits that must fail, run everything
	./.ci/run

clean: ## remove all that was built, and what checks kept
	rm -rf target trials/target bench/target crates/*/out

$(LIB): $(SOURCES)
	$(call proved,mastpickle_c,rt lib,libmastpickle_c.a,target/mastpickle.log)

# rt run also runs it, on empty input.
$(GROUPS): $(SOURCES)
	$(call proved,groups,rt run,groups,target/groups.log)
