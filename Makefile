# Plain `make` lists the targets: each by the words after `##` on its own line.
.PHONY: help demo cli test bench size soak memcheck

ARCHIVE = target/staticlib/libgridprofile.a
PROGRAM = target/cli/gridprofile
SOURCES = $(wildcard tools/gridprofile/*.c)
HEADERS = tools/gridprofile/program.h $(wildcard include/*.h)
SOAK = peer/target/release/soak
MEMCHECK = valgrind -q --error-exitcode=9 --partial-loads-ok=no

help: ## this list
	@echo "make TARGET, where TARGET is one of"
	@sed -n 's/^\([a-z]*\):.*## /    \1	/p' Makefile | expand -t 16

demo: cli ## the main job once with the command-line program, each step shown
	@tools/demo $(PROGRAM)

cli: ## proves the library and builds the command-line program, target/cli/gridprofile
	@tools/need rt gcc
	@tools/build-archive
	@$(MAKE) --silent $(PROGRAM)
	@echo "The program is $(PROGRAM)."

test: ## the gate: every proof, every wrong program that must be refused, every other test
	@tools/need rt gcc g++ ld size cargo python3
	@tools/gate

bench: ## speed beside plain programs, as ratios, and stack
	@tools/need rt gcc cargo
	@tools/build-archive
	gcc -std=c11 -D_GNU_SOURCE -O2 -Wall -Wextra -Werror -pedantic -I include -Wl,-z,now \
	    peer/c/stack.c $(ARCHIVE) -o target/stack
	cd peer && cargo run --release --offline --bin bench -- ../target/stack

size: ## bytes of text that firmware links, for some choices of entries
	@tools/need rt ld size python3
	@tools/build-archive
	@python3 -B tools/sizes.py

# SEED= repeats a run, COUNT= multiplies its inputs, ONLY= and AT= choose an entry and one of its inputs.
soak: ## every C entry beside the second program on millions of random inputs, then memcheck
	@tools/need rt cargo
	@tools/build-archive
	cd peer && cargo run --release --offline --bin soak
	@if command -v valgrind > /dev/null; then $(MAKE) --no-print-directory memcheck; \
	else echo "make soak: SKIPPED memcheck: valgrind is not installed"; fi

# Faults that are planted come first: memcheck must see each of them.
memcheck: ## some thousands of these inputs under valgrind
	@tools/need rt cargo valgrind
	@tools/build-archive
	cd peer && cargo build --release --offline --bin soak
	@for fault in overread overwrite unset; do \
	    $(MEMCHECK) $(SOAK) --plant $$fault > /dev/null 2>&1; \
	    [ $$? -eq 9 ] || { echo "make memcheck: it did not see the planted $$fault" >&2; exit 1; }; \
	    echo "memcheck sees a planted $$fault"; \
	done
	$(MEMCHECK) $(SOAK) --memcheck

# -z now: a function that is looked for at its first call costs a copy of the registers on the stack, where what is
# left in them of the seeds would stay.
$(PROGRAM): $(SOURCES) $(HEADERS) $(ARCHIVE)
	mkdir -p $(@D)
	gcc -std=c11 -O2 -Wall -Wextra -Werror -pedantic -I include -Wl,-z,now $(SOURCES) $(ARCHIVE) -o $@
