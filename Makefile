# Only a proved crate is built, so whatever is built here is proved first; rt proves nothing twice that has not changed. From nothing that
# takes some minutes. Another toolchain is no change that make sees: `make clean` first.
.PHONY: run help program lib client test bench clean
.DELETE_ON_ERROR:
.NOTPARALLEL:

PROGRAM := build/paths_main
LIBRARY := build/libpaths.a

# What is proved and built, folders among it, since a file that is taken away changes its folder alone.
SOURCES := crates.txt $(shell find crates \( -name must-fail -o -name out \) -prune -o -path '*/src*' -print -o -path '*/specs*' -print -o -path '*/proofs*' -print)

NEED_RT = @command -v rt >/dev/null || { echo "rt, the Rattle toolchain's command, is not on PATH: everything here is proved and built with it, and\
 it comes with the Rattle kit, not with this repository (README.md, What you need)." >&2; exit 1; }

run: $(PROGRAM) ## the main job on the example fleet, with the program built first
	@cd example && ../$(PROGRAM)

help: ## this list
	@awk -F ':.*## ' '/^[a-z]+:.*## / { printf "make %-8s %s\n", $$1, $$2 }' Makefile

program: $(PROGRAM) ## the program, build/paths_main

lib: $(LIBRARY) ## the library for C, build/libpaths.a (header: include/paths.h)

client: $(LIBRARY) ## a program in C that runs the cases of the specification through the library
	$(CC) -std=c99 -pedantic -Wall -Wextra -Werror -O2 -Iinclude -o build/client tests/client.c $(LIBRARY)
	ulimit -s 256 && build/client # the stack that the header promises to be enough
	nm -u $(LIBRARY) >build/client.needs
	! grep ' U ' build/client.needs | grep -vE ' (memcpy|memset)$$' # all that C has to bring along; what is printed is too much
	if command -v valgrind >/dev/null; then valgrind -q --error-exitcode=1 build/client >build/client.out; fi

test: ## everything that must hold (.ci/run); from nothing some 25 minutes on four cores
	$(NEED_RT)
	.ci/run

bench: $(LIBRARY) ## the library against its peers: the tables of bench/README.md, and bench/results/
	python3 -m bench.run

clean: ## removes what was built and proved: build/ and the folders out/ of the crates
	rm -rf build crates/*/out

# Proving takes minutes, and what is changed meanwhile is not in what is built: that gets the time at which the proof began. rt builds a
# program where it runs it: here where none of its files lies. What rt says does not go where the program prints.
$(PROGRAM): $(SOURCES)
	$(NEED_RT)
	@mkdir -p build && touch build/began
	@cd crates/paths_main && rt run >/dev/null
	@cp crates/paths_main/out/paths_main $@
	@touch -c -r build/began $@

$(LIBRARY): $(SOURCES)
	$(NEED_RT)
	@mkdir -p build && touch build/began
	cd crates/paths_c && rt lib
	@cp crates/paths_c/out/libpaths_c.a $@
	@touch -c -r build/began $@
