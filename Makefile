# The archive for C, the tools, the examples and the tests over C. `tools/test` passes all tests, proofs
# included.
CC = cc
CFLAGS = -std=c11 -O2 -Wall -Wextra -Wconversion -Wshadow -pedantic
ARCHIVE = build/libduhzarek.a
CRATES := crates.txt $(shell find crates -name out -prune -o -name '*.rt' -print -o -name '*.antt' -print)
TOOLS = tools/pbm.c tools/words.c tools/fail.c
RANDOM = tests/compare.c tests/lent.c tests/library.c tests/chance.c tests/reference.c
SCRIPT = tests/script.c tests/answers.c tests/lent.c tests/library.c tests/chance.c
COMPILE = $(CC) $(CFLAGS) -Iinclude -o $@ $(filter %.c,$^) -Lbuild -lduhzarek

all: build/make_job build/show_job build/controller build/camera_rows

# Proves what it compiles; what is proved already is not proved again.
$(ARCHIVE): $(CRATES)
	cd crates/exports && rt lib
	mkdir -p build
	cp crates/exports/out/libexports.a $@

build/make_job build/show_job: build/%: tools/%.c $(TOOLS) $(wildcard tools/*.h) include/duhzarek.h $(ARCHIVE)
	$(COMPILE)

build/controller build/camera_rows: build/%: examples/%.c include/duhzarek.h $(ARCHIVE)
	$(COMPILE)

build/random_calls build/random_scans build/random_words build/random_jobs: build/%: tests/%.c $(RANDOM) $(wildcard tests/*.h) include/duhzarek.h $(ARCHIVE)
	$(COMPILE)

build/calls: tests/calls.c $(SCRIPT) $(wildcard tests/*.h) include/duhzarek.h $(ARCHIVE)
	$(COMPILE)

build/stack: tests/stack.c include/duhzarek.h $(ARCHIVE)
	$(COMPILE)

# A caller of the scan as it is compiles; one of the scan before it told blank rows has too few arguments for it.
check-scan-caller: tests/scan_caller.c include/duhzarek.h
	mkdir -p build
	$(CC) $(CFLAGS) -Iinclude -fsyntax-only $<
	! LC_ALL=C $(CC) $(CFLAGS) -Iinclude -fsyntax-only -DOLD_FORM $< 2> build/scan_caller.out
	grep -q 'too few arguments' build/scan_caller.out || { cat build/scan_caller.out; false; }

# Holds the archive against stored answers, against an independent program and against the stack that the
# header allows, and tries the tools and the examples.
check-c: all check-scan-caller build/calls build/random_calls build/random_scans build/random_words build/random_jobs build/stack
	build/calls < tests/calls.script > build/calls.out
	cmp tests/calls.expected build/calls.out || { diff -u tests/calls.expected build/calls.out | head -n 20; false; }
	build/random_calls
	build/random_scans
	build/random_words
	build/random_jobs
	build/stack
	tests/tools

clean:
	rm -rf build

.PHONY: all check-scan-caller check-c clean
