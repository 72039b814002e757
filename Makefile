# What is made goes to target/ (of what rt writes to the crates' out/), build/ (gcc, clang) and tests/target/ (cargo).
CC = gcc
CFLAGS = -O2
COMPILE = $(CC) -std=c11 -Wall -Wextra $(CFLAGS) -Iinclude
CARD = target/staticlib/libwsprcard.a
LINE_PROGRAM = target/bin/telemetry_lines

# The C programs of tests/c. What each is to print stands beside it, in tests/c/NAME.stdout.
INTERFACE = messages frames repair telemetry layout

# The files of the benchmark: the calls by hand in C, and what measures them beside the library's.
BENCH = bench calls inputs spread symbols message frame search telemetry

.PHONY: all run install test outside hostile fuzz fuzz-random fuzz-reference fuzz-reference-covered bench library program clean

# The host program, build/wsprcard, over the library; and the line program.
all: build/wsprcard program

# All is built; then what the desk would see of the frames of host/sample, read and repaired.
run: all
	./host/show_sample build/wsprcard

# What `make` has built: so that root needs no toolchain.
PREFIX ?= /usr/local
install:
	test -x build/wsprcard && test -x $(LINE_PROGRAM) || { echo 'run make first' >&2; exit 1; }
	install -D build/wsprcard $(DESTDIR)$(PREFIX)/bin/wsprcard
	install -D $(LINE_PROGRAM) $(DESTDIR)$(PREFIX)/bin/telemetry_lines
	install -D -m 644 host/wsprcard.1 $(DESTDIR)$(PREFIX)/share/man/man1/wsprcard.1
	install -D -m 644 include/wsprcard.h $(DESTDIR)$(PREFIX)/include/wsprcard.h
	install -D -m 644 $(CARD) $(DESTDIR)$(PREFIX)/lib/libwsprcard.a

# The gate first, as what it has proved isn't proved again for the outside tests; its last line, 'N passed, 0 failed', is
# said once more at the end. The gate has passed only with that line, with no must-fail edit that is bad, and with exit
# status 0, which goes through a file, as that of the pipe is tee's.
test:
	mkdir -p build
	rm -f build/gate.status
	{ rt ci 2>&1; echo $$? > build/gate.status; } | tee build/gate.log
	test "$$(cat build/gate.status)" = 0
	tail -n 1 build/gate.log | grep -q '^[0-9][0-9]* passed, 0 failed$$'
	! grep -q '^rt: ok.*, [0-9][0-9]* bad' build/gate.log
	$(MAKE) outside
	tail -n 1 build/gate.log

# The outside tests. The benchmark is built, so that it keeps up with the header, and not run.
outside: $(INTERFACE:%=build/%) build/bench build/time_program all hostile fuzz-random
	./host/show_sample build/wsprcard | diff host/sample.stdout -
	for name in $(INTERFACE); do \
	    ./build/$$name > build/$$name.stdout && diff tests/c/$$name.stdout build/$$name.stdout || exit 1; \
	done
	cd tests && cargo test --release --offline

# The library and the same work by hand in C, side by side in one run; then, where WSJT-X is installed, whole runs of its
# programs and of the host's.
bench: build/bench build/time_program build/wsprcard
	./build/bench
	./bench/wsjtx

# rt proves what has changed since the last time, and writes the library only where all is proved. It is copied only
# where it has changed, so that what is linked with it is linked anew just then.
library:
	cd crates/wsprcard && rt lib
	mkdir -p target/staticlib
	cmp -s crates/wsprcard/out/libwsprcard.a $(CARD) || cp crates/wsprcard/out/libwsprcard.a $(CARD)

# The line program, target/bin/telemetry_lines: rt makes it to run it. It waits for the library, as one rt is to run at a
# time.
program: library
	cd crates/telemetry_lines && rt run < /dev/null
	install -D crates/telemetry_lines/out/telemetry_lines $(LINE_PROGRAM)

# The semicolon is a recipe that does nothing: after it make looks at the file again, so that what is linked with a new
# library is linked anew.
$(CARD): library ;

build/wsprcard: $(wildcard host/*.c host/*.h) include/wsprcard.h $(CARD)
	mkdir -p build
	$(COMPILE) -o $@ host/*.c $(CARD)

build/%: tests/c/%.c include/wsprcard.h $(CARD)
	mkdir -p build
	$(COMPILE) -o $@ $< $(CARD)

build/bench: $(BENCH:%=bench/%.c) $(wildcard bench/*.h) include/wsprcard.h $(CARD)
	mkdir -p build
	$(COMPILE) -o $@ $(BENCH:%=bench/%.c) $(CARD)

build/time_program: bench/time_program.c bench/spread.c bench/spread.h
	mkdir -p build
	$(COMPILE) -o $@ bench/time_program.c bench/spread.c

# Robustness: hostile input on the exports and on the host program, and fuzzing.

SANITIZE = -g -fsanitize=address,undefined -fno-sanitize-recover=all
HOSTILE = tests/c/hostile.c tests/c/hostile_input.c tests/c/exports.c
HOSTILE_HEADERS = tests/c/hostile_input.h tests/c/exports.h tests/c/generator.h tests/c/legal.h include/wsprcard.h

# Under valgrind and with the sanitizers; it needs valgrind.
hostile: build/hostile build/hostile_sanitized build/noise build/wsprcard build/wsprcard_sanitized
	sh tests/hostile.sh

build/hostile: $(HOSTILE) $(HOSTILE_HEADERS) $(CARD)
	mkdir -p build
	$(COMPILE) -g -o $@ $(HOSTILE) $(CARD)

build/hostile_sanitized: $(HOSTILE) $(HOSTILE_HEADERS) $(CARD)
	mkdir -p build
	$(COMPILE) $(SANITIZE) -o $@ $(HOSTILE) $(CARD)

build/noise: tests/c/noise.c tests/c/generator.h
	mkdir -p build
	$(COMPILE) -o $@ tests/c/noise.c

build/wsprcard_sanitized: $(wildcard host/*.c host/*.h) include/wsprcard.h $(CARD)
	mkdir -p build
	$(COMPILE) $(SANITIZE) -o $@ $(wildcard host/*.c) $(CARD)

# The fuzzer compares the exports with the independent implementation in Rust. It needs clang with libFuzzer. What it
# finds is left in build/fuzz_found_*; `build/fuzz FILE` runs it again. FUZZ_CARD may name another library to be fuzzed.
FUZZ_SECONDS = 60
FUZZ_CARD = $(CARD)
FUZZ = tests/fuzz/card.c tests/fuzz/guarded.c tests/fuzz/input.c tests/c/exports.c
FUZZ_HEADERS = $(wildcard tests/fuzz/*.h) tests/c/exports.h tests/c/generator.h tests/c/legal.h include/wsprcard.h
FUZZ_INCLUDES = -Itests/fuzz -Itests/c
REFERENCE = tests/target/fuzz/release/libreference.a
REFERENCE_COVERED = tests/target/fuzz_covered/release/libreference.a
CARGO_REFERENCE = cargo build --release --offline --quiet --manifest-path tests/fuzz/Cargo.toml --target-dir

# The counters by which libFuzzer sees which branches of the implementation in Rust an input takes.
COVERAGE = -Cpasses=sancov-module -Cllvm-args=-sanitizer-coverage-level=4 \
    -Cllvm-args=-sanitizer-coverage-inline-8bit-counters -Cllvm-args=-sanitizer-coverage-pc-table

# It starts from random inputs, and keeps in build/corpus what led it further.
fuzz: build/fuzz build/noise
	mkdir -p build/corpus
	for seed in 1 2 3 4 5 6 7 8 9 10 11 12 13 14 15 16 17 18 19 20; do \
	    ./build/noise bytes 256 $$seed > build/corpus/noise_$$seed || exit 1; \
	done
	./build/fuzz -max_total_time=$(FUZZ_SECONDS) -max_len=256 -timeout=10 -seed=1 -print_final_stats=1 \
	    -artifact_prefix=build/fuzz_found_ build/corpus

# The same harness on a fixed number of random inputs, so that it keeps up with the header.
fuzz-random: build/fuzz_random
	./build/fuzz_random 1000000

build/fuzz: $(FUZZ) $(FUZZ_HEADERS) $(REFERENCE_COVERED) $(FUZZ_CARD)
	mkdir -p build
	clang -std=c11 -Wall -Wextra -O2 -g -fsanitize=fuzzer,undefined -fno-sanitize-recover=all -Iinclude \
	    $(FUZZ_INCLUDES) -o $@ $(FUZZ) $(FUZZ_CARD) $(REFERENCE_COVERED)

build/fuzz_random: tests/fuzz/driver.c $(FUZZ) $(FUZZ_HEADERS) $(REFERENCE) $(FUZZ_CARD)
	mkdir -p build
	$(COMPILE) $(FUZZ_INCLUDES) -o $@ tests/fuzz/driver.c $(FUZZ) $(FUZZ_CARD) $(REFERENCE)

$(REFERENCE): fuzz-reference ;

$(REFERENCE_COVERED): fuzz-reference-covered ;

fuzz-reference:
	$(CARGO_REFERENCE) tests/target/fuzz

fuzz-reference-covered:
	RUSTFLAGS="$(COVERAGE)" $(CARGO_REFERENCE) tests/target/fuzz_covered

clean:
	rm -rf target build tests/target crates/*/out
