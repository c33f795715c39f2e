# make run       makes the recording of a day, replays it through the meter and prints the licence sheet
# make example   runs an example script through pwscript
# make test      the merge gate, .ci/run
# make compare   pwscript, the frames and pwline against the published Rust: SEED, LINES, SEEDS and CALLS as one likes
# make bench     nanoseconds a call, and nanoseconds a frame beside the published Rust
# make install   the header, libpw.a and pw.pc below DESTDIR and PREFIX; make uninstall removes them
# make clean     removes all that was built
#
# The libraries are proved and written by rt, and kept in build/proved; all else goes to build/.

SEED = 1
LINES = 1000000
SEEDS = 40
CALLS = 25000

CC = gcc
CFLAGS = -std=c11 -Wall -Wextra -Werror -Wconversion -Iinclude -Ihost
# A struct is copied by a call of memcpy where gcc knows the flag: inline it takes `rep movs`, three times as long for a meter.
COPIES := $(shell $(CC) -mmemcpy-strategy=libcall:-1:noalign -E -x c /dev/null > /dev/null 2>&1 && echo -mmemcpy-strategy=libcall:-1:noalign)
PLAIN = -O2 $(COPIES)
SANITIZED = -g -O1 -fsanitize=address,undefined -fno-sanitize-recover=all

LIBRARIES = build/proved
PW = include/pw.h build/libpw.a
LEAVES = host/leaves.h $(LIBRARIES)/libleaves.a
BENCH = host/bench.c host/recording.c host/recording.h host/hex.h host/replay.c host/replay.h host/sheet.c host/sheet.h
RECORD = host/record_day.c host/recording.c host/recording.h host/hex.h
PWSCRIPT = host/pwscript.c host/functions.c host/calls.c host/script.h host/dump.c host/dump.h host/text.h host/words.c host/words.h host/hex.h
FRAMES = tests/frames.c tests/jobs.c tests/jobs.h tests/values.c tests/values.h tests/transcript.c tests/transcript.h \
	tests/cases.h tests/shown.h tests/fields.h tests/bits.h host/words.c host/words.h host/hex.h
VALUES = tests/test_values.c tests/checks.h tests/value_rule.h tests/meters.h tests/shown.h tests/fields.h tests/floats.h tests/bits.h
JOBS = tests/test_jobs.c tests/checks.h tests/job_rule.h tests/meters.h tests/fields.h tests/floats.h tests/bits.h
READOUTS = tests/test_readouts.c tests/checks.h tests/formats.h tests/shown.h tests/fields.h tests/floats.h tests/bits.h
INTERFACE = build/test_meter build/test_layout build/test_names build/example
COMPILE = @mkdir -p $(@D) && echo "$(CC) $@" && $(CC) $(CFLAGS)
INPUTS = $(filter %.c %.a,$^)

.PHONY: run example host test compare bench install uninstall clean
.NOTPARALLEL:
.DELETE_ON_ERROR:

run: build/bench build/day.rec
	build/bench build/day.rec

example: build/pwscript
	build/pwscript --echo < tests/example.script

# All that the gate's host tests run.
host: build/pwline build/bench build/record_day build/day.rec build/sanitized/bench build/sanitized/record_day \
	build/pwscript build/figure_lines build/value_lines build/spelled_lines build/coverage build/test_pw build/test_leaves build/test_figures \
	build/test_state build/test_jobs build/test_values build/test_readouts build/frames build/frame_lines \
	build/sanitized/pwscript build/sanitized/test_pw build/sanitized/test_leaves build/sanitized/test_figures \
	build/sanitized/test_state build/sanitized/test_jobs build/sanitized/test_values build/sanitized/test_readouts \
	build/sanitized/frames $(INTERFACE) $(INTERFACE:build/%=build/sanitized/%)

test:
	bash .ci/run

# LINES function lines of each of three kinds, and lines of calls as they may be spelled; CALLS calls of each of SEEDS seeds, with a hash after each; frames; LINES lines of pwline.
compare: build/pwscript build/figure_lines build/value_lines build/spelled_lines build/frames build/frame_lines build/coverage build/pwline
	tests/compare.sh $(SEED) $(LINES)
	tests/compare_calls.sh $(SEED) $(SEEDS) $(CALLS)
	tests/frames.sh $(SEED) $(LINES)
	tests/compare_pwline.sh build/pwline $(SEED) $(LINES)

bench: build/speed_alone build/speed/libspeed.a
	host/speed.sh

clean:
	rm -rf build crates/*/out

build/pwscript: $(PWSCRIPT) $(PW) $(LEAVES)
	$(COMPILE) $(PLAIN) -o $@ $(INPUTS)

build/sanitized/pwscript: $(PWSCRIPT) $(PW) $(LEAVES)
	$(COMPILE) $(SANITIZED) -o $@ $(INPUTS)

build/test_pw: tests/test_pw.c tests/bits.h tests/energy.h tests/formats.h tests/pages.h $(PW)
	$(COMPILE) $(PLAIN) -o $@ $(INPUTS) -lm

build/sanitized/test_pw: tests/test_pw.c tests/bits.h tests/energy.h tests/formats.h tests/pages.h $(PW)
	$(COMPILE) $(SANITIZED) -o $@ $(INPUTS) -lm

build/test_leaves: tests/test_leaves.c tests/bits.h tests/pages.h $(LEAVES)
	$(COMPILE) $(PLAIN) -o $@ $(INPUTS) -lm

build/sanitized/test_leaves: tests/test_leaves.c tests/bits.h tests/pages.h $(LEAVES)
	$(COMPILE) $(SANITIZED) -o $@ $(INPUTS) -lm

build/test_figures: tests/test_figures.c tests/bits.h tests/energy.h tests/floats.h $(PW) $(LEAVES)
	$(COMPILE) $(PLAIN) -o $@ $(INPUTS) -lm

build/sanitized/test_figures: tests/test_figures.c tests/bits.h tests/energy.h tests/floats.h $(PW) $(LEAVES)
	$(COMPILE) $(SANITIZED) -o $@ $(INPUTS) -lm

build/test_state: tests/test_state.c tests/checks.h tests/meters.h tests/fields.h tests/bits.h $(LEAVES)
	$(COMPILE) $(PLAIN) -o $@ $(INPUTS) -lm

build/sanitized/test_state: tests/test_state.c tests/checks.h tests/meters.h tests/fields.h tests/bits.h $(LEAVES)
	$(COMPILE) $(SANITIZED) -o $@ $(INPUTS) -lm

build/test_jobs: $(JOBS) $(LEAVES)
	$(COMPILE) $(PLAIN) -o $@ $(INPUTS) -lm

build/sanitized/test_jobs: $(JOBS) $(LEAVES)
	$(COMPILE) $(SANITIZED) -o $@ $(INPUTS) -lm

build/test_values: $(VALUES) $(PW) $(LEAVES)
	$(COMPILE) $(PLAIN) -o $@ $(INPUTS) -lm

build/sanitized/test_values: $(VALUES) $(PW) $(LEAVES)
	$(COMPILE) $(SANITIZED) -o $@ $(INPUTS) -lm

build/test_readouts: $(READOUTS) $(PW) $(LEAVES)
	$(COMPILE) $(PLAIN) -o $@ $(INPUTS) -lm

build/sanitized/test_readouts: $(READOUTS) $(PW) $(LEAVES)
	$(COMPILE) $(SANITIZED) -o $@ $(INPUTS) -lm

build/frames: $(FRAMES) $(PW) $(LEAVES)
	$(COMPILE) $(PLAIN) -o $@ $(INPUTS) -lm

build/sanitized/frames: $(FRAMES) $(PW) $(LEAVES)
	$(COMPILE) $(SANITIZED) -o $@ $(INPUTS) -lm

build/frame_lines: tests/frame_lines.c tests/bits.h
	$(COMPILE) $(PLAIN) -o $@ $(INPUTS) -lm

build/coverage: tests/coverage.c
	$(COMPILE) $(PLAIN) -o $@ $(INPUTS)

build/spelled_lines: tests/spelled_lines.c tests/bits.h tests/lines.h
	$(COMPILE) $(PLAIN) -o $@ $(INPUTS)

build/figure_lines: tests/figure_lines.c tests/bits.h tests/floats.h tests/lines.h
	$(COMPILE) $(PLAIN) -o $@ $(INPUTS) -lm

build/value_lines: tests/value_lines.c tests/bits.h tests/floats.h tests/lines.h
	$(COMPILE) $(PLAIN) -o $@ $(INPUTS) -lm

# ---- the C interface: libpw.a as a host links it, which is the proved library of crates/pw_c and the names in C

METER = tests/test_meter.c tests/call_rule.h tests/job_rule.h tests/value_rule.h tests/energy.h tests/checks.h tests/pages.h \
	tests/meters.h tests/shown.h tests/fields.h tests/floats.h tests/bits.h

build/libpw.a: $(LIBRARIES)/libpw_c.a build/pw_names.o
	@rm -f $@ && cp $(LIBRARIES)/libpw_c.a $@ && ar r $@ build/pw_names.o

build/pw_names.o: host/pw_names.c include/pw.h
	$(COMPILE) $(PLAIN) -c -o $@ $<

build/test_meter: $(METER) $(PW) $(LEAVES)
	$(COMPILE) $(PLAIN) -o $@ $(INPUTS) -lm

build/sanitized/test_meter: $(METER) $(PW) $(LEAVES)
	$(COMPILE) $(SANITIZED) -o $@ $(INPUTS) -lm

build/test_layout: tests/test_layout.c tests/checks.h tests/fields.h tests/bits.h $(PW) $(LEAVES)
	$(COMPILE) $(PLAIN) -o $@ $(INPUTS) -lm

build/sanitized/test_layout: tests/test_layout.c tests/checks.h tests/fields.h tests/bits.h $(PW) $(LEAVES)
	$(COMPILE) $(SANITIZED) -o $@ $(INPUTS) -lm

build/test_names: tests/test_names.c tests/checks.h $(PW)
	$(COMPILE) $(PLAIN) -o $@ $(INPUTS)

build/sanitized/test_names: tests/test_names.c tests/checks.h $(PW)
	$(COMPILE) $(SANITIZED) -o $@ $(INPUTS)

# The example of pw.h, out of its comment.
build/example.c: include/pw.h
	@mkdir -p $(@D)
	sed -n '/^ \* ---- example ----$$/,/^ \* ---- end of the example ----$$/{/ ---- /d;s/^ \*$$//;s/^ \* //;p}' $< > $@

build/example: build/example.c $(PW)
	$(COMPILE) $(PLAIN) -pedantic -o $@ $(INPUTS)

build/sanitized/example: build/example.c $(PW)
	$(COMPILE) $(SANITIZED) -pedantic -o $@ $(INPUTS)

PREFIX = /usr/local
VERSION = $(shell sed -n 's/^\#define PW_VERSION "\(.*\)"$$/\1/p' include/pw.h)

install: build/libpw.a
	mkdir -p "$(DESTDIR)$(PREFIX)/include" "$(DESTDIR)$(PREFIX)/lib/pkgconfig"
	cp include/pw.h "$(DESTDIR)$(PREFIX)/include/pw.h"
	cp build/libpw.a "$(DESTDIR)$(PREFIX)/lib/libpw.a"
	sed 's|@PREFIX@|$(PREFIX)|;s|@VERSION@|$(VERSION)|' pw.pc.in > "$(DESTDIR)$(PREFIX)/lib/pkgconfig/pw.pc"

uninstall:
	rm -f "$(DESTDIR)$(PREFIX)/include/pw.h" "$(DESTDIR)$(PREFIX)/lib/libpw.a" "$(DESTDIR)$(PREFIX)/lib/pkgconfig/pw.pc"

# ----

# The bench host and the recording that it is shown with.

build/bench: $(BENCH) $(PW)
	$(COMPILE) $(PLAIN) -o $@ $(INPUTS) -lm

build/sanitized/bench: $(BENCH) $(PW)
	$(COMPILE) $(SANITIZED) -o $@ $(INPUTS) -lm

build/record_day: $(RECORD) $(PW)
	$(COMPILE) $(PLAIN) -o $@ $(INPUTS) -lm

build/sanitized/record_day: $(RECORD) $(PW)
	$(COMPILE) $(SANITIZED) -o $@ $(INPUTS) -lm

build/day.rec: build/record_day
	build/record_day > $@

# What make bench measures with.

build/speed_alone: host/speed_alone.c host/speed.c host/speed.h $(PW)
	$(COMPILE) $(PLAIN) -o $@ $(INPUTS)

build/speed/speed.o: host/speed.c host/speed.h include/pw.h
	$(COMPILE) $(PLAIN) -c -o $@ $<

build/speed/libspeed.a: build/speed/speed.o $(LIBRARIES)/libpw_c.a
	@rm -f $@ && ar rcs $@ $<

# Written again where a file of a crate has changed, come or gone; what rt itself writes, crates/*/out, does not count.
# Says in one line what was written, and all where the library is not proved.
SOURCES := crates.txt $(shell find crates -mindepth 2 -name out -prune -o -print)

$(LIBRARIES)/lib%.a: $(SOURCES)
	@mkdir -p $(@D)
	@(cd crates/$* && rt lib) > build/$*.log 2>&1 || { cat build/$*.log; exit 1; }
	@cp crates/$*/out/lib$*.a $@
	@tail -n 1 build/$*.log

# Document 01's program, in the same way. rt builds a program only to run it, here on no input.
build/pwline: $(SOURCES)
	@mkdir -p $(@D)
	@(cd crates/pwline && rt run < /dev/null) > build/pwline.log 2>&1 || { cat build/pwline.log; exit 1; }
	@cp crates/pwline/out/pwline $@
