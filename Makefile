# make run    the main job
# make test   everything that decides whether a change is good; its last line is 'N passed, 0 failed'

CARGO = cargo --offline --quiet
BUILT = host/target/release
FOR_X86_64 =

# The library is for x86-64: on another processor programs are built for it and run under an emulator.
ifneq ($(shell uname -m),x86_64)
FOR_X86_64 = '$(CURDIR)/tools/x86_64'
CARGO := $(FOR_X86_64) $(CARGO)
BUILT = host/target/x86_64-unknown-linux-gnu/release
endif

# Longer comparisons: `make compare-long SEED=1 EVENTS=500000000 CHIP=77C25`, without CHIP of each chip; `make compare-texts SEED=1 TEXTS=50000000`,
# `make compare-presets SEED=1 PRESETS=50000000`.
SEED = 1
EVENTS = 200000000
CHIP =
TEXTS = 20000000
PRESETS = 20000000

# A whole sitting: `make sitting SECONDS_A_TRACK=3600`.
SECONDS_A_TRACK = 600

# Where `make install` puts things; with DESTDIR, below that folder.
PREFIX ?= /usr/local

.PHONY: run cases test kit generated format compare compare-long compare-texts compare-presets damaged-long lib desk install uninstall test-report sitting bench refusals clean

# A small example on the desk: three tones mixed to a track, checked against exact arithmetic. The program is left in dist/desk.
run: desk
	@dist/desk example dist/example

# The bench list: what the rules expect and what the compiled machine answers.
cases: kit
	@echo 'proving what is new in what the bench list runs, a line a crate (some seven minutes the first time)' >&2
	@tools/proving target/run.log sh -c 'cd crates/bench && rt check'
	@cd crates/bench && $(FOR_X86_64) rt run 2>../../target/bench.log || { cat ../../target/bench.log >&2; exit 1; }

test: kit generated
	@tools/gate

# Stops where the kit that proves is missing or another.
kit:
	@tools/kit

# What a script writes or checks against the proved sources: the record's setters, the C header.
generated:
	@tools/setters --check
	@tools/header --check

# The desk's library and its header, proved and compiled anew where what they are built from has changed.
lib:
	@tools/library

# The Rust sources: their layout, and what clippy says.
format: lib
	@tools/format

# The scripts that judge and build, the library from C, C++ and Rust, the report in a browser, texts of Intel HEX against other tools, the proved
# core, readers and writer against the independent ones, and the core's instructions a word against their budget.
compare: format desk
	@tests/gate
	@tests/refusals
	@tests/kit
	@tests/library
	@tests/instructions
	@$(FOR_X86_64) tests/c/run dist
	@$(FOR_X86_64) tests/readme dist
	@tests/first_commands
	@$(FOR_X86_64) tests/install
	@$(FOR_X86_64) tests/report target/report
	@$(FOR_X86_64) tests/intel_hex dist
	@cd host && $(CARGO) test --release
	@cd host && $(CARGO) run --release --package compare
	@tools/instructions

compare-long: lib
	@cd host && $(CARGO) run --release --package compare -- machines $(SEED) $(EVENTS) $(CHIP)

compare-texts: lib
	@cd host && $(CARGO) run --release --package compare -- texts $(SEED) $(TEXTS)

compare-presets: lib
	@cd host && $(CARGO) run --release --package compare -- presets $(SEED) $(PRESETS)

# The desk program.
desk: lib
	@cd host && $(CARGO) build --release --package desk
	@cmp -s $(BUILT)/desk dist/desk || install $(BUILT)/desk dist/desk

# Library, header, pkg-config file, desk and man page. Root installs what the owner of this folder built and builds nothing there itself.
ifneq ($(shell test "$$(id -u)" = 0 -a "$$(stat -c %u .)" != 0 && echo for another),for another)
install: desk
endif
install:
	@PREFIX='$(PREFIX)' DESTDIR='$(DESTDIR)' tools/install

uninstall:
	@PREFIX='$(PREFIX)' DESTDIR='$(DESTDIR)' tools/install --remove

# Some million damaged scripts and sound files; the gate tries some thousand.
damaged-long: lib
	@cd host && DAMAGED=3000000 $(CARGO) test --release --package desk --test damaged -- --nocapture

# The report page that `desk check-track --report` writes, as a person sees it: target/report/report.png.
test-report: desk
	@$(FOR_X86_64) tests/report target/report
	@echo 'as it looks: target/report/report.png'

# A sitting of many tracks, checked from beginning to end.
sitting: lib
	@cd host && SITTING_SECONDS=$(SECONDS_A_TRACK) $(CARGO) test --release --package desk --test sitting -- --nocapture

# Words a second, instructions a word and chips carried; callgrind counts the instructions. Texts beside srec_cat.
ifeq ($(FOR_X86_64),)
bench: lib
	@command -v valgrind >/dev/null || apt-get install --yes --quiet valgrind >/dev/null
	@command -v srec_cat >/dev/null || apt-get install --yes --quiet srecord >/dev/null
	@cd host && $(CARGO) run --release --package speed
else
bench:
	@echo 'make bench measures on an x86-64 machine only: a measurement under an emulator says nothing' >&2; exit 1
endif

# Tries the must-fail edits and prints why each is refused.
refusals: kit
	@mkdir -p target
	@rt must-fail >target/must-fail.log 2>&1 || { cat target/must-fail.log >&2; exit 1; }
	@tools/refusals target/must-fail.log

clean:
	rm -rf target dist host/target crates/*/out
