# What the project is built and tested by. `make test` is the gate.

SHELL = /bin/bash
.SHELLFLAGS = -o pipefail -c

.PHONY: test replay values salvage lib display trace capture compare dissect bench

test:
	bash .ci/run

# The replay of a trace, and the values that its reads brought, proved and built: document 01's run and traces/values.txt, or the trace that
# TRACE names, records or (in a file named .txt) readable lines.
replay: TRACE = traces/document01.trace
values: TRACE = traces/values.txt
replay values:
	@[ -r '$(TRACE)' ] && [ ! -d '$(TRACE)' ] || { echo "$@: there is no file $(TRACE), or it cannot be read" >&2; exit 1; }
	@tests/programs $@ 1>&2
	@case '$(TRACE)' in *.txt) $(MAKE) -s trace < '$(TRACE)' | target/run/$@ ;; *) target/run/$@ < '$(TRACE)' ;; esac

# The DCF on standard input, repaired, on standard output, and on standard error the line that tells what came of it (docs/SALVAGE.md), so what proving
# and building it says is shown only where that fails.
salvage:
	@[ -e crates/salvage/out/salvage ] || echo 'salvage is proved and built first, which takes a minute or two' >&2
	@mkdir -p target
	@tests/programs salvage > target/salvage.log 2>&1 < /dev/null || { cat target/salvage.log >&2; exit 1; }
	@target/run/salvage

# The static library for C and Rust on x86-64: target/staticlib/libostelumiv.a, with include/ostelumiv.h.
lib:
	@tests/library 1>&2

# Frames as hex on standard input, one a line, shown in words; with DO=replay or DO=values, the lines that these printed; with DO=dcf, a
# concise DCF, its bytes; with DO=--help, how (docs/TRACES.md).
display: DO =
display: lib
	@cd rust && ../tests/x86-64 cargo run --release --offline --quiet -p display -- $(DO)

# Readable lines on standard input to the replay's records on standard output; with DO=read, records to lines; with DO=--help, how
# (docs/TRACES.md).
trace: DO = write
trace:
	@cd rust && cargo build --release --offline --quiet -p trace
	@rust/target/release/trace $(DO)

# The replay's lines on standard input to a capture file for Wireshark on standard output: what was sent. DO=--published-flags moves the flags
# to the order that Wireshark reads.
capture: DO =
capture:
	@cd rust && cargo build --release --offline --quiet -p capture
	@rust/target/release/capture $(DO)

# The whole client against the repository's: RECORDS records drawn, and as many again in published mode, every line, state and value compared,
# and how often each rule was reached; the replay and values of traces/ held to their lines, and random bytes through both; replay_states in
# each of its modes; salvage, and as many drawn DCFs through it.
RECORDS = 1000000
compare:
	@tests/programs replay replay_states values salvage salvages 1>&2
	@cd rust && cargo build --release --offline --quiet -p trace -p replay_oracle -p salvage_oracle
	@tests/samples
	@tests/traces
	@tests/random
	@tests/values
	@tests/modes
	@DCFS=$(RECORDS) tests/salvage
	@rust/target/release/replay_oracle compare $(RECORDS)

# What Wireshark's dissector reads in the frames that the client sends, held to what was sent: those of the file that LINES names, which
# has lines of the replay; without it those of traces/ through replay, and writes in both modes through replay_states, both proved and built.
# An exported LINES is the terminal's height, not a file.
dissect: FILES = $(if $(filter command,$(firstword $(origin LINES))),$(LINES))
dissect:
	@$(if $(FILES),,tests/programs replay replay_states 1>&2)
	@cd rust && cargo build --release --offline --quiet -p trace -p capture
	@tests/dissect $(FILES)

# Instructions of our codec and of our replay, and of the repository's, by callgrind (tests/valgrind).
bench: lib
	@cd rust && VALGRIND=../tests/valgrind ../tests/x86-64 cargo run --release --offline --quiet -p bench
	@tests/programs replay 1>&2
	@cd rust && ../tests/x86-64 cargo build --release --offline --quiet -p trace -p replay_oracle
	@tests/bench
