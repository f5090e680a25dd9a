# The commands of this repository; `make` alone prints them, from the lines of this file that say what a target does.

.PHONY: help run lib test quick bench clean

help: # prints these lines
	@sed -n 's/^\([a-z]*\): # /\1 /p' Makefile | \
		while read -r target what; do printf 'make %-6s %s\n' "$$target" "$$what"; done

run: # builds the console, writes the house book, and shows two heads with different pasts and one list
	@scripts/need rt
	@echo 'Building the console and the house book. Nothing is built that is not proved, so all that they are made of'
	@echo 'is proved first: some minutes the first time, nothing later.'
	@scripts/prove console house_book
	@scripts/put console house_book
	@sample/run

lib: # leaves both libraries, their headers, pages and examples, test vectors and the Rust crate in target/lib
	@scripts/need rt gcc sha256sum strings
	@echo 'Building the libraries. Nothing is built that is not proved, so all that they are made of is proved first:'
	@echo 'some minutes the first time; later half a minute, since the kit checks a library once more when it writes it.'
	@scripts/prove tabulation_c pinorange
	@scripts/put tabulation_c pinorange
	@scripts/lib

# The exit status is 0 only when M is 0.
test: # the gate: proofs, must-fail edits, programs, libraries, all tests; ends with 'N passed, M failed'
	@scripts/need rt cargo gcc g++ valgrind
	@tests/run

quick: # make test over the proofs that are kept in crates/*/out, and without the must-fail edits
	@scripts/need rt cargo gcc g++ valgrind
	@tests/run --quick

# The tables of docs/BENCHMARKS.md and docs/costs.svg. No time is asserted, but all must give the same.
bench: # counts instructions and times against two Rust twins, in some minutes; not part of the tests
	@scripts/need rt cargo valgrind
	@tests/bench/run

clean: # removes all that was built and proved
	rm -rf target tests/*/target rust/target crates/*/out
