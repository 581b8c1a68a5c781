# report: the report of standard input, or of the board example where that is no file and no pipe
# test: prove and test everything; the last line says how many passed
# class: the lesson of docs/CLASS.md, as the library answers it
# lib: target/staticlib/libhawkmortar.a, for Rust or C to link
# records: rust/target/release/records, which turns lines into update records and back
# bench: the proved code beside plain Rust, as tables that are printed and put into docs/BENCHMARKS.md
# fuzz: random calls of the C interface beside rust/second, for half an hour; `scripts/fuzz SECONDS` for another time
# memcheck: the report program under valgrind
# sanitize: Rust tests and random calls over the library, with AddressSanitizer and valgrind
# fmt: lay out every file

.PHONY: report test class lib records bench fuzz memcheck sanitize fmt

report:
	@scripts/report

test:
	@scripts/test

class: lib
	cd rust && cargo run --offline --release --quiet --example class

lib:
	@scripts/build library

records: lib
	cd rust && cargo build --offline --release --quiet -p hawkmortar --bin records

bench: lib
	@scripts/build program
	cd rust && cargo build --offline --release --quiet -p bench && target/release/bench

fuzz: lib
	@scripts/fuzz

memcheck: lib
	@scripts/build program
	@scripts/memcheck

sanitize: lib
	@scripts/sanitize

fmt:
	@for crate in crates/*; do (cd "$$crate" && rt fmt) || exit 1; done
	cd rust && cargo fmt
