# The commands of the README. Each shows a line for every crate as it is proved; a crate that is proved and has not changed costs nothing.

.PHONY: bench levels library test

# Proves and builds the bench, and runs it on the 17 events of the example in docs/RULES.md: their lines go to standard output, all else to standard error.
bench:
	@scripts/build bench
	@target/bin/bench < vectors/01/document-01.events

# Proves the archive and writes target/staticlib/libarchive.a, which C programs and rust/level-archive link.
library:
	@scripts/build library

# Builds rust/target/release/levels, the command for people, over the library.
levels: library
	@cd rust && cargo build --offline --release

# The gate: see scripts/test. Its last line is rt ci's own, 'N passed, 0 failed'.
test:
	@scripts/test
