# Crepedum: import-library members, proved.
.PHONY: test lint prove lib shared example doors compare bench link-test

library := target/staticlib/libcrepedum.a
sources := crates.txt $(shell find crates -name out -prune -o '(' -name '*.rt' -o -name '*.antt' ')' -print)

# Everything: linters, proofs, must-fail edits, programs, every way in, and the comparison beside the Rust.
test:
	@tools/test

# How the Rust is laid out, and what linters find in it and in the shell scripts.
lint:
	@tools/lint

# The main job on an example: a total asked for, a member set and its members written, shown, and symbols looked up.
example:
	@tools/example

# The proofs alone.
prove:
	@rt all check

# target/staticlib/libcrepedum.a, for C and Rust; include/crepedum.h declares it.
lib: $(library)
	@:

$(library): $(sources)
	@echo "proving and building $@; the first time takes minutes"
	@tools/staticlib
	@touch $@

# target/shared/libcrepedum.so, for Python.
shared:
	@tools/shared

# README's snippets in C, Rust, Python and the shell, and the tests of the wrapper and the command.
doors:
	@tools/doors

# The comparison beside the Rust at length.
compare:
	@tools/beside-rust 1000000

# Real linkers, and the members of llvm-lib and llvm-dlltool; installs what is missing where it can.
link-test:
	@tools/link-test

# Times beside a plain Rust program, on this machine, in release builds.
bench: lib
	@cd beside && cargo run --release --offline --quiet -- bench
