.PHONY: test run staticlib command bench soak

# Every test and every proof, from nothing.
test:
	.ci/run

# The sample page as a picture: the program is proved and built, then run.
run:
	tools/build picture
	target/bin/picture < samples/relief.strip > target/relief.ppm
	@echo "The sample page is mapped: $(CURDIR)/target/relief.ppm"

# The library for C and Rust programs, proved and built: target/staticlib/libdofnihet.a.
staticlib:
	tools/build library

# The command line: host/target/release/dofnihet.
command: staticlib
	cargo build --release --manifest-path host/Cargo.toml -p command

# The library's times beside the double precision method's: docs/BENCHMARK.md.
bench: staticlib
	cargo run --release --manifest-path host/Cargo.toml -p bench

# The comparisons with the second tone step on new seeds, for ten minutes.
soak: staticlib
	tools/build picture
	cargo run --release --manifest-path host/Cargo.toml -p compare --bin soak -- 10
