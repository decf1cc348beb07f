# make run       prove and build the two programs, and run them on the example P, Q, K of the format's document
# make library   prove and build the library for C and Rust: target/staticlib/libstutter.a
# make programs  prove and build the two programs: target/bin/judge and target/bin/listing
# make examples  make library, and compile the C examples with it: target/judge, target/make, target/follow and target/write
# make test      the whole gate: rt ci, which proves every crate, tries the must-fail edits and runs the programs; then the Rust tests on the library and
#                on the programs that rt ci built. Where all of this passes, the last line is that of rt ci, 'N passed, 0 failed', said again
# make bench     speed of the proved functions and of the listing program beside Rust versions, as ratios in one run; no part of the gate
# make fmt       lay out every file of every crate

CARGO_WORDS = --release --offline --quiet --manifest-path rust/Cargo.toml

# What rt ci said.
VERDICT = target/verdict

# What rt builds lies in the out/ of its crate. A copy that is the same already stays as it is, so that cargo builds nothing anew.
define BUILD_LIBRARY
cd crates/stutter && rt lib
install -C -D -m 644 -t target/staticlib crates/stutter/out/libstutter.a
endef
COPY_PROGRAMS = install -C -D -t target/bin crates/judge/out/judge crates/listing/out/listing

# A pipe fails where one of its commands does.
SHELL = /bin/bash
.SHELLFLAGS = -o pipefail -c

.PHONY: run library programs examples test bench fmt

run: programs
	@echo "P, Q, K are judged:"
	@sh examples/input examples/P.hex examples/Q.hex examples/K.hex | target/bin/judge
	@echo "and listed:"
	@sh examples/input examples/P.hex examples/Q.hex examples/K.hex | target/bin/listing

library:
	$(BUILD_LIBRARY)

# rt builds a program where it runs it.
programs:
	cd crates/judge && rt run < stdin | cmp - stdout
	cd crates/listing && rt run < stdin | cmp - stdout
	$(COPY_PROGRAMS)

examples: library
	for name in judge make follow write; do cc -I include examples/$$name.c target/staticlib/libstutter.a -o target/$$name || exit; done

test:
	@mkdir -p $(dir $(VERDICT))
	rt ci | tee $(VERDICT)
	@# rt ci lets an edit pass that cannot be applied; here it is a failure.
	@! grep -E '^rt: ok.*, [0-9]+ bad' $(VERDICT)
	$(COPY_PROGRAMS)
	$(BUILD_LIBRARY)
	cargo test $(CARGO_WORDS)
	@tail -n 1 $(VERDICT)

bench: library programs
	cargo run $(CARGO_WORDS) --package stutter --example bench

fmt:
	for crate in crates/*/; do (cd $$crate && rt fmt) || exit; done
