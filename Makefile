# make           every crate proved, the static library and the two programs compiled
# make demo      the compaction of a small log (examples/compaction.c)
# make test      the merge gate, .ci/run
# make refusals  each must-fail edit by itself, with an error asked for at every place that it names
# make bench     speed, side by side with plain Rust; ARGUMENTS names groups: arithmetic, steps, saved, replays
# make tools     case and record, in target/tools: text for the programs, a processor recorded, a recording explained
# make witness   a million instructions by this machine's processor and the library (RIDGECROOK_STEPS); with KEEP=folder the first that
#                differ are written to that folder, as recordings for `case replay`
# make recordings  the recordings of tests/data/recordings anew, on this machine's processor; with ARGUMENTS=--stand-in by the second
#                program in its place
# make exhaustive  every pair of halves by both, half an hour on a core; options in ARGUMENTS. Without AVX512-FP16: comparisons alone,
#                by singles, in two minutes, and a sample of the rest by the second program
LIBRARY := target/staticlib/libridgecrook.a
MADE := $(LIBRARY) target/bin/run target/bin/replay
SOURCES := crates.txt $(shell find crates -type f -not -path "*/must-fail/*" -not -path "*/out/*")
export CARGO_TARGET_DIR := $(CURDIR)/target/cargo

.NOTPARALLEL:
.PHONY: all demo test refusals bench tools witness recordings exhaustive clean
all: $(MADE)

# All in one call, which may leave a file as old as it is: touched, or make would come back each time.
$(MADE) &: $(SOURCES)
	@tools/prove
	@touch -c $(MADE)

demo: target/demo/compaction
	@$<

target/demo/compaction: examples/compaction.c include/ridgecrook.h $(LIBRARY)
	@mkdir -p $(@D)
	@gcc -std=c11 -O2 -Wall -Wextra -Werror -Iinclude $< $(LIBRARY) -o $@

test:
	@.ci/run

refusals: $(LIBRARY)
	@tools/refusals --jobs 2

bench: $(LIBRARY)
	@cd bench && cargo run --offline --release --quiet -- $(ARGUMENTS)

tools: $(LIBRARY)
	@mkdir -p target/tools
	@for tool in case record; do \
	  (cd tools/$$tool && cargo build --offline --release --quiet) && cp $(CARGO_TARGET_DIR)/release/$$tool target/tools/ || exit 1; \
	done

witness: $(LIBRARY)
	@cd tests && RIDGECROOK_STEPS=$${RIDGECROOK_STEPS:-1000000} cargo run --offline --release --quiet --bin witness -- \
	  $(if $(KEEP),--keep "$(abspath $(KEEP))")

recordings: $(LIBRARY)
	@cd tools/record && cargo run --offline --release --quiet --bin keep -- $(ARGUMENTS)

exhaustive: $(LIBRARY)
	@cd tests && cargo run --offline --release --quiet --bin exhaustive -- $(ARGUMENTS)

clean:
	rm -rf target crates/*/out
