SOAK_DESIGN = designs/two_groups.table
SOAK_SECONDS = 60
SOAK_SEED = 1
SOAK_LEVEL =
SOAK_NEIGHBOUR =

library = target/staticlib/libcaisson.a
soak_sources = $(wildcard tests/soak/*.c) $(addprefix host/, \
	box.c design.c journal.c names.c names_file.c numbers.c refusals.c say.c sha256.c table.c)
soak_build = gcc -std=c11 -O2 -Wall -Wextra -Werror -Iinclude -Ihost -Itests/soak

.PHONY: test quick definitions bench stack run host tool soak library lister clean

# The gate, as CI runs it: `rt ci` with all proofs and must-fail edits, then the tests outside Rattle.
test:
	.ci/run

# The tests outside Rattle alone; only what has changed is proved again.
quick:
	tests/run

# Every wrong definition of tests/definitions, of which a proved case must refuse each; not part of the gate.
definitions:
	tests/definitions/run

# Times of the library beside the independent implementation, in one run.
bench: library
	cd tests/outside && CARGO_TARGET_DIR="$(CURDIR)/target/outside" cargo run --quiet --release --offline --bin bench

# The stack that each call takes, on a small design, on the one that takes the most, and on the largest gate
# table.
stack: library
	gcc -std=c11 -O2 -Wall -Wextra -Werror -Iinclude -Ihost tests/c/stack.c host/table.c \
		$(library) -pthread -o target/stack
	target/stack designs/lease.table designs/deepest.table

# Lists four cycles of document 01's lease design.
run: lister
	(printf '\004\000'; cat designs/lease.table) | target/bin/lister

# The host to start from, target/host/outstation; host/README.md says how it is used.
host: library
	$(MAKE) -C host

# The tool for designs, target/tools/release/caisson; tools/README.md says how it is used.
tool: library
	CARGO_TARGET_DIR="$(CURDIR)/target/tools" \
		cargo build --quiet --release --offline --manifest-path tools/Cargo.toml

# Two boxes side by side with unlike readings for one party, which also replay traces and go back by equal
# numbers, for SOAK_SECONDS: at each level in turn, or at SOAK_LEVEL, a label by name or number. The second box runs
# SOAK_NEIGHBOUR, if given.
soak: library
	$(MAKE) target/soak/soak
	target/soak/soak $(SOAK_DESIGN) --seconds $(SOAK_SECONDS) --seed $(SOAK_SEED) \
		$(if $(SOAK_LEVEL),--level $(SOAK_LEVEL)) $(if $(SOAK_NEIGHBOUR),--neighbour $(SOAK_NEIGHBOUR))

# The soak alone, with a library that is there already.
target/soak/soak: $(soak_sources) $(wildcard tests/soak/*.h host/*.h) include/caisson.h $(library)
	mkdir -p target/soak
	$(soak_build) $(soak_sources) $(library) -o $@

# The same with a run that leaks, with one that leaks the design, and with a step back and a replay that leak, for
# the test of the soak.
target/soak/leaky: tests/soak/testdata/leaky_run.c target/soak/soak
	$(soak_build) -Wl,--wrap=caisson_run $< $(soak_sources) $(library) -o $@
target/soak/leaky_neighbour: tests/soak/testdata/leaky_neighbour.c target/soak/soak
	$(soak_build) -Wl,--wrap=caisson_run $< $(soak_sources) $(library) -o $@
target/soak/leaky_back: tests/soak/testdata/leaky_back.c target/soak/soak
	$(soak_build) -Wl,--wrap=caisson_step_back $< $(soak_sources) $(library) -o $@
target/soak/leaky_replay: tests/soak/testdata/leaky_replay.c target/soak/soak
	$(soak_build) -Wl,--wrap=caisson_replay $< $(soak_sources) $(library) -o $@

# The library for a host; only what has changed is proved again, and an interrupted run goes on where it was.
library:
	scripts/library

# The cycle lister, target/bin/lister; likewise.
lister:
	scripts/prove lister

include install.mk
include deb.mk

# Removes everything built, and what `rt` kept of its proofs in this checkout.
clean:
	rm -rf target crates/*/out
