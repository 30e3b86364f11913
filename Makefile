# make run    proves and builds the program startup, plays three start-ups through, and says whether PGN 126983 will be transmitted
# make test   the gate: proves everything, tries the must-fail edits, runs the programs, compares with canboat's Rust
# make bench  races the static library against canboat's Rust
.PHONY: run test bench

run:
	@bash samples/run.sh

test:
	@bash .ci/run

bench:
	@bash bench/run.sh
