# `make demo` builds the console and plays `examples/rate.script`; `make test` is the gate; `make bench` times the console; `make vectors` writes the vectors of arithmetic anew, and
# `make player-lines` the cases that the player plays.
# `make cases` has the checker compute the cases in `tools/cases` from the definitions; it is no part of the gate.
.PHONY: demo test bench vectors player-lines cases

demo:
	@mkdir -p target
	@echo "Proving and building the console; the first time takes some minutes (log: target/demo.log)."
	@cd crates/console && rt run < ../../examples/rate.script 2> ../../target/demo.log || { tail -n 20 ../../target/demo.log; exit 1; }

test:
	@.ci/run

bench:
	@tools/bench

vectors:
	@python3 tools/vectors.py questions > crates/vectors/stdin
	@python3 tools/vectors.py answers > crates/vectors/stdout

player-lines:
	@python3 tools/player_lines.py questions > crates/player/stdin
	@python3 tools/player_lines.py answers > crates/player/stdout

cases:
	@python3 tools/compute_cases.py
