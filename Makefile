# make run    builds the rehearsal program and plays a short rehearsal, line by line
# make box    builds one box as a program, ./box
# make test   everything: proofs, must-fail edits, programs, the second program; ends in 'N passed, 0 failed'
# make compare N=5000   the proved program beside the second one, on as many scripts as asked
# make bench  benchmarks beside plain Rust (not part of the tests)

.PHONY: run box test compare bench clean

N ?= 2000

run:
	@program=$$(scripts/program rehearse) && scripts/play $$program rehearsals/ring.txt

box:
	@program=$$(scripts/program signal_box) && cp $$program box

test:
	@scripts/test

compare:
	@scripts/program rehearse > /dev/null && tests/compare.sh $(N)

bench:
	@scripts/bench

clean:
	rm -rf target box crates/*/out
