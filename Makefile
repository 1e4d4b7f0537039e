# The prover and compiler `rt` has to be on the PATH.

PREFIX ?= $(HOME)/.local
PROGRAM = crates/islec/out/islec
CALLERS = crates/isle_callers/out/isle_callers
VECTORS = tests/vectors/first.json tests/vectors/mixed.json tests/vectors/equal.json

.PHONY: run build test lint figures commands refusals fuzz edits some install replay bench

# The trial build of the program: compiled with checks in the place of proofs.
run:
	@echo "trial build: nothing is proved (make build proves the program)"
	cd crates/islec && rt try --data first.isle=../../examples/first.isle -- run first.isle < ../../examples/first.queries

# Proves the program and builds it, from nothing about as long as the gate. `rt run` answers a query file too, here an empty one.
build:
	@echo "every proof of the program and of the crates below it: this takes a while"
	cd crates/islec && rt run -- run ../../examples/first.isle < /dev/null

# The gate: rules of this repository, that the wrong bodies of tests/edits were refused on just this text, every proof, some of the wrong bodies once
# more, and the proved program's commands and vectors.
test: lint
	tools/edits.py --known
	tools/gate.py
	$(MAKE) some
	$(MAKE) commands

# What needs no judgement, and the tests of what judges.
lint:
	python3 tools/lint.py
	python3 tools/inside.py
	python3 tools/tests.py

# Writes docs/GATE.md, of what the last gate and the last bench printed.
figures:
	python3 tools/figures.py

# On the program as it was built last.
commands:
	python3 tools/commands.py $(PROGRAM) tests/commands/*.json
	python3 tools/replay.py $(PROGRAM) check $(VECTORS)
	python3 tools/replay.py $(PROGRAM) plain $(VECTORS)
	python3 tools/replay.py $(PROGRAM) run $(VECTORS)
	python3 tools/replay.py $(PROGRAM) world $(VECTORS)
	python3 tools/replay.py $(PROGRAM) blocks tests/vectors/trees.json
	python3 tools/replay.py $(PROGRAM) steps tests/vectors/trees.json
	python3 tools/replay.py $(PROGRAM) plain-steps tests/vectors/trees.json
	python3 tools/manual.py $(PROGRAM)
	python3 tools/kept.py $(PROGRAM) examples/*.isle
	python3 tools/fuzz.py $(PROGRAM) 200
	$(MAKE) refusals

# Each request for memory is refused in turn.
refusals:
	python3 tools/refusals.py $(PROGRAM)
	python3 tools/refusals.py $(CALLERS) tests/refusals/calls.json

# 20,000 texts that are made of those of tests and examples by changes at random; 200 of the gate.
fuzz:
	python3 tools/fuzz.py $(PROGRAM) $(COUNT)

# The wrong bodies of tests/edits, of which the prover must refuse each: those of CRATES, or of all crates, that have changed since they
# were tried. With ALL=--all also the others.
edits:
	tools/edits.py $(ALL) $(CRATES)

# One wrong body of each library, which the commit's name chooses, over what `rt ci` built.
some:
	tools/some.py --rooms=$$(nproc)

install: build
	install -D $(PROGRAM) $(DESTDIR)$(PREFIX)/bin/islec

replay: build
	$(MAKE) commands

# Times reading, typing, compiling and formatting generated files, trees of rules, worlds and queries, answering calls, and a sorted map.
bench: build
	cd crates/isle_callers && rt run -- count < stdin
	mkdir -p out
	python3 tools/bench.py $(CALLERS) $(PROGRAM) > out/bench.txt; status=$$?; cat out/bench.txt; exit $$status
