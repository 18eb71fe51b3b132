# `make run` and `make test` do all set-up themselves; README.md says what each target is for.
.PHONY: run test changed program ndigo proofs packages texts wrong runs must-fail oracle faults soak fuzz bed bindings bench cluster install uninstall

# where `make install` puts things
PREFIX ?= /usr/local

program:
	tools/emulate >&2
	tools/program ndigomarr copy_job >&2

ndigo:
	ndigo/build

run: program ndigo
	target/bin/ndigomarr < examples/worked.job
	target/bin/ndigo answer examples/first-dive.tsv
	target/bin/ndigo draw examples/first-dive.tsv > target/first-dive.svg
	@echo 'picture target/first-dive.svg'

# What `runs` and `wrong` need: every crate proved, lowest first, and the programs. What earlier checks have kept is not proved again.
proofs:
	rt all check >&2
	tools/program ndigomarr copy_job >&2

packages:
	oracle/setup
	ndigo/setup
	bindings/setup
	workflow/setup

# What is read off the files alone, and the tests of the tools.
texts:
	tools/promises
	tools/test_promises
	tools/uses
	tools/test_uses
	tools/lines
	tools/test_lines
	tools/refusals
	tools/test_refusals
	tools/settings
	tools/test_settings
	tools/prototypes
	tools/test_prototypes
	tools/wrong --table
	tools/test_wrong
	tools/test_changed
	tools/test_unproved
	tools/test_ndform
	tools/layout
	tools/test_gate

# The wrong answers that rt ci does not try, in folders of their own. What is run beside them is one thing after the other and has the way first.
wrong:
	nice tools/wrong

# What is run, one after the other. One archive serves all that link it.
runs:
	tools/run-examples
	set -e; ARCHIVE_MADE=$$(tools/library); export ARCHIVE_MADE; NDIGO_NEEDS_PROGRAM=1 SHEET_WRITER=target/bin/copy_job ndigo/test; ndigo/deeper/test; oracle/run --short; oracle/soak --short; bindings/test; oracle/bed/check; ndigo/build; tools/around; bindings/test-install; workflow/test

# What stands on one line runs at the same time. rt ci stands last: its last line, 'N passed, 0 failed', is the gate's. It trusts nothing that a check has kept, so what runs before it builds for itself.
test:
	$(MAKE) --no-print-directory --jobs=3 --output-sync=line proofs packages texts
	$(MAKE) --no-print-directory --jobs=2 --output-sync=line wrong runs
	tools/gate

# After a changed line: what differs from main and what stands on it, not the whole gate.
changed:
	tools/changed

# Every wrong answer, and as rt must-fail tries its own too, from nothing.
must-fail:
	tools/wrong --official

oracle:
	oracle/setup
	oracle/run

faults:
	oracle/setup
	oracle/faults

# Ten million damaged jobs and a million accepted ones, put to the library.
soak:
	oracle/setup
	oracle/soak

fuzz: program
	tools/fuzz --seed 1

bed:
	oracle/setup
	oracle/bed/check --long

bindings:
	bindings/test

# The programs, the library for C, C++, Rust and Python, and the man pages, below PREFIX.
install: program ndigo
	tools/install "$(PREFIX)"

uninstall:
	tools/install --uninstall "$(PREFIX)"

bench:
	bench/run

# 10,000 tables through a SLURM of this machine's own, a worker killed in the middle.
cluster: ndigo
	workflow/cluster
