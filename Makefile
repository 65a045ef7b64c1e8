# On a machine with the kit: `make try` shows the program on a sample script, unproved; `make demo` proves it first;
# `make test` is the gate, and `make edits` tries the wrong bodies that the gate leaves out, or those of NAMES='..';
# `make further-tests` runs the tests that it leaves out, unproved, or those of the crates of NAMES='..'.
PREFIX ?= /usr/local
NAMES ?=

.PHONY: build demo try test edits further-tests bench conformance install clean

build:
	./demo/build

demo: build
	./demo/tour bin/pgbackup

try:
	./demo/try

test:
	rt ci

edits:
	./edits/run $(NAMES)

further-tests:
	./further_tests/run $(NAMES)

conformance: build
	python3 conformance/run.py bin/pgbackup 500
	python3 conformance/limits.py bin/pgbackup 1
	python3 conformance/archives.py bin/pgbackup 500
	python3 conformance/follows.py bin/pgbackup 500
	python3 conformance/faults.py bin/pgbackup
	python3 conformance/calls.py bin/pgbackup 1
	python3 conformance/frames.py bin/pgbackup
	python3 conformance/expiries.py bin/pgbackup
	python3 conformance/memory.py bin/pgbackup
	python3 conformance/stderr.py bin/pgbackup
	python3 conformance/crews.py bin/pgbackup 100
	python3 conformance/loops.py bin/pgbackup 1000
	python3 conformance/drills.py bin/pgbackup 64
	python3 conformance/words.py bin/pgbackup 500
	python3 conformance/backups.py bin/pgbackup 150
	python3 conformance/restores.py bin/pgbackup 60
	python3 conformance/summaries.py bin/pgbackup 100
	python3 conformance/targets.py bin/pgbackup 4
	python3 conformance/chains.py bin/pgbackup 60
	python3 conformance/combines.py bin/pgbackup 60
	python3 conformance/merges.py bin/pgbackup 60
	python3 conformance/series.py bin/pgbackup 3
	python3 conformance/restarts.py bin/pgbackup 200
	python3 conformance/manifests.py bin/pgbackup 1
	python3 conformance/views.py bin/pgbackup bin/pgbackup-chains 60
	python3 conformance/real.py bin/pgbackup 2
	cd crates/lsn_core_c && rt lib > /dev/null
	python3 conformance/paths.py crates/lsn_core_c/out/liblsn_core_c.a

bench: build
	$(MAKE) -s -C bench

install: build
	install -D bin/pgbackup $(DESTDIR)$(PREFIX)/bin/pgbackup
	install -D bin/pgbackup-chains $(DESTDIR)$(PREFIX)/bin/pgbackup-chains

clean:
	rm -rf bin crates/*/out
