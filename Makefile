# run: krillc on the sample session, within a minute or two, before its proof.
# build: prove krillc and all that it stands on, and build it.
# deb: the Debian package krill-ca, in service/out; needs debhelper (docs/operations.md).
# test: the whole gate.
# bench: the measurements, each as a ratio to a baseline of the same run.
# seconds: what the gate costs, crate by crate, from nothing; takes hours.
# allocations: every test with each of its allocations failing in turn, outside the gate.
# validators: other relying parties over what krillc exports, outside the gate; needs root and packages (docs/relying-parties.md).
# day: a day in a registry from that package alone, outside the gate; needs root and packages (checks/day).
# refused: the wrong bodies that the gate doesn't try (crates/*/refused), of one crate (CRATE=names) or of all.
.PHONY: run build deb test bench seconds allocations validators day refused

run:
	@sh examples/run-first-session

build:
	@echo "Proving and building krillc (an hour or more on four processors where nothing is kept) ..."
	cd crates/krillc && rt run -- --version </dev/null
	@echo "Proved. The program is $(CURDIR)/crates/krillc/out/krillc; 'krillc --help' says how it is run."

deb:
	@service/deb

test:
	bash .ci/run

bench:
	@status=0; for it in lines sets der commits reopen published objects rrdp export tree audit board make editions publish side signer sessions; do \
	    echo "bench/$$it"; python3 "bench/$$it" || status=1; \
	done; exit $$status

seconds:
	python3 bench/gate

allocations:
	python3 checks/allocations.py

validators:
	@python3 checks/validators

day:
	@sh checks/day.sh --play

refused:
	@python3 checks/refused.py $(CRATE)
