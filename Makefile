# The ways to run things. `make` alone lists them.
.PHONY: help list host test edits soak check install fmt clean FORCE

# A proof that fails is not to be hidden by the grep behind it.
SHELL := /bin/bash -o pipefail
PREFIX ?= /usr/local
JOB ?= examples/two-jobs.job
JOBS ?= 5000000
SEED ?= $(shell date +%s)

help:
	@echo 'make list JOB=examples/two-jobs.job   prove and build the listing program, and list a job file'
	@echo 'make host                             build the host program in C and run it'
	@echo 'make test                             the gate: layout, every proof, the tests'
	@echo 'make edits CRATE=words                the edits that the prover must refuse, of one crate or of all'
	@echo 'make soak JOBS=5000000 SEED=1         the station against an independent unifier on that many random jobs'
	@echo 'make check                            prove every crate that changed since it was last proved'
	@echo 'make install PREFIX=/usr/local        header, library, pkg-config file, listing program, manual page'
	@echo 'make bench                            measure the speed beside plain C, and write docs/BENCH.md'
	@echo 'make bench-peers                      install the Prolog systems that make bench measures too'
	@echo 'make fmt                              put every file of Rattle and antt into the layout'
	@echo 'make clean                            remove all that was built'

# rt proves each crate on the way, some minutes from nothing; a second time it proves what changed.
# What it says of each function is left out, and its errors are not.
target/bin/listing: FORCE
	@tools/program listing 2>&1 | { grep -Ev --line-buffered '^(fn|enum|struct|library|logic|linked|axioms|note|checked|statements|crate)' || true; } >&2

# Not proved again where nothing that it rests on has changed.
target/staticlib/libstation.a: FORCE
	@tools/staticlib station >&2

list: target/bin/listing
	@target/bin/listing <$(JOB)

target/host: examples/host.c include/station.h target/staticlib/libstation.a
	@$(CC) -std=c11 -O2 -Wall -Wextra -Iinclude examples/host.c target/staticlib/libstation.a -o $@

host: target/host
	@target/host

test:
	.ci/run

# All of them, or those of one crate: must-fail/, which the gate tries too, and edits/, which it has no time for.
edits:
	@tools/edits $(CRATE)

# The gate's own comparison, longer and from another seed each time; it prints the seed.
soak:
	tools/staticlib $$(sed 's/#.*//' tests/staticlibs.txt)
	cd tests && STATION_JOBS=$(JOBS) STATION_SEED=$(SEED) cargo test --offline --release --test independent many_random_jobs -- --nocapture

check:
	rt all check

install: target/bin/listing target/staticlib/libstation.a
	install -d $(DESTDIR)$(PREFIX)/include $(DESTDIR)$(PREFIX)/lib/pkgconfig $(DESTDIR)$(PREFIX)/bin $(DESTDIR)$(PREFIX)/share/man/man1
	install -m 644 include/station.h $(DESTDIR)$(PREFIX)/include/station.h
	install -m 644 target/staticlib/libstation.a $(DESTDIR)$(PREFIX)/lib/libstation.a
	sed 's|@PREFIX@|$(PREFIX)|' packaging/station.pc.in >$(DESTDIR)$(PREFIX)/lib/pkgconfig/station.pc
	install -m 755 target/bin/listing $(DESTDIR)$(PREFIX)/bin/station-listing
	install -m 644 packaging/station-listing.1 $(DESTDIR)$(PREFIX)/share/man/man1/station-listing.1

# ---- speed: bench/README.md
.PHONY: bench bench-peers

target/bench/bench: $(wildcard bench/*.[ch] bench/plain/*.[ch]) include/station.h target/staticlib/libstation.a
	@mkdir -p target/bench
	gcc -std=c11 -O3 -Wall -Wextra -Iinclude -Ibench bench/*.c bench/plain/plain.c target/staticlib/libstation.a -o $@

bench: target/bench/bench
	@bench/run

bench-peers:
	@bench/peers/install
# ---- end of speed

fmt:
	@for crate in crates/*/; do (cd $$crate && rt fmt) || exit 1; done

clean:
	rm -rf target tests/target crates/*/out
