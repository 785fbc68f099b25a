# corekeep: `make help` says what there is.
.PHONY: help try run build check plant wrong-bodies fmt test install deb dist

PREFIX ?= /usr/local
SYSCONFDIR ?=
SOURCES := crates.txt $(shell find crates -path '*/out' -prune -o -type f \( -name '*.rt' -o -name '*.antt' \) -print)

help:
	@echo 'make try                 builds bin/corekeep-try without any proof, and runs the first example: some minutes'
	@echo 'make run                 proves and builds the program as bin/corekeep, and runs the first example'
	@echo 'make build               proves and builds it: an hour or more the first time, on two processors'
	@echo 'make test                the gate: every proof, test and run from nothing, and wrong bodies refused: more than an hour on four processors'
	@echo 'make check [CRATE=name]  proves one crate and those that it stands on, or all'
	@echo 'make plant CRATE=name    tries wrong bodies on a copy of a crate'
	@echo 'make wrong-bodies [CRATE=name]   tries those that are written down and left out of the gate'
	@echo 'make fmt                 lays the sources out'
	@echo 'make install [PREFIX=/usr/local] [SYSCONFDIR=/etc]   installs the program, manual pages, completions, unit and samples'
	@echo 'make deb                 builds the Debian package bin/corekeep_VERSION_amd64.deb'
	@echo 'make dist                packs the program as bin/corekeep-VERSION-linux-amd64.tar.gz, with bin/SHA256SUMS'

try:
	@echo 'Building without proofs, some minutes. Nothing of what runs here was proved.'
	@scripts/try
	@bin/corekeep-try memory --half 1 --data 4 < examples/first.script

build: bin/corekeep

# Only a proved program is built: rt proves it and the crates below it, and leaves it in its out/.
bin/corekeep: $(SOURCES)
	@scripts/build

run: bin/corekeep
	@bin/corekeep memory --half 1 --data 4 < examples/first.script

check:
	@if [ -n "$(CRATE)" ]; then cd "crates/$(CRATE)" && rt check; else rt all check; fi

plant:
	@[ -n "$(CRATE)" ] || { echo 'make plant CRATE=name'; exit 2; }
	@cd "crates/$(CRATE)" && rt plant

wrong-bodies:
	@scripts/wrong-bodies $(CRATE)

fmt:
	@for crate in crates/*/; do (cd "$$crate" && rt fmt) || exit 1; done

test:
	./.ci/run

install: bin/corekeep
	@DESTDIR="$(DESTDIR)" PREFIX="$(PREFIX)" SYSCONFDIR="$(SYSCONFDIR)" scripts/install-files bin/corekeep
	@echo 'installed under $(DESTDIR)$(PREFIX): nothing is turned on; docs/OPERATIONS.md says how'

deb: bin/corekeep
	@scripts/make-deb bin/corekeep

dist: bin/corekeep
	@scripts/make-dist bin/corekeep
