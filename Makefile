# Builds, shows, tests and installs the desk. It needs the Rattle toolchain's `rt`, a POSIX shell and make; the tests on the built
# program need Python (3.11 or later) and a C compiler too.
.POSIX:
.SUFFIXES:

PREFIX = /usr/local
DESTDIR =
ARGS = check MIT mit
CRATES =
JOBS =
MAINTAINER =
MINUTES = 10
SEED = 1
TIMES = 1000

program = crates/desk_program

all: build

# Reports a toolchain other than the one that README.md names: another kit may refuse what that one proved.
kit:
	@kit=$$(rt version 2>/dev/null) && grep -qF "$$kit" README.md \
	    || echo "Note: README.md names the kit that proved this state; here is $${kit:-none, since there is no rt}."

# Only a proved program is built. With no change since the last build this takes seconds.
build: kit
	@echo 'Building build/desk: each crate is proved first. Minutes the first time, then seconds.'
	@mkdir -p build
	@rm -f build/is-built
	@: >build/is-begun
	@(cd $(program) && rt run -- check MIT mit </dev/null && : >../../build/is-built) 2>&1 | tee build/log \
	    | awk '/^rt: chose/ { print "  proving " $$NF; fflush() } /^so far/ { print "    " $$0; fflush() }'
	@[ -f build/is-built ] || { cat build/log; exit 1; }
	@cmp -s $(program)/out/desk_program build/desk || cp $(program)/out/desk_program build/desk
	@touch -r build/is-begun build/desk
	@echo 'Built build/desk.'

# The desk's main tasks, on real examples: by build/desk if it is proved and up to date, otherwise with no proof.
demo:
	@if [ -f build/desk ] && [ -z "$$(find crates crates.txt -type f -newer build/desk ! -path '*/out/*' | head -n 1)" ]; \
	then sh examples/demo.sh build/desk; else sh examples/demo.sh; fi

# What the tests need besides a shell and make.
needs:
	@echo 'The tests need rt, Python 3.11 or later (python3) and a C compiler (cc).'
	@for program in rt python3 cc; do command -v $$program >/dev/null 2>&1 \
	    || { echo "There is no $$program." >&2; exit 1; }; done
	@python3 -c 'import sys; sys.exit(sys.version_info < (3, 11))' || { echo 'This Python is older.' >&2; exit 1; }

# The merge gate: quick checks of texts, every proof, and then the cases, stops, large inputs, refused allocations and hostile inputs on the
# built program.
test: needs kit
	@python3 tests/gate.py

# The acceptance cases alone.
acceptance: needs build
	@sh tests/acceptance/run.sh build/desk

# The scripts among them on files, each in one run and in three.
database: needs build
	@python3 tests/database.py build/desk

# The requests of dialogues, given in words.
words: needs build
	@python3 tests/words.py build/desk

# The licence step of a build, on its own releases.
building: needs build
	@python3 tests/building.py build/desk

# Audits of files of desks, and of files that others wrote.
auditing: needs build
	@python3 tests/auditing.py build/desk

# What a browser can do from pages of other addresses, and from those of the desk's own. It needs Chromium.
browser: needs build
	@python3 tests/browser.py build/desk

# Migrations of files of older versions, also stopped ones.
migrating: needs build
	@python3 tests/migrating.py build/desk

# The replies of a desk over HTTP, to programs and to browsers.
serving: needs build
	@python3 tests/serving.py build/desk
	@python3 tests/origins.py build/desk

# The tests of single calls, compiled without proof.
units: needs
	@sh tests/units/run.sh

# Refuses each allocation in turn of the tests that report out of memory, of calls that the program doesn't make: what ships by places,
# codes, findings in capitals, what trees lack, and how expressions are printed.
refused: needs
	@mkdir -p build
	@sh tests/units/run.sh proved >build/log 2>&1 || { cat build/log; exit 1; }
	@python3 tests/allocations/cases.py build/unit_tests

# Checks that this tree is REUSE-compliant.
lint: needs build
	@sh tests/lint.sh build/desk

# Large inputs and each fault of each reader, with enough memory.
ample: needs build
	@python3 tests/ample/ample.py build/desk

# Refuses each allocation of the program in turn, over the acceptance cases.
allocations: needs build
	@python3 tests/allocations/sweep.py build/desk

# Hostile inputs of a seed for some minutes, compared with second readers: make hostile MINUTES=10 SEED=1
hostile: needs build
	@python3 tests/hostile/hostile.py build/desk --minutes $(MINUTES) --seed $(SEED)

# Kills each command that writes, TIMES times at random moments: make kills TIMES=1000
kills: needs build
	@python3 tests/hostile/kills.py build/desk --times $(TIMES) --seed $(SEED)

# A million requests over HTTP and ten million lines: an hour or so.
soak: needs build
	@python3 tests/hostile/soak.py build/desk

# What the slowest known inputs within the limits cost.
cost: needs build
	@python3 tests/hostile/cost.py build/desk

# Edits that the prover must refuse: those that no record has as refused yet, or with CRATES='desk_expr' those of some crates, JOBS at a
# time, or as many as there are processors. It has a low priority, writes the records as it goes, and continues where it stopped.
edits:
	@echo 'Trying edits that change a meaning: minutes for each crate, hours for all.'
	@RT_JOBS=$(JOBS) nice -n 19 python3 tests/edits.py $(CRATES)

# Runs the program without a proof: make try ARGS='check MIT mit'
try:
	@echo 'Trying the program without a proof: its contracts are not checked.'
	@cd $(program) && rt try -- $(ARGS)

# Times the program: checks and listings, compared with other programs; scripts; many rows; a desk in a file, compared with SQLite's library;
# HTTP; audits; notices, tables, lists and pages; trees; the reading of documents, also in JSON; and patterns of paths.
bench: build
	@echo 'Building the programs that only the benchmarks run.'
	@sh bench/programs/build.sh documents bom globs texts sqlite toml
	@python3 bench/bench.py build/desk
	@python3 bench/alternatives.py build/desk
	@python3 bench/script.py build/desk build/scripts
	@python3 bench/rows.py build/desk
	@python3 bench/store.py build/desk build/bench/sqlite
	@python3 bench/audit.py build/desk
	@python3 bench/serving.py build/desk
	@python3 bench/reports.py build/desk
	@python3 bench/trees.py build/desk
	@python3 bench/documents.py build/bench/documents build/documents
	@python3 bench/import.py build/desk build/bench/documents build/scripts
	@python3 bench/convert.py build/desk build/documents
	@python3 bench/bom.py build/bench/bom build/bom
	@python3 bench/globs.py build/bench/globs
	@python3 bench/texts.py build/bench/texts build/texts

# The manual page and the completions for bash, zsh and fish, made from the program's help: build/share.
manual: build
	@sh manual/manual.sh build/desk build/share

# The program, its manual page and its completions.
install: build
	mkdir -p $(DESTDIR)$(PREFIX)/bin
	cp build/desk $(DESTDIR)$(PREFIX)/bin/desk
	sh manual/manual.sh build/desk $(DESTDIR)$(PREFIX)/share

# Packs the program that `make test` proved and tested, by its record build/proved, with its pages: build/dist/desk-VERSION-linux-x86_64.tar.gz.
dist:
	@sh packaging/dist.sh

# The same as a Debian package, for which lintian reports no error; MAINTAINER='NAME <ADDRESS>' sets its maintainer. It needs dpkg-deb.
deb:
	@MAINTAINER="$(MAINTAINER)" sh packaging/deb.sh

clean:
	rm -rf build

.PHONY: all kit build demo needs test acceptance database words building auditing migrating serving browser units refused lint ample allocations hostile kills soak cost edits try bench manual install dist deb clean
