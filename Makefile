# make          proves and builds the program: build/bin/patchkit, and a link for each tool beside it; says how far it is
# make demo     the same, then applies a patch to a copy of examples/tree and shows the result, as soon as either compiler has built it;
#               and what a run over 200 files leaves that is killed half-way
# make try      runs that patch before any proof
# make test     runs the gate (rt ci), then the cases (tests/cases) and the other checks on real files
# make times    prints what each crate's proof, tests and edits took, slowest crate first, as make and make test noted it
# make deep     tries the wrong bodies that the gate leaves out (wrong-bodies); CRATES='NAME ..' takes those of some crates alone
# make mutants  tries the wrong bodies that no contract can refuse (wrong-bodies/seen_by_scripts): each script must fail on its own; some
#               minutes each, NAMES='NAME ..' takes those alone, and tests/mutants --list says which script sees what
# make peers    runs the suites of GNU patch, patchutils and quilt over what was built, beside the list of what fails there (tests/peers/expected);
#               with PEER=gnu over GNU patch and patchutils themselves
# make bench    draws bench/curve.svg: how time and memory grow, beside GNU patch; two minutes on a quiet machine
# make install  installs the program, its manual and completions below PREFIX, with those of the tools and their names in lib/patchkit, where
#               they hide no other's; without rt the program that was built before
# make install-links  puts the tools' names, pages and completions beside all others below PREFIX; says which programs of the path they hide
# make uninstall  removes what make install and make install-links put there, and the directories that they made
# make dist     packs what is installed into build/patchkit-VERSION-MACHINE.tar.gz, which needs no toolchain
# make deb      packs it into a package for Debian, build/patchkit_VERSION_ARCHITECTURE.deb
RT ?= rt
PREFIX ?= /usr/local
DESTDIR ?=
TOOLS = patch lsdiff filterdiff grepdiff splitdiff recountdiff reversediff patchgen patchstack
BIN = build/bin

.PHONY: all demo try test times deep mutants peers bench install install-links uninstall dist deb clean

all:
	@sh tests/build $(RT) $(BIN) $(TOOLS)

demo:
	@sh tests/build --first $(RT) $(BIN) $(TOOLS)
	@sh examples/demo build/first
	@sh examples/stop build/first

try:
	@sh examples/try $(RT)

# The gate leaves the program that it built where the build looks first, so nothing is proved twice.
test:
	@python3 tests/map
	@python3 tests/tables_of_docs
	@python3 tests/proofs gate $(RT) ci
	@$(MAKE) --no-print-directory all
	@python3 tests/run_cases $(BIN)
	@sh tests/real_files $(BIN)
	@sh tests/system $(BIN)
	@sh tests/starved --files $(BIN)
	@sh tests/rows $(BIN)
	@sh tests/filters $(BIN)
	@sh tests/killed $(BIN)
	@sh tests/failing $(BIN)
	@sh examples/demo $(BIN)
	@sh examples/stop $(BIN)
	@sh tests/commands $(BIN)
	@python3 tests/scenarios $(BIN)
	@sh tests/beside_patchutils $(BIN)
	@python3 tests/scenarios $(BIN) --filters
	@sh tests/pages $(BIN) $(TOOLS)
	@sh tests/large $(BIN) memory
	@sh tests/package $(RT) $(BIN) build $(TOOLS)

times:
	@python3 tests/proofs times

deep:
	@python3 tests/deep $(RT) $(CRATES)

mutants:
	@python3 tests/mutants $(RT) $(NAMES)

peers:
	@PEER=$(PEER) python3 tests/peers/run $(BIN)

bench:
	@python3 bench/curve $(BIN)

install:
	@sh tests/build --there $(RT) $(BIN) $(TOOLS)
	@sh packaging/install put '$(DESTDIR)' '$(PREFIX)' $(BIN)/patchkit $(TOOLS)

install-links:
	@sh packaging/install links '$(DESTDIR)' '$(PREFIX)'

uninstall:
	@sh packaging/install remove '$(DESTDIR)' '$(PREFIX)'

dist deb:
	@sh tests/build --there $(RT) $(BIN) $(TOOLS)
	@sh packaging/pack $@ $(BIN)/patchkit build $(TOOLS)

clean:
	rm -rf build crates/*/out
