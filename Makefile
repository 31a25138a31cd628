# make list     the listing of a run table: make list TABLE=path, or of example A of the corpus
# make test     everything that is checked; ends in `rt ci`, whose last line is the last line printed
# make archives the static libraries: target/staticlib/libkeeper.a, librun_table.a and liblisting_text.a
# make differential-tests  the library beside the second implementation: CALLS=n for more calls, SCOPES=more for larger scopes
# make examples-tests  the programs of examples/: builds and runs them
# make soak     runs that discard by their keep sheets, with ever new seeds, for SOAK_SECONDS (60)
# make fuzz     runs the fuzzer for FUZZ_SECONDS (60); needs clang
# make refusal-tests  every list of refusals against docs/refusals.txt
# make version-tests  every place that says the version against the file VERSION
# make rust-lint  the layout of all Rust code, and clippy's warnings
# make check    proves what has changed and runs the test programs: quicker, and no verdict
# make tools    builds the command keeper, target/cargo/release/keeper
# make bench    the archive's times beside plain C, Rust and work lists, written to docs/BENCHMARKS.md
# make install  headers, archives, pkg-config files, programs, completions and man pages: PREFIX=/usr/local, DESTDIR
# make clean    takes away what was built: target/, what rt keeps in crates/*/out, and what cargo and python left elsewhere
# make change-report BASE=commit  what changed since a commit, for the note of a change: RUNS=2, TIMES=no, CRATES="a b"
SHELL := /bin/sh
.DEFAULT_GOAL := help
.PHONY: help list table-there program test check format reference-tests corpus-tests
.PHONY: archives c-tests install uninstall install-test tools tools-tests
.PHONY: refusal-tests rust-lint binding-tests differential-tests differential-faults fuzz fuzz-tools fuzz-replay bench
.PHONY: change-report report-tests version-tests examples-tests discarding soak clean

# make by another name: lines that name $(MAKE) itself are run by `make -n` too.
THIS_MAKE := $(MAKE)

help:
	@sed -n 's/^# \(make .*\)/\1/p' Makefile

# The kit that the proofs were last checked with, as README.md names it. With another one this says so and goes
# on: whether a proof holds is for the prover to say.
KIT := $(shell sed -n 's/^- The Rattle kit, `\([^`]*\)`.*/\1/p' README.md)
need-rt:
	@command -v rt >/dev/null 2>&1 || { echo "rt is missing: README.md, \"What it needs\", says where it comes from" >&2; exit 1; }
	@kit=$$(rt version 2>&1 | head -n 1); test "$$kit" = '$(KIT)' || \
	    echo "the kit here is '$$kit', and the one that README.md names is '$(KIT)': what the prover refuses now may be for that" >&2
	@machine=$$(uname -m); test "$$machine" = x86_64 || \
	    echo "this is $$machine, and the programs and archives are made for x86-64: they link into no program of this machine" >&2

need-%:
	@command -v $* >/dev/null 2>&1 || { echo "$* is missing: README.md, \"What it needs\", says where it comes from" >&2; exit 1; }

# The listing of a table. Its name goes through the environment, as it was given, so that it may have blanks, quotes
# and dollar signs.
TABLE = tests/corpus/example_a.table
override TABLE := $(value TABLE)
export TABLE
list: table-there program
	@target/bin/listing <"$$TABLE"

table-there:
	@test -e "$$TABLE" || { echo "$$TABLE: there is no such file" >&2; exit 1; }
	@test ! -d "$$TABLE" || { echo "$$TABLE: this is a folder, and a table is a file" >&2; exit 1; }
	@test -r "$$TABLE" || { echo "$$TABLE: it can't be read" >&2; exit 1; }

# What a proof reads: the list of the crates, and their files, with the folders, whose times tell of a file that went. What
# rt keeps of its work, crates/*/out, is none of it.
PROVED := crates.txt $(shell find $(wildcard crates/*/src crates/*/specs crates/*/proofs))

# $(call proving,crate,command,log): the command in a crate's folder, with its output in a log. It says each crate that it
# begins to prove on standard error, and shows the log where it fails.
define proving
@mkdir -p target/tests
@{ (cd crates/$(1) && $(2)) 2>&1; echo "status $$?"; } | tee target/tests/$(3).log | sed -un 's/^rt: chose --jobs [0-9]* for \(.*\)/    \1/p' >&2
@tail -n 1 target/tests/$(3).log | grep -qx 'status 0' || { cat target/tests/$(3).log; exit 1; }
endef

# The listing program, proved before it is built, run on example A and then left here: nothing is done again where nothing
# has changed.
program: target/bin/listing
target/bin/listing: $(PROVED) | need-rt
	@echo "proving and building the listing program: some minutes the first time" >&2
	$(call proving,listing,rt run <stdin >/dev/null,listing.program)
	@mkdir -p target/bin
	@cp crates/listing/out/listing $@

# Two lanes, and rt ci alone behind them. What needs neither the archives nor a program is tested while the archives are
# proved; then what needs them, in two lanes of about the same length, of which one alone calls rt. What `rt lib` proves for
# the archives counts for nothing in `rt ci`, which proves all from nothing, but for what it passed before on this machine;
# its last line is the last one here, and verdict.sh fails where it passes over a must-fail edit that can't be applied.
APART = format version-tests refusal-tests reference-tests report-tests
LANE = differential-tests c-tests
TESTS = rust-lint binding-tests tools-tests examples-tests fuzz-replay corpus-tests install-test
# $(call beside,log,targets,others): the targets, with their output in a log, beside the others; both have to pass.
define beside
@mkdir -p target/tests
@$(THIS_MAKE) --no-print-directory $(2) >target/tests/$(1).log 2>&1 & beside=$$!; \
    $(THIS_MAKE) --no-print-directory $(3); others=$$?; \
    wait $$beside; beside=$$?; cat target/tests/$(1).log; test $$others -eq 0 && test $$beside -eq 0
endef
test: need-rt need-gcc need-cargo
	$(call beside,apart,$(APART),archives)
	$(call beside,lane,$(LANE),$(TESTS))
	@{ rt ci; echo "status $$?"; } | sh tests/crates/verdict.sh

check: need-rt
	@rt all test

# The layout of the crates, what they name, and what a person has to follow in them; that these can fail.
format: need-rt
	@mkdir -p target/tests
	@sh tests/crates/layout.sh
	@sh tests/crates/dependencies.sh
	@sh tests/crates/readable.sh
	@sh tests/crates/must_fail.sh target/tests

# The tests of a Rust folder: $(call cargo_test,folder,name,options) runs them, shows the log where one fails, and leaves it in
# target/tests/name.log; $(call tests_passed,name,whose) says how many passed.
CARGO = cargo --quiet
define cargo_test
@mkdir -p target/tests
@cd $(1) && $(CARGO) test $(3) --target-dir ../../target/cargo >../../target/tests/$(2).log 2>&1 || { cat ../../target/tests/$(2).log; exit 1; }
endef
tests_passed = @awk '/^test result/ { n += $$4 } END { print n " tests of $(2) passed" }' target/tests/$(1).log

# The second implementation: its own tests, and its answers to the scripts of the test programs.
CASES = run_table_cases keeper_cases marking_cases set_cases
reference-tests: need-cargo
	$(call cargo_test,tests/reference,reference,--release)
	$(call tests_passed,reference,the second implementation)
	@cd tests/reference && $(CARGO) build --release --target-dir ../../target/cargo
	@sh tests/corpus/fresh.sh target/cargo/release/corpus
	@for c in $(CASES); do \
	    target/cargo/release/cases <crates/$$c/stdin | cmp - crates/$$c/stdout || { echo "$$c: stdout is not what the second implementation answers"; exit 1; }; \
	    echo "$$c: the expected output is the second implementation's"; \
	done

# Every list of refusals, in whatever language, against docs/refusals.txt; and that a difference is found.
refusal-tests:
	@mkdir -p target/tests
	@sh tests/refusals/compare.sh
	@sh tests/refusals/must_fail.sh target/tests

# Every place that says the version against the file VERSION; and that a difference is found.
version-tests:
	@mkdir -p target/tests
	@sh tests/version.sh
	@sh tests/version.sh must-fail target/tests

# The archives of the libraries. A library can't be an archive, so each has a crate NAME_c above it, which exports its
# functions and is proved as the archive is written: this is done again only where a source is newer. One rt at a time: a
# second one would wait for the first.
.NOTPARALLEL:
ARCHIVES = run_table keeper listing_text
ARCHIVE_FILES = $(ARCHIVES:%=target/staticlib/lib%.a)
archives: $(ARCHIVE_FILES)

$(ARCHIVE_FILES): target/staticlib/lib%.a: $(PROVED) | need-rt
	@echo "proving and building lib$*.a" >&2
	$(call proving,$*_c,rt lib,$*.archive)
	@mkdir -p target/staticlib
	@cp crates/$*_c/out/lib$*_c.a $@

# The headers against the archives and the sources, and C programs that make every call; that both can fail.
c-tests: need-gcc archives
	@sh tests/c/run.sh target/staticlib target/tests
	@sh tests/c/must_fail.sh target/staticlib target/tests

# What C programs and people need of the library, under PREFIX. DESTDIR goes before each path and into no file.
PREFIX = /usr/local
BINDIR = $(PREFIX)/bin
INCLUDEDIR = $(PREFIX)/include
LIBDIR = $(PREFIX)/lib
MANDIR = $(PREFIX)/share/man
BASHCOMPDIR = $(PREFIX)/share/bash-completion/completions
ZSHCOMPDIR = $(PREFIX)/share/zsh/site-functions
INSTALL = install
VERSION := $(shell cat VERSION)
# The names at the head of a page of section 3: each but the page's own gets a page of one line, which leads to it.
NAMES_ON = sed -n '/^\.Sh NAME/,/^\.Nd/s/^\.Nm \([a-z0-9_]*\).*/\1/p'
install: archives program tools
	@mkdir -p target/tests
	@case '$(DESTDIR)$(PREFIX)' in *[[:space:]]*) echo "DESTDIR and PREFIX can have no spaces" >&2; exit 1;; esac
	@case '$(PREFIX)' in /*) ;; *) echo "PREFIX=$(PREFIX) is not a path from the root" >&2; exit 1;; esac
	@$(INSTALL) -d $(addprefix '$(DESTDIR),$(addsuffix ',$(BINDIR) $(INCLUDEDIR) $(LIBDIR)/pkgconfig $(MANDIR)/man1 $(MANDIR)/man3 $(MANDIR)/man5 $(BASHCOMPDIR) $(ZSHCOMPDIR)))
	@$(INSTALL) -m 755 target/bin/listing '$(DESTDIR)$(BINDIR)/listing'
	@$(INSTALL) -m 755 target/cargo/release/keeper '$(DESTDIR)$(BINDIR)/keeper'
	@for shell in bash zsh; do target/cargo/release/keeper completion $$shell >target/tests/completion.$$shell || exit 1; done
	@$(INSTALL) -m 644 target/tests/completion.bash '$(DESTDIR)$(BASHCOMPDIR)/keeper'
	@$(INSTALL) -m 644 target/tests/completion.zsh '$(DESTDIR)$(ZSHCOMPDIR)/_keeper'
	@for a in $(ARCHIVES); do \
	    $(INSTALL) -m 644 include/$$a.h '$(DESTDIR)$(INCLUDEDIR)' && \
	    $(INSTALL) -m 644 target/staticlib/lib$$a.a '$(DESTDIR)$(LIBDIR)' && \
	    sed -e 's,@PREFIX@,$(PREFIX),' -e 's,@LIBDIR@,$(patsubst $(PREFIX)/%,$${prefix}/%,$(LIBDIR)),' \
	        -e 's,@INCLUDEDIR@,$(patsubst $(PREFIX)/%,$${prefix}/%,$(INCLUDEDIR)),' -e 's,@VERSION@,$(VERSION),' \
	        pkgconfig/$$a.pc.in >target/tests/$$a.pc && \
	    $(INSTALL) -m 644 target/tests/$$a.pc '$(DESTDIR)$(LIBDIR)/pkgconfig' || exit 1; \
	done
	@for page in man/*.[135]; do \
	    $(INSTALL) -m 644 $$page '$(DESTDIR)$(MANDIR)'/man$${page##*.} || exit 1; \
	done
	@for page in man/*.3; do for name in $$($(NAMES_ON) $$page); do \
	    test man/$$name.3 = $$page || { echo ".so man3/$${page##*/}" >target/tests/link.3 && \
	        $(INSTALL) -m 644 target/tests/link.3 '$(DESTDIR)$(MANDIR)'/man3/$$name.3; } || exit 1; \
	done; done

# Takes the files away and leaves the folders.
uninstall:
	@rm -f '$(DESTDIR)$(BINDIR)/listing' '$(DESTDIR)$(BINDIR)/keeper' '$(DESTDIR)$(BASHCOMPDIR)/keeper' '$(DESTDIR)$(ZSHCOMPDIR)/_keeper'
	@for a in $(ARCHIVES); do \
	    rm -f '$(DESTDIR)$(INCLUDEDIR)'/$$a.h '$(DESTDIR)$(LIBDIR)'/lib$$a.a '$(DESTDIR)$(LIBDIR)'/pkgconfig/$$a.pc || exit 1; \
	done
	@for page in man/*.[135]; do \
	    rm -f '$(DESTDIR)$(MANDIR)'/man$${page##*.}/$${page##*/} || exit 1; \
	done
	@for name in $$($(NAMES_ON) man/*.3); do rm -f '$(DESTDIR)$(MANDIR)'/man3/$$name.3 || exit 1; done

# Installs into a temporary folder, uses what stands there, and uninstalls.
install-test: need-gcc archives program tools
	@MAKE='$(THIS_MAKE)' sh tests/install/run.sh

# The listing program over the corpus of tables, whose listings are the second implementation's.
corpus-tests: program
	@sh tests/corpus/run.sh target/bin/listing
	@MAKE='$(THIS_MAKE)' sh tests/corpus/list.sh

# The layout of all Rust code, and clippy with no warning let through. Each is left out, in a line, where it is not there.
RUST_FOLDERS := $(patsubst %/Cargo.toml,%,$(sort $(shell find bench bindings examples fuzz tests tools -name target -prune -o -name Cargo.toml -print)))
rust-lint: archives need-cargo
	@if cargo fmt --version >/dev/null 2>&1; then \
	    for f in $(RUST_FOLDERS); do (cd $$f && cargo fmt --check) || { echo "$$f: cargo fmt lays it out otherwise"; exit 1; }; done; \
	    echo "layout of $(words $(RUST_FOLDERS)) Rust folders: as cargo fmt has it"; \
	else echo "cargo fmt is missing: the layout of the Rust code was not looked at"; fi
	@if cargo clippy --version >/dev/null 2>&1; then \
	    for f in $(RUST_FOLDERS); do \
	        (cd $$f && cargo clippy --quiet --all-targets --all-features --target-dir $(CURDIR)/target/cargo -- -D warnings) || { echo "$$f: clippy warns"; exit 1; }; \
	    done; \
	    echo "clippy has no warning in $(words $(RUST_FOLDERS)) Rust folders"; \
	else echo "cargo clippy is missing: it did not look at the Rust code"; fi

# The Rust binding: its doc tests on example A and its tests on the corpus, with all its features; and that it builds
# with none of them, and with each alone.
binding-tests: archives need-cargo
	@for features in '' run_table listing_text; do \
	    (cd bindings/rust && $(CARGO) build --release --no-default-features --features "$$features" --target-dir ../../target/cargo) || exit 1; \
	done
	$(call cargo_test,bindings/rust,binding,--release --all-features)
	$(call tests_passed,binding,the Rust binding)

# Every call of the library beside the second implementation: tables by chance, at the limits, damaged, mark buffers
# at and near their least length, shares at and near exact halves, chains of steps; then every table of small scopes. A
# difference prints the table, the call and both answers.
CALLS = 570000
SEED = 20260101
SCOPES =
differential-tests: archives need-cargo
	$(call cargo_test,tests/differential,differential,--release)
	@cd tests/differential && $(CARGO) build --release --target-dir ../../target/cargo
	@target/cargo/release/calls $(CALLS) $(SEED)
	@target/cargo/release/scopes $(SCOPES)

# Shows that these tests can fail: the faults of faults.txt in an implementation put in the library's place.
differential-faults: archives need-cargo need-gcc
	@sh tests/differential/faults.sh

# The fuzzer's target, over the archives and a model in C. The inputs of fuzz/corpus are replayed without clang.
FUZZ_SECONDS = 60
FUZZ_SOURCES = fuzz/target.c fuzz/model.c target/staticlib/libkeeper.a target/staticlib/liblisting_text.a
fuzz-replay: archives need-gcc
	@gcc -std=c11 -Wall -Wextra -Werror -O2 -Iinclude -o target/tests/fuzz_replay fuzz/replay.c $(FUZZ_SOURCES)
	@target/tests/fuzz_replay fuzz/corpus/*

fuzz-tools:
	@command -v clang >/dev/null 2>&1 || { echo "clang is missing: the fuzzer needs clang with libFuzzer (Debian: clang and libclang-rt-14-dev); make fuzz-replay needs gcc alone" >&2; exit 1; }

fuzz: fuzz-tools archives
	@mkdir -p target/fuzz/corpus
	@clang -std=c11 -Wall -Wextra -g -O2 -Iinclude -fsanitize=fuzzer,address,undefined -fno-sanitize-recover=undefined -o target/fuzz/fuzz $(FUZZ_SOURCES) || { echo "clang can't build with -fsanitize=fuzzer: its runtime is missing (Debian: libclang-rt-14-dev)" >&2; exit 1; }
	@target/fuzz/fuzz -max_total_time=$(FUZZ_SECONDS) -max_len=1500 -print_final_stats=1 -artifact_prefix=target/fuzz/ target/fuzz/corpus fuzz/corpus

# The command keeper over the proved archives, and its tests; the corpus once more, through the command.
tools: need-cargo archives
	@cd tools/keeper && $(CARGO) build --release --target-dir ../../target/cargo

tools-tests: tools
	$(call cargo_test,tools/keeper,tools,--release)
	@sed -n 's/.*keeper tests: /keeper tests: /p' target/tests/tools.log
	$(call tests_passed,tools,the command keeper)

# The examples. first_run.c: its output is the expected one. The run that discards: its tests, in which every store
# that deletes too much is found, and then further seeds, in a temporary folder that is removed whatever happens.
DISCARDING = target/cargo/release/discarding --steps 20000
in_folder = folder=$$(mktemp -d) || exit 1; trap 'rm -rf "$$folder"' EXIT; trap 'exit 1' HUP INT TERM;
examples-tests: archives need-gcc need-cargo discarding
	@mkdir -p target/tests
	@gcc -std=c11 -Wall -Wextra -Werror -pedantic -Iinclude -o target/tests/first_run examples/first_run.c target/staticlib/libkeeper.a
	@target/tests/first_run >target/tests/first_run.output
	@diff examples/first_run.expected target/tests/first_run.output || { echo "examples/first_run.c prints something else than expected (<)"; exit 1; }
	@echo "examples/first_run.c prints what is expected"
	$(call cargo_test,examples/discarding,discarding,--release)
	$(call tests_passed,discarding,the run that discards)
	@$(in_folder) $(DISCARDING) --seed 11 --seeds 2 --folder "$$folder"

SOAK_SECONDS = 60
soak: archives need-cargo discarding
	@$(in_folder) $(DISCARDING) --seed "$$(date +%s)" --seconds '$(SOAK_SECONDS)' --folder "$$folder"

discarding: archives need-cargo
	@cd examples/discarding && $(CARGO) build --release --target-dir ../../target/cargo

# What changed from the commit BASE to HEAD, in Markdown. Both are proved RUNS times from nothing, one crate at a time, some
# forty minutes for two times; TIMES=no leaves that out, and CRATES="a b" proves these alone, with the crates below them. A
# commit that was written for an older Rattle can't be proved with this one.
# No --release: the command waits for git and rt, and this compiles in half the time.
BASE =
RUNS = 2
TIMES = yes
CRATES =
change-report: need-git need-cargo
	@cd tools/change_report && $(CARGO) build --target-dir ../../target/cargo
	@target/cargo/debug/change-report --runs '$(RUNS)' --times '$(TIMES)' --crates '$(CRATES)' '$(BASE)'

# The report's own tests. Without git, those on small repositories are left out.
report-tests: need-cargo
	@command -v git >/dev/null 2>&1 || echo "git is missing: the change report is tested on no repository"
	$(call cargo_test,tools/change_report,report,$$(command -v git >/dev/null 2>&1 || echo --lib))
	$(call tests_passed,report,the change report)

# Times of the archive's calls, some two or three minutes; no part of `make test`. valgrind, and python3 with
# networkx, add columns where they are there.
bench: need-gcc need-cargo archives
	@sh bench/run.sh

# All that is built stands in target/, and what rt keeps of its proofs in crates/*/out; the others are what cargo and python
# leave where they are run by hand.
clean:
	@rm -rf target crates/*/out $(addsuffix /target,$(RUST_FOLDERS)) bench/__pycache__
