# Thin targets: `make help` lists them, README.md says what they are for.
SHELL = /bin/bash
.DEFAULT_GOAL = help
# two checks at once would wait for one another
.NOTPARALLEL:

# the shared library's name has major and minor number: docs/DECISIONS.md, Versions
VERSION := $(shell cat VERSION)
SONAME = libtiedraw.so.$(basename $(VERSION))
# out/ is what rt built; it has copies of sources
SOURCES = crates.txt $(shell find crates -name out -prune -o \( -name '*.rt' -o -name '*.antt' \) -print)

# what users give goes to the recipes by the environment, as data: neither make nor the shell reads it
GIVEN := $(foreach name,CARD FILE CASES SEED INPUTS,$(if $(filter undefined,$(origin $(name))),,$(name)))
unexport CARD FILE CASES SEED INPUTS

.PHONY: help
help: ## this list
	@sed -n 's/^\([a-z-]*\):.* ## /\1: /p' Makefile | awk -F': ' '{ printf "  make %-14s %s\n", $$1, substr($$0, length($$1) + 3) }'

# ---- the programs

.PHONY: run replay
run: export RUN_CARD := $(value CARD)
run: export RUN_FILE := $(value FILE)
run: export RUN_GIVEN := $(filter CARD FILE,$(GIVEN))
run: ## the verdict on a card and its first draws: CARD="08 03", or FILE=cards/p2.hex; document 01's card where none is given
	@mkdir -p target && bash tools/card-bytes.sh > target/card
	@$(MAKE) --no-print-directory --silent target/program/tiedraw-inspect
	@answer=$$(target/program/tiedraw-inspect < target/card) && echo "$$answer" && [[ $$answer == "verdict 0"* ]]

target/program/tiedraw-inspect: $(SOURCES)
	@echo "Proving and building the program; that takes long the first time." >&2
	@mkdir -p target/program && (cd crates/inspect_card && rt run < stdin) > target/run.log 2>&1 || { cat target/run.log; exit 1; }
	@cp crates/inspect_card/out/inspect_card $@

# answers that stand behind => are passed over
replay: export RUN_CASES := $(value CASES)
replay: ## cases answered, a line each: of the file CASES=cases/papers.txt, or typed and ended by Ctrl-D
	@echo "Proving and building the program; that takes long the first time." >&2
	@mkdir -p target && (cd crates/replay && rt run < /dev/null) > target/replay.log 2>&1 || { cat target/replay.log; exit 1; }
	@set -o pipefail; sed 's/ => .*//' -- "$${RUN_CASES:--}" | crates/replay/out/replay

# ---- the library for C and whatever can call C: proved, then compiled

.PHONY: lib example
lib: target/lib/libtiedraw.so ## the archive and the shared library, in target/lib

target/lib/libtiedraw.a: $(SOURCES)
	@echo "Proving and building the library; that takes long the first time." >&2
	@mkdir -p target/lib && (cd crates/tiedraw && rt lib) > target/lib.log 2>&1 || { cat target/lib.log; exit 1; }
	@cp crates/tiedraw/out/libtiedraw.a $@

target/lib/libtiedraw.so.$(VERSION): target/lib/libtiedraw.a VERSION
	@gcc -shared -Wl,-soname,$(SONAME) -Wl,-z,defs -Wl,--whole-archive $< -Wl,--no-whole-archive -o $@

target/lib/libtiedraw.so: target/lib/libtiedraw.so.$(VERSION)
	@ln -sf libtiedraw.so.$(VERSION) target/lib/$(SONAME) && ln -sf $(SONAME) $@

example: lib ## a server and its standby in C, run
	@gcc -std=c99 -Wall -Wextra -pedantic -Werror -O2 -Iinclude examples/c/standby.c target/lib/libtiedraw.a -o target/standby
	@set -o pipefail; target/standby | tee target/standby.out
	@cmp target/standby.out examples/c/standby.out

# ---- installing it

PREFIX ?= /usr/local
DESTDIR ?=
ROOT = $(DESTDIR)$(PREFIX)
DIST = tiedraw-$(VERSION)-linux-x86_64

.PHONY: install uninstall dist
install: lib target/program/tiedraw-inspect ## header, library, pkg-config's file and the program, below PREFIX=/usr/local; DESTDIR= is put before it
	install -d "$(ROOT)/include" "$(ROOT)/lib/pkgconfig" "$(ROOT)/bin"
	install -m 644 include/tiedraw.h "$(ROOT)/include"
	install -m 644 target/lib/libtiedraw.a "$(ROOT)/lib"
	install -m 755 target/lib/libtiedraw.so.$(VERSION) "$(ROOT)/lib"
	ln -sf libtiedraw.so.$(VERSION) "$(ROOT)/lib/$(SONAME)"
	ln -sf $(SONAME) "$(ROOT)/lib/libtiedraw.so"
	sed 's/@VERSION@/$(VERSION)/' include/tiedraw.pc.in > "$(ROOT)/lib/pkgconfig/tiedraw.pc"
	install -m 755 target/program/tiedraw-inspect "$(ROOT)/bin"
	@if [ -z "$(DESTDIR)" ] && [ "$$(id -u)" = 0 ]; then ldconfig; fi

uninstall: ## what `make install` put there, of this version
	rm -f "$(ROOT)/include/tiedraw.h" "$(ROOT)/lib/pkgconfig/tiedraw.pc" "$(ROOT)/bin/tiedraw-inspect"
	rm -f "$(ROOT)/lib/libtiedraw.a" "$(ROOT)/lib/libtiedraw.so" "$(ROOT)/lib/$(SONAME)" "$(ROOT)/lib/libtiedraw.so.$(VERSION)"

# the same bytes for the same files: names in order, no times, no owners
dist: ## a tar of what is installed, and its checksum, for servers without the Rattle kit: target/dist
	@rm -rf target/dist && $(MAKE) --no-print-directory --silent install DESTDIR="$(CURDIR)/target/dist/" PREFIX=$(DIST)
	@cd target/dist && tar --sort=name --mtime=@0 --owner=0 --group=0 --numeric-owner -c $(DIST) | gzip -n > $(DIST).tar.gz
	@cd target/dist && rm -r $(DIST) && sha256sum $(DIST).tar.gz > $(DIST).tar.gz.sha256 && cat $(DIST).tar.gz.sha256

# ---- what is tested

.PHONY: test check bindings run-test install-test jumps vectors store-vectors difftest bench loads nist
test: ## the gate: everything proved that an earlier run here has not passed, must-fail edits tried, programs run
	bash .ci/run

check: bindings example run-test install-test jumps vectors ## all that is no proof: bindings, example, run-test, install-test, jumps, vectors, and difftest of 200,000
	@$(MAKE) --no-print-directory difftest INPUTS=200000
	@echo "check: everything passed"

# what follows is run with the library just built
bindings difftest bench: export TIEDRAW_LIB_DIR = $(CURDIR)/target/lib
bindings difftest bench loads nist: export TIEDRAW_LIBRARY = $(CURDIR)/target/lib/libtiedraw.so

bindings: lib ## the tests of the Rust and Python bindings
	cd bindings/rust && cargo test --quiet
	cd bindings/python && python3 -m unittest --quiet

run-test: target/program/tiedraw-inspect ## what `make run` makes of CARD and FILE
	@bash tools/run-test.sh

install-test: lib ## install, dist and uninstall tried in an empty folder, and the example built there by pkg-config alone
	@bash tools/install-test.sh

jumps: lib ## the step in the archive: no conditional jump but loop ends, no division; and that the check would find them
	@cd harness && python3 -m unittest --quiet test_jumps
	@python3 harness/jumps.py target/lib/libtiedraw.a

vectors: ## the second program against the papers' cases and the stored inputs and outputs
	@bash reference/compare.sh

store-vectors: ## the stored inputs and outputs replaced by what the second program makes now
	@bash reference/compare.sh --store

difftest: export RUN_SEED := $(if $(filter SEED,$(GIVEN)),$(value SEED),20261115)
difftest: export RUN_INPUTS := $(if $(filter INPUTS,$(GIVEN)),$(value INPUTS),2000000)
difftest: lib ## the library against the second program, on INPUTS=2000000 random inputs from SEED=20261115
	cd harness && cargo build --release --quiet
	@harness/target/release/difftest "$$RUN_SEED" "$$RUN_INPUTS"

bench: lib ## nanoseconds a call, beside Rust and beside bare ctypes in the same run
	cd harness && cargo build --release --quiet
	harness/target/release/bench
	python3 bindings/python/bench.py

loads: lib ## the loads of six equal shovels by a word's remainder and by fair ranks, counted, and docs/pictures/loads.svg drawn anew
	@PYTHONPATH=bindings/python python3 docs/pictures/loads.py

nist: lib ## a million bits of P1 for the published suite of NIST SP 800-22, in target/nist/p1.txt, and their counts
	@PYTHONPATH=bindings/python python3 tools/nist.py

# ---- keeping the repository

.PHONY: fmt pictures lines clean
fmt: ## the files of Rattle laid out
	@for crate in crates/*/; do (cd "$$crate" && rt fmt) || exit 1; done

pictures: ## the pictures of docs/PROOFS.md, docs/OPERATING.md and docs/PERFORMANCE.md, drawn anew
	python3 docs/pictures/pictures.py
	python3 docs/pictures/words.py

lines: ## lines without comments, imports and blank ones, and the must-fail edits: what the notes in docs/changes tell
	@for part in specs src proofs; do \
	    printf '%s ' $$part; \
	    find crates -name out -prune -o -path "*/$$part/*" \( -name '*.antt' -o -name '*.rt' \) -exec cat {} + | grep -vcE '^[[:space:]]*(--|//|use |ghost use |$$)'; \
	done; printf 'edits '; ls crates/*/must-fail/*.edit | wc -l

clean: ## everything that was built is removed
	rm -rf target crates/*/out bindings/rust/target harness/target reference/target
	find . -name __pycache__ -prune -exec rm -r {} +
