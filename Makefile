# The one entry point: `make help` lists the targets.
SHELL := /bin/sh
RT ?= rt
DECK ?= examples/hello.sno
INPUT ?=
CRATE ?=
PREFIX ?= /usr/local
SEED ?=
# What `install` puts into PREFIX.
SNO ?= build/sno
LIST ?= build/sno_list
SNOBOL ?= build/snobol

PROGRAM := crates/sno
LISTER := crates/sno_list
FOR_PEOPLE := crates/snobol
export RT
# The program as the gate leaves it: as LLVM built it, and as Rattle's own compiler did.
BUILT := $(PROGRAM)/out/sno $(PROGRAM)/out/sno.by-rattle
# The same of the program snobol.
BUILT_FOR_PEOPLE := $(FOR_PEOPLE)/out/snobol $(FOR_PEOPLE)/out/snobol.by-rattle
# A part of the faults that `make refuse`, `failing`, `damage` and `deep` run whole.
FAULTS := "tests/refuse --every 50 $(PROGRAM)/out/sno" "tests/failing $(PROGRAM)/out/sno" \
	"tests/damage --every 270 $(PROGRAM)/out/sno" "tests/deep --part $(PROGRAM)/out/sno"
# The decks on an unproved program that counts its ways, and fails where one is never taken.
COUNTED := build/counted/sno
COVERED := "tools/counted $(COUNTED)" "tests/run --coverage $(COUNTED)"
# What a proof of the program reads, folders too, so that a file that goes is noticed.
PARTS = $(foreach crate,$(shell tools/below $(1) 2>/dev/null),$(foreach part,src specs proofs,crates/$(crate)/$(part)))
SOURCES := $(shell find crates.txt $(wildcard $(call PARTS,sno)) 2>/dev/null)
SNOBOL_SOURCES := $(shell find crates.txt $(wildcard $(call PARTS,snobol)) 2>/dev/null)
LISTER_SOURCES := $(shell find crates.txt $(wildcard $(call PARTS,sno_list)) 2>/dev/null)
PAGE_SOURCES := $(shell find crates.txt $(wildcard $(call PARTS,page)) 2>/dev/null)

.PHONY: help run try sno snobol list install deb uninstall release test decks coverage collecting pages bound ways batch load refuse failing damage deep wrong time check bench compare variants random programs fmt clean page site browse toolchain program deck input
.DEFAULT_GOAL := help

help: ## list the targets
	@sed -n 's/^\([a-z]*\):.*## /\1\t/p' $(firstword $(MAKEFILE_LIST)) | expand -t 8
	@$(if $(wildcard $(PROGRAM)),,echo "Not there yet: the program, so run, try and sno only say so.")

# Each of these stops with one line where something is missing.
toolchain:
	@: $(if $(shell command -v $(RT)),,$(error $(RT) not found: install the Rattle toolchain and put its command rt on PATH))

program: toolchain
	@: $(if $(wildcard $(PROGRAM)),,$(error the program is not there yet: no crate $(PROGRAM)))

deck: program
	@: $(if $(wildcard $(DECK)),,$(error no such deck: $(DECK)))

input: deck
	@: $(if $(INPUT),$(if $(wildcard $(INPUT)),,$(error no such file: $(INPUT))))

run: input build/sno ## DECK=file [INPUT=file]: run a deck on the proved program, built first where the source changed
ifeq ($(INPUT),)
	@build/sno < $(DECK)
else
	@build/sno go $(DECK) 5=$(INPUT)
endif

try: input ## DECK=file [INPUT=file]: run a deck with nothing proved, built in two minutes; 60 seconds and 1 MiB of output
	@echo "try: nothing is proved of this run" >&2
ifeq ($(INPUT),)
	@(cd $(PROGRAM) && $(RT) try) < $(DECK)
else
	@(cd $(PROGRAM) && $(RT) try --data deck.sno=$(abspath $(DECK)) --data input=$(abspath $(INPUT)) -- go deck.sno 5=input)
endif

sno: build/sno ## leave the proved program at build/sno

# `rt run` is the command that links, so the new program runs once, on the deck that does nothing.
build/sno: $(SOURCES) | program
	@echo "sno: proving and building the program (minutes where nothing is kept; all lines go to build/log)" >&2
	@(cd $(PROGRAM) && echo END | ../../tools/progress "../../tools/quick_rt run") >&2 || { echo "sno: not proved, or not built" >&2; exit 1; }
	@cp $(PROGRAM)/out/sno build/sno.new && mv build/sno.new build/sno

list: deck build/sno_list ## DECK=file: list a deck with what is wrong in it, on the proved program sno_list
	@build/sno_list $(DECK) || [ $$? -eq 3 ]

build/sno_list: $(LISTER_SOURCES) | program
	@echo "list: proving and building the program sno_list (all lines go to build/log)" >&2
	@(cd $(LISTER) && echo END | ../../tools/progress "../../tools/quick_rt run") >&2 || { echo "list: not proved, or not built" >&2; exit 1; }
	@cp $(LISTER)/out/sno_list build/sno_list.new && mv build/sno_list.new build/sno_list

page: build/page.wasm ## leave the compiler and the machine, in one file that a browser opens, at build/page.html
	@tools/page build/page.wasm build/page.html

site: build/page.wasm ## leave the pages of docs/, with their decks runnable in place, at build/site/index.html
	@tools/site build/page.wasm build/site

build/page.wasm: $(PAGE_SOURCES) $(wildcard page/*.c) tools/wasm | toolchain
	@echo "page: proving crates/page and building it for a browser (all lines go to build/log)" >&2
	@tools/progress "tools/wasm build/page.wasm" >&2 || { echo "page: not proved, or not built" >&2; exit 1; }

browse: build/sno page site ## decks on the page, in node, and the page and the site in the browsers that are installed
	@tests/page build/sno build/page.wasm build/page.html build/site

snobol: build/snobol ## leave the proved program for people at build/snobol

build/snobol: $(SNOBOL_SOURCES) | program
	@echo "snobol: proving and building the program snobol (all lines go to build/log)" >&2
	@(cd $(FOR_PEOPLE) && echo END | ../../tools/progress "../../tools/quick_rt run -- -") >&2 || { echo "snobol: not proved, or not built" >&2; exit 1; }
	@cp $(FOR_PEOPLE)/out/snobol build/snobol.new && mv build/snobol.new build/snobol

install: $(SNO) $(LIST) $(SNOBOL) ## [PREFIX=folder]: put the proved programs, manual pages and completion there (/usr/local if none is given)
	@tools/install "$(DESTDIR)$(PREFIX)" $(SNO) $(LIST) $(SNOBOL) && echo "install: in $(DESTDIR)$(PREFIX)"

deb: $(SNO) $(LIST) $(SNOBOL) ## a Debian package of the proved programs, at build/fizhdova.deb
	@mkdir -p build && tools/deb build/fizhdova.deb $(SNO) $(LIST) $(SNOBOL) && echo "deb: build/fizhdova.deb"

uninstall: ## [PREFIX=folder]: take away what install put there
	@tools/install --remove "$(DESTDIR)$(PREFIX)" && echo "uninstall: from $(DESTDIR)$(PREFIX)"

release: build/sno build/sno_list build/snobol ## leave programs, manual pages, library, packages and checksums of VERSION at build/release
	@tools/release

# A program that the gate proved is the one that `make run` runs, unless a source changed since the gate began.
test: toolchain ## the gate: every proof from nothing, must-fail edits, tests, programs, decks (last line 'N passed, M failed')
	@echo "test: proving every crate from nothing; this takes many minutes (all lines go to build/log)"
	@mkdir -p build && touch build/began
	@RT_JOBS=$${RT_JOBS:-$$(tools/jobs)} tools/progress "tools/quick_rt ci" "tools/wrong --texts" "tests/docs $(PROGRAM)/out/sno $(LISTER)/out/sno_list $(FOR_PEOPLE)/out/snobol" "tests/run $(BUILT)" $(COVERED) "tests/run --commands snobol $(BUILT_FOR_PEOPLE)" "tests/terminal $(FOR_PEOPLE)/out/snobol" "tests/ported $(FOR_PEOPLE)/out/snobol" "tests/reports $(FOR_PEOPLE)/out/snobol" "tests/pipe $(PROGRAM)/out/sno --list $(LISTER)/out/sno_list" "tests/load $(PROGRAM)/out/sno" "tests/batch $(PROGRAM)/out/sno" "tests/bound --decks 100 $(PROGRAM)/out/sno" "tests/ways $(BUILT)" $(FAULTS)
	@cp $(PROGRAM)/out/sno build/sno.new && touch -r build/began build/sno.new && mv build/sno.new build/sno

decks: build/sno build/snobol ## the decks and commands of tests/ alone, on the proved programs
	@tests/run build/sno && tests/pipe build/sno
	@tests/run --commands snobol build/snobol && tests/terminal build/snobol && tests/ported build/snobol && tests/reports build/snobol

coverage: toolchain ## which ways of the machine the decks of tests/ take; nothing is proved, in some two minutes
	@tools/counted $(COUNTED) && tests/run --coverage $(COUNTED)

collecting: toolchain ## the decks of tests/ and random ones on a program that gives objects back at each step; nothing is proved
	@tools/collecting build/collecting/sno && SECONDS=600 tests/run build/collecting/sno && tests/bound --decks 100 build/collecting/sno

pages: build/sno build/sno_list build/snobol ## what the pages name and show, on the proved programs
	@tests/docs build/sno build/sno_list build/snobol

bound: build/sno ## 2,000 random decks on the proved program and on the reference of tests/, with steps and rules
	@tests/bound build/sno --decks 2000

ways: build/sno ## 5,000 random decks of the whole language each way on the proved program, and on the reference
	@tests/ways build/sno --decks 5000 --mangled 1000

batch: build/sno ## many files on two logins of this machine and on a cluster of one node, where these are installed
	@tests/batch build/sno

load: build/sno ## a thousand runs at once, more files than the system opens, and units that are opened on and on
	@tests/load build/sno

refuse: build/sno ## each growth of memory refused in turn, to the proved program on some hundred decks
	@tests/refuse build/sno

failing: build/sno ## each read and write failed or the program killed there, and streams closed, on the proved program
	@tests/failing build/sno

damage: build/sno ## some nine million damaged modules, run by the proved code
	@tests/damage build/sno

deep: build/sno ## deep and large decks on the proved program, with a small stack and little memory
	@tests/deep build/sno

wrong: toolchain ## [CRATE=name]: try the wrong bodies that the gate doesn't; each must be refused
	@tools/wrong $(CRATE)

time: toolchain ## [CRATE=name]: measure the gate and write its table into docs/architecture.md, or measure a crate
	@RT_JOBS=$${RT_JOBS:-$$(tools/jobs)} tools/gate_time $(if $(CRATE),$(CRATE),--write)

check: toolchain ## prove every crate over what earlier checks kept
	@echo "check: proving every crate, lowest first"
	@tools/quick_rt all check

bench: build/sno ## what a step costs on the proved program, in instructions where valgrind is there, and in time
	@bench/steps build/sno

compare: build/sno ## the workloads of bench/ on the proved program and on the others that are installed
	@bench/compare build/sno

variants: build/sno ## rewrites of six workloads on the proved program, and what the same rewrites cost in Lua
	@bench/compare --variants build/sno

programs: build/sno ## ordinary programs on the proved program, and the same in Lua, in instructions
	@bench/programs

random: build/sno ## [SEED=word]: 200 loops of statements drawn by the seed (the day's), and the same in Lua
	@bench/random $(SEED) --program build/sno

fmt: toolchain ## lay out every crate's files
	@for crate in crates/*/; do echo "fmt: $$crate"; (cd $$crate && $(RT) fmt) || exit 1; done

clean: ## remove what checks and builds left
	@echo "clean: removing build/ and each crate's out/"
	@rm -rf build crates/*/out
