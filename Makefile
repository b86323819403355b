# What this repository is built, tested, installed and released with.
# It needs `rt`, which proves and builds Rattle crates, and Python 3.11; `make test` also needs a C compiler,
# `make bench` compares with a program in Rust too where `cargo` and the crate `serde_json` are installed, and
# `make lint` needs mypy, and ruff or flake8.

PREFIX ?= /usr/local
DESTDIR ?=

release := qaudit-$(shell cat VERSION)-x86_64-linux
# A copy of the program that `make build` makes. The gate takes away what lies in crates/*/out while it runs.
built := bin/qaudit
built_why := bin/qaudit-why
built_logs := bin/qlog-to-trace
# The program as the gate leaves it.
program := crates/qaudit/out/qaudit
# The program that says why, and the converter of logs, likewise.
program_why := crates/qaudit_why/out/qaudit_why
# A test of the audit by a reader and a writer that move one byte a call; with an argument of the reader of lines by itself,
# or of each call over a trace, to be run with each allocation refused.
program_by_one_byte := crates/one_byte/out/one_byte
# The converter of logs, which is compared with the reference in Python.
program_of_logs := crates/qlog_to_trace/out/qlog_to_trace
# The library for C: what `rt lib` makes of its crate, with the heap of the kit, which stands over malloc.
library := bin/libqaudit.a
library_shared := bin/libqaudit.so
# With counters, for libFuzzer.
library_counted := bin/libqaudit-counted.a
examples := examples/ten-packets.trace examples/eleven-packets.trace
# Checks of pages and sources, of a few seconds each.
checks := links made_up contracts crates words wrong levels rfc9002 minutes
# The tests of the programs of conformance/, which mostly wait for one another's processes.
runner_tests := test_run test_trials test_allowed test_mutations test_rows test_departures test_simulate test_links test_made_up \
	test_contracts test_crates test_levels test_unproved test_words test_commands test_lost_lines test_rfc9002 test_surroundings \
	test_terminals test_converts
# Those of programs that run before a release, which `make sweeps` runs.
release_tests := test_edits test_bindings test_recipes test_fuzz_library test_release
# All that need no program of ours and no browser, but for the checks.
tests_beside_the_gate := commands test_qlog $(runner_tests) test_netlog test_captures
# The tests of the pages in parts of about equal length, which can run side by side.
tests_of_pages := test_page_in_browser test_page_opened test_page_without_browser
in_browser := $(patsubst page/tests/%.py,tests.%,$(wildcard page/tests/test_browser_*.py))
without_browser := $(patsubst page/tests/%.py,tests.%,$(filter-out page/tests/test_browser%,$(wildcard page/tests/test_*.py)))
# The tests and checks that need no proof, the longest first.
tests_in_python := $(tests_of_pages) $(tests_beside_the_gate) $(checks)

# All programs in Python, by the places where their names are unlike each other.
python := $(addprefix conformance/,allocations contracts crates cuts failing fuzz_library large levels library links log_refusals made_up malicious memory mutations reasons recipes \
	logs converts refusals rfc9002 run side_by_side simulate unproved words wrong commands) \
	conformance/fuzz/instrument conformance/lines/make.py $(wildcard conformance/*.py)
python_of_fuzz := conformance/fuzz/run
# The pages, and what measures and tests them.
python_of_page := page/qaudit-page page/qaudit-matrix $(wildcard page/qaudit_page/*.py)
python_of_page_tests := page/measure page/picture $(wildcard page/*.py page/tests/*.py)
python_of_qlog := $(addprefix conformance/qlog/,qlog-to-trace compare dialects fuzz) \
	$(wildcard conformance/qlog/qlog_to_trace/*.py conformance/qlog/tests/*.py)
python_of_netlog := netlog/netlog-to-qlog $(wildcard netlog/netlog_to_qlog/*.py netlog/*.py)
# captures/transfer.py runs where aioquic is, and is checked for style alone.
python_of_captures := captures/aioquic_timers.py captures/audit.py captures/causes.py captures/lateness captures/logs.py captures/run captures/stacks.py captures/table captures/test_aioquic_timers.py captures/test_causes.py captures/test_delay.py captures/test_lateness.py captures/test_upload.py examples/delay.py examples/logger.py
python_of_release := $(addprefix release/,archive edits jobs minutes prove sweeps timed unproved) $(wildcard release/*.py)
python_of_bindings := $(wildcard bindings/python/*.py)
# Checked for style alone, since they need pytest.
python_of_recipes := $(wildcard examples/embedding/pytest/*.py)
python_of_bench := $(addprefix bench/,files instructions library logs peers run trace) $(wildcard bench/*.py) bench/programs/read.py

# How many jobs run side by side after the gate.
jobs := $(shell nproc)
# Of the sweeps, which try many places of each trace, each seventh place is tried; `make sweeps` tries all.
every := --every 7
# The programs of conformance/ over what the gate built, the longest first. None waits for another.
conformance := conformance-cuts conformance-failing conformance-refusals conformance-simulate conformance-mutations \
	conformance-malicious conformance-large conformance-run conformance-reasons conformance-rows conformance-departures \
	conformance-allocations conformance-memory conformance-side-by-side conformance-converted conformance-logs \
	conformance-log-refusals conformance-converts

# What is handed to the library for C, in each language.
bindings := conformance-library conformance-recipes bindings-rust bindings-go bindings-python

.PHONY: deb help run build quick lib one_byte test test_first test_python test_conformance test_pages test_library gate conformance \
	$(bindings) $(conformance) $(checks) commands unproved $(runner_tests) $(release_tests) test_qlog test_netlog fuzz fuzz_library \
	test_captures test_page $(tests_of_pages) pictures lint edits tried sweeps sweeps_over_the_gate swept bench install dist clean

help:
	@echo 'make run       audits $(examples)'
	@echo '               without a proof, in about a minute'
	@echo 'make build     proves the programs and leaves $(built), $(built_why) and $(built_logs)'
	@echo 'make quick     runs the tests that need no proof, in a few minutes'
	@echo 'make lib       proves and builds the library for C, $(library)'
	@echo 'make test      runs the checks, the merge gate, and then the programs over conformance/ and the tests of pages'
	@echo 'make test_library  builds the library for C and runs it over conformance/, in each language that is there'
	@echo 'make gate      runs the merge gate alone'
	@echo 'make edits     tries the must-fail edits in edits/ of each crate that changed since, in up to an hour'
	@echo 'make sweeps    runs in full what make test runs in part, and the tests of programs that a release is made with'
	@echo 'make conformance runs the programs over conformance/ alone, once the gate has built them'
	@echo 'make test_page runs the tests of qaudit-page and qaudit-matrix, those in a browser where one is there'
	@echo 'make pictures  makes the pictures of docs, where a browser is there'
	@echo 'make fuzz      converts 20,000 logs that nobody would write, in about five minutes'
	@echo 'make fuzz_library  makes calls of the library for C by chance, for ten minutes'
	@echo 'make lint      checks the types and the style of the programs in Python'
	@echo 'make bench     builds it, measures it on long traces and compares it with others, in about five minutes;'
	@echo '               the library for C too, where `make lib` built it before'
	@echo 'make install   builds it and installs it in $$(DESTDIR)$$(PREFIX), with its man page, completions and docs;'
	@echo '               PREFIX is $(PREFIX)'
	@echo 'make dist      builds it and packs dist/$(release).tar.gz, which needs no kit, after `make edits` and `make sweeps`'
	@echo 'make deb       makes a Debian package of that, dist/qaudit_*_amd64.deb'
	@echo 'make clean     removes what was built'

# The first thing to try in a clone. It proves nothing.
run:
	@release/unproved $(examples)

build: $(built_logs)

# What the programs are made of.
crates_of_qaudit := $(shell find crates/qa_*/src crates/qa_*/specs crates/qa_*/proofs crates/qaudit/src)
$(built) $(built_why) $(built_logs) &: crates.txt HANDLES $(crates_of_qaudit) \
		$(shell find crates/qaudit_why/src crates/qlog_to_trace/src)
	@release/prove $(PROVE_OPTIONS) bin

lib: $(library_shared)

$(library): crates.txt HANDLES $(crates_of_qaudit) $(shell find crates/qaudit_c/src crates/qaudit_c/specs crates/qaudit_c/proofs)
	release/library $(library)

$(library_shared): $(library)
	$(CC) -shared -o $@ -Wl,--whole-archive $(library) -Wl,--no-whole-archive

one_byte:
	@cd crates/one_byte && rt run -- calls < stdin > /dev/null

# What takes seconds comes first, so that a wrong page costs no hour. Tests that need no program of ours run beside the gate, one after
# another, and what needs one after it, side by side. `release/timed` says how long each part takes, if it is asked.
test: test_first
	$(MAKE) --no-print-directory -j 2 gate test_python
	$(MAKE) --no-print-directory -j $(jobs) --output-sync=target test_conformance test_pages
	if [ -f $(library) ]; then $(MAKE) --no-print-directory test_library; else \
		echo '$(library) is not built, so what C is handed is not tried: `make test_library` builds it first'; fi

test_first:
	@echo 'make test runs the checks, proves all crates and tries the must-fail edits of the gate, with the tests in Python beside that;'
	@echo 'then it runs the programs over conformance/, and beside them the tests of the pages:'
	@release/minutes --say test
	release/timed python $(MAKE) --no-print-directory $(checks)

test_python:
	release/timed python $(MAKE) --no-print-directory $(tests_beside_the_gate)

test_conformance:
	release/timed conformance $(MAKE) --no-print-directory $(conformance)

test_pages:
	QAUDIT_WHY='$(abspath $(program_why))' QLOG_TO_TRACE='$(abspath $(program_of_logs))' \
		release/timed pages $(MAKE) --no-print-directory $(tests_of_pages)

# For whoever changes a page or the converter, or has not proved a change yet.
quick:
	@echo "make quick runs the tests that need no proof, and \`qaudit check\` over the corpus, unproved:"
	@release/minutes --say quick
	@$(MAKE) --no-print-directory -j $(shell nproc) --output-sync=target unproved $(tests_in_python)

unproved:
	conformance/unproved

# The gate proves the library for C and leaves none, and to build it proves the crates below it once more: so `make test` tries
# it only where it was built before.
test_library: $(bindings)

# `rt ci` proves all crates from nothing, and leaves each program built of what it proved. RT_JOBS says how many
# at a time; if it is not set, the processors and the free memory do.
gate:
	RT_JOBS=$$(release/jobs) rt ci

conformance: $(conformance) $(checks) $(tests_beside_the_gate)

conformance-cuts:
	conformance/cuts $(every) $(program)
	conformance/cuts $(every) --reasons $(program_why)

conformance-failing:
	conformance/failing $(every) $(program)
	conformance/failing $(every) --traces $(program_by_one_byte)
	conformance/failing $(every) --reasons $(program_why)

conformance-refusals:
	conformance/refusals $(every) $(program)
	conformance/refusals $(every) --traces $(program_by_one_byte)
	conformance/refusals $(every) --reasons $(program_why)

conformance-simulate:
	conformance/simulate $(program) $(program_by_one_byte)

conformance-mutations:
	conformance/mutations $(program) $(program_by_one_byte)

conformance-malicious:
	conformance/malicious $(program)
	conformance/malicious --few $(program_by_one_byte)
	conformance/malicious --why $(program_why) --converter $(program_of_logs) $(program)
	QAUDIT='$(abspath $(program))' QAUDIT_WHY='$(abspath $(program_why))' QLOG_TO_TRACE='$(abspath $(program_of_logs))' \
		python3 conformance/test_terminals.py

conformance-large:
	conformance/large $(program)

conformance-run:
	conformance/run $(program)
	conformance/run --traces $(program_by_one_byte)
	conformance/run --traces $(program) conformance/real
	python3 conformance/lines/make.py --check
	conformance/run --lines $(program_by_one_byte)

conformance-reasons:
	conformance/reasons $(program_why)

# What the machine holds behind each line, for pages.
conformance-rows:
	conformance/rows $(program_why)
	conformance/rows --all $(program_why)

# All departures from the rules of conduct, as a text and as objects, with rows before too.
conformance-departures:
	conformance/departures --around $(program_why)
	conformance/departures --json --around $(program_why)

conformance-allocations:
	conformance/allocations $(program)
	conformance/allocations --reasons $(program_why)

conformance-side-by-side:
	conformance/side_by_side $(program)

conformance-memory:
	conformance/memory $(program_by_one_byte)

# Both converters, over the real logs here and over some hundred that nobody would write.
conformance-converted:
	conformance/qlog/compare --native $(program_of_logs) --mutations 600

# The converter over logs whose traces were written by hand.
conformance-converts:
	conformance/converts $(program_of_logs)

# `qaudit-why` over logs, beside the converter.
conformance-logs:
	conformance/logs $(program_why) $(program_of_logs)

conformance-log-refusals:
	conformance/log_refusals $(every) $(program_why) $(program_of_logs)

conformance-library: $(library)
	conformance/library $(library)

# The examples in docs/embedding.md, and the recipes in examples/embedding, each where its tools are there.
conformance-recipes: $(library) $(library_shared)
	conformance/recipes $(library) $(library_shared)

# The bindings, each where its compiler is there.
bindings-rust: $(library)
	if command -v cargo > /dev/null; then cd bindings/rust && cargo test --offline --quiet; else \
		echo 'there is no cargo, so bindings/rust is not tried'; fi

bindings-go: $(library)
	if command -v go > /dev/null; then cd bindings/go && go test ./...; else \
		echo 'there is no go, so bindings/go is not tried'; fi

bindings-python: $(library_shared)
	python3 bindings/python/test_qaudit.py
	python3 bindings/python/example.py

# What the pages name has to be there.
links:
	conformance/links

# What the sources say of memory and of streams without being told has to be on a list.
made_up:
	conformance/made_up

# The contracts that replace must-fail edits must be as they are listed, and each edit in edits/ must have its reason.
contracts:
	conformance/contracts

# docs/architecture.md must name the crates as they are, and no line may be too long.
crates:
	conformance/crates

# No page and no text of a program in Python may have words that an engineer would not write.
words:
	conformance/words

# docs/wrong-definitions.md must have the counts of what was tried.
wrong:
	conformance/wrong

# README.md must have the minutes of `make test` that docs/proofs.md has.
minutes:
	release/minutes --check

# docs/why.md must have the levels of the rules as the definitions and conformance/sources.py have them.
levels:
	conformance/levels

# docs/rfc9002.md must be as its table, and the definitions and traces that it names must be there.
rfc9002:
	conformance/rfc9002

# The commands in the pages must run, those that can without a proof and without a network.
commands:
	conformance/commands

# The edits that the gate does not try, of each crate that changed since they were tried. A release needs them all refused.
edits:
	release/edits

tried:
	release/edits --check

# What a release wants tried in full, of each part that changed since.
sweeps:
	release/sweeps --check || $(MAKE) --no-print-directory sweeps_over_the_gate

sweeps_over_the_gate: gate
	release/sweeps

swept:
	release/sweeps --check

$(runner_tests) $(filter-out test_release,$(release_tests)):
	python3 conformance/$@.py

# The reference of the converter of logs, over small logs and those of conformance/real, and the example of a logger.
test_qlog:
	cd conformance/qlog && python3 -m unittest

# The qlogs of netlogs, and logs that are compressed.
test_netlog:
	cd netlog && python3 -m unittest

# No part of `test`, for it takes five minutes; a hundred of its cases are in test_qlog.
fuzz:
	conformance/qlog/fuzz

# No part of `test` either: it takes ten minutes, and needs Debian's clang and libclang-rt-14-dev. What it keeps in bin/
# is there for the next run.
fuzz_library: $(library_counted)
	conformance/fuzz_library --folder bin/fuzzed $(library_counted)
	conformance/library --inputs bin/fuzzed/corpus $(library)

$(library_counted): $(library) conformance/fuzz/instrument
	conformance/fuzz/instrument --library $@

test_captures:
	python3 captures/test_aioquic_timers.py
	python3 captures/test_causes.py
	python3 captures/test_delay.py
	python3 captures/test_lateness.py
	python3 captures/test_upload.py

# What proves the programs, and what says how long it takes.
test_release:
	python3 release/test_release.py

# Pages: their columns, their HTML, and in a headless Chromium what a person does. It wants Debian's libjs-dygraphs, and
# chromium-driver and python3-selenium, and says what it leaves out. QAUDIT_WHY names a program that was proved; without one
# page/stand_in.py stands in, and without QLOG_TO_TRACE the converter in Python.
test_page:
	cd page && python3 -m unittest

test_page_in_browser:
	cd page && python3 -m unittest tests.test_browser

test_page_opened:
	cd page && python3 -m unittest $(in_browser)

test_page_without_browser:
	cd page && python3 -m unittest $(without_browser)

# The pictures of the pages in docs, in Chromium. A test of test_page fails if the page has changed since.
pictures:
	page/picture

# No part of `test`, for it needs tools that need not be there. Both are told what to check by pyproject.toml; flake8,
# which stands in for ruff where there is none, knows less and does not read it.
lint:
	mypy $(python)
	mypy $(python_of_fuzz)
	mypy $(python_of_bench)
	MYPYPATH=netlog:conformance/qlog mypy $(python_of_qlog)
	MYPYPATH=netlog:conformance/qlog mypy $(python_of_netlog)
	mypy $(python_of_bindings)
	MYPYPATH=release mypy $(python_of_release)
	mypy $(python_of_captures)
	MYPYPATH=page:netlog mypy $(python_of_page)
	MYPYPATH=page:netlog:conformance/qlog mypy $(python_of_page_tests)
	MYPYPATH=conformance mypy --config-file= --strict conformance/rows
	MYPYPATH=conformance mypy --config-file= --strict conformance/departures
	MYPYPATH=conformance:page mypy --config-file= --strict conformance/stand_in
	if command -v ruff > /dev/null; then ruff check; else \
		flake8 --max-line-length 100 --extend-ignore E203,W503 \
			--per-file-ignores '*/test_*.py:N802' $(python) $(python_of_fuzz) $(python_of_bench) \
			$(python_of_qlog) $(python_of_netlog) $(python_of_release) $(python_of_captures) captures/transfer.py \
			$(python_of_page) $(python_of_page_tests) $(python_of_recipes) conformance/rows conformance/departures conformance/stand_in; fi

# No part of `test`, for no number of seconds is right on every machine.
bench: build
	python3 bench/test_bench.py
	bench/run $(built)
	bench/peers $(built)
	bench/instructions $(built)
	bench/instructions --forms $(built)
	bench/files $(built)
	if [ -f $(library) ]; then bench/library $(built) $(library); fi

# A release is a folder that installs itself, so that there is one way to install.
install: build lib
	release/pack $(built) $(built_why) $(built_logs) $(library) $(library_shared) bin/$(release)
	bin/$(release)/install '$(DESTDIR)$(PREFIX)'

dist: tried swept build lib
	release/pack $(built) $(built_why) $(built_logs) $(library) $(library_shared) bin/$(release)
	release/tarball bin/$(release) dist/$(release).tar.gz
	@echo dist/$(release).tar.gz

deb: dist
	release/deb bin/$(release) dist/qaudit_$(shell cat VERSION)-1_amd64.deb
	@echo dist/qaudit_$(shell cat VERSION)-1_amd64.deb

clean:
	rm -rf crates/*/out bin dist
