# make run: the main job. make test: the whole gate. make board: the libraries that firmware links, and the tests of their stores.
SHELL := /bin/bash
.SHELLFLAGS := -o pipefail -c
.PHONY: run test command host board fuzz

library := $(CURDIR)/target/board/libmpt-x86_64.a
unmarked := $(CURDIR)/target/staticlib/libapi.a
export MPT_LIBRARY := $(library)
export MPT_UNMARKED := $(CURDIR)/target/board/libmpt-unmarked-x86_64.a
export CARGO_TARGET_DIR := $(CURDIR)/target/host
mpt := target/host/release/mpt

# the bench cases by the proved monitor, a picture of a bench with eight cradles, and whether they are kept apart: as they are, and with a
# page of the first open to another too
run: command
	@$(mpt) cases
	@echo
	@$(mpt) map examples/cradles.mpt
	@echo
	@$(mpt) apart examples/cradles.mpt
	@echo; echo 'The same with a slip, `edit 5 0x80100000 0x1000 rw 1536`:'
	@echo 'edit 5 0x80100000 0x1000 rw 1536' | cat examples/cradles.mpt - | $(mpt) apart || [ $$? -eq 3 ]

# every crate is proved and its wrong versions are refused, each by a fact (what the same files passed before is kept); wrong definitions are
# refused; the library's stores are traced; the compiled monitor is held against the second program. What rt ci said last is said again at the end, if all else passed.
# The library is made over what rt ci has just proved, if no file was touched meanwhile
test:
	@tools/kit
	@tools/need cc:gcc cargo python3 perl
	@tools/derive --check
	@tests/moved/run
	@tests/order/run
	@tests/definitions/run --fit
	@sum=$$(board/build --sum) && tools/gate && board/build --after-ci "$$sum"
	@tests/versions/run >target/versions && tail -n 1 target/versions
	@tests/definitions/run
	@$(MAKE) --no-print-directory board host
	@tail -n 1 target/verdict

# the command mpt over the proved library
command:
	@tools/kit
	@tools/need cc:gcc cargo
	@board/build
	@cd host && cargo build --release --quiet --features proved

# a trace of the stores that the library makes on x86-64; the check of the module on wrong modules; the RISC-V library's assembly, its answers,
# and its stores on an emulated board.
# Libraries with wrong or unmarked stores must be refused
board: command
	@tools/need --lean valgrind qemu-riscv64:qemu-user qemu-system-riscv64:qemu-system-misc
	@board/trace/test $(library)
	@board/module/test
	@if board/trace/test $(unmarked) >target/board/unmarked.log 2>&1; then echo "trace: unmarked stores were not refused" >&2; exit 1; fi
	@grep -q "the stores are not document 01's" target/board/unmarked.log || { cat target/board/unmarked.log >&2; exit 1; }
	@echo "trace: unmarked stores are refused: $$(tail -n 1 target/board/unmarked.log | tr -s '[:space:]' ' ')"
	@board/assembly/test
	@board/user/test
	@board/bare/test

# the host side's own tests, a C program against the header alone, calls by the million, any values for half a minute, and small slips in
# `plain` that the comparison must find
host: command
	@cd host && cargo test --quiet --features proved >$(CURDIR)/target/host-tests.log 2>&1 || { cat $(CURDIR)/target/host-tests.log; exit 1; }
	@awk '/^test result/ { n += $$4 } END { print "host: " n " tests pass" }' target/host-tests.log
	@cd host && cargo check --quiet -p mpt-monitor --no-default-features
	@tools/need --lean chromium >/dev/null 2>&1 || true
	@host/mpt/tests/html.sh $(mpt)
	@host/c/run.sh $(library)
	@$(mpt) cases >/dev/null
	@$(mpt) run --both examples/cradles.mpt >/dev/null
	@$(mpt) apart --both examples/cradles.mpt >/dev/null
	@$(mpt) test --count 2000000 >target/test.log || { cat target/test.log; exit 1; }
	@sed -n '1,2p;$$p' target/test.log
	@$(mpt) fuzz --seconds 30
	@tests/mutants/run >target/mutants.log || { cat target/mutants.log; exit 1; }
	@tail -n 1 target/mutants.log

# optional: calls with any values whatever, for SECONDS seconds
SECONDS := 60
fuzz: command
	@$(mpt) fuzz --seconds $(SECONDS)
