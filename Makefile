# Proves, builds, installs and tests; `make help` lists the targets.

VERSION = 0.3.0
PREFIX = /usr/local
DESTDIR =
CC = gcc

ARCHIVE = crates/robots/out/librobots.a
PROGRAM = crates/robots_decide/out/robots_decide
SHARED = target/shared/librobots.so
MADE = $(wildcard crates/*/out) target conformance/target bindings/rust/target bindings/python/__pycache__

# folders too, which are newer once a file is removed, but not the crates' own, which are newer once rt makes an out/
SOURCES := crates.txt $(shell find crates -mindepth 2 -path 'crates/*/out' ! -path 'crates/*/*/out' -prune -o -print)
ROOT = $(DESTDIR)$(PREFIX)

.PHONY: all shared install test quick must-fail figures benchmark clean help tools prefix

# two rt that work in the same folder wait for each other
.NOTPARALLEL:

# rt run knows by itself what is up to date, and asks the program its example; rt lib proves the exported functions each
# time
# a program that rt leaves as it was gets a new date, by which bin/robots-decide knows it
all: $(ARCHIVE)
	cd crates/robots_decide && rt run <stdin >/dev/null
	@touch -c $(PROGRAM)
	@echo "made $(ARCHIVE) and $(PROGRAM)"

$(ARCHIVE): $(SOURCES) target/rt-version
	cd crates/robots && rt lib

# another toolchain makes another archive
target/rt-version: tools
	@mkdir -p target
	@rt version | cmp -s - $@ || rt version >$@

shared: $(SHARED)
	@echo "made $(SHARED)"

# -z defs: what the archive leaves open has to be in the C library
$(SHARED): $(ARCHIVE)
	mkdir -p target/shared
	$(CC) -shared -Wl,-soname,librobots.so -Wl,-z,defs -Wl,--whole-archive $(ARCHIVE) -Wl,--no-whole-archive -o $@

install: prefix all shared
	mkdir -p "$(ROOT)/include" "$(ROOT)/lib/pkgconfig" "$(ROOT)/bin"
	install -m 644 include/robots.h "$(ROOT)/include/robots.h"
	install -m 644 $(ARCHIVE) "$(ROOT)/lib/librobots.a"
	install -m 755 $(SHARED) "$(ROOT)/lib/librobots.so"
	sed -e 's|@PREFIX@|$(PREFIX)|' -e 's|@VERSION@|$(VERSION)|' robots.pc.in >target/robots.pc
	install -m 644 target/robots.pc "$(ROOT)/lib/pkgconfig/robots.pc"
	install -m 755 $(PROGRAM) "$(ROOT)/bin/robots_decide"
	@echo "installed robots.h, librobots.a, librobots.so, robots.pc and robots_decide in $(ROOT)"

test:
	./test.sh

# what test.sh runs, but with rt all test for rt ci: nothing is proved again that is unchanged, and no edit is tried
quick:
	sh conformance/gate/sources.sh
	rt all test
	sh conformance/gate/tests.sh
	@echo "make quick: passed; 'make must-fail CRATE=NAME' tries a crate's edits, and 'make test' is the gate"

# the environment keeps what CRATE holds from being read as a command
export CRATE
must-fail:
	@sh conformance/gate/must-fail.sh "$$CRATE"

# the table of crates in docs/PROOFS.md
figures:
	@python3 -B conformance/gate/figures.py

# library beside plain C, and docs/benchmark.svg; it asserts nothing about time
benchmark: $(ARCHIVE)
	cargo run --release --manifest-path conformance/Cargo.toml -p benchmark --offline --locked -- table

clean:
	rm -rf $(MADE)
	@echo "removed $(MADE)"

help:
	@echo "make                      prove and build $(ARCHIVE) and $(PROGRAM)"
	@echo "make shared               the same library as $(SHARED)"
	@echo "make install PREFIX=/usr  install header, library, robots.pc and program; DESTDIR is put before PREFIX"
	@echo "make test                 run all tests, as the gate does: rt ci proves every crate and tries every must-fail edit"
	@echo "make quick                rt all test and all tests but the must-fail edits, over what earlier runs proved"
	@echo "make must-fail CRATE=walk try the must-fail edits of one crate"
	@echo "make figures              print functions, lines and edits of each crate"
	@echo "make benchmark            print time and instructions of library and plain C, and draw docs/benchmark.svg"
	@echo "make clean                remove what was built"

tools:
	@for tool in rt $(firstword $(CC)); do \
	    command -v "$$tool" >/dev/null || \
	        { echo "make: $$tool is not installed; see README.md, 'What you need'" >&2; exit 2; }; \
	done

# robots.pc names it, so it can neither depend on the folder nor hold what sed or pkg-config reads otherwise
export PREFIX
prefix:
	@case "$$PREFIX" in \
	    [!/]* | '' | *[!A-Za-z0-9/._+~@-]*) \
	        echo "make install: give PREFIX as a whole path of plain letters, such as PREFIX=/usr/local" >&2; exit 2 ;; \
	esac
