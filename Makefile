# d64sh: `make run` runs the main job, without proofs if nothing is built yet, and `make test` all tests, always without; `make` proves and builds,
# `make check` is the gate, `make quick` checks what differs since the gate was green, `make wrong-bodies` tries all wrong bodies, `make bench` measures;
# `make install` and `make uninstall` put it below PREFIX and take it away again; `make dist` packs what others install.
PREFIX ?= /usr/local
# a ~ that the shell left as it is
override PREFIX := $(patsubst ~/%,$(HOME)/%,$(PREFIX))
RT ?= rt
export RT PREFIX DESTDIR
NEEDS_RT = command -v $(RT) >/dev/null 2>&1 || { echo "d64sh: the Rattle toolchain is needed: put its command rt on the PATH" >&2; exit 2; }
PROGRAM = crates/d64sh/out/d64sh
# the program is there, and no source is newer
IS_BUILT = [ -x $(PROGRAM) ] && [ -z "$$(find crates -name '*.rt' -newer $(PROGRAM))" ]

.PHONY: all run test check quick wrong-bodies bench install uninstall dist

# by rt ci, which keeps on this machine what it proved
all:
	@$(NEEDS_RT)
	@scripts/build
	@touch $(PROGRAM)

# with the program that is built, or else with one that is checked as it runs and not proved
run:
	@$(IS_BUILT) || { $(NEEDS_RT); }
	@scripts/run-example

# all tests, worked examples and examples of the pages, without proofs
test:
	@$(NEEDS_RT)
	@scripts/tests

check:
	@$(NEEDS_RT)
	@scripts/gate

# no replacement for `make check`: it says what it leaves out
quick:
	@$(NEEDS_RT)
	@scripts/quick

# all of them, or CRATES="d64_map d64_dos/write-that-trusts-the-map"
wrong-bodies:
	@$(NEEDS_RT)
	@scripts/wrong-bodies $(CRATES)

bench: all
	@bench/measure $(PROGRAM)

# needs the toolchain only if the program has to be built first
install:
	@$(IS_BUILT) || $(MAKE) --no-print-directory all
	@install -D -m 755 $(PROGRAM) "$$DESTDIR$$PREFIX/bin/d64sh"
	@packaging/place --docs "$$DESTDIR$$PREFIX"

uninstall:
	@rm -f "$$DESTDIR$$PREFIX/bin/d64sh"
	@packaging/place --remove "$$DESTDIR$$PREFIX"

# into out/dist; `packaging/try-dist out/dist` then installs it in a clean root, which needs to be root and the network
dist:
	@$(IS_BUILT) || $(MAKE) --no-print-directory all
	@packaging/dist $(PROGRAM) out/dist
