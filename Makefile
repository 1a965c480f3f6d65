# Proves, builds, runs, tests, installs and measures rv. Each target works from a clean clone.
PREFIX ?= /usr/local
PROGRAM = crates/rv_app/out/rv_app
# the program for tests
STEPS = crates/rv_steps/out/rv_steps

.PHONY: run demo test check edits torture soak install deb package-test site bench build

# the four answers of the first example, and a hand-over between two programs, by the proved program
run: build
	@$(PROGRAM) book --epoch 1 < examples/first.in
	@echo
	@tools/handover.py $(PROGRAM)

# a hand-over over a bad link, told in plain words: a minute or two after a clone, by code that nothing has proved yet
demo:
	@command -v python3 > /dev/null || { echo "python3 is missing: the demo is written in it" >&2; exit 1; }
	@tools/demo.py

# the gate: proofs, edits and tests, the built program from outside, the documents; the last line counts all of them.
# rt ci keeps what it passed: a later gate proves and tries what changed and the crates above it; tools/gate.py --anew does all
test:
	@command -v python3 > /dev/null || { echo "python3 is missing: the gate is written in it" >&2; exit 1; }
	@tools/gate.py

# what changed since the last check is proved, and the program run from outside: for who writes, and no gate
check:
	@command -v python3 > /dev/null || { echo "python3 is missing: the check is written in it" >&2; exit 1; }
	@tools/check.py

# the edits beside the gate's, each of which the prover must refuse, and those that a test must see;
# NAMES="rv_text .." tries those of some crates
edits:
	@command -v python3 > /dev/null || { echo "python3 is missing: the script is written in it" >&2; exit 1; }
	@tools/edits.py $(NAMES)

# the built program in a hostile system and over spoilt bytes, for an hour or SECONDS; with STORE=1 hosts that keep a store, and crowds
# in whose midst they are killed
torture: build
	@command -v python3 > /dev/null || { echo "python3 is missing: the script is written in it" >&2; exit 1; }
	@python3 -B -m tests $(if $(STORE),host.run_stores --times 2,faults.torture) --seconds $(or $(SECONDS),3500) --program $(PROGRAM)

# rv host under crowds on bad links, whose clients are killed, for ten minutes or SECONDS, beside 400 or PEERS peers that send without
# end or take no answers; then 20,000,000 entries, or ENTRIES. With STORE, a folder that stays, under the crowds alone, and killed each
# minute
soak: build
	@command -v python3 > /dev/null || { echo "python3 is missing: the script is written in it" >&2; exit 1; }
	@python3 -B -m tests.host.soak $(PROGRAM) --seconds $(or $(SECONDS),600) $(if $(STORE),--store "$(STORE)") \
	  --peers $(or $(PEERS),$(if $(STORE),0,400)) --entries $(or $(ENTRIES),$(if $(STORE),0,20000000))

# the proved program, as PREFIX/bin/rv
install: build
	@mkdir -p "$(PREFIX)/bin"
	@cp $(PROGRAM) "$(PREFIX)/bin/rv"
	@chmod 755 "$(PREFIX)/bin/rv"

# the proved program as a Debian package, and as a tar of the same files, in out/
deb: build
	@command -v python3 > /dev/null || { echo "python3 is missing: tools/deb.py is written in it" >&2; exit 1; }
	@tools/deb.py $(PROGRAM)

# that package, installed, used and removed in a bare Debian: it needs root, and debootstrap with a network, or a Debian in the folder BARE
package-test: deb
	@python3 -B -m tests.package.tried out/rv_*_amd64.deb $(BARE)

# the documents as pages for a browser, from out/site/index.html on: it needs Debian's cmark-gfm
site:
	@command -v python3 > /dev/null || { echo "python3 is missing: tools/website.py is written in it" >&2; exit 1; }
	@python3 -B -m tools.website

# what a machine and rv verify take as entries grow, and what a machine holds; what a hub's connection holds and its events cost; a
# journal's piece, and a start of a store after 10,000,000 entries; the instructions of a line, if valgrind is there;
# lines a second and memory a line, beside a plain loop that reads and writes the same JSON; what a line costs in full tables,
# with OLD=PROGRAM beside that of another build; and rv host, with an account and a store too, beside redis-server and that build,
# and what its status page costs. What is synced is in out/, which has to be on a disk
bench: build
	@command -v python3 > /dev/null || { echo "python3 is missing: the measurement is written in it" >&2; exit 1; }
	@tools/build.py rv_steps
	@tools/bench/months.py $(STEPS)
	@tools/bench/held.py $(STEPS)
	@tools/bench/hubs.py $(STEPS)
	@tools/bench/journal.py $(STEPS)
	@tools/bench/store.py $(PROGRAM) $(STEPS)
	@tools/bench/verified.py $(PROGRAM)
	@tools/bench/instructions.py $(PROGRAM) $(STEPS)
	@tools/bench/bench.py $(PROGRAM) $(STEPS) $(if $(OLD),--old $(OLD))
	@tools/bench/host.py $(PROGRAM) $(if $(OLD),--old $(OLD))
	@tools/bench/status.py $(PROGRAM)

# the proved program: as it is where its mark fits the sources, else proved and built
build:
	@command -v python3 > /dev/null || { echo "python3 is missing: tools/build.py is written in it" >&2; exit 1; }
	@tools/build.py rv_app
