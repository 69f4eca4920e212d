# make run        checks a draft against a contract: YES, NO with a run, or a refusal (DRAFT=, CONTRACT=)
# make table      writes the widest table of the two to TABLE
# make recheck    checks TABLE against the two
# make implementation  says whether a draft is an implementation: YES or a refusal (DRAFT=)
# make join       joins two contracts and writes them as one text to JOINED (LEFT=, RIGHT=)
# make picture    shows the widest table as a picture (needs Netpbm)
# make test       the gate: proves every crate, tries every must-fail edit, runs the programs; what a run passed on
#                 this machine before, and what has not changed since, is not proved again
# make definitions  holds docs/ against the files (needs python3)
# make programs   runs the five programs on some hundred pairs of files (needs python3)
# make cases      writes the stored cases of the test programs anew (needs python3)
# make library    the archive for C and Rust; c-example, differential and bench use it (cc; cargo)
# make c-example  a C program over it: checks a draft against a contract at a tick length in milliseconds (TICK=, else 1)
# make c-join     the same program joins LEFT and RIGHT at that tick length and writes them to JOINED
# make shared     the archive as a shared object, which bench and compare take as an older build (MEGZHOI_BEFORE=)
# make compare    holds the library against the older build that MEGZHOI_BEFORE names, on some thousand pairs of texts
DRAFT ?= examples/Rearm.xta
CONTRACT ?= examples/Post.xta
# The file of the table; c-example writes one only where TABLE is given.
TABLE_FILE := $(or $(TABLE),target/run/table.pbm)
PICTURE ?= target/run/table.png
# Two contracts to be joined, and the file of the joined text.
LEFT ?= examples/Loose.xta
RIGHT ?= examples/Early.xta
JOINED ?= target/run/joined.xta
# The tick length of c-example and c-join; the programs of `make run` and the others read with 1.
TICK ?= 1
LIBRARY := target/staticlib/libmegzhoi_c.a
SHARED := target/staticlib/libmegzhoi_c.so

.PHONY: run table recheck implementation join picture test definitions programs cases library shared c-example c-join
.PHONY: differential compare bench

run:
	@scripts/ask megzhoi "$(DRAFT)" "$(CONTRACT)"

table:
	@scripts/table "$(DRAFT)" "$(CONTRACT)" "$(TABLE_FILE)"

recheck:
	@[ -f "$(TABLE_FILE)" ] || { echo "there is no table $(TABLE_FILE): make table writes one" >&2; exit 2; }
	@scripts/ask recheck "$(DRAFT)" "$(CONTRACT)" "$(TABLE_FILE)"

implementation:
	@scripts/ask implementation "$(DRAFT)"

join:
	@scripts/join "$(LEFT)" "$(RIGHT)" "$(JOINED)"

picture: table
	@scripts/picture "$(TABLE_FILE)" "$(PICTURE)"

test:
	@.ci/run

# No definition that docs/PROMISES.md lists rests on one that it does not list, and it lists every division that is left.
definitions:
	@python3 tests/definitions.py
	@python3 tests/divisions.py

# The programs on some hundred pairs of files, all that they print compared with an independent reading in Python.
programs:
	@for program in megzhoi widest recheck implementation join; do scripts/prove $$program || exit 1; done
	@python3 tests/programs.py

# Writes the stored cases of the test programs, and what is expected of them, anew.
cases:
	@python3 tests/make_cases.py

library: $(LIBRARY)

# rt keeps copies of sources in each crate's out/; they are no prerequisites.
$(LIBRARY): crates.txt $(shell find crates -name out -prune -o \( -name '*.rt' -o -name '*.antt' \) -print)
	@scripts/prove megzhoi_c staticlib

# Kept aside, it is the older build for a later library.
shared: library
	@$(CC) -shared -o $(SHARED) -Wl,--whole-archive $(LIBRARY) -Wl,--no-whole-archive

target/run/c-example: $(LIBRARY) library/example.c library/megzhoi.h
	@mkdir -p target/run
	@$(CC) -std=c11 -O2 -Wall -Wextra -Werror -o $@ library/example.c $(LIBRARY)

# The program's status is 0 for YES, 1 for NO and 2 for a refusal or a fault: YES and NO are both answers.
c-example: target/run/c-example
	@target/run/c-example --tick "$(TICK)" "$(DRAFT)" "$(CONTRACT)" $(if $(TABLE),"$(TABLE)") || { status=$$?; [ $$status = 1 ] || exit $$status; }

c-join: target/run/c-example
	@target/run/c-example --tick "$(TICK)" --join "$(LEFT)" "$(RIGHT)" "$(JOINED)"

differential: library
	@cargo test --offline --release --quiet --package plain --package megzhoi
	@cargo run --offline --release --quiet --package differential

compare: library
	@cargo run --offline --release --quiet --package differential -- before

# With MEGZHOI_BEFORE=FILE every table shows an older build, a shared object, beside this one.
bench: $(if $(MEGZHOI_BEFORE),shared,library)
	@$(if $(MEGZHOI_BEFORE),MEGZHOI_AFTER=$(SHARED)) cargo run --offline --release --quiet --package bench
