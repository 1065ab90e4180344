RT = rt
# the program that `make test` tests and `make install` installs: the released one, unless this names another
PROGRAM =
# the kind of processor that `make build` builds for: empty, which is the kit's x86-64-v2, or x86-64-v3, which has vectors of
# twice the width. A program for x86-64-v3 checks when it starts whether the processor has them
CPU =
# how many proofs `make prove` does side by side. By its own reckoning of memory `rt ci` does fewer: it counts 5 to 9 GB for
# most upper crates, and none took more than 2.5 GB
JOBS = $(shell nproc)
# where `make install` puts the program, its manual page, its completions and the licences
PREFIX = /usr/local
DESTDIR =

# Python then writes no files of its own into tools/ and tests/
export PYTHONDONTWRITEBYTECODE = 1

.PHONY: run test install uninstall prove compare release build quick try wrong bench need_rt need_python

# Without the kit: the released program, release/droid_desk.

# Checks the released program, puts it below out/, and runs two short scripts on it: four requests, and a file in pieces with
# its export. It takes some seconds and builds nothing.
run: need_python
	@python3 tools/release.py run

# Tests the program. It names what is missing on this machine for some tests; with INSTALL=1, as root, it installs that by
# apt-get.
test: need_python
	@sh tests/run.sh $(PROGRAM)

# Installs the program below $(DESTDIR)$(PREFIX), with a manual page, completions for bash and licences.
install: need_python
	@python3 $(if $(PROGRAM),tools/install.py $(PROGRAM),tools/release.py install) $(DESTDIR)$(PREFIX)

# Removes these files again.
uninstall: need_python
	@python3 tools/install.py --remove $(DESTDIR)$(PREFIX)

# Measures the dear calls: a large registry, identification, large exports, a large store, files in pieces, profiles and
# submissions of folders, repeats, and the dearest requests of a client; with the same in Python beside it.
bench: need_python
	@DROID_DESK=$(if $(PROGRAM),$(abspath $(PROGRAM)),$$(python3 tools/release.py path)) sh tests/bench/run.sh

# With the kit.

# The gate: proves everything from nothing, tries the wrong bodies of must-fail/, runs the tests of the crates and refuses
# them memory. `rt ci` leaves the libraries, the program and the built tests in each crate's out/; `make quick`, `make
# wrong` and `make build` take them from there.
prove: need_rt need_python
	@RT=$(RT) python3 tools/proved.py begin
	RT_JOBS=$(JOBS) $(RT) ci
	@RT=$(RT) python3 tools/proved.py note
	@python3 tools/release.py note
	MODULES=growths sh tests/memory/run.sh $(CURDIR)/crates/droid_desk/out/droid_desk

# Compares the released program with the one that `make prove` has just proved and built, byte by byte.
compare: need_python
	@python3 tools/release.py compare

# Writes release/ from the program that `make prove` has just proved and built. It builds nothing.
release: need_rt need_python
	@python3 tools/release.py make

# Proves and builds the program as crates/droid_desk/out/droid_desk. If nothing has changed, it does nothing.
build: need_rt need_python
	@RT=$(RT) python3 tools/build.py droid_desk $(CPU)

# Before a commit: checks that the map fits the crates' files, lays out and proves the crates that changed, checks that their
# wrong bodies apply and compile, and runs the tests of their families without a proof. It compares with the last commit, or
# with BASE=commit. With ABOVE=1 it also proves the crates above.
quick: need_rt need_python
	@RT=$(RT) python3 tools/quick.py $(if $(ABOVE),--above) $(BASE)

# Builds the program as out/try/droid_desk in minutes, without a proof: nothing of it is proved. `make test
# PROGRAM=out/try/droid_desk` tests it.
try: need_rt need_python
	@RT=$(RT) python3 tools/try.py

# Checks that the prover refuses every wrong body, those of wrong-bodies/ too. It tries all, or those of CRATES="a b", or
# with BASE=commit those of the crates that changed since that commit and of the crates above them. One check tries many.
# After an interrupt it resumes; with ANEW=1 it begins anew.
wrong: need_rt need_python
	@RT=$(RT) python3 tools/wrong.py $(if $(BASE),--base $(BASE)) $(if $(ANEW),--anew) $(CRATES)

need_rt:
	@command -v $(RT) > /dev/null 2>&1 || { \
	    echo "rt is missing: it belongs to the Rattle kit, which is not public; without it, use make run, make test and make install" >&2; exit 1; }

need_python:
	@command -v python3 > /dev/null 2>&1 || { echo "python3 is missing: install Python 3.8 or later" >&2; exit 1; }
