# `make` prints what a contributor can do. ARGS are the words of a command: make test ARGS=--changed.
.PHONY: help $(MAKECMDGOALS)

help:  ## print this list
	@awk -F ':  ## ' 'NR == 1 { print substr($$0, 3) "\nARGS=--help prints what a command does, and its words." } \
	    /^## / { print "\n" substr($$0, 4) } \
	    /^[a-z].*:  ## / { printf("  %-15s%s%s\n", $$1, (length($$1) > 15 ? "\n" sprintf("%18s", "") : " "), $$2) }' \
	    Makefile

## Change, test and prove
try:  ## build out/tried/naplps of the sources as they are, with no proof
	python3 -m dev.try_change $(ARGS)
test:  ## run the tests by pytest; --changed: those that your change needs
	pytest $(ARGS)
prove:  ## prove the crates that are named, and those below them, with their tests and edits; all if none is named
	rt ci $(ARGS)
test-all:  ## prove every crate, and run all tests: the gate
	scripts/test-all $(ARGS)
tools:  ## print what the tests need and don't find here; --install installs it
	python3 -m dev.tools $(ARGS)

## Write again what is made of other files
keep:  ## copy the proved program and library into dist; --comments: where comments alone changed
	python3 -m dev.keep $(ARGS)
browser:  ## the page naplps.html and the scripts of players, after a change in browser/ or python/
	python3 -m dev.browser --page $(ARGS)
vectors:  ## the answers in vectors/*.rows, of two other readers, in the folder READINGS
	python3 -m dev.make_vectors $(ARGS)
gallery:  ## examples/gallery.html, of the pages in examples
	python3 -m dev.gallery $(ARGS)
completions:  ## completions of naplps-pages and synopses of its manual, of its commands
	python3 -m dev.completions $(ARGS)
refusals:  ## the refusals in man/naplps.1, of python/naplps_pages/refusals.txt
	python3 -m dev.manual_refusals $(ARGS)
promises:  ## compare the wrong bodies in docs/PROMISES.md with their list; --write writes them
	python3 -m dev.promises $(ARGS)

## Install and pack
install:  ## install the program, naplps-pages and the library under a PREFIX
	scripts/install $(ARGS)
package:  ## make the Debian packages in out, or in a FOLDER
	python3 -m dev.package $(ARGS)

## Try proofs and tests themselves
wrong-bodies:  ## have the prover try wrong bodies that have no verdict; or CRATE, CRATE/EDIT
	python3 -m dev.wrong_bodies $(ARGS)
plant:  ## have the toolchain plant wrong bodies, and compare what gets through
	python3 -m dev.plant $(ARGS)
streams:  ## try the wrong bodies of the gate by two streams each
	python3 -m dev.try_streams $(ARGS)
faults:  ## plant faults in a copy, and see whether the tests find them
	python3 -m dev.try_faults $(ARGS)
bare-systems:  ## as root: try a clone in bare Debian systems, which are made in a FOLDER
	python3 -m dev.try_bare_systems $(ARGS)
fuzz-library fuzz-lines:  ## compare the library with the program, and with a model of lines, by chance
	python3 -m dev.$(subst -,_,$@) $(ARGS)

## Measure
measure-speed measure-module measure-pages measure-scale:  ## commands and library, the module, scans, large collections
	python3 -m dev.$(subst -,_,$@) $(ARGS)
measure-box measure-wall:  ## in Chromium: the page with a box of files, and the wall of a served report
	python3 -m dev.$(subst -,_,$@) $(ARGS)
measure-worst-pages measure-worst-pictures:  ## what costs most: time and memory
	python3 -m dev.$(subst -,_,$@) $(ARGS)
sources-sum:  ## checksums of the sources
	python3 -m dev.sources_sum $(ARGS)
