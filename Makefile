# What each target needs and takes is in README.md (make test, make test-long, make gate) and CONTRIBUTING.md (the others).
.PHONY: all test test-long gate dist packages planted mutants

# proves what changed in the program's crates, and builds crates/mkstrike/out/mkstrike
all:
	cd crates/mkstrike && rt all check --jobs $$(../../tools/gate_time lanes)
	cd crates/mkstrike && rt run <stdin >/dev/null

# all that needs no kit: rules, documents, packages, the suite, the program of dist/, the library in C, Python and the page
test:
	tools/run_checks --stale sources program

# the rest that needs none, which takes long: fuzzing, damaged fonts, and whether the checks find what is wrong
test-long:
	tools/run_checks long

# what a change has to pass
gate:
	.ci/run

# dist/ from the proved build of these sources
dist:
	tools/make_dist

# Debian packages, a wheel and a tarball, of dist/
packages:
	packaging/build

# the edits that must fail and that the gate leaves out, over the proofs that `rt check` kept here
planted:
	tools/try_planted

# how many small faults of the sources the tests find, 300 a part, before a release: hours
mutants:
	tools/mutate --sample 300 python suite reference judges c examples bench web
