# run: proves what the program needs, then runs it; TASKS are its words, as in `make run TASKS=script < calls.txt`
# test: the gate
TASKS ?=

.PHONY: run test

run:
	@cd crates/yisturan && mkdir -p out && rt run -- $(TASKS) 2> out/run.log || { cat out/run.log >&2; exit 1; }

test:
	@.ci/run
