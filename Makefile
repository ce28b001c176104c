# run: the demo; test: the gate, as it is run before every landing
.PHONY: run test

run:
	@echo "Proving and building the demo (a minute or two on a fresh machine; nothing to do when it has been built) .."
	@mkdir -p target
	@cd crates/demo && rt run 2> ../../target/run.log || { cat ../../target/run.log; exit 1; }

test:
	.ci/run
