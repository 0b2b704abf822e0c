# run: document 01's twelve cases.  test: the gate.  bench: figures against an ordinary translator.
# install: header, libraries, pkg-config file and program, under PREFIX.
.PHONY: run test bench install
export PREFIX DESTDIR

run:
	@packaging/kit || true
	cd crates/bench && rt run

test:
	bash .ci/run

bench:
	tests/run-bench

install:
	packaging/install
