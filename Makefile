# Every target is described in `help`, which is what a bare `make` prints.
.PHONY: help demo build install uninstall clean test compare bench
PREFIX ?= /usr/local
DESTDIR ?=

help:
	@echo 'make demo            prove the library and the report program, build both, run the example: some minutes from nothing'
	@echo 'make build           prove and build them: target/native has the archive, the shared library and the program'
	@echo 'make install         build, and put library, header, outlines.pc, program and bindings under PREFIX ($(PREFIX)); DESTDIR=D puts them under D first'
	@echo 'make uninstall       take them away again; give the same PREFIX and DESTDIR'
	@echo "make test            the gate: every proof, must-fail edit and test; the last line is 'N passed, 0 failed'"
	@echo 'make compare         compare the built library and program with the second program; SEED=S for other cases'
	@echo 'make compare LONG=1  compare 20,000 long rings and lines, 25 minutes of one core, 2,000 closed ones and 2,000 scanned both ways; SEED=S for others'
	@echo 'make bench           time the library beside the same rules in C and Rust and their limit, 3 minutes; writes docs/BENCH.md and docs/bench.svg'
	@echo 'make clean           remove target/, where everything is built, crates/*/out, where rt keeps its work, and what cargo built by hand'

demo:
	@tools/demo

build:
	@tools/native

install:
	@tools/install --check '$(PREFIX)' '$(DESTDIR)'
	@tools/native
	@tools/install '$(PREFIX)' '$(DESTDIR)'

uninstall:
	@tools/install --remove '$(PREFIX)' '$(DESTDIR)'

clean:
	@rm -rf target crates/*/out compare/target bindings/rust/target

test:
	@tools/gate

compare:
	@tools/native
	@tools/compare $(if $(LONG),--long) $(if $(SEED),--seed $(SEED))

bench:
	@tools/bench
