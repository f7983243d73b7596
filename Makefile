# make help says what there is.
.DEFAULT_GOAL := help
include hosts/host.mk packaging/package.mk

.PHONY: help test list clean

define HELP
make TARGET, with
  test        the gate: every proof, must-fail edits, recorded runs, then host-test
  list        lists a file of payloads, IN=FILE; without IN the sample
  host        the library: target/staticlib/libmoult.a and target/host/libmoult.so.$(MAJOR)
  install     header, libraries, list, moult.pc, CMake package and man pages into PREFIX ($(PREFIX))
  dist        the same as a tar file with a manifest, in target/dist
  example     builds the C examples and runs them
  host-test   the tests of the library from C and Rust, installed and as a tar file
  vectors     the recorded cases in all their forms, from tests/cases
  fuzz        the fuzzer, for SECONDS=60 (needs clang)
  bench       the benchmark (ONLY=WORD: the lines that have the word; BEFORE=COMMIT: that commit's library beside it)
  clean       removes target/ and crates/*/out, the proofs with them
What is proved is not proved again until it changes; from nothing that takes some minutes.
MOULT_LIB=FILE and MOULT_LIST=FILE name another static library and listing program to test or install.
endef

help:
	$(info $(HELP))
	@:

test:
	.ci/run

# The name may have spaces, and signs that make or the shell would take for their own.
IN ?= crates/list/stdin
export LIST_IN := $(value IN)

list: $(MOULT_LIST)
	@$(MOULT_LIST) "$$LIST_IN"

clean:
	rm -rf target crates/*/out
