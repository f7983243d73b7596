# The library for C and Rust hosts: static and shared, its tests, the examples, the fuzzer and the benchmark.
# MOULT_LIB and MOULT_LIST name another build of the static library and of the listing program to test, measure or install.

MOULT_LIB ?= target/staticlib/libmoult.a
MOULT_LIST ?= crates/list/out/list
HOST_OUT := target/host
C_FLAGS := -std=c11 -O2 -Wall -Wextra -Wpedantic -Werror -Iinclude
CXX_FLAGS := -std=c++17 -O2 -Wall -Wextra -Wpedantic -Werror -Iinclude
SECONDS ?= 60

# The header has the version.
VERSION_NUMBER := $(shell sed -n 's/^.define MOULT_VERSION //p' include/moult.h)
MAJOR := $(shell echo $$(($(VERSION_NUMBER) / 10000)))
VERSION := $(MAJOR).$(shell echo $$(($(VERSION_NUMBER) / 100 % 100)).$$(($(VERSION_NUMBER) % 100)))
MOULT_SO := $(HOST_OUT)/libmoult.so.$(MAJOR)

space := $() $()

# What is not built here, as words for make.
GIVEN := $(if $(filter target/staticlib/libmoult.a,$(MOULT_LIB)),,MOULT_LIB=$(abspath $(MOULT_LIB))) \
	$(if $(filter crates/list/out/list,$(MOULT_LIST)),,MOULT_LIST=$(abspath $(MOULT_LIST)))

# rt is to run once at a time.
.NOTPARALLEL:
.PHONY: host example vectors fuzz bench
.PHONY: host-test host-c-test host-rust-test vectors-test listing-test make-test install-test dist-test

FORCE:

$(HOST_OUT):
	@mkdir -p $@

# What is linked with the library is linked again where MOULT_LIB (or BEFORE, below) names another one than the last time.
LINKED := $(MOULT_LIB) $(HOST_OUT)/moult_lib

$(HOST_OUT)/moult_lib: FORCE | $(HOST_OUT)
	@echo '$(MOULT_LIB) $(BEFORE)' | cmp -s - $@ || echo '$(MOULT_LIB) $(BEFORE)' > $@

# ---- the library and the listing program. What rt says goes to standard error.

# files_of CRATE: what its proof depends on.
files_of = crates.txt $(shell find /dev/null $(wildcard $(foreach crate,$(1) $(shell sed -n 's/^$(1)\b[^:]*://p' crates.txt),\
	$(foreach part,src specs proofs,crates/$(crate)/$(part)))) -type f)

host: $(MOULT_LIB) $(MOULT_SO)
	@echo $^

target/staticlib/libmoult.a: $(call files_of,moult_c)
	cd crates/moult_c && rt lib >&2
	@mkdir -p $(@D)
	@cp crates/moult_c/out/libmoult_c.a $@

# rt runs it, too, and leaves it as it is where nothing has changed but the files' times.
crates/list/out/list: $(call files_of,list)
	@cd crates/list && rt run < /dev/null >&2
	@touch $@

# It exports moult.h's functions and needs the C library alone, for memcpy and memset.
$(MOULT_SO): $(LINKED) packaging/moult.map
	gcc -shared -nostdlib -Wl,-soname,$(@F) -Wl,--version-script=packaging/moult.map -Wl,-z,defs -Wl,-z,now \
		-Wl,--whole-archive $(MOULT_LIB) -Wl,--no-whole-archive -lc -o $@

# ---- tests

host-test: host-c-test host-rust-test vectors-test listing-test make-test install-test dist-test

SECOND_C := second/c/payload.c second/c/settings.c second/c/fields.c second/c/journal.c second/c/record.c
TEST_HEADERS := include/moult.h second/c/second.h tests/c/check.h tests/c/compare.h
VECTORS := $(patsubst %,tests/vectors/%.jsonl,payload writer views session time settings fields journal record)

host-c-test: $(addprefix $(HOST_OUT)/,abi_c abi_cxx abi_shared compare vectors vectors_second list)
	$(HOST_OUT)/abi_c
	$(HOST_OUT)/abi_cxx
	$(HOST_OUT)/abi_shared
	$(HOST_OUT)/compare
	$(HOST_OUT)/vectors $(VECTORS)
	$(HOST_OUT)/vectors_second $(VECTORS)
	tests/c/example_test.sh $(HOST_OUT)/list

$(HOST_OUT)/abi_c: tests/c/abi_test.c $(TEST_HEADERS) $(LINKED)
	gcc $(C_FLAGS) $< $(MOULT_LIB) -o $@

$(HOST_OUT)/abi_cxx: tests/c/abi_test.c $(TEST_HEADERS) $(LINKED)
	g++ $(CXX_FLAGS) -x c++ $< -x none $(MOULT_LIB) -o $@

$(HOST_OUT)/abi_shared: tests/c/abi_test.c $(TEST_HEADERS) $(MOULT_SO)
	gcc $(C_FLAGS) $< $(MOULT_SO) -Wl,-rpath,$(abspath $(HOST_OUT)) -o $@

$(HOST_OUT)/compare: tests/c/compare_test.c tests/c/compare.c $(SECOND_C) $(TEST_HEADERS) $(LINKED)
	gcc $(C_FLAGS) -Isecond/c $(filter %.c,$^) $(MOULT_LIB) -o $@

$(HOST_OUT)/vectors: tests/c/vectors_test.c $(TEST_HEADERS) $(LINKED)
	gcc $(C_FLAGS) $< $(MOULT_LIB) -o $@

# The second implementation is held to the recorded cases, too.
$(HOST_OUT)/vectors_second: tests/c/vectors_test.c $(SECOND_C) $(TEST_HEADERS) | $(HOST_OUT)
	gcc $(C_FLAGS) -DSECOND -Isecond/c $(filter %.c,$^) -o $@

$(HOST_OUT)/list_second: second/c/list.c second/c/payload.c $(TEST_HEADERS) | $(HOST_OUT)
	gcc $(C_FLAGS) -D_GNU_SOURCE -Isecond/c $(filter %.c,$^) -o $@

# The listing program, the example and the second implementation over the recorded cases and over random input.
listing-test: $(MOULT_LIST) $(HOST_OUT)/list $(HOST_OUT)/list_second
	tests/c/listing_test $(HOST_OUT)/list_second $(HOST_OUT)/list $(MOULT_LIST)
	$(addsuffix $(space)$(MOULT_LIST),$(wildcard tests/c/list_program_test.sh))

CARGO_OUT := $(CURDIR)/target/cargo
CARGO_ENV := MOULT_LIB=$(abspath $(MOULT_LIB)) CARGO_TARGET_DIR=$(CARGO_OUT)
RUST_TESTS := $(wildcard hosts/rust/Cargo.toml hosts/rust/*/Cargo.toml)

host-rust-test: $(MOULT_LIB)
	set -e; for crate in $(RUST_TESTS); do \
		$(CARGO_ENV) cargo test --offline --release --manifest-path $$crate; \
	done

vectors:
	tests/vectors/make_vectors

vectors-test:
	tests/vectors/make_vectors --check

# The installed tree, by pkg-config and by CMake.
install-test: host $(MOULT_LIST)
	tests/package/install_test.sh $(GIVEN)

make-test: host $(MOULT_LIST)
	tests/package/make_test.sh $(GIVEN)

# Two builds are the same, octet for octet.
dist-test: host $(MOULT_LIST)
	tests/package/dist_test.sh $(GIVEN)

# ---- examples

example: $(HOST_OUT)/first $(HOST_OUT)/list
	$(HOST_OUT)/first 01 02 03 04 05 06 07 AA 01 FF 00 A0
	$(HOST_OUT)/list "$$LIST_IN"

$(HOST_OUT)/first $(HOST_OUT)/list: $(HOST_OUT)/%: examples/c/%.c include/moult.h $(LINKED)
	gcc $(C_FLAGS) $< $(MOULT_LIB) -o $@

# ---- the fuzzer: the library beside the second C implementation, by libFuzzer. Not part of the gate.

CLANG ?= clang
FUZZ_OUT := $(HOST_OUT)/fuzz
FUZZ_C := fuzz/fuzz.c tests/c/compare.c $(SECOND_C)

fuzz: $(FUZZ_OUT)/fuzz $(FUZZ_OUT)/make_seeds
	mkdir -p $(FUZZ_OUT)/corpus
	$(FUZZ_OUT)/make_seeds fuzz/seeds.txt $(FUZZ_OUT)/corpus
	$(FUZZ_OUT)/fuzz -max_total_time=$(SECONDS) -max_len=2048 -print_final_stats=1 \
		-artifact_prefix=$(FUZZ_OUT)/ $(FUZZ_OUT)/corpus

$(FUZZ_OUT)/fuzz: $(FUZZ_C) $(TEST_HEADERS) $(LINKED)
	@command -v $(CLANG) > /dev/null || { \
		echo "the fuzzer needs clang with libFuzzer (Debian: clang and libclang-rt-dev); CLANG names it" >&2; \
		exit 1; }
	@mkdir -p $(FUZZ_OUT)
	$(CLANG) -std=gnu11 -O2 -g -Wall -Wextra -Iinclude -Isecond/c -Itests/c -fsanitize=fuzzer,address,undefined \
		$(FUZZ_C) $(MOULT_LIB) -o $@

$(FUZZ_OUT)/make_seeds: fuzz/make_seeds.c
	@mkdir -p $(FUZZ_OUT)
	gcc $(C_FLAGS) $< -o $@

# ---- the benchmark: the library beside the second implementations. Not part of the gate.

# gcc would turn a copy of bounded length into `rep movsq`, slower than the C library's memcpy.
SECOND_FLAGS := -std=c11 -O3 -ffunction-sections -mmemcpy-strategy=libcall:-1:noalign -Wall -Wextra -Werror -Iinclude -Isecond/c
SECOND_O := $(SECOND_C:second/c/%.c=$(HOST_OUT)/second_%.o)

$(HOST_OUT)/second_%.o: second/c/%.c second/c/second.h include/moult.h | $(HOST_OUT)
	gcc $(SECOND_FLAGS) -c $< -o $@

$(HOST_OUT)/libsecond.a: $(SECOND_O)
	rm -f $@
	ar rcs $@ $^

$(HOST_OUT)/second_rust.o: $(wildcard second/rust/src/*.rs) | $(HOST_OUT)
	rustc --edition 2024 --crate-name second --crate-type lib --cfg 'feature="abi"' --emit obj=$@ \
		-C opt-level=3 -C codegen-units=1 -C panic=abort second/rust/src/lib.rs

# BEFORE=COMMIT measures that commit's library beside ours, too, where it has crates/moult_c. It is built, and proved, from the commit
# once: elsewhere, since rt ci takes no crates below target/.
BEFORE_LIB := $(if $(BEFORE),target/before/$(BEFORE)/libmoult.a)

target/before/%/libmoult.a:
	@mkdir -p $(@D)
	folder=$$(mktemp -d) && trap 'rm -rf "$$folder"' EXIT && git archive $* | tar -x -C "$$folder" && \
		(cd "$$folder/crates/moult_c" && rt lib >&2) && cp "$$folder/crates/moult_c/out/libmoult_c.a" $@

$(HOST_OUT)/libplaces.a: bench/places.sh $(LINKED) $(BEFORE_LIB) $(HOST_OUT)/libsecond.a $(HOST_OUT)/second_rust.o
	bench/places.sh $@ moult=moult:$(MOULT_LIB) c=second:$(HOST_OUT)/libsecond.a rust=rust:$(HOST_OUT)/second_rust.o \
		$(BEFORE_LIB:%=before=moult:%)

# The listing programs stand at eight places too: each is linked with another number of octets before all of its functions, which
# the linker keeps though nothing calls them.
LISTS := $(HOST_OUT)/lists
LIST_PLACES := 0 1 2 3 4 5 6 7
LIST_PROGRAMS := $(foreach name,rattle c rust,$(LIST_PLACES:%=$(LISTS)/$(name)_%))
RATTLE_HOME ?= $(abspath $(dir $(realpath $(shell command -v rt)))..)
BENCH_CARGO := MOULT_PLACES=$(abspath $(HOST_OUT)/libplaces.a) MOULT_BEFORE=$(BEFORE) CARGO_TARGET_DIR=$(CARGO_OUT) cargo
BENCH_CARGO_FLAGS := --offline --quiet --manifest-path bench/rust/Cargo.toml

$(LISTS):
	mkdir -p $@

$(LISTS)/before_%.o: | $(LISTS)
	printf '.section .text.unlikely,"axR",@progbits\n.skip %d\n.section .note.GNU-stack,"",@progbits\n' $$((16 + 592 * $*)) | \
		gcc -c -x assembler - -o $@

.SECONDARY: $(LIST_PLACES:%=$(LISTS)/before_%.o)

# rt ci makes the program and may leave no object.
LIST_O := crates/list/out/list.o

$(LIST_O): crates/list/out/list
	@[ -e $@ ] || (cd crates/list && rm -f out/list && rt run < /dev/null >&2)
	@touch $@

$(LISTS)/rattle_%: $(LIST_O) $(LISTS)/before_%.o
	gcc $^ $(RATTLE_HOME)/c/libos_c.a $(RATTLE_HOME)/c/liblibc_c.a -o $@

$(LISTS)/c_%: second/c/list.c $(HOST_OUT)/libsecond.a $(LISTS)/before_%.o
	gcc $(SECOND_FLAGS) -D_GNU_SOURCE $^ -o $@

# rustc's own linker would put those octets last.
$(LISTS)/rust_%: $(LISTS)/before_%.o $(wildcard second/rust/src/*.rs) bench/rust/src/bin/list.rs | $(HOST_OUT)/libplaces.a
	$(BENCH_CARGO) rustc $(BENCH_CARGO_FLAGS) --release --bin list -- -C linker-features=-lld -C link-arg=$(abspath $<)
	cp $(CARGO_OUT)/release/list $@

# ONLY=WORD measures the lines that have the word alone.
bench: $(HOST_OUT)/libplaces.a $(LIST_PROGRAMS)
	$(BENCH_CARGO) build $(BENCH_CARGO_FLAGS) --profile measured --bin bench
	$(CARGO_OUT)/measured/bench $(LISTS) $(HOST_OUT)/listings "$(ONLY)"
