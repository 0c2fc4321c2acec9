# `make run` runs an image; `make test` is the whole of the tests; `make oracle` compares with the Rust and the host alone.
.PHONY: run test oracle floats images differences labels odd random rewritten stack mm host-rust bench staticlib record

IMAGE ?= crates/runimage/stdin

# the folder of the Rust's own files, mm.rs and those beside it
MM_SOURCE ?= ../shared/docs/src/src
export MM_SOURCE

RUSTC := rustc -O --edition 2021 -D warnings

run:
	@bin/prove runimage
	@bin/runimage < $(IMAGE)

# `rt ci`, then the rest; the count of `rt ci` is the last line
test:
	bin/test

oracle: floats images differences labels odd random rewritten stack mm

floats: target/staticlib/libfloat64_c.a
	$(RUSTC) -L native=target/staticlib -l static=float64_c -o target/oracle-float64 oracle/float64.rs
	target/oracle-float64

images:
	bin/prove runimage
	$(RUSTC) -o target/oracle-images oracle/images.rs
	target/oracle-images bin/runimage oracle/images.txt

# the archives of the host's calls, and what links them
ARCHIVES := target/staticlib/libmm_host.a target/staticlib/liblabel_loader.a target/staticlib/liblabel_run.a
CALLS := -L native=target/staticlib -l static=mm_host
RECORDS := -L native=target/staticlib -l static=label_loader -l static=label_run
ORIGINAL := --extern mm=target/original/libmm.rlib

staticlib: $(ARCHIVES)

SOURCES := crates.txt $(shell find crates -name out -prune -o \( -name '*.rt' -o -name '*.antt' \) -print)

# The archive of a static library, under the name that its callers know, for every x86-64 processor. `rt lib` takes over what checks kept
# on this machine, not what `rt ci` kept, and proves the rest.
define archive
mkdir -p $(@D)
cd crates/$(1) && rt lib --cpu x86-64 > ../../target/$(1).log 2>&1 || { cat ../../target/$(1).log; exit 1; }
cp crates/$(1)/out/lib$(1).a $@
endef

target/staticlib/lib%.a: $(SOURCES)
	$(call archive,$*_c)

target/staticlib/libfloat64_c.a: $(SOURCES)
	$(call archive,float64_c)

target/libmm_host.rlib: $(ARCHIVES) $(wildcard host-rust/src/*.rs)
	$(RUSTC) --crate-type rlib --crate-name mm_host --cfg 'feature="alloc"' $(CALLS) -o $@ host-rust/src/lib.rs

# The original, its source unchanged: only its root file has the probe behind it, since the state is private there.
target/original/libmm.rlib: oracle/probe.rs $(wildcard $(MM_SOURCE)/*.rs)
	@[ -e $(MM_SOURCE)/mm.rs ] || { echo "no mm.rs in MM_SOURCE=$(MM_SOURCE)"; exit 1; }
	mkdir -p target/original
	cp $(MM_SOURCE)/*.rs target/original/
	cat $(MM_SOURCE)/mm.rs oracle/probe.rs > target/original/mm.rs
	rustc -O --edition 2021 -C overflow-checks=off -A warnings --crate-type rlib --crate-name mm -o $@ target/original/mm.rs

# The Rust beside ours. Without its source the recorded answers that `rt ci` replays (crate replay) stand in; on CI it has to be there.
mm:
	@if [ -e $(MM_SOURCE)/mm.rs ]; then $(MAKE) --no-print-directory compared; \
	elif [ -n "$$CI" ]; then echo "mm: no mm.rs in MM_SOURCE=$(MM_SOURCE)"; exit 1; \
	else echo "mm: no mm.rs in MM_SOURCE=$(MM_SOURCE), so nothing was compared with the Rust; crate replay stands in"; fi

SEED ?= 1
IMAGES ?= 140000

.PHONY: compared
compared: $(ARCHIVES) target/original/libmm.rlib
	$(RUSTC) $(CALLS) $(ORIGINAL) -o target/oracle-mm oracle/mm/main.rs
	$(RUSTC) $(ORIGINAL) -o target/oracle-differences-mm oracle/mm/differences.rs
	target/oracle-mm $(SEED) $(IMAGES) 3>&1 > /dev/null 2> /dev/null
	target/oracle-differences-mm docs/DIFFERENCES.md 3>&1 > /dev/null 2> /dev/null

# what docs/DIFFERENCES.md says of us; `compared` has what it says of the Rust
differences: $(ARCHIVES)
	$(RUSTC) $(CALLS) -o target/oracle-differences oracle/differences.rs
	target/oracle-differences docs/DIFFERENCES.md

# the calls over label records beside those over byte slices
labels: $(ARCHIVES)
	$(RUSTC) $(CALLS) $(RECORDS) -o target/oracle-labels oracle/labels.rs
	target/oracle-labels $(SEED) 25000

# a program once more under valgrind, where there is one
define under_valgrind
@if command -v valgrind > /dev/null; then echo "valgrind $(1)"; valgrind --quiet --error-exitcode=1 $(1); \
else echo "$(1): there is no valgrind, so memory wasn't checked by it, only by pages that may not be touched"; fi
endef

# no byte outside what is lent, at odd addresses and lengths; on random bytes
odd: $(ARCHIVES)
	$(RUSTC) $(CALLS) $(RECORDS) -o target/oracle-odd oracle/odd.rs
	target/oracle-odd
	$(call under_valgrind,target/oracle-odd)

random: $(ARCHIVES)
	$(RUSTC) $(CALLS) -o target/oracle-random oracle/random.rs
	target/oracle-random $(SEED) 1000000
	$(call under_valgrind,target/oracle-random $(SEED) 5000 heap)

# images written out, loaded again and written out again
rewritten: $(ARCHIVES)
	$(RUSTC) $(CALLS) -o target/oracle-rewritten oracle/rewritten.rs
	target/oracle-rewritten $(SEED) 24000

# the stack that each call needs, and that docs/HOST.md says so
stack: $(ARCHIVES)
	$(RUSTC) $(CALLS) $(RECORDS) -o target/oracle-stack oracle/stack.rs
	target/oracle-stack docs/HOST.md

# the data of crate replay, made anew
record: target/original/libmm.rlib
	$(RUSTC) $(ORIGINAL) -o target/oracle-record oracle/mm/record.rs
	target/oracle-record 20261116 500 3> crates/replay/stdin > /dev/null 2> /dev/null

# The crate with and without its owning layer, and its example.
CARGO := cd host-rust && RUSTFLAGS='-D warnings' RUSTDOCFLAGS='-D warnings' CARGO_TARGET_DIR=../target/host-rust cargo --offline --quiet

host-rust: $(ARCHIVES) host-c
	$(CARGO) test
	$(CARGO) test --no-default-features
	$(CARGO) run --example round ../crates/runimage/stdin | grep -x 'halted after 6 steps'
	$(CARGO) doc

# The example in C: it prints what runimage prints, so the oracle's images are tried on it. The header is read as C++ too.
.PHONY: host-c
host-c: $(ARCHIVES)
	$(CC) -std=c11 -O2 -Wall -Wextra -Werror -Iinclude -o target/round host-c/round.c target/staticlib/libmm_host.a
	target/round crates/runimage/stdin | cmp - crates/runimage/stdout
	$(RUSTC) -o target/oracle-images oracle/images.rs
	target/oracle-images target/round oracle/images.txt
	if command -v g++ > /dev/null; then g++ -std=c++11 -Wall -Wextra -Werror -fsyntax-only -x c++ include/mm.h; fi

# Eight builds, each with more bytes before its code: the place of a loop in memory moves its speed.
# The report goes to standard error: the original prints to standard output.
PADS := 0 16 32 48 64 80 96 112

bench: target/libmm_host.rlib target/original/libmm.rlib
	cc -O3 -Wall -Wextra -Werror -c -o target/interpreter.o bench/interpreter.c
	for pad in $(PADS); do \
	    PAD=$$pad $(RUSTC) $(RECORDS) $(ORIGINAL) --extern mm_host=target/libmm_host.rlib -C link-arg=target/interpreter.o \
	        -o target/bench-$$pad bench/main.rs || exit 1; \
	done
	target/bench-0 report 10 7 docs/benchmarks.svg $(PADS:%=target/bench-%)
