# make            prove every crate, build and run the programs, list a herd book's screen, and write what the tube
#                 shows of another to target/tube.pgm; with cargo, also make programs
# make test       the gate
#
# What others use, with cargo:
# make rust       the library and the programs as a Cargo package, target/rust/rainbow
# make library    librainbow.a and librainbow.so for this machine, target/library
# make programs   rows, tube, why and monitor for this machine, target/native; tools/run runs them
# make install    headers, library, rainbow.pc and programs to PREFIX (/usr/local); make uninstall takes them away
# make examples   the examples in C, Rust and Python, run
#
# What is tested beside the gate:
# make check      layout, documents and their pictures, the model's tests, what the programs must write, the headers,
#                 the Cargo package
# make docs       the documents against the tree
# make host       the library from C, C++, Rust and Python, each call beside the model; the package, the installation
# make compare    the row lister beside the model on 5,000 screens that are hard to walk, the tube on 500, why on 5,000
#                 questions; the monitor's scripts
# make mutants    mutants of the code, each against the stored runs; CRATES='a b' for some crates
# make bench      the library beside plain C and the best C that we can write, in time and in instructions
#
# What is made again:
# make counts     the functions of each crate, in docs/PROMISES.md
# make expected   what the programs are given and must write, by the model in host/
# make scripts    the monitor's long scripts, from their seeds
# make png        the tube's pictures, docs/tube.png and docs/scroll.png
.PHONY: all test check docs counts expected scripts png compare mutants host bench clean
.PHONY: rust library programs install uninstall examples python
.PHONY: model archive kit-library header-c header-c++ package-tests
.PHONY: host-with host-load host-c host-c++ host-fences host-valgrind host-more host-both host-served

CARGO ?= cargo
HAS_CARGO := $(shell command -v $(CARGO))
PYTHON ?= python3
MODEL = host/target/release
MACHINE := $(shell uname -m)
VERSION := $(shell sed -n 's/^.define RAINBOW_VERSION //p' include/rainbow.h)
SHARED = librainbow.so.$(VERSION)
PACKAGE = target/rust/rainbow
PROGRAMS = rows tube why monitor

# Two libraries are made of the same source: target/library by rustc, for the machine at hand, and target/library-kit by
# the kit's compiler, for x86-64 alone. LIBRARY is the one that a part of make host tries; KIT says whether there
# is the second.
KIT := $(if $(filter x86_64,$(MACHINE)),$(shell command -v rt))
LIBRARY ?= target/library
LIBRARIES = target/library $(if $(KIT),target/library-kit)
ARCHIVE = $(LIBRARY)/librainbow.a

# Where the sanitizers or valgrind cannot be had, SANITIZE and VALGRIND may be empty.
SANITIZE ?= -fsanitize=address,undefined
VALGRIND ?= valgrind -q --error-exitcode=1
CALLS ?= 1000000
LOAD = $(MODEL)/load
STRICT = -O2 -Iinclude -Wall -Wextra -Wpedantic -Wconversion -Wshadow -Werror
C = $(CC) -std=c11 $(STRICT)
CPP = $(CXX) -std=c++17 $(STRICT) -x c++
FAULTS = 1 2 3 4 5 6 7 8 9 10 11 12 13 15 16 17 18 19 20 21 22 23 24 25 26 27 28 29 30 31 32 33 34 35 36 37 38 39 40 \
	41 42 43 44 45 46 47 48 49 50 51 52 53 54 55 56 57 58 59 60 61 62 63 64 65 66 67 68 69 70 71 72 73 74 75 76 77 \
	78 79 80 81 82 83 84 85 86 87 88 89 90
# A fault of the second of two libraries.
BOTH_FAULT = 14

# The folder that make expected and make scripts write to.
INTO ?= crates

all:
	@tools/prove
	@echo
	@cat target/log/rows.stdout
	@cp target/log/tube.stdout target/tube.pgm
	@echo
	@echo 'target/tube.pgm has the picture of the tube'
	@if [ -n '$(HAS_CARGO)' ]; then $(MAKE) -s programs; \
	else echo 'no cargo: the programs are those of the kit alone; tools/run runs them'; fi

test:
	.ci/run

check:
	@MAKE='$(MAKE)' CC='$(CC)' CXX='$(CXX)' CARGO='$(CARGO)' tools/check

# The programs in host/, which are made of the model.
model:
	@$(CARGO) build -q --release --manifest-path host/Cargo.toml

docs: model
	$(MODEL)/check_docs .

counts: model
	$(MODEL)/check_docs --write .

expected: model
	@mkdir -p $(INTO)/rows $(INTO)/tube $(INTO)/why $(INTO)/monitor
	$(MODEL)/expected_rows screen > $(INTO)/rows/stdin
	$(MODEL)/expected_rows > $(INTO)/rows/stdout
	$(MODEL)/expected_tube memories > $(INTO)/tube/stdin
	$(MODEL)/expected_tube > $(INTO)/tube/stdout
	$(MODEL)/expected_why screen > $(INTO)/why/stdin
	$(MODEL)/expected_why arguments > $(INTO)/why/args
	$(MODEL)/expected_why > $(INTO)/why/stdout
	ls crates/monitor/data > $(INTO)/monitor/args
	cd crates/monitor/data && $(abspath $(MODEL))/expected_monitor \
		$$(cat $(abspath $(INTO))/monitor/args) > $(abspath $(INTO))/monitor/stdout

scripts: model
	@mkdir -p $(INTO)/monitor/data
	$(MODEL)/scripts $(INTO)/monitor/data

# The page of crates/tube/stdout; and the page that scrolls, by the program, at four latches side by side.
LATCHES = 0 3 6 9
png: model programs
	$(MODEL)/pgm_to_png < crates/tube/stdout > docs/tube.png
	@mkdir -p target/scroll
	$(MODEL)/expected_tube milking > target/scroll/memories
	for latch in $(LATCHES); do \
		target/native/tube latch=$$latch < target/scroll/memories > target/scroll/$$latch.pgm || exit 1; done
	$(MODEL)/pgm_to_png $(LATCHES:%=target/scroll/%.pgm) > docs/scroll.png

# The Cargo package. That it has the text of crates/ is checked each time.
rust: model
	@$(MODEL)/package . $(PACKAGE)

# rt takes no tree with a symbolic link in it, so librainbow.so is a second name of the file here.
library: rust
	@$(CARGO) rustc -q --release --lib --crate-type staticlib,cdylib --manifest-path $(PACKAGE)/Cargo.toml \
		--target-dir target/cargo/library -- --cfg rainbow_c -C link-arg=-Wl,-soname,$(SHARED)
	@mkdir -p target/library
	@cp -f target/cargo/library/release/librainbow.a target/library/librainbow.a
	@cp -f target/cargo/library/release/librainbow.so target/library/$(SHARED)
	@ln -f target/library/$(SHARED) target/library/librainbow.so
	@echo 'target/library: librainbow.a, librainbow.so for $(MACHINE), by rustc'

programs: rust
	@$(CARGO) build -q --release --bins --manifest-path $(PACKAGE)/Cargo.toml --target-dir target/cargo/programs
	@mkdir -p target/native
	@for program in $(PROGRAMS); do cp -f target/cargo/programs/release/$$program target/native; done
	@echo 'target/native: $(PROGRAMS) for $(MACHINE), by rustc'

# The package builds without a warning, and its documentation too; what it shows as an example holds.
package-tests: rust
	RUSTFLAGS='-D warnings' $(CARGO) build -q --release --manifest-path $(PACKAGE)/Cargo.toml \
		--target-dir target/cargo/tests
	RUSTFLAGS='-D warnings' $(CARGO) test -q --release --manifest-path $(PACKAGE)/Cargo.toml \
		--target-dir target/cargo/tests
	RUSTDOCFLAGS='-D warnings' $(CARGO) doc -q --no-deps --lib --manifest-path $(PACKAGE)/Cargo.toml \
		--target-dir target/cargo/tests

# The kit's archive, and where it can be linked a shared object of it.
archive:
	@tools/kit archive

kit-library: archive
	@mkdir -p target/library-kit
	@cp -f target/staticlib/librainbow.a target/library-kit
	$(CC) -shared -Wl,-soname,$(SHARED) -Wl,--whole-archive target/library-kit/librainbow.a -Wl,--no-whole-archive \
		-o target/library-kit/$(SHARED)
	@ln -f target/library-kit/$(SHARED) target/library-kit/librainbow.so

PREFIX ?= /usr/local
DESTDIR ?=
INTO_PREFIX = $(DESTDIR)$(abspath $(PREFIX))
HEADERS = rainbow.h rainbow_computer.h

# A user who may write to PREFIX but has no cargo installs what was made before.
install:
	@if [ -n '$(HAS_CARGO)' ]; then $(MAKE) -s library programs; \
	elif ! test -e target/library/$(SHARED) -a -e target/native/monitor; then \
		echo 'make install: no cargo, and make library programs has not been run' >&2; exit 1; fi
	@mkdir -p $(INTO_PREFIX)/include $(INTO_PREFIX)/lib/pkgconfig $(INTO_PREFIX)/bin
	@for header in $(HEADERS); do install -m 644 include/$$header $(INTO_PREFIX)/include/$$header; done
	@install -m 644 target/library/librainbow.a $(INTO_PREFIX)/lib/librainbow.a
	@install -m 755 target/library/$(SHARED) $(INTO_PREFIX)/lib/$(SHARED)
	@ln -sf $(SHARED) $(INTO_PREFIX)/lib/librainbow.so
	@sed -e 's|@PREFIX@|$(abspath $(PREFIX))|' -e 's|@VERSION@|$(VERSION)|' include/rainbow.pc.in \
		> $(INTO_PREFIX)/lib/pkgconfig/rainbow.pc
	@for program in $(PROGRAMS); do install -m 755 target/native/$$program $(INTO_PREFIX)/bin/rainbow-$$program; done
	@echo 'installed to $(INTO_PREFIX): include, lib, lib/pkgconfig, and bin with $(PROGRAMS:%=rainbow-%)'

uninstall:
	@rm -f $(HEADERS:%=$(INTO_PREFIX)/include/%) $(INTO_PREFIX)/lib/librainbow.a $(INTO_PREFIX)/lib/librainbow.so \
		$(INTO_PREFIX)/lib/$(SHARED) $(INTO_PREFIX)/lib/pkgconfig/rainbow.pc \
		$(PROGRAMS:%=$(INTO_PREFIX)/bin/rainbow-%)
	@echo 'taken away from $(INTO_PREFIX)'

examples: library
	@CC='$(CC)' CARGO='$(CARGO)' PYTHON='$(PYTHON)' tools/examples

python: library
	$(PYTHON) -W error -m unittest discover -q -s python

# The monitor's stored scripts, which the gate runs by the kit's monitor, and screens that are chosen here.
compare: model programs
	cd crates/monitor/data && $(abspath target/native/monitor) $$(cat ../args) | cmp ../stdout -
	$(MODEL)/compare_rows target/native/rows 5000
	$(MODEL)/compare_tube target/native/tube 500
	$(MODEL)/compare_why target/native/why 5000
ifneq ($(KIT),)
	tools/kit programs rows tube why
	$(MODEL)/compare_rows 'tools/run --kit rows' 5000
	$(MODEL)/compare_tube 'tools/run --kit tube' 500
	$(MODEL)/compare_why 'tools/run --kit why' 5000
endif

mutants: model
	$(MODEL)/mutants . $(CRATES)

# Every library that this machine can run, each by itself and then beside each other; what is more of rustc's; the
# package, the installation, the examples and Python.
host: library programs $(if $(KIT),kit-library)
	@for library in $(LIBRARIES); do \
		echo "-- $$library"; $(MAKE) host-with LIBRARY=$$library || exit 1; done
	$(MAKE) host-more package-tests examples python
	$(if $(KIT),$(MAKE) host-both host-served)
	CC='$(CC)' PYTHON='$(PYTHON)' tools/installed

host-with: host-load host-c host-c++ host-fences host-valgrind

# A million calls beside the model; and the tester has to find each fault that is put into it, in a script of few calls.
host-load: model
	$(LOAD) --calls $(CALLS) $(LIBRARY)/librainbow.so
	@mkdir -p target/host
	@for fault in $(FAULTS); do \
		$(LOAD) --fault $$fault $(LIBRARY)/librainbow.so > target/host/fault.txt; \
		test $$? -eq 1 || { echo "fault $$fault is not found"; exit 1; }; \
		test $$(grep -c '^  ' target/host/fault.txt) -le 10 || { echo "fault $$fault is not shrunk"; exit 1; }; \
	done
	@$(LOAD) --fault $(BOTH_FAULT) --against $(LIBRARY)/librainbow.so $(LIBRARY)/librainbow.so \
		> target/host/fault.txt; \
		test $$? -eq 1 || { echo 'fault $(BOTH_FAULT) is not found'; exit 1; }
	@echo 'the faults are found: $(FAULTS) $(BOTH_FAULT)'

host-both: model
	$(LOAD) --calls $(CALLS) --against target/library/librainbow.so target/library-kit/librainbow.so

# The kit's archive in a process of its own, which the kit's compiler and linker make, with fewer calls.
SERVED_CALLS ?= 200000
host-served: model archive library
	@mkdir -p target/host
	CC='$(CC)' tools/kit compile target/host/serve host/serve.c target/staticlib/librainbow.a
	$(LOAD) --calls $(SERVED_CALLS) --against 'run:target/host/serve' target/library/librainbow.so

# Each header by itself, twice, and the examples, none of them linked; with cargo also rainbow.h beside the functions
# and structs of crates/.
header-c header-c++: $(if $(HAS_CARGO),rust)
	@mkdir -p target/host
	@printf '#include "rainbow.h"\n#include "rainbow.h"\n' > target/host/$@.c
	@printf '#include "rainbow_computer.h"\n#include "rainbow_computer.h"\n' > target/host/$@-computer.c
	$(if $(filter header-c,$@),$(C),$(CPP)) -fsyntax-only target/host/$@.c target/host/$@-computer.c \
		host/example/*.c examples/show.c \
		$(if $(filter header-c,$@),host/serve.c $(if $(HAS_CARGO),$(PACKAGE)/prototypes.c))

# The examples run, as C and as C++.
host-c: header-c
	$(C) host/example/example.c $(ARCHIVE) -o target/host/example
	target/host/example > target/host/printed.txt
	diff host/example/expected.txt target/host/printed.txt
	$(C) host/example/null.c $(ARCHIVE) -o target/host/null
	target/host/null
	$(C) host/example/computer.c $(ARCHIVE) -o target/host/computer
	target/host/computer > target/host/printed.txt
	diff host/example/refusals.txt target/host/printed.txt

host-c++: header-c++
	$(CPP) host/example/example.c -x none $(ARCHIVE) -o target/host/example++
	target/host/example++ > target/host/printed.txt
	diff host/example/expected.txt target/host/printed.txt
	$(CPP) host/example/computer.c -x none $(ARCHIVE) -o target/host/computer++
	target/host/computer++ > target/host/printed.txt
	diff host/example/refusals.txt target/host/printed.txt

# No access goes outside of the buffers: fences on either side of each, and the sanitizers for what C itself does.
host-fences:
	@mkdir -p target/host
	$(C) $(SANITIZE) host/example/asan.c $(ARCHIVE) -o target/host/asan
	target/host/asan
	$(C) $(SANITIZE) host/example/example.c $(ARCHIVE) -o target/host/example-watched
	target/host/example-watched > target/host/printed.txt
	diff host/example/expected.txt target/host/printed.txt
	$(C) $(SANITIZE) host/example/computer.c $(ARCHIVE) -o target/host/computer-watched
	target/host/computer-watched > target/host/printed.txt
	diff host/example/refusals.txt target/host/printed.txt

host-valgrind: model
	$(VALGRIND) $(LOAD) --calls 20000 $(LIBRARY)/librainbow.so

# What rustc's library takes beside what the header asks of a caller.
host-more: library
	$(C) host/example/library.c target/library/librainbow.a -o target/host/library
	target/host/library
	$(C) $(SANITIZE) host/example/library.c target/library/librainbow.a -o target/host/library-watched
	target/host/library-watched

# The kit's library is a side of the bench beside rustc's, so each of its names gets kit_ ahead.
target/host/libkit.a: kit-library
	@mkdir -p target/host
	@nm -g --defined-only target/library-kit/librainbow.a | awk 'NF == 3 { print $$3, "kit_" $$3 }' \
		> target/host/kit.names
	@objcopy --redefine-syms=target/host/kit.names target/library-kit/librainbow.a $@

# The best C is compiled a second time by a clang, the kit's own if it is there; its names get clang_ ahead.
CLANG ?= $(firstword $(shell tools/kit compiler 2>/dev/null) $(shell command -v clang))
target/host/best-clang.o: bench/best.c bench/best.h bench/plain.h include/rainbow.h
	@mkdir -p target/host
	@$(C) -E bench/best.c -o target/host/best.i
	@$(CLANG) --target=$(MACHINE)-unknown-linux-gnu -std=c11 -O3 -fPIE -x cpp-output \
		-c target/host/best.i -o $@
	@nm -g --defined-only $@ | awk 'NF == 3 { print $$3, "clang_" $$3 }' > target/host/clang.names
	@objcopy --redefine-syms=target/host/clang.names $@

bench: library $(if $(KIT),target/host/libkit.a) $(if $(CLANG),target/host/best-clang.o)
	@mkdir -p target/host
	@$(C) -O3 $(if $(KIT),-DWITH_KIT) $(if $(CLANG),-DWITH_CLANG) bench/bench.c bench/plain.c bench/best.c \
		target/library/librainbow.a $(if $(KIT),target/host/libkit.a) $(if $(CLANG),target/host/best-clang.o) \
		-o target/host/bench
	@echo "rustc: $$(rustc --version); $(if $(KIT),kit: $$(rt version | head -n 1); )C: $$($(CC) --version | head -n 1)" \
		"$(if $(CLANG),and $$($(CLANG) --version | head -n 1) )on $(MACHINE)"
	@echo
	@bench/table target/host/bench

clean:
	rm -rf target host/target crates/*/out examples/rust/Cargo.lock python/__pycache__
