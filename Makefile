# hingefodder: what can be made, and how. `make` alone lists it.

PREFIX  ?= /usr/local
CFLAGS  ?= -std=c11 -O2 -Wall -Wextra -Werror

LIBRARY := build/libhingefodder.a
HEADERS := include/hingefodder.h include/hingefodder_text.h
TOOL    := $(wildcard tools/hf/*.c)
VERSION := $(shell sed -n 's/^\#define HF_VERSION "\(.*\)"/\1/p' include/hingefodder.h)

.PHONY: help test library tools lister check-tools demo compare bench install

help:
	@echo 'make test         the gate: prove every crate, try the must-fail edits, run the programs'
	@echo 'make library      the library for a C host, build/libhingefodder.a; the headers are in include/'
	@echo 'make tools        the command hf for the bench, build/hf'
	@echo 'make lister       the lister of records on standard input, build/lister'
	@echo 'make check-tools  the tests of hf and of the headers'
	@echo 'make demo         hf at work on a small image'
	@echo 'make compare      the library beside the crate and beside other libraries, on many random calls'
	@echo 'make bench        the times of all of them, printed and written to docs/bench.md and docs/bench.svg'
	@echo 'make install      library, headers, hf and its man page, under PREFIX=$(PREFIX)'

test:
	@echo 'The gate: every crate that has not passed here is proved from nothing, which takes some minutes.'
	.ci/run

# The library and the lister need the Rattle kit.
$(LIBRARY): $(shell find crates -path '*/src/*.rt')
	@echo 'The library: its crates are proved first where they have not passed here, which takes some minutes.'
	cd crates/host && rt lib
	@mkdir -p build
	cp crates/host/out/libhost.a $@

library: $(LIBRARY)

build/hf: $(TOOL) tools/hf/hf.h $(HEADERS) $(LIBRARY)
	@mkdir -p build
	$(CC) $(CFLAGS) -D_GNU_SOURCE -Iinclude $(TOOL) $(LIBRARY) -o $@

# The same with the C side watched for addresses and undefined behaviour.
build/hf-watched: $(TOOL) tools/hf/hf.h $(HEADERS) $(LIBRARY)
	@mkdir -p build
	$(CC) $(CFLAGS) -g -fsanitize=address,undefined -fno-sanitize-recover=all -D_GNU_SOURCE -Iinclude $(TOOL) $(LIBRARY) -o $@

tools: build/hf

build/lister: $(shell find crates -path '*/src/*.rt')
	@echo 'The lister: its crates are proved first where they have not passed here, which takes some minutes.'
	cd crates/lister && rt run </dev/null >/dev/null
	@mkdir -p build
	cp crates/lister/out/lister $@

lister: build/lister

check-tools: build/hf build/hf-watched
	CC='$(CC)' tools/test build/hf $(LIBRARY)
	CC='$(CC) -fsanitize=address,undefined' tools/test build/hf-watched $(LIBRARY)

demo: build/hf
	tools/demo build/hf

# The crate's source is where TWOFISH_SRC says.
compare: $(LIBRARY)
	compare/run long

bench: $(LIBRARY) build/lister
	HF_LISTER=build/lister compare/run bench

install: build/hf
	install -d '$(DESTDIR)$(PREFIX)/bin' '$(DESTDIR)$(PREFIX)/include' '$(DESTDIR)$(PREFIX)/lib/pkgconfig' '$(DESTDIR)$(PREFIX)/share/man/man1'
	install -m 755 build/hf '$(DESTDIR)$(PREFIX)/bin/hf'
	install -m 644 $(HEADERS) '$(DESTDIR)$(PREFIX)/include'
	install -m 644 $(LIBRARY) '$(DESTDIR)$(PREFIX)/lib'
	sed -e 's|@PREFIX@|$(PREFIX)|' -e 's|@VERSION@|$(VERSION)|' tools/hingefodder.pc.in >'$(DESTDIR)$(PREFIX)/lib/pkgconfig/hingefodder.pc'
	install -m 644 tools/hf.1 '$(DESTDIR)$(PREFIX)/share/man/man1/hf.1'
