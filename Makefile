# The C side: the library as an archive for C programs, the programs over it, the header's and the library's installation.
#
#   make             build/libfloor.a, build/libfloor_text.a, build/floorplay, build/thursday, build/server, build/floor.pc
#   make install     headers, archives and floor.pc below PREFIX (/usr/local)
#   make check       what the header promises, tested with cmocka
#   make bench       instructions a call, beside the same work in plain C; installs what it needs of Debian's packages (tests/set-up)
#   make clean
#   make dist        build/floor-VERSION.tar.gz: all that a bench needs, on a machine without the kit too
#
# The archive is proved and compiled by the Rattle kit (`rt lib` in crates/floor_c, whose functions are those of the crate floor under their C
# names) and links into x86-64 programs. On an x86-64 machine they are compiled by its own compiler; on any other by Debian's cross compiler,
# and run under the emulator.
#
# libfloor.a has the proved functions and nothing else; what prints them for people (floor_text.h) has an archive of its own.
#
# LIB=plain makes the same things over bench/plain.c instead, below build/plain/: to try a program or a test where the kit is not there. On
# another machine than x86-64, make LIB=plain CROSS= RUN= does it with that machine's own compiler.

LIB ?= floor
PREFIX = /usr/local
VERSION = 4.0

ifeq ($(shell uname -m),x86_64)
RUN =
else
CROSS = x86_64-linux-gnu-
RUN = qemu-x86_64
endif
ifeq ($(origin CC),default)
CC = $(CROSS)gcc
endif
ifeq ($(origin AR),default)
AR = $(CROSS)ar
endif
OBJCOPY = $(CROSS)objcopy
NM = $(CROSS)nm
CFLAGS = -std=c99 -O2 -g -Wall -Wextra -Werror -pedantic

ifeq ($(LIB),plain)
OUT = build/plain
MACHINE = -DFLOOR_ANY_MACHINE
else
OUT = build
endif
ARCHIVE = $(OUT)/libfloor.a
TEXT = $(OUT)/libfloor_text.a
HEADERS = include/floor.h include/floor_text.h
COMPILE = $(CC) $(CFLAGS) $(MACHINE) -Iinclude

all: $(ARCHIVE) $(TEXT) $(OUT)/floorplay $(OUT)/thursday $(OUT)/server $(OUT)/floor.pc

# ---- the archive ----

SOURCES = $(shell find crates -name out -prune -o \( -name '*.rt' -o -name '*.antt' \) -print) crates.txt

# What the archive stands on is proved first, where it has changed since it was proved here.
build/libfloor.a: $(SOURCES) | build
	cd crates/floor_c && rt lib
	cp crates/floor_c/out/libfloor_c.a $@

# plain.c under the library's names; as_plain.h has the list of them.
build/plain/libfloor.a: build/plain.o bench/as_plain.h | build/plain
	sed -n 's/^#define \(floor_[a-z0-9_]*\) \(plain_[a-z0-9_]*\)$$/\2 \1/p' bench/as_plain.h > build/plain/names
	$(OBJCOPY) --redefine-syms=build/plain/names --localize-symbol=plain_native_packet --localize-symbol=plain_native_timer \
	    build/plain.o build/plain/floor.o
	rm -f $@ && $(AR) rcs $@ build/plain/floor.o

build/plain.o: bench/plain.c bench/plain.h bench/as_plain.h include/floor.h | build
	$(COMPILE) -c $< -o $@

# ---- text for people ----

$(TEXT): bench/floor_text.c $(HEADERS) | $(OUT)
	$(COMPILE) -c $< -o $(OUT)/floor_text.o
	rm -f $@ && $(AR) rcs $@ $(OUT)/floor_text.o

# ---- programs ----

$(OUT)/floorplay: bench/words.c bench/words.h
$(OUT)/floorplay $(OUT)/thursday: $(OUT)/%: bench/%.c bench/usage.h $(HEADERS) $(TEXT) $(ARCHIVE) | $(OUT)
	$(COMPILE) $(filter %.c,$^) $(TEXT) $(ARCHIVE) -o $@

$(OUT)/server: examples/server.c include/floor.h $(ARCHIVE) | $(OUT)
	$(COMPILE) $< $(ARCHIVE) -o $@

# ---- speed ----

# The kit compiles through LLVM, so plain.c is compiled by LLVM's compiler: by another, the table would compare compilers too.
BENCH_CC = clang --target=x86_64-linux-gnu

bench-needs:
	@BENCH_CC='$(BENCH_CC)' LIB='$(LIB)' bash -c '. tests/set-up bench'

# The compiler's name, written only where it is another one than last time: then the program is made again.
$(OUT)/bench-compiler: FORCE | $(OUT) bench-needs
	@$(BENCH_CC) --version | sed -n '1s/^/plain C at -O2 by /p' > $@.now
	@if cmp -s $@.now $@; then rm $@.now; else mv $@.now $@; fi

$(OUT)/bench: bench/bench.c bench/plain.c bench/plain.h bench/as_plain.h include/floor.h $(OUT)/bench-compiler $(ARCHIVE) | $(OUT)
	$(BENCH_CC) -std=c99 -O2 -Wall -Wextra -Werror -pedantic -Iinclude -c bench/plain.c -o $(OUT)/bench-plain.o
	$(COMPILE) bench/bench.c $(ARCHIVE) $(OUT)/bench-plain.o -Wl,-z,now,-S -o $@

bench: bench-needs $(OUT)/bench
	$(RUN) $(OUT)/bench play $(OUT)/desks
	@cat $(OUT)/bench-compiler
	@python3 bench/bench.py $(OUT)/bench $(OUT)/desks

# ---- tests ----

TESTS = $(OUT)/floor_test $(OUT)/damage_test $(OUT)/types_test $(OUT)/text_test
SCENES = tests/c/scene.c tests/c/desks.c tests/c/scene.h tests/c/desks.h

$(TESTS): $(OUT)/%: tests/c/%.c $(SCENES) $(HEADERS) build/plain.o $(TEXT) $(ARCHIVE) | $(OUT)
	$(COMPILE) $< tests/c/scene.c tests/c/desks.c $(TEXT) $(ARCHIVE) build/plain.o -lcmocka -o $@

check: $(TESTS)
	for test in $(TESTS); do $(RUN) $$test || exit 1; done

# The server's clocks in virtual time, and two servers that set them by a simpler rule.
CLOCKS = $(OUT)/clocks_test $(OUT)/clocks_naive_0 $(OUT)/clocks_naive_1
$(OUT)/clocks_naive_0: NAIVE = -DNAIVE=0
$(OUT)/clocks_naive_1: NAIVE = -DNAIVE=1

$(CLOCKS): tests/c/clocks_test.c examples/server.c include/floor.h $(ARCHIVE) | $(OUT)
	$(COMPILE) $(NAIVE) $< $(ARCHIVE) -o $@

clocks: $(CLOCKS)

# ---- installation ----

# Made again at each call, since PREFIX may differ.
$(OUT)/floor.pc: bench/floor.pc.in FORCE | $(OUT)
	sed -e 's|@PREFIX@|$(PREFIX)|' -e 's|@VERSION@|$(VERSION)|' $< > $@

install: $(ARCHIVE) $(TEXT) $(OUT)/floor.pc
	install -d $(DESTDIR)$(PREFIX)/include $(DESTDIR)$(PREFIX)/lib/pkgconfig
	install -m 644 $(HEADERS) $(DESTDIR)$(PREFIX)/include/
	install -m 644 $(ARCHIVE) $(TEXT) $(DESTDIR)$(PREFIX)/lib/
	install -m 644 $(OUT)/floor.pc $(DESTDIR)$(PREFIX)/lib/pkgconfig/

.PHONY: dist
dist: all
	@tools/dist '$(OUT)' '$(VERSION)' '$(OBJCOPY)'

clean:
	rm -rf build

# For tests: the value of a variable, as CC, or RUN (how a program is run: nothing before it, or the emulator).
print-%:
	@echo $($*)

$(sort build $(OUT)):
	mkdir -p $@

FORCE:
.PHONY: all check clocks bench bench-needs install clean FORCE
