# The C side. What is built lands under target/.
#
#   make lib                  prove the library and write it as an archive
#   make programs             prove and build plan and run, in target/bin
#   make example              build the example and run it
#   make needs                what the library asks of a board: symbols, registers, stack
#   make test-c               the C tests and the example: plain, under sanitizers, under valgrind; the example as C++; make needs
#   make install PREFIX=DIR   library, header and pkg-config file under DIR (default /usr/local)
#   make test-install         install to a temporary place, and build the example through pkg-config
#   make shim                 what tests/compare.sh asks, target/c/shim
#   make clean                remove target/c

PREFIX = /usr/local
LIB = target/staticlib/libboard.a
OUT = target/c

# On another machine than x86-64 there is a cross compiler, and an emulator in front of what is run. Under that the address
# sanitizer takes more memory than machines have, and valgrind has nothing to run.
CROSS := $(shell . tests/machine.sh && echo "$$CROSS")
EMULATOR := $(shell . tests/machine.sh && echo "$$EMULATOR")
ifdef EMULATOR
SANITIZERS = undefined
else
SANITIZERS = address,undefined
endif

CC = $(CROSS)gcc
CXX = $(CROSS)g++
NM = $(CROSS)nm
OBJDUMP = $(CROSS)objdump
WARNINGS = -Wall -Wextra -Werror -pedantic -Wconversion -Wsign-conversion -Wshadow -Wcast-qual -Wundef
CFLAGS = -std=c99 -O2 -g $(WARNINGS) -Wstrict-prototypes
CXXFLAGS = -std=c++11 -O2 -g $(WARNINGS) -Wold-style-cast
SANITIZE = -O1 -fsanitize=$(SANITIZERS) -fno-sanitize-recover=all
VALGRIND = valgrind --quiet --error-exitcode=1 --leak-check=full

HEADER = include/heechstjer.h
PROGRAMS = answers answers-sanitized kernel kernel-sanitized kernel-cpp readme page

SHELL = bash
.SHELLFLAGS = -euo pipefail -c
.PHONY: lib programs example needs shim test-c install test-install clean
.DELETE_ON_ERROR:

# What the goals run, looked for before anything is made.
TOOLS_lib = rt
TOOLS_programs = rt
TOOLS_example = rt $(CC) $(firstword $(EMULATOR))
TOOLS_shim = rt $(CC)
TOOLS_needs = rt $(NM) $(OBJDUMP)
TOOLS_test-c = rt $(CC) $(CXX) $(NM) $(OBJDUMP) $(or $(firstword $(EMULATOR)),valgrind)
TOOLS_test-install = rt $(CC) pkg-config $(firstword $(EMULATOR))
ifneq ($(shell tests/tools.sh $(foreach goal,$(or $(MAKECMDGOALS),lib),$(TOOLS_$(goal))) || echo missing),)
$(error tools are missing)
endif

lib: $(LIB)
programs: target/bin/plan target/bin/run
shim: $(OUT)/shim

example: $(OUT)/kernel
	@$(EMULATOR) $(OUT)/kernel

SOURCES := crates.txt $(shell find crates -type f -not -path '*/out/*')

target/staticlib/libboard.a: $(SOURCES)
	cd crates/board && rt lib
	install -D -m 644 crates/board/out/libboard.a $@

# What builds a program runs it too: on no input here.
target/bin/%: $(SOURCES)
	cd crates/$* && rt run < /dev/null > /dev/null
	install -D crates/$*/out/$* $@

$(OUT):
	mkdir -p $@

$(OUT)/%: examples/%.c $(HEADER) $(LIB) | $(OUT)
	$(CC) $(CFLAGS) -Iinclude $< $(LIB) -o $@

$(OUT)/%: tests/c/%.c $(HEADER) $(LIB) | $(OUT)
	$(CC) $(CFLAGS) -Iinclude $< $(LIB) -o $@

$(OUT)/%: tests/compare/%.c $(HEADER) $(LIB) | $(OUT)
	$(CC) $(CFLAGS) -Iinclude $< $(LIB) -o $@

$(OUT)/%-sanitized: examples/%.c $(HEADER) $(LIB) | $(OUT)
	$(CC) $(CFLAGS) $(SANITIZE) -Iinclude $< $(LIB) -o $@

$(OUT)/%-sanitized: tests/c/%.c $(HEADER) $(LIB) | $(OUT)
	$(CC) $(CFLAGS) $(SANITIZE) -Iinclude $< $(LIB) -o $@

$(OUT)/%-cpp: examples/%.c $(HEADER) $(LIB) | $(OUT)
	$(CXX) $(CXXFLAGS) -Iinclude -x c++ $< -x none $(LIB) -o $@

# The examples on the first pages.
$(OUT)/readme.c: README.md
$(OUT)/page.c: docs/c-interface.md
$(OUT)/readme.c $(OUT)/page.c: | $(OUT)
	sed '1,/^```c$$/d; /^```$$/,$$d' $< > $@

$(OUT)/readme $(OUT)/page: $(OUT)/%: $(OUT)/%.c $(HEADER) $(LIB)
	$(CC) $(CFLAGS) -Iinclude $< $(LIB) -o $@

needs: $(LIB)
	@tests/needs.sh $(LIB) $(NM) $(OBJDUMP)

test-c: $(PROGRAMS:%=$(OUT)/%)
	tests/c/rows.sh "$(CC)" "$(CXX)"
	tests/needs.sh $(LIB) $(NM) $(OBJDUMP) | tests/c/said.sh
	$(EMULATOR) $(OUT)/answers
	$(EMULATOR) $(OUT)/answers-sanitized | grep -v '^ok '
	$(EMULATOR) $(OUT)/kernel | diff tests/c/kernel.want -
	$(EMULATOR) $(OUT)/kernel-cpp | diff tests/c/kernel.want -
	$(EMULATOR) $(OUT)/kernel-sanitized | diff tests/c/kernel.want -
	$(EMULATOR) $(OUT)/readme
	test "$$($(EMULATOR) $(OUT)/page)" = "F0 arrived"
ifdef EMULATOR
	@echo "left out under the emulator: the address sanitizer and valgrind"
else
	$(VALGRIND) $(OUT)/answers | grep -v '^ok '
	$(VALGRIND) $(OUT)/kernel | diff tests/c/kernel.want -
endif

install: $(LIB)
	install -d $(DESTDIR)$(PREFIX)/include $(DESTDIR)$(PREFIX)/lib/pkgconfig
	install -m 644 $(HEADER) $(DESTDIR)$(PREFIX)/include/heechstjer.h
	install -m 644 $(LIB) $(DESTDIR)$(PREFIX)/lib/libheechstjer.a
	install -m 644 heechstjer.pc $(DESTDIR)$(PREFIX)/lib/pkgconfig/heechstjer.pc

test-install: $(LIB)
	prefix=$$(mktemp -d); trap 'rm -rf "$$prefix"' EXIT; \
	$(MAKE) --no-print-directory install PREFIX="$$prefix" DESTDIR=; \
	export PKG_CONFIG_PATH="$$prefix/lib/pkgconfig"; \
	$(CC) $(CFLAGS) examples/kernel.c $$(pkg-config --cflags --libs heechstjer) -o "$$prefix/kernel"; \
	$(EMULATOR) "$$prefix/kernel" | diff tests/c/kernel.want -; \
	version=$$(sed -n 's/^#define HEECHSTJER_VERSION "\(.*\)"$$/\1/p' "$$prefix/include/heechstjer.h"); \
	test "$$(pkg-config --modversion heechstjer)" = "$$version" || { echo "heechstjer.pc has not the header's version"; exit 1; }

clean:
	rm -rf $(OUT)
