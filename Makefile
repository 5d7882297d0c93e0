# make        builds into build/: the archive liblupetzarin.a, the shared object liblupetzarin.so, the programs lup and list
# make test   proves every crate, then runs the tests outside Rattle; its last line is 'N passed, 0 failed'
# make linked a C program over the header and the archive; its last line is 'N passed, 0 failed'
# make fuzz   every export on random and mutated inputs, FUZZ_SECONDS long (60); FUZZ_SEED chooses them
# make demo   builds as make does, then the main job on example data
# make bench  speed, as ratios measured in one run
# make bench-beside OTHER=ARCHIVE   unpack, pack and check of this build and of another one, in one run at each of four places in memory
# make install, make uninstall   programs, header, libraries, pkg-config file and man pages under PREFIX (/usr/local); DESTDIR: a folder to put in front of it
.PHONY: all test linked fuzz demo bench bench-beside install uninstall expect_directories clean
.DELETE_ON_ERROR:

CC = gcc
CFLAGS = -std=c11 -Wall -Wextra
HEADER = include/lupetzarin.h
ARCHIVE = build/liblupetzarin.a
SHARED = build/liblupetzarin.so
LIST = build/list
LUP = build/lup
SANITIZED = build/lup-sanitized
HOST_SOURCES = $(sort $(wildcard host/*.c))
HOST_HEADERS = $(wildcard host/*.h) $(HEADER)
HOST_FLAGS = $(CFLAGS) -Werror -D_POSIX_C_SOURCE=200809L -Iinclude
# libpng draws pictures: what lup is compiled and linked with, and what brings it where it is not there.
LIBPNG = $$(pkg-config --cflags --libs libpng)
HAVE_LIBPNG = pkg-config --exists libpng 2>/dev/null || tools/setup libpng-dev pkg-config
# The version is said in the header alone.
VERSION := $(shell sed -n 's/^\#define LUP_VERSION_[MP][A-Z]* //p' $(HEADER) | paste -sd.)
SONAME = liblupetzarin.so.$(firstword $(subst ., ,$(VERSION)))
# Directories too: their times change where a file comes or goes. A crate's own one is left out, as rt makes out/ in it.
SOURCES = $(shell find crates -mindepth 2 -name out -prune -o -print) crates.txt TOOLCHAIN

all: $(ARCHIVE) $(SHARED) $(LIST) $(LUP)

# The code is for every x86-64 processor: left to itself rt takes x86-64-v2, and a library does not look where it runs.
RT_PROCESSOR = --cpu x86-64

# What the prover says goes to a file, and to the terminal where something is not proved.
$(ARCHIVE): $(SOURCES)
	@mkdir -p build
	@echo "proving and compiling the library (from nothing some eight minutes; build/library.log)"
	@cd crates/lupetzarin && rt lib $(RT_PROCESSOR) >../../build/library.log 2>&1 || { tail -n 40 ../../build/library.log; exit 1; }
	@cp crates/lupetzarin/out/liblupetzarin.a $@

# The calls of the header alone are exported, with their versions; a name that is wanted or listed and that nothing defines is an error.
$(SHARED): $(ARCHIVE) packaging/lupetzarin.map $(HEADER)
	$(CC) -shared -o $@ -Wl,-soname,$(SONAME) -Wl,--version-script=packaging/lupetzarin.map -Wl,--no-undefined-version -Wl,-z,defs \
	    -Wl,--whole-archive $(ARCHIVE) -Wl,--no-whole-archive

# rt builds a program where it runs it: here on no bytes.
$(LIST): $(SOURCES)
	@mkdir -p build
	@cd crates/list && rt run $(RT_PROCESSOR) </dev/null >../../build/list.log 2>&1 || { tail -n 40 ../../build/list.log; exit 1; }
	@cp crates/list/out/list $@

$(LUP): $(HOST_SOURCES) $(HOST_HEADERS) $(ARCHIVE)
	@$(HAVE_LIBPNG)
	$(CC) $(HOST_FLAGS) -O2 -o $@ $(HOST_SOURCES) $(ARCHIVE) $(LIBPNG)

# The same sources over the same archive; the archive itself is not instrumented.
$(SANITIZED): $(HOST_SOURCES) $(HOST_HEADERS) $(ARCHIVE)
	@$(HAVE_LIBPNG)
	$(CC) $(HOST_FLAGS) -O1 -g -fsanitize=address,undefined -fno-sanitize-recover=all -o $@ $(HOST_SOURCES) $(ARCHIVE) $(LIBPNG)

build/linked: tests/boundary/linked.c $(HEADER) $(ARCHIVE)
	$(CC) $(CFLAGS) -Werror -Iinclude -o $@ tests/boundary/linked.c $(ARCHIVE)

build/fuzz: tests/fuzz/fuzz.c $(HEADER) $(ARCHIVE)
	$(CC) $(CFLAGS) -Werror -O2 -Iinclude -o $@ tests/fuzz/fuzz.c $(ARCHIVE)

build/bench: bench/bench.c bench/plain.c bench/plain.h $(HEADER) $(ARCHIVE)
	$(CC) $(CFLAGS) -O3 -Iinclude -o $@ bench/bench.c bench/plain.c $(ARCHIVE)

build/bench_run: bench/run.c bench/join.c bench/plans.c bench/plain_run.c bench/join.h bench/plans.h bench/plain_run.h $(HEADER) $(ARCHIVE)
	$(CC) $(CFLAGS) -O3 -Iinclude -o $@ $(filter %.c,$^) $(ARCHIVE) -lm

build/join.plan: build/bench_run
	build/bench_run write $@

# The tests of the Python module need numpy and distributed: Debian's, which the system's own Python sees. The others are for what is installed.
test:
	@tools/setup libpng-dev pkg-config python3-numpy python3-distributed python3-pip python3-setuptools python3-venv python3-wheel g++ groff-base man-db
	@tests/run

linked: build/linked
	@build/linked

FUZZ_SECONDS = 60
FUZZ_SEED = 1
fuzz: build/fuzz
	@build/fuzz $(FUZZ_SECONDS) $(FUZZ_SEED)

# The packages come first: what is built may need them.
demo:
	@tools/setup libpng-dev pkg-config
	@$(MAKE) --no-print-directory all
	@demo/run

# numpy is Debian's python3-numpy, which the system's own Python sees.
bench: build/bench build/bench_run build/join.plan $(SHARED)
	@tools/setup python3-numpy
	@build/bench
	@echo
	@build/bench_run
	@/usr/bin/python3 bench/numpy_join.py build/join.plan $(SHARED)
	@/usr/bin/python3 bench/python_run.py

# Two builds of the library in one program: the calls of the archive OTHER get names with other_ in front. Made anew each time, since OTHER may be another one.
bench-beside: $(ARCHIVE)
	@test -f '$(OTHER)' || { echo "make: OTHER=ARCHIVE names the other build" >&2; exit 1; }
	@ld -r -o build/other.o --whole-archive '$(OTHER)'
	@objcopy $$(nm -g --defined-only build/other.o | sed -n 's/.* T \(.*\)/--redefine-sym \1=other_\1/p') build/other.o
	@for padding in 0 16 32 48; do \
	    $(CC) $(CFLAGS) -O3 -DOTHER -DPADDING=$$padding -Iinclude -o build/bench_beside bench/bench.c bench/plain.c $(ARCHIVE) build/other.o && \
	    build/bench_beside || exit 1; echo; done

PREFIX = /usr/local
BINDIR = $(PREFIX)/bin
LIBDIR = $(PREFIX)/lib
INCLUDEDIR = $(PREFIX)/include
MANDIR = $(PREFIX)/share/man
PKGCONFIGDIR = $(LIBDIR)/pkgconfig
DESTDIR =
INSTALL = install
DIRECTORIES = $(BINDIR) $(LIBDIR) $(INCLUDEDIR) $(PKGCONFIGDIR) $(MANDIR)/man1 $(MANDIR)/man3
PAGES = $(MANDIR)/man1/lup.1 $(MANDIR)/man1/lup-list.1 $(MANDIR)/man1/lupasm.1 $(MANDIR)/man3/lupetzarin.3
INSTALLED = $(BINDIR)/lup $(BINDIR)/lup-list $(BINDIR)/lupasm $(INCLUDEDIR)/lupetzarin.h $(LIBDIR)/liblupetzarin.a $(LIBDIR)/liblupetzarin.so.$(VERSION) \
            $(LIBDIR)/$(SONAME) $(LIBDIR)/liblupetzarin.so $(PKGCONFIGDIR)/lupetzarin.pc $(PAGES)
# under FILES: each with DESTDIR in front, for the shell
under = $(foreach file,$(1),'$(DESTDIR)$(file)')

# The names go into the pkg-config file, where a space would end them; DESTDIR does not.
expect_directories:
	@for name in '$(PREFIX)' '$(BINDIR)' '$(LIBDIR)' '$(INCLUDEDIR)' '$(MANDIR)' '$(PKGCONFIGDIR)'; do \
	    case "$$name" in [!/]* | '' | *[!A-Za-z0-9_./+:~-]*) \
	        echo "make: '$$name' is no absolute name of letters, digits and _ . / + : ~ - alone: nothing was done" >&2; exit 1;; esac; done

# list is a name for any program; installed it is lup-list. ldconfig is not run: that is the administrator's. mkdir -p, since install -d changes the
# mode of a directory that is there.
install: expect_directories $(ARCHIVE) $(SHARED) $(LIST) $(LUP)
	umask 022 && mkdir -p $(call under,$(DIRECTORIES))
	$(INSTALL) -m 755 $(LUP) $(call under,$(BINDIR)/lup)
	$(INSTALL) -m 755 $(LIST) $(call under,$(BINDIR)/lup-list)
	$(INSTALL) -m 755 host/lupasm.py $(call under,$(BINDIR)/lupasm)
	$(INSTALL) -m 644 $(HEADER) $(call under,$(INCLUDEDIR)/lupetzarin.h)
	$(INSTALL) -m 644 $(ARCHIVE) $(call under,$(LIBDIR)/liblupetzarin.a)
	$(INSTALL) -m 644 $(SHARED) $(call under,$(LIBDIR)/liblupetzarin.so.$(VERSION))
	ln -sf liblupetzarin.so.$(VERSION) $(call under,$(LIBDIR)/$(SONAME))
	ln -sf $(SONAME) $(call under,$(LIBDIR)/liblupetzarin.so)
	$(INSTALL) -m 644 packaging/lupetzarin.pc.in $(call under,$(PKGCONFIGDIR)/lupetzarin.pc)
	sed -i -e 's|@PREFIX@|$(PREFIX)|' -e 's|@LIBDIR@|$(patsubst $(PREFIX)/%,$${prefix}/%,$(LIBDIR))|' \
	    -e 's|@INCLUDEDIR@|$(patsubst $(PREFIX)/%,$${prefix}/%,$(INCLUDEDIR))|' -e 's|@VERSION@|$(VERSION)|' $(call under,$(PKGCONFIGDIR)/lupetzarin.pc)
	$(INSTALL) -m 644 packaging/lup.1 packaging/lup-list.1 packaging/lupasm.1 $(call under,$(MANDIR)/man1)
	$(INSTALL) -m 644 packaging/lupetzarin.3 $(call under,$(MANDIR)/man3)
	sed -i 's|@VERSION@|$(VERSION)|' $(call under,$(PAGES))

# Directories stay: others may use them.
uninstall: expect_directories
	rm -f $(call under,$(INSTALLED))

clean:
	rm -rf build crates/*/out
