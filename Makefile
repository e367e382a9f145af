# Sellumaq: what is run from the top of the repository. `make` builds the program and the library from compiled/, by a C compiler. What proves
# needs the Rattle kit, whose command is `rt`.

CC = cc
LD = ld
OBJCOPY = objcopy
PREFIX = /usr/local
LIBDIR = $(PREFIX)/lib
DESTDIR =
VERSION := $(shell cat VERSION)

# The folder of this project's libJudy, which is no linker's own: a libJudy that is installed stays what programs find.
JUDYDIR = $(LIBDIR)/sellumaq

# The number goes up where a program that was linked against the library before can't run over it: bindings/c/abi.txt says what these rest on.
SONAME := libsellumaq.so.1

# What tells pkg-config and CMake of the library, below LIBDIR, each made of a file of bindings/c, in which the words between two @ are replaced.
FINDERS := $(addprefix pkgconfig/,sellumaq.pc sellumaq-judy.pc) $(addprefix cmake/sellumaq/,sellumaq-config.cmake sellumaq-config-version.cmake)
from_libdir = $(shell realpath -ms --relative-to='$(LIBDIR)' '$(1)')
REPLACED = s|@PREFIX@|$(PREFIX)|; s|@LIBDIR@|$(LIBDIR)|; s|@JUDYDIR@|$(JUDYDIR)|; s|@VERSION@|$(VERSION)|; s|@SONAME@|$(SONAME)|; \
	s|@TO_PREFIX@|$(call from_libdir,$(PREFIX))|; s|@TO_JUDYDIR@|$(call from_libdir,$(JUDYDIR))|

# The calls of the header, each of which gets a page, and the folders that a prefix of this project's own has, which go with the last file in
# them.
MAN = $(PREFIX)/share/man
CALLS = $(shell grep -ow 'sellumaq_judy[1a-z]*_[a-z_]*\|sellumaq_version\|sellumaq_error_text\|sellumaq_fault_text' bindings/c/sellumaq.h | sort -u)
OWN_FOLDERS = $(if $(filter-out /usr /usr/local,$(PREFIX)),"$(PYTHON_DIR)" "$(dir $(PYTHON_DIR))" "$(MAN)" "$(LIBDIR)" $(foreach name,bin include lib share,"$(PREFIX)/$(name)") "$(PREFIX)")

# Where Python finds modules under PREFIX, by its own word; a folder of our own where there is no Python.
PYTHON_DIR = $(or $(shell tools/python_dir "$(PREFIX)" 2>/dev/null),$(PREFIX)/share/sellumaq/python)

# At how many keys `make bench` measures the arrays, and which of its parts: tables that tools/bench names, `program` and `bindings`. All but
# `far` where none is named.
KEYS = 10000 1000000
PARTS =

# Where the library for C is left, and what it is made of besides the compiled text.
LIB := out/lib
C_SOURCES := $(wildcard bindings/c/*.h bindings/c/hp/*)
PYTHON_SOURCES := $(wildcard bindings/python/*.py bindings/python/pyproject.toml bindings/python/src/* bindings/python/sellumaq/*.py* bindings/c/sellumaq.h bindings/c/files.c bindings/c/unsorted.c)
RUST_FILES := $(patsubst bindings/rust/%,%,$(wildcard bindings/rust/Cargo.toml bindings/rust/README.md bindings/rust/src/*.rs bindings/rust/src/*/*.rs \
	bindings/rust/sellumaq-sys/Cargo.toml bindings/rust/sellumaq-sys/README.md bindings/rust/sellumaq-sys/build.rs bindings/rust/sellumaq-sys/src/*.rs \
	bindings/rust/serde/stand-in/Cargo.toml bindings/rust/serde/stand-in/src/*.rs))
CRATE_TEXTS := compiled/sellumaq.s compiled/system.c bindings/c/files.c bindings/c/unsorted.c bindings/c/sellumaq.h
C_FLAGS = -std=c11 -D_DEFAULT_SOURCE -O2 -Wall -Wextra
LIBRARIES := $(addprefix $(LIB)/,libsellumaq.a libsellumaq.so libJudy.a libJudy.so)

# What `ld -r` joins is machine code alone. Of an object that holds code for -flto too a linker takes that, and leaves what was assembled.
JOINED = -fno-lto

# What refuses calls for memory where tests preload it.
REFUSER := out/refuse_alloc.so

# What a program or a shared library can't be made to do by a fault of its caller: run its stack, or have its tables of calls written.
HARDENED = -Wl,-z,relro,-z,now,-z,noexecstack

# What a command that fails has begun isn't taken for done by the next one.
.DELETE_ON_ERROR:

.PHONY: all help lib python check test proved compiled dist bench fmt kit buildable install install-program install-library install-libjudy \
	install-test uninstall clean

all: judystore lib python

help:
	@echo 'make             builds the program, ./judystore, the library for C, out/lib, and the Python package, out/python, from compiled/:'
	@echo '                 make judystore, make lib, make python'
	@echo 'make check       tries all of it, as people use it and where memory is refused, from C, Rust and Python'
	@echo 'make install     puts the program and the library for C, Rust and Python under PREFIX ($(PREFIX)); make uninstall takes them away'
	@echo 'make install-libjudy  links the library of HP'"'"'s names to where the linker looks for libJudy'
	@echo 'make install-test  runs the programs of the README over a library that was installed'
	@echo 'make dist        packs the last commit as sellumaq-$(VERSION).tar.xz'
	@echo 'make bench       measures the arrays beside libJudy, BTreeMap and HashMap, the program beside BTreeMap, and the bindings beside their peers;'
	@echo '                 PARTS="small counts" those parts alone, of the tables that `tools/bench` tells, program and bindings'
	@echo 'With the Rattle kit:'
	@echo 'make test        the gate: every proof and must-fail edit, from nothing, the compiled texts beside what was proved, and make check'
	@echo 'make proved      proves and builds from the sources, and says whether compiled/ is the same code'
	@echo 'make compiled    makes compiled/ anew'
	@echo 'make fmt         lays out the sources'
	@echo 'make clean       takes away what these commands made'

# Says plainly what is missing, before anything else fails for want of it.
kit:
	@command -v rt >/dev/null 2>&1 || { echo 'The Rattle kit is missing: its command `rt` is not on PATH.' >&2; exit 1; }

buildable:
	@tools/buildable $(CC)

judystore: compiled/judystore.s compiled/system.c | buildable
	@mkdir -p out
	@$(CC) -c compiled/judystore.s -o out/program.o
	@$(CC) $(C_FLAGS) -fPIE -DFOR_PROGRAM $(CPPFLAGS) $(CFLAGS) $(JOINED) -c compiled/system.c -o out/program_system.o
	@$(CC) -pie $(HARDENED) -Wl,--wrap=fdatasync $(CFLAGS) $(LDFLAGS) out/program.o out/program_system.o -o out/judystore
	@mv out/judystore $@
	@echo 'built ./$@'

# Proves and builds from the sources, and leaves what is built in out/proved.
proved: kit
	@tools/prove judy_store judy_c
	@mkdir -p out/proved
	@(cd crates/judy_store && rt run </dev/null) >out/proofs/program.log 2>&1 || { echo 'NOT BUILT: see out/proofs/program.log' >&2; exit 1; }
	@rm -f crates/judy_c/out/libjudy_c.a
	@tools/compiled objects >out/proofs/library.log 2>&1 || { echo 'NOT BUILT: see out/proofs/library.log' >&2; exit 1; }
	@cp crates/judy_store/out/judy_store out/proved/judystore
	@cp crates/judy_c/out/libjudy_c.a out/proved
	@tools/compiled compare .

# Proves what the compiled texts are of, and makes them anew.
compiled: kit
	@tools/prove judy_store judy_c
	@tools/compiled make

check: judystore lib python $(REFUSER)
	@tests/check

test:
	@tools/gate

lib: $(LIBRARIES)

# The proved calls over malloc, and the same calls over JudyMalloc below HP's names. Each library is linked to one object first, in which all
# names but its own are hidden.
$(LIB)/calls.o: compiled/sellumaq.s | buildable
	@mkdir -p $(LIB)
	@$(CC) -c $< -o $@

$(LIB)/sellumaq.o: $(LIB)/calls.o compiled/system.c bindings/c/about.c bindings/c/files.c bindings/c/unsorted.c bindings/c/sellumaq.h
	@for part in compiled/system bindings/c/about bindings/c/files bindings/c/unsorted; do \
		$(CC) $(C_FLAGS) -fPIC $(CPPFLAGS) $(CFLAGS) $(JOINED) -c $$part.c -o $(LIB)/$${part##*/}.o || exit 1; \
	done
	@$(LD) -r $(LIB)/calls.o $(LIB)/system.o $(LIB)/about.o $(LIB)/files.o $(LIB)/unsorted.o -o $@
	@$(OBJCOPY) --wildcard --keep-global-symbol='sellumaq_*' $@

$(LIB)/judy.o: $(LIB)/calls.o compiled/system.c $(C_SOURCES)
	@$(CC) $(C_FLAGS) -fPIC -DWITHOUT_MEMORY $(CPPFLAGS) $(CFLAGS) $(JOINED) -c compiled/system.c -o $(LIB)/hp_system.o
	@for part in judy memory; do \
		$(CC) $(C_FLAGS) -fPIC -ftls-model=initial-exec $(CPPFLAGS) $(CFLAGS) $(JOINED) -c bindings/c/hp/$$part.c -o $(LIB)/hp_$$part.o || exit 1; \
	done
	@$(LD) -r $(LIB)/calls.o $(LIB)/hp_system.o $(LIB)/hp_judy.o $(LIB)/hp_memory.o -o $@
	@$(OBJCOPY) --wildcard --keep-global-symbol='Judy*' $@

$(LIB)/libsellumaq.a: $(LIB)/sellumaq.o
	@rm -f $@ && ar rcs $@ $<
	@echo 'built $@'

$(LIB)/libJudy.a: $(LIB)/judy.o
	@rm -f $@ && ar rcs $@ $<
	@echo 'built $@'

$(LIB)/libsellumaq.so: $(LIB)/sellumaq.o bindings/c/sellumaq.map
	@$(CC) -shared -Wl,-soname,$(SONAME) -Wl,--version-script,bindings/c/sellumaq.map -Wl,-Bsymbolic $(HARDENED) $(LDFLAGS) -o $@ $<
	@ln -sf libsellumaq.so $(LIB)/$(SONAME)
	@echo 'built $@'

# Its calls of itself stay in it, but those of the four functions that a program may replace.
$(LIB)/libJudy.so: $(LIB)/judy.o
	@$(CC) -shared -Wl,-soname,libJudy.so.1 -Wl,--version-script,bindings/c/hp/names.map -Wl,--dynamic-list,bindings/c/hp/replaced.list \
		$(HARDENED) $(LDFLAGS) -o $@ $<
	@ln -sf libJudy.so $(LIB)/libJudy.so.1
	@echo 'built $@'

# The Python package, ready to be imported: with the extension, where a C compiler and Python's headers are there. What was built by one user
# is installed by another, so it is built anew only where a source is newer.
python: out/python/built

out/python/built: $(LIB)/libsellumaq.a $(PYTHON_SOURCES)
	@rm -rf out/python && mkdir -p out/python
	@if command -v python3 >/dev/null 2>&1; then python3 bindings/python/build_package.py $(LIB) out/python; \
	else cp -r bindings/python/sellumaq out/python; fi
	@touch $@

$(REFUSER): tests/refuse_alloc.c
	@mkdir -p out
	@$(CC) -O1 -shared -fPIC -o $@ $<

# The same bytes of the same commit, by one version of git and of xz.
dist:
	@git rev-parse -q --verify HEAD >/dev/null 2>&1 || { echo 'There is no commit here to pack: this is no clone of the repository.' >&2; exit 1; }
	@mkdir -p out && git archive --format=tar --prefix=sellumaq-$(VERSION)/ HEAD >out/dist.tar
	@xz -9e -T1 <out/dist.tar >sellumaq-$(VERSION).tar.xz
	@echo 'packed sellumaq-$(VERSION).tar.xz'

# Where the figures of a run are kept, of which the pages of figures are made.
RESULTS = bench/results/$(shell date +%F).csv
TABLES = $(filter-out program bindings,$(PARTS))

# A million keys take long, an hour or more where other work runs beside; 10,000 take ten minutes, and the program seven.
bench: lib judystore python
ifneq ($(or $(TABLES),$(if $(PARTS),,all)),)
	@tools/bench $(LIB) --csv $(RESULTS) $(addprefix --,$(TABLES)) $(KEYS)
endif
ifneq ($(or $(filter program,$(PARTS)),$(if $(PARTS),,all)),)
	@tools/bench_program ./judystore --csv $(RESULTS)
endif
ifneq ($(or $(filter bindings,$(PARTS)),$(if $(PARTS),,all)),)
	@tools/bench_bindings $(LIB) out/python --csv $(RESULTS)
endif
	@tools/tables

# Under DESTDIR, which is for those who pack: the program with its page, and the library with what each language needs to use it. What is
# built already is taken as it is, so this needs no kit then. Each file gets its mode here, whatever the umask.
install: install-program install-library

install-program: judystore
	install -d "$(DESTDIR)$(PREFIX)/bin" "$(DESTDIR)$(MAN)/man1"
	install -m 755 judystore "$(DESTDIR)$(PREFIX)/bin/judystore"
	install -m 644 docs/man/judystore.1 "$(DESTDIR)$(MAN)/man1"

install-library: lib python
	install -d "$(DESTDIR)$(JUDYDIR)" "$(DESTDIR)$(LIBDIR)/pkgconfig" "$(DESTDIR)$(PREFIX)/include/sellumaq" "$(DESTDIR)$(MAN)/man3"
	install -d "$(DESTDIR)$(LIBDIR)/cmake/sellumaq" "$(DESTDIR)$(PYTHON_DIR)/sellumaq"
	install -m 644 $(LIB)/libsellumaq.a "$(DESTDIR)$(LIBDIR)/libsellumaq.a"
	install -m 755 $(LIB)/libsellumaq.so "$(DESTDIR)$(LIBDIR)/$(SONAME)"
	ln -sf $(SONAME) "$(DESTDIR)$(LIBDIR)/libsellumaq.so"
	install -m 644 $(LIB)/libJudy.a "$(DESTDIR)$(JUDYDIR)/libJudy.a"
	install -m 755 $(LIB)/libJudy.so "$(DESTDIR)$(JUDYDIR)/libJudy.so.1"
	ln -sf libJudy.so.1 "$(DESTDIR)$(JUDYDIR)/libJudy.so"
	for file in $(FINDERS); do \
		name=$${file##*/} && sed '$(REPLACED)' bindings/c/$$name.in >$(LIB)/$$name && \
		install -m 644 $(LIB)/$$name "$(DESTDIR)$(LIBDIR)/$$file" || exit 1; \
	done
	install -m 644 bindings/c/sellumaq.h "$(DESTDIR)$(PREFIX)/include/sellumaq.h"
	install -m 644 bindings/c/hp/Judy.h "$(DESTDIR)$(PREFIX)/include/sellumaq/Judy.h"
	install -m 644 docs/man/*.3 "$(DESTDIR)$(MAN)/man3"
	for call in $(CALLS); do \
		page=$${call#sellumaq_} && page=$${page%%_*}; case $$page in judy*) ;; *) page=sellumaq ;; esac; \
		ln -sf $$page.3 "$(DESTDIR)$(MAN)/man3/$$call.3" || exit 1; \
	done
	for file in $(RUST_FILES); do install -D -m 644 bindings/rust/$$file "$(DESTDIR)$(PREFIX)/share/sellumaq/rust/$$file" || exit 1; done
	for file in $(CRATE_TEXTS); do install -D -m 644 $$file "$(DESTDIR)$(PREFIX)/share/sellumaq/rust/sellumaq-sys/compiled/$${file##*/}" || exit 1; done
	install -m 644 out/python/sellumaq/*.* "$(DESTDIR)$(PYTHON_DIR)/sellumaq"

# Links this project's libJudy into the linker's own folder, where programs that were linked against HP's find it once ldconfig has
# run. A libJudy that is there and isn't this link is never replaced.
install-libjudy: install-library
	@for name in libJudy.so libJudy.so.1; do \
		at="$(DESTDIR)$(LIBDIR)/$$name"; \
		if { [ -e "$$at" ] || [ -L "$$at" ]; } && [ "$$(readlink "$$at")" != "$(JUDYDIR)/$$name" ]; then \
			echo "$$at is another library's: nothing is linked" >&2; exit 1; \
		fi; \
	done
	ln -sf "$(JUDYDIR)/libJudy.so" "$(DESTDIR)$(LIBDIR)/libJudy.so"
	ln -sf "$(JUDYDIR)/libJudy.so.1" "$(DESTDIR)$(LIBDIR)/libJudy.so.1"

# The programs of the README, built and run over a library that was installed.
install-test:
	@tests/install

uninstall:
	rm -f "$(DESTDIR)$(PREFIX)/bin/judystore" "$(DESTDIR)$(MAN)/man1/judystore.1"
	cd "$(DESTDIR)$(MAN)/man3" 2>/dev/null && rm -f $(notdir $(wildcard docs/man/*.3)) $(addsuffix .3,$(CALLS)) || true
	for name in libJudy.so libJudy.so.1; do \
		at="$(DESTDIR)$(LIBDIR)/$$name"; \
		if [ "$$(readlink "$$at")" = "$(JUDYDIR)/$$name" ]; then rm "$$at"; fi; \
	done
	cd "$(DESTDIR)$(LIBDIR)" 2>/dev/null && rm -f libsellumaq.a libsellumaq.so $(SONAME) $(FINDERS) || true
	cd "$(DESTDIR)$(JUDYDIR)" 2>/dev/null && rm -f libJudy.a libJudy.so libJudy.so.1 || true
	rm -f "$(DESTDIR)$(PREFIX)/include/sellumaq.h"
	rm -rf "$(DESTDIR)$(PYTHON_DIR)/sellumaq"
	rm -rf "$(DESTDIR)$(PREFIX)/include/sellumaq" "$(DESTDIR)$(PREFIX)/share/sellumaq"
	for folder in "$(JUDYDIR)" "$(LIBDIR)/pkgconfig" "$(LIBDIR)/cmake/sellumaq" "$(LIBDIR)/cmake" "$(MAN)/man1" "$(MAN)/man3" $(OWN_FOLDERS); do \
		if [ -d "$(DESTDIR)$$folder" ]; then rmdir --ignore-fail-on-non-empty "$(DESTDIR)$$folder"; fi; \
	done

fmt: kit
	@for crate in crates/*/; do (cd $$crate && rt fmt) || exit 1; done

clean:
	rm -rf out judystore sellumaq-*.tar.xz crates/*/out
