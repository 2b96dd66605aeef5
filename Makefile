# Builds the libraries and the command, and installs them. For GNU make.
#
#   make                          target/staticlib/libcapi.a, if it is missing or older than its sources (`rt lib` proves it, in some minutes),
#                                 the shared library in target/lib, and the command
#   make install PREFIX=/usr      what `make` has built, and nothing else
#   make uninstall PREFIX=/usr    takes the same files away
#   make check-install            installs into a temporary folder, tries what is there, and uninstalls
#
# What goes where, in $(DESTDIR):
#
#   $(INCLUDEDIR)/muntyzhap.h
#   $(LIBDIR)/libmuntyzhap.a      the static library
#   $(LIBDIR)/libmuntyzhap.so.V   the shared library of version V, with links libmuntyzhap.so and, by its soname, libmuntyzhap.so.MAJOR
#   $(PKGCONFIGDIR)/muntyzhap.pc
#   $(BINDIR)/muntyzhap           the command
#   $(PYTHONDIR)/muntyzhap.py     the module for Python: PYTHONPATH has to name this folder. It finds the shared library in ../../../lib from
#                                 there, or by the system's loader; where LIBDIR is neither, MUNTYZHAP_LIBRARY has to name the file
#
# The version is the header's. MUNTYZHAP_LIB_DIR names the folder of libcapi.a by its whole path, if not target/staticlib; there it is taken as
# it is.

PREFIX = /usr/local
INCLUDEDIR = $(PREFIX)/include
LIBDIR = $(PREFIX)/lib
BINDIR = $(PREFIX)/bin
PKGCONFIGDIR = $(LIBDIR)/pkgconfig
PYTHONDIR = $(PREFIX)/share/muntyzhap/python

RT = rt
CARGO = cargo
INSTALL = install

.PHONY: all static shared command install uninstall check-install
all: static shared command

# A path in make is a word.
override PREFIX := $(if $(word 2,$(PREFIX)),$(PREFIX),$(abspath $(PREFIX)))
spaced := $(strip $(foreach name,CURDIR DESTDIR PREFIX INCLUDEDIR LIBDIR BINDIR PKGCONFIGDIR PYTHONDIR MUNTYZHAP_LIB_DIR CARGO_TARGET_DIR,\
  $(if $(word 2,$($(name))),$(name))))
$(if $(spaced),$(error no path may have a space in it: see $(spaced)))

header := include/muntyzhap.h
version := $(shell sed -n 's/^.define MUNTYZHAP_VERSION "\(.*\)"$$/\1/p' $(header))
major := $(firstword $(subst ., ,$(version)))
$(if $(major),,$(error $(header) has no MUNTYZHAP_VERSION))

# $(call need,PROGRAM,WHAT FOR): stops in words where the program is missing.
need = @command -v $(firstword $(1)) >/dev/null || { echo "$(firstword $(1)) is missing: $(2)" >&2; exit 1; }

.DELETE_ON_ERROR:

# ---- the static library

own_static := $(CURDIR)/target/staticlib
MUNTYZHAP_LIB_DIR ?= $(own_static)
export MUNTYZHAP_LIB_DIR
static := $(MUNTYZHAP_LIB_DIR)/libcapi.a
# `capi` and the crates below it, down to the lowest: crates.txt has each after those that it names.
proved := $(shell tac crates.txt | awk -F: 'BEGIN { used["capi"] } { split($$1, words, " ") } \
  words[1] in used { print words[1]; n = split($$2, named, " "); for (i = 1; i <= n; i++) used[named[i]] }')
parts := $(wildcard $(foreach part,src specs proofs,$(proved:%=crates/%/$(part))))
$(if $(parts),,$(error crates.txt has no line for capi))
proved_sources := crates.txt $(shell find $(parts) -type f)

static: $(static)

$(own_static)/libcapi.a: $(proved_sources)
	$(call need,$(RT),the Rattle toolchain proves and compiles the static library. MUNTYZHAP_LIB_DIR may name a folder that has libcapi.a)
	cd crates/capi && $(RT) lib
	@mkdir -p $(own_static)
	cp crates/capi/out/libcapi.a $@

ifneq ($(MUNTYZHAP_LIB_DIR),$(own_static))
$(static):
	@echo "$@ is missing: MUNTYZHAP_LIB_DIR has to name a folder that has it" >&2; exit 1
endif

# ---- the shared library, the same code

SHARED_DIR = target/lib
soname := libmuntyzhap.so.$(major)
shared := $(SHARED_DIR)/libmuntyzhap.so.$(version)

shared: $(shared)

$(shared): $(static) packaging/muntyzhap.map
	$(call need,$(CC),a C compiler links the shared library. CC may name one)
	@mkdir -p $(SHARED_DIR)
	$(CC) $(LDFLAGS) -shared -o $@ -Wl,-soname,$(soname) -Wl,--version-script,packaging/muntyzhap.map \
	  -Wl,-z,defs -Wl,-z,text -Wl,-z,noexecstack -Wl,-z,relro -Wl,-z,now \
	  -Wl,--whole-archive $(static) -Wl,--no-whole-archive
	@ln -sf libmuntyzhap.so.$(version) $(SHARED_DIR)/$(soname)
	@ln -sf $(soname) $(SHARED_DIR)/libmuntyzhap.so

# ---- the command

CARGO_TARGET_DIR ?= target/rust
command := $(CARGO_TARGET_DIR)/release/muntyzhap
rust_sources := $(shell find rust -name tests -prune -o -type f -print)

command: $(command)

# cargo leaves the time of a file as it is where nothing is new.
$(command): $(static) $(rust_sources)
	$(call need,$(CARGO),Rust's cargo builds the command. CARGO may name it)
	$(CARGO) build --offline --release --manifest-path rust/Cargo.toml --package command --target-dir $(CARGO_TARGET_DIR)
	@touch $@

# ---- installed

to = $(DESTDIR)$(1)
# A folder within the prefix as a pkg-config file has it.
within = $(patsubst $(PREFIX)/%,$${prefix}/%,$(1))

install: all
	$(INSTALL) -d $(foreach folder,$(INCLUDEDIR) $(LIBDIR) $(PKGCONFIGDIR) $(BINDIR) $(PYTHONDIR),$(call to,$(folder)))
	$(INSTALL) -m 644 $(header) $(call to,$(INCLUDEDIR))/muntyzhap.h
	$(INSTALL) -m 644 $(static) $(call to,$(LIBDIR))/libmuntyzhap.a
	$(INSTALL) -m 755 $(shared) $(call to,$(LIBDIR))/libmuntyzhap.so.$(version)
	ln -sf libmuntyzhap.so.$(version) $(call to,$(LIBDIR))/$(soname)
	ln -sf $(soname) $(call to,$(LIBDIR))/libmuntyzhap.so
	sed -e 's|@PREFIX@|$(PREFIX)|' -e 's|@INCLUDEDIR@|$(call within,$(INCLUDEDIR))|' -e 's|@LIBDIR@|$(call within,$(LIBDIR))|' \
	  -e 's|@VERSION@|$(version)|' packaging/muntyzhap.pc.in >$(call to,$(PKGCONFIGDIR))/muntyzhap.pc
	chmod 644 $(call to,$(PKGCONFIGDIR))/muntyzhap.pc
	$(INSTALL) -m 755 $(command) $(call to,$(BINDIR))/muntyzhap
	$(INSTALL) -m 644 python/muntyzhap.py $(call to,$(PYTHONDIR))/muntyzhap.py

# Of the folders, those that only this package has go too, if nothing else is in them.
uninstall:
	rm -f $(call to,$(INCLUDEDIR))/muntyzhap.h
	rm -f $(foreach file,libmuntyzhap.a libmuntyzhap.so $(soname) libmuntyzhap.so.$(version),$(call to,$(LIBDIR))/$(file))
	rm -f $(call to,$(PKGCONFIGDIR))/muntyzhap.pc $(call to,$(BINDIR))/muntyzhap
	rm -f $(call to,$(PYTHONDIR))/muntyzhap.py $(call to,$(PYTHONDIR))/__pycache__/muntyzhap.*.pyc
	for folder in $(call to,$(PYTHONDIR))/__pycache__ $(call to,$(PYTHONDIR)) $(call to,$(PREFIX))/share/muntyzhap; do \
	  rmdir $$folder 2>/dev/null || :; \
	done

check-install:
	.ci/packages
