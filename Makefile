# make demo: a host with eight simulated guests on disk images in a temporary folder, one of them hostile. make demo SEED=5 ROUNDS=1000 has other guests, and
# shorter lives.
.PHONY: demo
demo: $(or $(KERNELHARP_ARCHIVE),target/staticlib/libkernelharp.a)
	@tests/need-rust
	@[ -e host/target/release/demo ] || echo "the demo: compiled by cargo, some seconds"
	@cargo run --release --quiet --manifest-path host/Cargo.toml --package demo -- $(or $(SEED),1) $(ROUNDS)

# make test: every check, proof and test. Its last line is the verdict.
.PHONY: test
test:
	@bash tests/run

# make bench: times, instructions and memory, against the second program. make test holds some figures of it.
.PHONY: bench
bench: target/staticlib/libkernelharp.a
	@bash tests/bench

# The crates' sources, without what rt keeps beside them.
sources_of_crates := $(shell find crates -name out -prune -o \( -name '*.rt' -o -name '*.antt' \) -print)

# The archive: proved, then compiled. The first time takes some minutes; it is shown how far it is.
target/staticlib/libkernelharp.a: crates.txt $(sources_of_crates)
	@tests/archive

# The program that runs a trace again (docs/HOST.md, Traces): proved, then compiled; rt runs it once, on nothing.
target/bin/replay: crates.txt $(sources_of_crates)
	@mkdir -p target/log
	(cd crates/replay && rt run </dev/null) >target/log/replay.txt 2>&1 || { tail -n 20 target/log/replay.txt; exit 1; }
	install -D crates/replay/out/replay $@

# make install: headers, archives, pkg-config and CMake files, man pages and documents, below DESTDIR. make uninstall, with the same folders, removes them.
# Where libraries have a folder for each machine: LIBDIR=/usr/lib/x86_64-linux-gnu.
PREFIX ?= /usr/local
LIBDIR ?= $(PREFIX)/lib
INCLUDEDIR ?= $(PREFIX)/include
DATADIR ?= $(PREFIX)/share
MANDIR ?= $(DATADIR)/man
DOCDIR ?= $(DATADIR)/doc/kernelharp
KERNELHARP_ARCHIVE ?= target/staticlib/libkernelharp.a
BUILD ?= target/install
CFLAGS ?= -O2

headers := include/kernelharp.h include/kernelharp_host.h
pages3 := $(wildcard man/*.3)
pages7 := $(wildcard man/*.7)
texts := README.md CHANGELOG.md SECURITY.md LICENSE
docs := $(wildcard docs/*.md)
pkgconfig := kernelharp.pc kernelharp_host.pc
cmake := cmake/kernelharp-config.cmake cmake/kernelharp-config-version.cmake
archives := libkernelharp.a libkernelharp_host.a
sources := $(wildcard c/*.c c/*.h)
units := $(basename $(notdir $(filter %.c,$(sources))))

# in-folder FOLDER FILES: where these files get to.
in-folder = $(addprefix $(DESTDIR)$(1)/,$(notdir $(2)))
# put FILES FOLDER: a command.
put = install -m 644 $(1) $(DESTDIR)$(2)
# What belongs to nobody else, and so is removed when it is empty.
own-folders = $(addprefix $(DESTDIR),$(LIBDIR)/cmake/kernelharp $(DATADIR)/kernelharp $(DOCDIR)/docs $(DOCDIR))
folders = $(addprefix $(DESTDIR),$(INCLUDEDIR) $(LIBDIR)/pkgconfig $(MANDIR)/man3 $(MANDIR)/man7) $(own-folders)

# The header has the version, as major * 10000 + minor * 100 + patch.
version = $(shell awk '$$2 == "KH_VERSION" && $$3 + 0 { print int($$3 / 10000) "." int($$3 / 100) % 100 "." $$3 % 100 }' include/kernelharp.h)
below-prefix = $(patsubst $(abspath $(PREFIX))/%,$${prefix}/%,$(abspath $(1)))
relative-include = $(shell realpath -ms --relative-to=$(LIBDIR)/cmake/kernelharp $(INCLUDEDIR))
fill = sed -e 's|@VERSION@|$(version)|' -e 's|@PREFIX@|$(abspath $(PREFIX))|' -e 's|@LIBDIR@|$(call below-prefix,$(LIBDIR))|' \
	-e 's|@INCLUDEDIR@|$(call below-prefix,$(INCLUDEDIR))|' -e 's|@DATADIR@|$(call below-prefix,$(DATADIR))|' \
	-e 's|@RELATIVE_INCLUDE@|$(relative-include)|'

# The archive that is built here is code for x86-64; one that is given is the giver's business.
ifeq ($(origin KERNELHARP_ARCHIVE),file)
$(KERNELHARP_ARCHIVE): | is-x86-64
endif
.PHONY: is-x86-64
is-x86-64:
	@[ "$$(uname -m)" = x86_64 ] || { echo "Kernelharp is for x86-64 Linux, and this machine is $$(uname -m)" >&2; exit 1; }

# The C files are compiled, and the templates are filled, each time: flags and folders may have changed.
.PHONY: install
install: $(KERNELHARP_ARCHIVE)
	mkdir -p $(BUILD)/cmake
	for unit in $(units); do $(CC) -std=c99 -fPIC -Iinclude $(CPPFLAGS) $(CFLAGS) -c c/$$unit.c -o $(BUILD)/$$unit.o || exit 1; done
	rm -f $(BUILD)/libkernelharp_host.a
	$(AR) rcs $(BUILD)/libkernelharp_host.a $(patsubst %,$(BUILD)/%.o,$(units))
	for file in $(pkgconfig) $(cmake); do $(fill) $$file.in >$(BUILD)/$$file || exit 1; done
	install -d $(folders)
	$(call put,$(headers),$(INCLUDEDIR))
	$(call put,$(KERNELHARP_ARCHIVE),$(LIBDIR)/libkernelharp.a)
	$(call put,$(BUILD)/libkernelharp_host.a,$(LIBDIR))
	$(call put,$(addprefix $(BUILD)/,$(pkgconfig)),$(LIBDIR)/pkgconfig)
	$(call put,$(addprefix $(BUILD)/,$(cmake)),$(LIBDIR)/cmake/kernelharp)
	$(call put,$(sources),$(DATADIR)/kernelharp)
	$(call put,$(pages3),$(MANDIR)/man3)
	$(call put,$(pages7),$(MANDIR)/man7)
	$(call put,$(texts),$(DOCDIR))
	$(call put,$(docs),$(DOCDIR)/docs)

.PHONY: uninstall
uninstall:
	rm -f $(call in-folder,$(INCLUDEDIR),$(headers)) $(call in-folder,$(LIBDIR),$(archives)) $(call in-folder,$(LIBDIR)/pkgconfig,$(pkgconfig))
	rm -f $(call in-folder,$(LIBDIR)/cmake/kernelharp,$(cmake)) $(call in-folder,$(DATADIR)/kernelharp,$(sources))
	rm -f $(call in-folder,$(MANDIR)/man3,$(pages3)) $(call in-folder,$(MANDIR)/man7,$(pages7))
	rm -f $(call in-folder,$(DOCDIR),$(texts)) $(call in-folder,$(DOCDIR)/docs,$(docs))
	for folder in $(own-folders); do [ ! -d $$folder ] || rmdir --ignore-fail-on-non-empty $$folder; done
