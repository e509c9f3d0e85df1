# make           builds the tool and the libraries from the proved library in dist/, checks an example
#                file and turns it into text. Needs gcc and make alone, and takes seconds
# make install   PREFIX=/usr/local DESTDIR=: the tool, the header, the static and the shared library, a
#                pkg-config file, the manual pages and docs, as they were built last, or else from dist/
# make uninstall takes these away again
# make tool      only builds: target/noferkash, target/libnoferkash.a and target/libnoferkash.so.0
#
# make prove     proves the library from its sources, compares it with dist/, and builds from it what
#                make builds. What is proved and unchanged is not proved again. Needs rt
# make test      the gate: every proof and must-fail edit that no earlier run on this machine did, then every
#                test. Needs rt
#                It wants a clone where make has not built yet: rt ci refuses links, and target/ has one
# make dist      proves, and renews dist/ with the library proved. Needs rt
#
# make bench     one table of times on a file of about 1 MiB: each operation beside the second program and,
#                if installed, midicsv and csvmidi, and how our time grows (docs/PERFORMANCE.md)
# make fuzz      TIME=300 SEED=1 FUNCTION=: fuzzes each exported function, or check, file_to_text,
#                text_to_file, tidy, fold, list_tracks, file_to_sheet or sheet_to_text alone, for so many seconds beside
#                the second program
# make fuzz-planted  that the fuzzer finds planted faults; some minutes
# make sheets    tries the sheet form in LibreOffice Calc and Gnumeric themselves, where they are installed; some 7 minutes
# make soak      CASES=500000 SEED=0: the seeded comparison with the second program, so many cases
#
# ARCHIVE=FILE   another proved library than that of dist/
# BUILD=FOLDER   holds what is built here in place of target
DIST = dist/x86_64-linux
PROVED = target/staticlib/libnoferkash.a
BUILD = target
EXAMPLE = tests/corpus/gen-lilypond__own1.mid

PREFIX = /usr/local
BINDIR = $(PREFIX)/bin
INCLUDEDIR = $(PREFIX)/include
LIBDIR = $(PREFIX)/lib
MANDIR = $(PREFIX)/share/man
DOCDIR = $(PREFIX)/share/doc/noferkash

ARCHIVE = $(DIST)/libnoferkash.a
# make install takes the archive of the last build.
ifeq ($(MAKECMDGOALS),install)
ARCHIVE := $(or $(shell cat $(BUILD)/archive 2>/dev/null),$(ARCHIVE))
endif

CFLAGS = -O2
COMPILE = $(CC) -std=c99 -Wall -Wextra -Wpedantic $(CPPFLAGS) $(CFLAGS) -Iinclude
VERSION := $(shell sed -n 's/^.define NOFERKASH_VERSION "\(.*\)"/\1/p' include/noferkash.h)
SONAME = libnoferkash.so.$(firstword $(subst ., ,$(VERSION)))

TOOL = $(BUILD)/noferkash
LIBRARY = $(BUILD)/libnoferkash.a
SHARED = $(BUILD)/libnoferkash.so.$(VERSION)
MAN = $(wildcard man/*.1 man/*.3 man/*.5)
DOC = LICENSE CHANGELOG.md $(wildcard docs/*.md)

.DELETE_ON_ERROR:
.PHONY: all tool example install uninstall prove dist test bench fuzz fuzz-planted soak sheets clean always

all: tool example
	@echo "$(TOOL) is the command line tool; make install installs it"

tool: $(TOOL) $(SHARED)

example: $(BUILD)/check_file $(BUILD)/convert_file
	$(BUILD)/check_file $(EXAMPLE)
	$(BUILD)/convert_file $(EXAMPLE) $(BUILD)/example.csv
	@echo "$(BUILD)/example.csv is the text of $(EXAMPLE); it begins:"
	@head -n 4 $(BUILD)/example.csv

# Which archive the last build took: another one counts as new, however old it is. That of dist/ must be
# the one whose sum stands beside it.
$(BUILD)/archive: always
	@mkdir -p $(BUILD)
ifeq ($(ARCHIVE),$(DIST)/libnoferkash.a)
	@! command -v sha256sum >/dev/null || (cd $(DIST) && sha256sum --quiet -c SHA256SUMS)
endif
	@[ "$$(cat $@ 2>/dev/null)" = "$(ARCHIVE)" ] || echo "$(ARCHIVE)" >$@

# For both libraries, hence -fPIC.
$(BUILD)/%.o: library/%.c include/noferkash.h
	@mkdir -p $(BUILD)
	$(COMPILE) -fPIC -c -o $@ $<

# A copy: the archive that was proved stays as it was made. Moved in place when whole.
BESIDE = $(patsubst library/%.c,$(BUILD)/%.o,$(wildcard library/*.c))
$(LIBRARY): $(BESIDE) $(ARCHIVE) $(BUILD)/archive
	cp $(ARCHIVE) $@.new
	chmod u+w $@.new
	$(AR) rs $@.new $(BESIDE)
	mv $@.new $@

# The symbols to export: what the header declares, and nothing else.
$(BUILD)/exports: include/noferkash.h
	@mkdir -p $(BUILD)
	(echo '{ global:' && sed -n 's/^[a-z].*[ *]\(noferkash_[a-z_]*\)(.*/\1;/p' $< && echo 'local: *; };') >$@

$(SHARED): $(LIBRARY) $(BUILD)/exports
	$(CC) -shared $(CFLAGS) $(LDFLAGS) -Wl,-soname,$(SONAME) -Wl,--version-script=$(BUILD)/exports -Wl,-z,defs,-z,text \
	    -o $@ -Wl,--whole-archive $(LIBRARY) -Wl,--no-whole-archive
	ln -sf $(notdir $@) $(BUILD)/$(SONAME)
	ln -sf $(SONAME) $(BUILD)/libnoferkash.so

TOOL_SOURCES = $(wildcard tools/*.c tools/explain/*.c)
$(TOOL): $(TOOL_SOURCES) $(wildcard tools/*.h tools/explain/*.h) include/noferkash.h $(LIBRARY)
	$(COMPILE) $(LDFLAGS) -o $@ $(TOOL_SOURCES) $(LIBRARY)

$(BUILD)/%_file: examples/%_file.c include/noferkash.h $(LIBRARY)
	$(COMPILE) $(LDFLAGS) -o $@ $< $(LIBRARY)

# Names go to the shell by way of its environment, so that no character in them does harm.
install uninstall: export INTO_BIN = $(DESTDIR)$(BINDIR)
install uninstall: export INTO_INCLUDE = $(DESTDIR)$(INCLUDEDIR)
install uninstall: export INTO_LIB = $(DESTDIR)$(LIBDIR)
install uninstall: export INTO_MAN = $(DESTDIR)$(MANDIR)
install uninstall: export INTO_DOC = $(DESTDIR)$(DOCDIR)
install uninstall: export PC_PREFIX = $(PREFIX)
install uninstall: export PC_INCLUDE = $(INCLUDEDIR)
install uninstall: export PC_LIB = $(LIBDIR)

install: $(TOOL) $(LIBRARY) $(SHARED)
	install -d "$$INTO_BIN" "$$INTO_INCLUDE" "$$INTO_LIB/pkgconfig" "$$INTO_DOC"
	install -m 755 $(TOOL) "$$INTO_BIN/noferkash"
	install -m 644 include/noferkash.h "$$INTO_INCLUDE/noferkash.h"
	install -m 644 $(LIBRARY) $(SHARED) "$$INTO_LIB"
	ln -sf $(notdir $(SHARED)) "$$INTO_LIB/$(SONAME)"
	ln -sf $(SONAME) "$$INTO_LIB/libnoferkash.so"
	printf 'prefix=%s\nincludedir=%s\nlibdir=%s\n' "$$PC_PREFIX" "$$PC_INCLUDE" "$$PC_LIB" >$(BUILD)/noferkash.pc
	sed 's/@VERSION@/$(VERSION)/' library/noferkash.pc.in >>$(BUILD)/noferkash.pc
	install -m 644 $(BUILD)/noferkash.pc "$$INTO_LIB/pkgconfig"
	for page in $(MAN); do \
	    install -D -m 644 $$page "$$INTO_MAN/man$${page##*.}/$${page##*/}" || exit 1; \
	done
	install -m 644 $(DOC) "$$INTO_DOC"
	@$(LOADER)

uninstall:
	rm -f "$$INTO_BIN/noferkash" "$$INTO_INCLUDE/noferkash.h" "$$INTO_LIB/libnoferkash.a" "$$INTO_LIB/libnoferkash.so" \
	    "$$INTO_LIB/$(SONAME)" "$$INTO_LIB/$(notdir $(SHARED))" "$$INTO_LIB/pkgconfig/noferkash.pc"
	for page in $(MAN); do \
	    rm -f "$$INTO_MAN/man$${page##*.}/$${page##*/}" || exit 1; \
	done
	for page in $(DOC); do \
	    rm -f "$$INTO_DOC/$${page##*/}" || exit 1; \
	done
	[ ! -d "$$INTO_DOC" ] || rmdir --ignore-fail-on-non-empty "$$INTO_DOC"
	@$(LOADER)

# The loader finds a library in the folders that it knows, as /usr/local/lib, only after ldconfig has looked.
LOADER = PATH="$$PATH:/usr/sbin:/sbin"; if [ "$$INTO_LIB" = "$$PC_LIB" ] && ldconfig -NXv 2>/dev/null | grep -qF "$$PC_LIB:"; then ldconfig; fi

# Only here: another goal takes the library that was proved as it is, and needs no rt.
ifneq ($(filter prove dist,$(MAKECMDGOALS)),)
# noferkash_c, which gives C the library, and all that it stands on.
CRATES = $(shell sed -n 's/^noferkash_c staticlib:/noferkash_c/p' crates.txt)
# The folders too, which tell of a file that went. But for out/, which rt makes.
SOURCES = $(shell find $(CRATES:%=crates/%) \( -name must-fail -o -name out \) -prune -o -print)

$(PROVED): crates.txt $(SOURCES) target/toolchain
	.ci/prove staticlib noferkash

target/toolchain: always
	@command -v rt >/dev/null || { echo "Proving needs the Rattle toolchain (rt); make alone does not." >&2; exit 2; }
	@mkdir -p target
	@version=$$(rt version) && { [ "$$(cat $@ 2>/dev/null)" = "$$version" ] || echo "$$version" >$@; }
endif

prove: $(PROVED)
	tests/dist $(PROVED) $(DIST)
	@$(MAKE) --no-print-directory all ARCHIVE=$(PROVED)

dist: $(PROVED)
	mkdir -p $(DIST)
	cp $(PROVED) $(DIST)/libnoferkash.a
	cd $(DIST) && sha256sum libnoferkash.a >SHA256SUMS
	rt version >$(DIST)/TOOLCHAIN

test:
	.ci/run

WITH_ARCHIVE = cd tests && NOFERKASH_ARCHIVE_DIR=$(dir $(abspath $(ARCHIVE))) \
	    cargo run --release --offline --features archive --bin

bench: $(ARCHIVE)
	$(WITH_ARCHIVE) bench

fuzz: TIME = 300
fuzz: $(ARCHIVE)
	tests/fuzz/run $(abspath $(ARCHIVE)) $(TIME) $(FUNCTION)

fuzz-planted: $(ARCHIVE)
	tests/fuzz/planted $(abspath $(ARCHIVE))

soak: CASES = 500000
soak: SEED = 0
soak: $(ARCHIVE)
	$(WITH_ARCHIVE) differential -- $(CASES) $(SEED)

sheets: $(ARCHIVE)
	tests/spreadsheet $(abspath $(ARCHIVE))

clean:
	rm -rf target tests/target
