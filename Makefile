# Builds the library and the programs from the assembly in generated/. This needs only GNU make and
# a C compiler.
#
# To build and install:
#   make                     the library and the programs, into out/
#   make lib                 only the library: libfaster_hex.a and libfaster_hex.so
#   make fhex                only the program fhex
#   make fhex-stream         only the program fhex-stream
#   make install PREFIX=DIR  copies what was built into DIR. With LIBDIR=DIR the libraries go there
#                            instead. DESTDIR=DIR is put before PREFIX and LIBDIR
#   make uninstall           removes the same files, and takes the same variables
#   make vendor DIR=DIR      copies the library for Rattle into the repository at DIR, with JSON=no
#                            only the crates without JSON
#   make dist                packs the repository
#   make clean               removes everything that was built
#
# To test and to change:
#   make test-c              runs the tests in C, which need only a C compiler. With RUN=COMMAND that
#                            command runs them, for instance an emulator
#   make test                proves all crates, runs their tests, tries the worst mutations (wrong
#                            function bodies), and runs the examples and a quick part of make
#                            check. Without the Rattle toolchain it runs the tests in C and that part
#                            of make check
#   make check               runs all tests in tests/ by pytest, and skips those whose tools are not
#                            installed. With RUST=DIR, where DIR is a checkout of faster-hex 1.0.0,
#                            it also compares our Rust crate with faster-hex
#   make deep                make check, all mutations, all proofs from nothing, proofs of the
#                            examples and a new record of the machine code: run it before a release
#   make generate            proves the sources and writes generated/ again, with the Rattle
#                            toolchain
#
# Variables of a build. If one of them other than AR differs from the last build, everything is
# built again:
#   CC, CFLAGS, CPPFLAGS, LDFLAGS, AR
#                            the usual meaning. A compiler for another system builds for that
#                            system: into out/aarch64 for Linux on aarch64, into out/windows for
#                            Windows, and into out/macos or out/macos/aarch64 for macOS. For macOS,
#                            and with LDFLAGS=-static, the only library is the archive
#   TARGET=aarch64           builds for Linux on aarch64 with the compiler aarch64-linux-gnu-gcc
#   TARGET=portable          builds the libraries in plain C, which is not proved. A processor or a
#                            system without assembly gets the same
#   UNPROVED=yes             builds even if the sources or the assembly were changed after the
#                            proof. faster_hex_version then ends with +unproved
#
# With make -s nothing is printed if all goes well.
VERSION = 1.0.0
JSON = yes
$(if $(filter-out yes no,$(JSON) $(UNPROVED)),$(error JSON=$(JSON) or UNPROVED=$(UNPROVED) is neither yes nor no))
C = crates/faster_hex_c
# The variables of the last build. If one of them differs, everything in out/ is built again. `make install`,
# `make test` and `make test-c` use these values if none is given.
BUILT = out/built
WORDS = CC CPPFLAGS CFLAGS LDFLAGS TARGET UNPROVED
TAKEN := $(if $(filter-out install test test-c,$(or $(MAKECMDGOALS),all))$(findstring command,$(foreach \
	word,$(WORDS),$(origin $(word)))),,$(wildcard $(BUILT)))
$(foreach word,$(and $(TAKEN),$(WORDS)),$(eval $(word) := $$(shell sed -n 's/^$(word) = //p' $(BUILT))))
ifeq ($(TARGET)$(origin CC),aarch64default)
CC = aarch64-linux-gnu-gcc
endif
CFLAGS ?= -O2
# assembly.h alone decides where there is assembly. The compiler says what follows from it, and for which system it
# makes code. Without a compiler, as for `make install`, the target is the one of the last build.
ASKED := $(shell $(CC) $(CPPFLAGS) $(CFLAGS) -dM -E $(C)/assembly.h 2>/dev/null | sed -n '\
	s/^.define FASTER_HEX_X86_64 .*/x86_64/p; s/^.define FASTER_HEX_AARCH64 .*/aarch64/p; \
	s/^.define __APPLE__ .*/macos/p; s/^.define __MINGW32__ .*/windows/p; s/^.define __STDC__ .*/asked/p')
HERE := $(subst amd64,x86_64,$(subst arm64,aarch64,$(shell uname -m)))
ASSEMBLED := $(filter x86_64 aarch64,$(or $(ASKED),$(TARGET),$(HERE)))
# Another processor gives the folder of its libraries its name.
MACHINE := $(firstword $(subst -, ,$(shell $(CC) $(CFLAGS) -dumpmachine 2>/dev/null)))
OTHER := $(filter-out x86_64 amd64 aarch64 arm64,$(MACHINE))
ifeq ($(TARGET),)
TARGET := $(or $(ASSEMBLED),$(OTHER),portable)
else ifeq ($(filter $(ASSEMBLED) $(OTHER) portable,$(TARGET)),)
$(error TARGET=$(TARGET), but $(CC) makes code for $(or $(ASSEMBLED),$(OTHER),a system without assembly))
endif
SYSTEM := $(filter windows macos,$(ASKED))

OUT = out$(addprefix /,$(SYSTEM))$(addprefix /,$(filter-out x86_64,$(TARGET)))
# The shared library exports the calls, and the archive hides them: dispatch.c says why.
OBJECTS = $(OUT)/builds.o $(OUT)/dispatch.o
EXPORTED = $(OUT)/builds.o $(OUT)/exported.o
ARCHIVE = $(OUT)/libfaster_hex.a
# Each program is crates/fhex/fhex.c, linked with the assembly of its name in generated/.
PROGRAMS = fhex fhex-stream
MADE_PROGRAMS = $(if $(filter x86_64 aarch64 x86_64windows,$(TARGET)$(SYSTEM)),$(PROGRAMS:%=$(OUT)/%$(EXE)))
ifeq ($(SYSTEM)$(filter -static%,$(LDFLAGS)),)
SHARED = $(OUT)/libfaster_hex.so.$(VERSION)
EXPORTING = -Wl,-soname,libfaster_hex.so.1 -Wl,-z,relro,-z,now,-z,text -Wl,--version-script=$(C)/faster_hex.map
LOADED = $(OUT)/libfaster_hex.so.1 '-Wl,-rpath,$$ORIGIN'
else ifeq ($(SYSTEM),windows)
SHARED = $(OUT)/libfaster_hex.dll
EXPORTING = $(C)/faster_hex.def
LOADED = $(SHARED)
OF_TESTS = -static -Itests/c/windows
EXE = .exe
endif
COMPILE = $(CC) $(CPPFLAGS) $(if $(filter portable,$(TARGET)),-DFASTER_HEX_PORTABLE) \
	$(if $(filter yes,$(UNPROVED)),-DFASTER_HEX_UNPROVED)
# A file gets its name only when it is complete, so another make never sees half a file.
MADE = $@.$$$$
DONE = mv $(MADE) $@
QUIET = $(if $(findstring s,$(firstword -$(MAKEFLAGS))),>/dev/null)
# Debian calls pytest pytest-3.
PYTEST = $(shell command -v pytest-3 || command -v pytest)
QUICK = @$(if $(PYTEST),grep -l mark.quick tests/test_*.py | xargs -P $(JOBS) -n 1 $(PYTEST) -q -m quick,\
	echo 'there is no pytest: the quick part of make check is left out' >&2)
# How many tasks of the gate run at the same time. Each task has one job, because every further job reads all libraries
# again: a crate that uses serde_json took 118 seconds of processor time with four jobs, and 81 with one.
JOBS = $(shell n=$$(nproc); echo $$((n < 4 ? n : 4)))

# The last line of a target says how long it took and what it left out.
BEGAN := $(shell date +%s)
ENDED = @echo "make $@ took $$(($$(date +%s) - $(BEGAN))) s; left out: $(1)"

# With these, tests might be left out unseen, or a script might begin in another folder.
unexport PYTEST_ADDOPTS CDPATH

# Targets run one after the other, because each of them uses all processors.
.NOTPARALLEL:
CHECKED = check-generated $(PROGRAMS:%=check-generated/%)
.PHONY: all lib $(PROGRAMS) $(CHECKED) anew generate test test-c check deep dist install uninstall vendor help clean

all: lib $(MADE_PROGRAMS)
lib: $(ARCHIVE) $(SHARED)
$(PROGRAMS): %: $(if $(MADE_PROGRAMS),$(OUT)/%$(EXE))
	$(if $(MADE_PROGRAMS),,$(error there is no assembly of $@ for $(TARGET) $(SYSTEM)))

$(CHECKED): check-generated%:
	@UNPROVED=$(UNPROVED) scripts/check-generated generated$*

generate:
	@scripts/generate $(QUIET)
	$(if $(QUIET),,$(call ENDED,tests and mutations))

LINES = $(foreach word,$(WORDS),'$(word) = $(subst ','\'',$($(word)))')
$(BUILT): $(shell [ -d $(OUT) ] && [ "$$(cat $(BUILT) 2>&1)" = "$$(printf '%s\n' $(LINES))" ] || echo anew)
	@mkdir -p $(OUT) && printf '%s\n' $(LINES) >$(MADE) && $(DONE)

$(OUT)/builds.o: generated/builds.S $(wildcard generated/*.s) $(C)/assembly.h | check-generated
$(PROGRAMS:%=$(OUT)/%.o): $(OUT)/%.o: generated/%/builds.S $(wildcard generated/*/*.s) | check-generated/%
$(OUT)/builds.o $(PROGRAMS:%=$(OUT)/%.o): $(wildcard generated/*.inc) $(BUILT)
	$(COMPILE) $(CFLAGS) -Wno-unused-command-line-argument -c -o $(MADE) $(filter %.S,$^) && $(DONE)

$(OUT)/dispatch.o $(OUT)/exported.o: $(C)/dispatch.c $(wildcard $(C)/*.h) $(BUILT) | check-generated
	$(COMPILE) $(if $(filter %/exported.o,$@),-DFASTER_HEX_EXPORTED) -ffunction-sections $(CFLAGS) -std=c11 -fPIC \
		-fno-lto -fno-stack-protector -c -o $(MADE) $< && $(DONE)

$(ARCHIVE): $(OBJECTS)
	rm -f $(MADE) && $(AR) rcs $(MADE) $(OBJECTS) && $(DONE)

$(OUT)/libfaster_hex.so.$(VERSION) $(OUT)/libfaster_hex.dll: $(EXPORTED) $(C)/faster_hex.map $(C)/faster_hex.def
	$(CC) $(CFLAGS) $(LDFLAGS) -shared -o $(MADE) $(EXPORTED) $(EXPORTING) && $(DONE)

# The object is built by a rule of its own, because the name of a temporary object would be stored in the program.
$(PROGRAMS:%=$(OUT)/%$(EXE)): %$(EXE): crates/fhex/fhex.c %.o
	$(COMPILE) $(CFLAGS) $(LDFLAGS) -std=gnu11 -Wno-unused-command-line-argument -o $(MADE) $^ && $(DONE)

$(OUT)/libfaster_hex.so.1: $(SHARED)
	cp $< $@

ifneq ($(shell command -v rt),)
test: $(CHECKED)
	tests/header.sh
	scripts/examples
	$(QUICK)
	RT_JOBS=$(JOBS) rt ci
	MUTATIONS_JOBS=$(JOBS) MUTATIONS_AFTER=$(BEGAN) scripts/mutations --gate
else
test: test-c
	$(QUICK)
	$(call ENDED,proofs; proved tests; mutations; examples: these take the Rattle toolchain)
endif

TRY = $(COMPILE) $(CFLAGS) -std=gnu99 -pthread -I$(C) $(OF_TESTS) -o $(OUT)/try.exe
RUNS = $(RUN) $(OUT)/try.exe
test-c: all $(firstword $(LOADED))
	$(TRY) tests/c/library.c $(ARCHIVE) && $(RUNS) && $(RUNS) threads
	$(if $(LOADED),$(TRY) tests/c/library.c $(LOADED) && $(RUNS))
	$(TRY) examples/c/digits.c $(ARCHIVE) && $(RUNS)
	$(if $(filter x86_64,$(TARGET)),$(TRY) tests/c/dispatch.c $(ARCHIVE) && $(RUNS))
	$(if $(filter x86_64,$(TARGET)),$(TRY) tests/c/portable.c $(ARCHIVE) && $(RUNS))
ifneq ($(MADE_PROGRAMS),)
	printf hello | $(RUN) $(OUT)/fhex$(EXE) encode | $(RUN) $(OUT)/fhex$(EXE) decode | grep -qx hello
	$(RUN) $(OUT)/fhex$(EXE) vectors | grep -x 'total 84 passed 84 failed 0'
	printf hello | $(RUN) $(OUT)/fhex-stream$(EXE) encode-lines | $(RUN) $(OUT)/fhex-stream$(EXE) decode | grep -qx hello
endif

# With pytest-xdist, the modules run side by side. tests/conftest.py says what may be divided further.
BESIDE = $(shell $(PYTEST) --help 2>&1 | grep -q -- --numprocesses && echo '--numprocesses $(JOBS) --dist loadgroup')
check: all
	$(or $(PYTEST),$(error make check takes pytest: apt-get install python3-pytest)) $(BESIDE) tests
	$(call ENDED,what the summary says; what make test does with the Rattle toolchain)

# For a release. It stops at the first part that fails.
deep: all
	scripts/generate --anew
	scripts/mutations
	scripts/examples --prove
	cd tests && /usr/bin/python3 -m machine record
	$(MAKE) check
	$(call ENDED,what the summary says; what make test does with the Rattle toolchain)

# Packs the last commit, with changed files as they are now. The package has the same bytes on every machine.
TO = .
PACK = $(TO)/faster_hex-$(VERSION).tar
dist: $(CHECKED)
	@[ -e .git ] || { echo 'make dist takes a clone by git: this is a package already' >&2; exit 1; }
	git -c tar.umask=0022 archive --prefix=faster_hex-$(VERSION)/ -o "$(PACK)" \
		$$(git stash create | grep . || echo HEAD) && gzip -9nf "$(PACK)"

# If the values of the last build are for another processor, a line says so.
ELSEWHERE = $(if $(TAKEN),$(if $(filter x86_64 aarch64,$(TARGET) $(HERE)),$(filter-out portable $(HERE),$(TARGET))))
install: $(if $(SYSTEM),,all)
install uninstall:
	$(if $(SYSTEM),$(error for $(SYSTEM) CMake installs))
	$(if $(ELSEWHERE),@echo 'make $@: the last build was for $(ELSEWHERE) and not for $(HERE)' >&2)
	@VERSION=$(VERSION) OUT=$(OUT) SHARED=$(SHARED) PROGRAMS='$(if $(MADE_PROGRAMS),$(PROGRAMS))' \
		scripts/install.sh $(if $(filter uninstall,$@),--remove)

vendor:
	scripts/vendor $(if $(filter no,$(JSON)),--no-json) "$(DIR)"

help:
	@sed -n '/^[^#]/q; s/^# \{0,1\}//p' Makefile
	@echo && sed -n '/^Find your change/,/^anything, before/p' tests/README.md | grep -v '^---' | \
		sed 's/\*\([a-z]*\)\*/\1/g; s/[[`]//g; s/\]([^)]*)//g; s/^\(.*\) | \(.*\) | \(.*\)/- \1: \2 (\3)/' | fold -s -w 100

clean:
	rm -rf out crates/*/out
