# make run            answer the lines of standard input with the proved program ipexts
# make try            answer sample lines within seconds, with run-time checks instead of proofs
# make test           compare the documented words of contracts, errors, terms and figures with the code and the recorded run, run
#                     the merge gate, check the documents and the spelling, and test the program, the library, ipcap,
#                     the packages and the page, and 20,000 comparisons with etherparse
# make quick          run the checks that need no proof: documents, spelling, layout, and all test vectors with run-time
#                     checks, in two or three minutes
# make lib            build the static C library and its header in build/, which needs a C compiler (TARGET=aarch64: for
#                     ARM64, with the compiler ARM64_CC=aarch64-linux-gnu-gcc, in build/aarch64/, with its shared library)
# make programs       build the shared libraries and the programs ipexts and ipcap, which needs a C compiler and libpcap;
#                     with zlib, libzstd or liblzma, ipcap also reads compressed captures
# make portable       build those of them that need libpcap so that they load it by either of its names, in build/portable/,
#                     as `make wheel` and `make dist` pack them
# make wheel          pack the Python package with the shared libraries, as build/wolfaren-VERSION-py3-none-TAG.whl, whose tag
#                     is manylinux_2_X_x86_64 if it needs only glibc 2.X, otherwise linux_x86_64 (TARGET=aarch64: for ARM64,
#                     where it reads no compressed captures)
# make install        install what `make programs` has built: the libraries, their headers, the programs, their manual
#                     pages, and the completions for bash and zsh. Needs neither rt nor a compiler (PREFIX=/usr/local, also
#                     LIBDIR, BINDIR, INCLUDEDIR, MANDIR, BASHDIR and ZSHDIR; DESTDIR=.. is prepended to the paths)
# make install-lib    install the library alone: the archive of `make lib`, and the shared library if it is built
# make uninstall      remove what `make install` installs
# make dist           pack libraries, programs, page, Rust and Python packages for machines without Rattle, as
#                     build/wolfaren-VERSION-x86_64-linux.tar.gz, and without the programs for ARM64
# make deb            make Debian packages of libraries, headers, programs, Rust and Python package, in build/
#                     (MAINTAINER='NAME <ADDRESS>')
# make test-c         test the library, ipcap, and the package in bindings/python
# make rust           make the Rust package in build/rust, without Rattle and without proofs
# make rust-c         build its C library in build/rust-c (RUST_TARGET=.., CC=.., AR=..: for another machine; CARGO_FLAGS)
# make docs           write pages in build/docs/: the documents, each crate's calls with their contracts, the definitions, and,
#                     where doxygen, Cargo and sphinx are there, the C interface and the packages. Needs Python's markdown
# make page           build the files that page/index.html needs: of the Rust package for wasm32, where there is a Rust compiler
#                     for that, such as the one that `scripts/fetch-rust wasm32` fetches; otherwise with Rattle for wasm64
# make test-page      test that page in Chromium
# make mutants        try the mutants in tests/mutants/ (CRATE='NAME ..': only these crates; ONLY=WORD: only those whose
#                     names contain the word; JOBS=3: so many at a time)
# make memory         run the program once for each of its allocations, with that allocation refused
# make bench          compare its speed with etherparse 0.19.0, that of fragments and of rewritten packets with copies of
#                     their bytes (ONLY=WORD: only rows of etherparse whose names contain the word)
# make bench-border   the part of make bench that measures calls through C
# make cost           measure the worst-case time per byte
# make diff           compare its results with etherparse 0.19.0 (SEED=..; LINES=..: how many cases)
# make diff-test      test that comparison
# make diff-fields    compare fragment headers with scapy (SEED=..; HEADERS=..: how many)
# make fuzz           run ipcap on captures that are changed at random, then compare the library's results with etherparse
#                     0.19.0 on inputs made by AFL++ (MINUTES=.. for each; SEED=.. of the changes)
# make fuzz-test      test that comparison
#
# The last eight take CARGO_FLAGS="..", additional flags for Cargo, such as one that locates the crate
# on a machine without network access. So does make test, or ETHERPARSE=.., a program that makes a package of the crate in the
# folder that it is given, and prints those flags.
.PHONY: run try test quick rust rust-c lib lib-x86_64 lib-aarch64 programs portable wheel wheel-x86_64 wheel-aarch64 install install-lib install-pcap-lib uninstall dist deb test-c docs page test-page mutants memory bench bench-border cost diff diff-test diff-fields fuzz fuzz-test
.SILENT:

CC_IS_THERE = command -v $(firstword $(1)) >/dev/null || { \
	echo "A C compiler is missing: '$(firstword $(1))' has to be on the PATH (Debian: $(2))." >&2; exit 1; }

RT_IS_THERE = command -v rt >/dev/null || { \
	echo "The Rattle toolchain is missing: its command 'rt' has to be on the PATH." >&2; exit 1; }

PYTHON_IS_THERE = command -v python3 >/dev/null || { \
	echo "Python is missing: its command 'python3' has to be on the PATH." >&2; exit 1; }

PCAP_IS_THERE = echo '\#include <pcap/pcap.h>' | $(CC) -E -x c - >/dev/null 2>&1 || { \
	echo "libpcap's headers are missing (Debian: libpcap-dev)." >&2; exit 1; }

run:
	$(RT_IS_THERE)
	$(PYTHON_IS_THERE)
	scripts/prove ipexts
	crates/ipexts/out/ipexts

try:
	$(RT_IS_THERE)
	echo "Nothing is proved here: the program is built with run-time checks instead of proofs." >&2
	cd crates/ipexts && rt try

test:
	$(RT_IS_THERE)
	$(PYTHON_IS_THERE)
	scripts/check-contracts
	scripts/check-errors
	scripts/terms
	bench/quote --check
	scripts/gate

quick:
	$(RT_IS_THERE)
	$(PYTHON_IS_THERE)
	scripts/quick

VERSION = 0.1.0

TARGET = x86_64
ARM64_CC = aarch64-linux-gnu-gcc
ARM64_PROVED = crates/ipexts_c/out/libipexts_c.a.aarch64
ARM64_AR = $(shell $(ARM64_CC) -print-prog-name=ar)

# The shared libraries, whose names end in the checksums of their interfaces.
checksum = $(shell sed -n 's/^\#define WOLFAREN_\(PCAP_\)*ABI 0x\([0-9a-f]*\)u$$/\2/p' $(1) 2>/dev/null)
SHARED = libwolfaren.so.0.$(or $(call checksum,$(BUILD)/wolfaren.h),$(call checksum,include/wolfaren.h))
PCAP_SHARED = libwolfaren-pcap.so.0.$(call checksum,programs/ipcap/wolfaren-pcap.h)

rust:
	$(PYTHON_IS_THERE)
	scripts/rust
	scripts/check-rust

rust-c: rust
	scripts/rust-c build/rust-c $(RUST_TARGET)

lib: lib-$(TARGET)

# What hasn't changed isn't copied again, so that what is built of it isn't either.
lib-x86_64:
	$(RT_IS_THERE)
	$(PYTHON_IS_THERE)
	$(call CC_IS_THERE,$(CC),gcc)
	scripts/prove ipexts_c
	$(MAKE) -s -C programs archive PROVED=../crates/ipexts_c/out/libipexts_c.a OUT=../build
	cmp -s include/wolfaren.h build/wolfaren.h || cp include/wolfaren.h build/

# The archive of this machine is set aside meanwhile, byte for byte, since scripts/prove compares it.
lib-aarch64:
	$(RT_IS_THERE)
	$(PYTHON_IS_THERE)
	$(call CC_IS_THERE,$(ARM64_CC),gcc-aarch64-linux-gnu libc6-dev-arm64-cross)
	scripts/prove ipexts_c
	mkdir -p build/aarch64
	rm -f build/aarch64/libwolfaren.so.*
	scripts/built aarch64 $(ARM64_PROVED) || { \
	built=crates/ipexts_c/out/libipexts_c.a; aside=$$built.x86_64; \
	rm -f $$aside; [ ! -f $$built ] || mv $$built $$aside || exit 1; \
	trap 'rm -f $$built; [ ! -f $$aside ] || mv $$aside $$built' EXIT; trap 'exit 1' HUP INT TERM; \
	(cd crates/ipexts_c && rt lib --target aarch64-unknown-linux-gnu) >> build/prove.log 2>&1 || { \
		echo "ipexts_c could not be built for ARM64; build/prove.log has the output of the tools" >&2; exit 1; }; \
	mv $$built $(ARM64_PROVED) && scripts/built --note aarch64 $(ARM64_PROVED); }
	$(MAKE) -s -C programs archive CC='$(ARM64_CC)' AR='$(ARM64_AR)' PROVED=../$(ARM64_PROVED) OUT=../build/aarch64
	cp include/wolfaren.h build/aarch64/
	$(MAKE) -C programs shared CC='$(ARM64_CC)' LIB=$(CURDIR)/build/aarch64 OUT=$(CURDIR)/build/aarch64

programs: lib
	$(PCAP_IS_THERE)
	$(MAKE) -C programs shared pcap-shared ipcap LIB=$(CURDIR)/build INCLUDE=$(CURDIR)/build OUT=$(CURDIR)/build/ipcap.out
	scripts/prove ipexts
	rm -f build/libwolfaren*.so.*
	cp build/ipcap.out/ipcap build/ipcap.out/$(SHARED) build/ipcap.out/$(PCAP_SHARED) crates/ipexts/out/ipexts build/

portable: programs
	$(MAKE) -C programs shared pcap-shared ipcap PCAP=loaded LIB=$(CURDIR)/build INCLUDE=$(CURDIR)/build \
		OUT=$(CURDIR)/build/portable

wheel: wheel-$(TARGET)

wheel-x86_64: portable
	$(PYTHON_IS_THERE)
	scripts/wheel build build/portable

# the libraries that decompress captures are this machine's alone
wheel-aarch64: lib-aarch64
	$(PCAP_IS_THERE)
	$(MAKE) -C programs pcap-shared CC='$(ARM64_CC)' PCAP=loaded ZLIB= ZSTD= LZMA= LIB=$(CURDIR)/build/aarch64 \
		INCLUDE=$(CURDIR)/build/aarch64 OUT=$(CURDIR)/build/aarch64
	scripts/wheel build build/aarch64

PREFIX = /usr/local
BINDIR = $(PREFIX)/bin
LIBDIR = $(PREFIX)/lib
INCLUDEDIR = $(PREFIX)/include
MANDIR = $(PREFIX)/share/man
BASHDIR = $(PREFIX)/share/bash-completion/completions
# Debian's packages have a directory of their own for zsh
ZSHDIR = $(PREFIX)/share/zsh/$(if $(filter /usr,$(PREFIX)),vendor-completions,site-functions)
DESTDIR =
INSTALL = install
BUILD = build

# Writes a file for pkg-config.
PKG_CONFIG_FILE = sed -e 's|@PREFIX@|$(PREFIX)|; s|@INCLUDEDIR@|$(INCLUDEDIR)|; s|@LIBDIR@|$(LIBDIR)|; s|@VERSION@|$(VERSION)|' \
	include/$(1).pc.in > $(DESTDIR)$(LIBDIR)/pkgconfig/$(1).pc && chmod 644 $(DESTDIR)$(LIBDIR)/pkgconfig/$(1).pc

# Updates the loader's cache, unless the files are only staged in DESTDIR, and says so if the loader doesn't find them.
UPDATE_LOADER = [ -n "$(DESTDIR)" ] || { PATH="$$PATH:/usr/sbin:/sbin"; ldconfig 2>/dev/null; \
	ldconfig -p | grep -q ' $(abspath $(LIBDIR))/$(SHARED)$$'; } || { \
	echo "The loader doesn't find $(SHARED) in $(abspath $(LIBDIR)) yet. Run 'ldconfig' as root if /etc/ld.so.conf has that"; \
	echo "directory; otherwise set LD_LIBRARY_PATH to it."; }

install-lib:
	[ -f $(BUILD)/libwolfaren.a ] || { echo "There is nothing to install: run 'make lib' first." >&2; exit 1; }
	$(INSTALL) -d $(DESTDIR)$(INCLUDEDIR) $(DESTDIR)$(LIBDIR)/pkgconfig
	$(INSTALL) -m 644 $(BUILD)/wolfaren.h $(DESTDIR)$(INCLUDEDIR)/
	$(INSTALL) -m 644 $(BUILD)/libwolfaren.a $(DESTDIR)$(LIBDIR)/
	if [ -f $(BUILD)/$(SHARED) ]; then \
		$(INSTALL) -m 644 $(BUILD)/$(SHARED) $(DESTDIR)$(LIBDIR)/ && \
		ln -sf $(SHARED) $(DESTDIR)$(LIBDIR)/libwolfaren.so; fi
	$(call PKG_CONFIG_FILE,wolfaren)
	[ ! -f $(BUILD)/$(SHARED) ] || $(UPDATE_LOADER)

install-pcap-lib: install-lib
	[ -f build/$(PCAP_SHARED) ] || { echo "libwolfaren-pcap is missing: run 'make programs' first." >&2; exit 1; }
	$(INSTALL) -m 644 programs/ipcap/wolfaren-pcap.h $(DESTDIR)$(INCLUDEDIR)/
	$(INSTALL) -m 644 build/$(PCAP_SHARED) $(DESTDIR)$(LIBDIR)/
	ln -sf $(PCAP_SHARED) $(DESTDIR)$(LIBDIR)/libwolfaren-pcap.so
	$(call PKG_CONFIG_FILE,wolfaren-pcap)

install: install-pcap-lib
	[ -f build/ipcap ] && [ -f build/ipexts ] || { echo "The programs are missing: run 'make programs' first." >&2; exit 1; }
	$(INSTALL) -d $(DESTDIR)$(BINDIR) $(DESTDIR)$(MANDIR)/man1 $(DESTDIR)$(BASHDIR) $(DESTDIR)$(ZSHDIR)
	$(INSTALL) -m 755 build/ipcap build/ipexts $(DESTDIR)$(BINDIR)/
	$(INSTALL) -m 644 programs/ipcap/ipcap.1 crates/ipexts/ipexts.1 $(DESTDIR)$(MANDIR)/man1/
	$(INSTALL) -m 644 programs/ipcap/completion/ipcap.bash $(DESTDIR)$(BASHDIR)/ipcap
	$(INSTALL) -m 644 programs/ipcap/completion/_ipcap $(DESTDIR)$(ZSHDIR)/

uninstall:
	rm -f $(DESTDIR)$(INCLUDEDIR)/wolfaren.h $(DESTDIR)$(LIBDIR)/pkgconfig/wolfaren.pc
	rm -f $(DESTDIR)$(LIBDIR)/libwolfaren.a $(DESTDIR)$(LIBDIR)/$(SHARED) $(DESTDIR)$(LIBDIR)/libwolfaren.so
	rm -f $(DESTDIR)$(INCLUDEDIR)/wolfaren-pcap.h $(DESTDIR)$(LIBDIR)/pkgconfig/wolfaren-pcap.pc
	rm -f $(DESTDIR)$(LIBDIR)/$(PCAP_SHARED) $(DESTDIR)$(LIBDIR)/libwolfaren-pcap.so
	rm -f $(DESTDIR)$(BINDIR)/ipcap $(DESTDIR)$(BINDIR)/ipexts
	rm -f $(DESTDIR)$(MANDIR)/man1/ipcap.1 $(DESTDIR)$(MANDIR)/man1/ipexts.1
	rm -f $(DESTDIR)$(BASHDIR)/ipcap $(DESTDIR)$(ZSHDIR)/_ipcap

dist: portable page wheel-x86_64
	scripts/dist
	! command -v $(firstword $(ARM64_CC)) >/dev/null || { $(MAKE) wheel TARGET=aarch64 && scripts/dist aarch64; }

deb: programs
	scripts/deb

test-c: programs
	$(PYTHON_IS_THERE)
	tests/run c/test_library.py c/test_statistics.py
	tests/ipcap/run build build
	tests/run ../bindings/python/tests --ignore-glob='*/test_[amt]*'

# Python with the package markdown, which may be Debian's and not the first on the PATH
docs:
	$(PYTHON_IS_THERE)
	for python in python3 /usr/bin/python3; do \
		! $$python -c 'import markdown' 2>/dev/null || exec $$python scripts/docs; done; \
	echo "Python's package markdown is missing (Debian: python3-markdown)." >&2; exit 1

page:
	$(PYTHON_IS_THERE)
	scripts/build-page

test-page: page
	$(PYTHON_IS_THERE)
	MODULES=selenium tests/run page

mutants:
	$(RT_IS_THERE)
	$(PYTHON_IS_THERE)
	scripts/mutants $(if $(CRATE),--crate $(CRATE)) $(if $(ONLY),--only $(ONLY)) $(if $(JOBS),--jobs $(JOBS))

memory:
	$(RT_IS_THERE)
	$(PYTHON_IS_THERE)
	$(call CC_IS_THERE,$(CC),gcc)
	scripts/prove ipexts
	tests/run lines -k memory

LINES = 1000000
HEADERS = 5000
MINUTES = 5
export LINES HEADERS MINUTES ONLY CARGO_FLAGS

bench: lib-x86_64
	status=0; bench/compare || status=1; [ -n "$(ONLY)" ] || for part in package border defragment rewriter; do \
		bench/$$part/run || status=1; done; exit $$status

bench-border:
	bench/border/run

cost:
	bench/cost

diff:
	tests/diff/run

diff-test:
	tests/diff/test

diff-fields:
	tests/diff/fields

fuzz: lib-x86_64
	status=0; for part in 'tests/ipcap/fuzz build build' tests/fuzz/run; do $$part || status=$$?; done; exit $$status

fuzz-test:
	tests/fuzz/test
