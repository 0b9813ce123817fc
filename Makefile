# make            writes the proved sources as ordinary Rust (tools/plain), and builds bin/addrman of
#                 them with cargo: a minute or two
# make check      tests what make built
# make proved     proves the program with the toolchain of Rattle, and builds bin/addrman: half an
#                 hour on four cores
# make package    writes the crate for Rust as one package, at bin/package, and has cargo check it
# make plain-lib  builds the library for C with cargo, at bin/lib
# make sanitized-lib  the same with overflow checks and AddressSanitizer, for tools/lib_calls
# make fuzz       runs each target of fuzz/ for a minute, where clang is; SECONDS_EACH and TARGETS say otherwise
# make bench      builds with cargo the program that the scripts of bench/ take
# make try        runs examples from the source, before anything is proved
# make ci-try     runs those of diff and lookup alone
# make demo       runs the built program on the files of examples/
# make test       the gate: proves everything, tries wrong bodies, runs the tests
# make examples   compares what README.md and docs/FORMATS.md show with what the built program prints
# make flood      the page with an attack on the tables, hour by hour, as bin/flood.html
# make page       the page that reads a peers.dat, as bin/page.html and as the folder bin/page
# make page-test  tries it in Chromium and Firefox, and its engine beside the built program
# make rows       runs the cases of crates/addrman/rows with the built program
# make endings    tries the exit codes of the built program and their texts
# make mistakes   makes some hundred mistakes with it, and compares what standard error says
# make lib        proves the library for C, and builds bin/lib/libaddrman.a and libaddrman.so.1; with
#                 BACKEND=rattle by Rattle's own compiler, with backtraces for a debugger alone
# make lib-test   tries it from C, C++ and Python, beside the built program
# make ci-lib-test  the same with what rt ci has just proved and built in this clone
# make ci-program-test  rows, endings, mistakes and examples with what rt ci has just proved and built in this clone,
#                 and whether the book is whole
# make ci-plain-test  what make and make check do, and its program beside that which rt ci has just built
# make packed     tries make install, make uninstall and make dist
# make book       the book of the proofs as bin/book/index.html: a page for each command, call, crate and claim
# make figures    prints lines, words and the like, and checks what docs/inside/MAP.md lists
# make install    copies program, manual page, completion, docs/FORMATS.md, and the library for C if
#                 it is built, below $(DESTDIR)$(PREFIX); BINDIR, LIBDIR, INCLUDEDIR, MANDIR, DATADIR
#                 and DOCDIR name the single folders
# make uninstall  removes what make install copies, with the same variables
# make dist       packs program, documents, book, bindings, examples and vectors, and the library for C if it
#                 is built, as bin/addrman-VERSION-MACHINE-linux.tar.gz
# make release    builds all that a release has in two folders, compares, and keeps bin/release

PREFIX ?= /usr/local
BINDIR ?= $(PREFIX)/bin
LIBDIR ?= $(PREFIX)/lib
INCLUDEDIR ?= $(PREFIX)/include
DATADIR ?= $(PREFIX)/share
MANDIR ?= $(DATADIR)/man
DOCDIR ?= $(DATADIR)/doc/addrman
COMPLETIONS = $(DATADIR)/bash-completion/completions
VERSION := 0.1.0
ZERO_KEY := 0000000000000000000000000000000000000000000000000000000000000000
# A node starts with a file that is saved under this one.
ONES_KEY := 1111111111111111111111111111111111111111111111111111111111111111
# What the program is built for.
BUILT_FOR := $(shell uname -m)
DIST := addrman-$(VERSION)-$(BUILT_FOR)-linux

# Where the toolchain has its part of the C library: the allocator that the library calls.
KIT = $(shell dirname "$$(dirname "$$(readlink -f "$$(command -v rt)")")")

.PHONY: all book plain check proved package plain-lib plain-archive sanitized-lib bench try ci-try demo examples \
	flood page page-test endings mistakes packed test figures lib lib-test ci-lib-test ci-program-test \
	archive install install-lib uninstall dist release fuzz

# Where cargo builds, below bin/.
CARGO = cd bin/plain && cargo build --quiet --release --target-dir ../target

all: plain
	@tools/needs crates
	$(CARGO) -p addrman
	cp bin/target/release/addrman bin/addrman

plain:
	@tools/needs programs
	tools/plain bin/plain > /dev/null

check:
	tools/check_plain
	tools/definitions check bin/addrman

proved:
	mkdir -p bin
	cd crates/addrman && rt run -- replay --key $(ZERO_KEY) < /dev/null
	cp crates/addrman/out/addrman bin/addrman

package:
	tools/plain --package bin/package > /dev/null
	cd bin/package && cargo package --quiet --allow-dirty --target-dir ../target

# An input that fails ends the run, and is left in bin/fuzz.
SECONDS_EACH ?= 60
TARGETS ?= $(patsubst fuzz/%.c,%,$(wildcard fuzz/*.c))
fuzz:
	@if ! echo 'int LLVMFuzzerTestOneInput(const char *p, unsigned long n) { return !p || !n; }' \
		| clang -x c -fsanitize=fuzzer,address -o /dev/null - 2> /dev/null; then \
		echo 'make fuzz: clang with its libFuzzer is not there: no target is run'; else \
		fuzz/build.sh && fuzz/run $(SECONDS_EACH) $(TARGETS); fi

bench: plain
	$(CARGO) -p plain_bench

plain-lib: plain
	$(CARGO) -p addrman_c
	$(MAKE) plain-archive

# Of Rust's std only what the calls reach is packed.
CARGO_LIBRARY := bin/target/release/libaddrman_c.a
plain-archive:
	$(MAKE) archive OBJECTS="--gc-sections --force-group-allocation $(CARGO_LIBRARY) $$(readelf -sW $(CARGO_LIBRARY) \
		| sed -n 's/.* FUNC  *GLOBAL .* \(addrman_[a-z_0-9]*\)$$/-u \1/p' | tr '\n' ' ')"

MACHINE := x86_64-unknown-linux-gnu
sanitized-lib: plain
	cd bin/plain && RUSTC_BOOTSTRAP=1 RUSTFLAGS=-Zsanitizer=address cargo build --quiet --profile checked \
		--target $(MACHINE) --target-dir ../target-sanitizer -p addrman_c
	$(MAKE) plain-archive CARGO_LIBRARY=bin/target-sanitizer/$(MACHINE)/checked/libaddrman_c.a \
		SANITIZER=-fsanitize=address

try:
	tools/examples --try

ci-try:
	tools/examples --try diff lookup

demo: bin/addrman
	cd examples && ../bin/addrman compile
	cd examples && ../bin/addrman check
	cd examples && ../bin/addrman decompile
	cd examples && ../bin/addrman lookup 1.2.3.4:8333
	cd examples && ../bin/addrman lookup '[2606:4700::1111]:8333'
	cd examples/node && ../../bin/addrman show
	cd examples/node && ../../bin/addrman replay < restart.log
	cd examples/node && ../../bin/addrman banned '[2001:db8::1]:8333' 1700000000
	bin/addrman replay --key $(ZERO_KEY) < examples/one-address.log
	cd examples && ../bin/addrman replay --key=$(ZERO_KEY) < all-networks.log
	cd examples && ../bin/addrman limit < events.log | ../bin/addrman replay --key=$(ZERO_KEY)
	cd examples && ../bin/addrman replay --key=$(ZERO_KEY) < every-line.log
	cd examples && ../bin/addrman opener --key=$(ZERO_KEY) < opener.log
	mkdir -p bin/saved && rm -f bin/saved/*
	cd bin/saved && ../addrman replay --key $(ONES_KEY) < ../../examples/saves.log
	cd bin/saved && ../addrman show

examples: bin/addrman
	tools/examples

flood: bin/addrman bin/page.html
	tools/flood --still bin/flood.svg bin/addrman bin/flood.html

page:
	page/build

# The page that is there.
bin/page.html:
	$(MAKE) page

page-test:
	page/colours
	page/casts
	node page/test/same.mjs bin/page-work/addrman.wasm bin/addrman
	node page/test/memory.mjs bin/page-work/addrman.wasm
	page/test/test_page.py bin/addrman

rows: bin/addrman
	tools/rows

endings: bin/addrman
	tools/endings

ci-program-test:
	tools/rows crates/addrman/out/addrman
	tools/endings crates/addrman/out/addrman
	tools/mistakes crates/addrman/out/addrman
	tools/examples crates/addrman/out/addrman
	tools/book --lacks
	tools/test_book

# The same sources, built by cargo from nothing, beside the program that rt ci has just built.
ci-plain-test:
	rm -rf bin/plain bin/target
	$(MAKE) all
	tools/check_plain --cases 500
	tools/twins bin/addrman crates/addrman/out/addrman

packed: bin/addrman
	tools/packed

test:
	rt ci

figures:
	tools/figures

book:
	rm -rf bin/book
	tools/book bin/book

lib:
	cd crates/addrman_c && rt $(if $(BACKEND),lib --backend $(BACKEND),check)
	$(if $(BACKEND),,tools/lib_archive)
	$(MAKE) archive

# The calls that close take NULL too, and what is freed is wiped, by bindings/edges.c.
CLOSES := addrman_close addrman_save_close addrman_bans_close addrman_limiter_close addrman_answers_close

# One object, with the allocator in it and only addrman_* to be seen. BUILT is the folder for the library.
BUILT ?= bin/lib
OBJECTS ?= --whole-archive crates/addrman_c/out/libaddrman_c.a $(KIT)/c/liblibc_c.a

archive:
	mkdir -p $(BUILT)
	ld -r -o $(BUILT)/proved.o $(OBJECTS)
	objcopy --strip-unneeded --remove-section=.llvmbc --remove-section=.llvmcmd \
		--keep-section=.debug_frame --keep-section=.rela.debug_frame \
		--redefine-sym free=wiping_free --redefine-sym realloc=wiping_realloc \
		$(foreach it,$(CLOSES),--redefine-sym $(it)=proved_$(it)) $(BUILT)/proved.o
	gcc -std=gnu99 -O2 -fPIC $(SANITIZER) $(CPPFLAGS) $(CFLAGS) -Wall -Wextra \
		-DADDRMAN_VERSION='"$(VERSION)"' -c -o $(BUILT)/edges.o bindings/edges.c
	ld -r -o $(BUILT)/addrman.o $(BUILT)/proved.o $(BUILT)/edges.o
	objcopy --wildcard --keep-global-symbol='addrman_*' $(BUILT)/addrman.o
	rm -f $(BUILT)/libaddrman.a
	ar rcs $(BUILT)/libaddrman.a $(BUILT)/addrman.o
	gcc -shared $(SANITIZER) $(LDFLAGS) -o $(BUILT)/libaddrman.so.1 -Wl,-soname,libaddrman.so.1 -Wl,-z,defs -Wl,-z,now \
		-Wl,-z,relro -Wl,--version-script=bindings/addrman.map $(BUILT)/addrman.o
	ln -sf libaddrman.so.1 $(BUILT)/libaddrman.so
	rm $(BUILT)/addrman.o $(BUILT)/proved.o $(BUILT)/edges.o

lib-test: bin/addrman lib
	tools/lib_test

# rt lib takes nothing that rt ci has built, and would prove all libraries once more. rt ci refuses a
# folder in which a link is, so the link goes.
ci-lib-test:
	tools/lib_archive
	$(MAKE) archive
	tools/lib_test --program crates/addrman/out/addrman
	rm bin/lib/libaddrman.so

# The program that is there, whichever way it was built.
bin/addrman:
	$(MAKE) all

# A document without the files that it links to keeps the words of these links.
ALONE := s/\[([^]]*)\]\([^\#)][^)]*\)/\1/g
install: bin/addrman
	install -d $(DESTDIR)$(BINDIR) $(DESTDIR)$(MANDIR)/man1 $(DESTDIR)$(COMPLETIONS)
	install -d $(DESTDIR)$(DOCDIR)
	install -m 755 bin/addrman $(DESTDIR)$(BINDIR)/addrman
	sed -e 's|docs/FORMATS.md|$(DOCDIR)/FORMATS.md|' docs/addrman.1 \
		> $(DESTDIR)$(MANDIR)/man1/addrman.1
	chmod 644 $(DESTDIR)$(MANDIR)/man1/addrman.1
	install -m 644 tools/addrman.bash $(DESTDIR)$(COMPLETIONS)/addrman
	sed -E '$(ALONE)' docs/FORMATS.md > $(DESTDIR)$(DOCDIR)/FORMATS.md
	chmod 644 $(DESTDIR)$(DOCDIR)/FORMATS.md
	install -m 644 LICENSE $(DESTDIR)$(DOCDIR)
	test ! -d bin/lib || $(MAKE) install-lib

# Bitcoin Core has a file addrman.h too, so the headers have a folder of their own:
# #include <libaddrman/addrman.h>.
TOLD = pkgconfig/addrman.pc cmake/addrman/addrman-config.cmake \
	cmake/addrman/addrman-config-version.cmake
install-lib:
	install -d $(DESTDIR)$(INCLUDEDIR)/libaddrman $(DESTDIR)$(LIBDIR)/pkgconfig
	install -d $(DESTDIR)$(LIBDIR)/cmake/addrman
	install -m 644 bindings/addrman.h bindings/addrman.hpp $(DESTDIR)$(INCLUDEDIR)/libaddrman
	install -m 644 bin/lib/libaddrman.a $(DESTDIR)$(LIBDIR)
	install -m 755 bin/lib/libaddrman.so.1 $(DESTDIR)$(LIBDIR)
	ln -sf libaddrman.so.1 $(DESTDIR)$(LIBDIR)/libaddrman.so
	sed -e 's|@PREFIX@|$(PREFIX)|' -e 's|@LIBDIR@|$(LIBDIR)|' -e 's|@INCLUDEDIR@|$(INCLUDEDIR)|' \
		-e 's|@VERSION@|$(VERSION)|' bindings/addrman.pc.in \
		> $(DESTDIR)$(LIBDIR)/pkgconfig/addrman.pc
	sed -e 's|@LIBDIR@|$(LIBDIR)|' -e 's|@INCLUDEDIR@|$(INCLUDEDIR)|' -e 's|@VERSION@|$(VERSION)|' \
		bindings/addrman-config.cmake.in > $(DESTDIR)$(LIBDIR)/cmake/addrman/addrman-config.cmake
	sed -e 's|@VERSION@|$(VERSION)|' bindings/addrman-config-version.cmake.in \
		> $(DESTDIR)$(LIBDIR)/cmake/addrman/addrman-config-version.cmake
	chmod 644 $(addprefix $(DESTDIR)$(LIBDIR)/,$(TOLD))

uninstall:
	rm -f $(DESTDIR)$(BINDIR)/addrman $(DESTDIR)$(MANDIR)/man1/addrman.1
	rm -f $(DESTDIR)$(COMPLETIONS)/addrman $(addprefix $(DESTDIR)$(DOCDIR)/,FORMATS.md LICENSE)
	rm -f $(addprefix $(DESTDIR)$(INCLUDEDIR)/libaddrman/,addrman.h addrman.hpp)
	rm -f $(addprefix $(DESTDIR)$(LIBDIR)/,libaddrman.a libaddrman.so.1 libaddrman.so)
	rm -f $(addprefix $(DESTDIR)$(LIBDIR)/,$(TOLD))
	-rmdir --ignore-fail-on-non-empty $(wildcard $(DESTDIR)$(DOCDIR) \
		$(DESTDIR)$(INCLUDEDIR)/libaddrman $(DESTDIR)$(LIBDIR)/cmake/addrman)

# What the packed documents name by a link is packed too, but for docs/inside and the README of the
# sources: the packed one is another.
PACKED := LICENSE CHANGELOG.md SECURITY.md docs examples bindings vectors \
	bench/README.md plain/README.md plain/face/README.md plain/face/examples/node.rs tools/addrman.bash

dist: bin/addrman book
	rm -rf bin/$(DIST) && mkdir -p bin/$(DIST)
	cp --parents -r $(PACKED) bin/$(DIST)
	rm -r bin/$(DIST)/docs/inside
	sed -E -i 's/\[([^]]*)\]\((inside|\.\.\/README\.md)[^)]*\)/\1/g' \
		bin/$(DIST)/docs/*.md bin/$(DIST)/bench/README.md bin/$(DIST)/plain/README.md
	cp -r bin/addrman bin/book bin/$(DIST)
	test ! -d bin/lib || (mkdir bin/$(DIST)/lib && cp bin/lib/libaddrman.a bin/lib/libaddrman.so.1 bin/$(DIST)/lib)
	sed -e 's|@VERSION@|$(VERSION)|' -e 's|@MACHINE@|$(BUILT_FOR)|' \
		-e "s|@GLIBC@|$$(readelf -V bin/addrman | grep -o 'GLIBC_[0-9.]*' | sort -Vu | tail -1 | cut -c7-)|" \
		tools/tarball.md > bin/$(DIST)/README.md
	find bin/$(DIST) -name __pycache__ -prune -exec rm -r {} +
	find bin/$(DIST) -type f -perm -u+x -exec chmod 755 {} + -o -type f -exec chmod 644 {} + \
		-o -type d -exec chmod 755 {} +
	tar -C bin --owner=0 --group=0 --sort=name --mtime=@0 -czf bin/$(DIST).tar.gz $(DIST)
	rm -r bin/$(DIST)

release:
	tools/release
