# The library for C, and the program, from what rt proves and builds.
#
#   make                             proves and builds the program, and the libraries in build/
#   make test                        runs the tests of each language that is installed
#   make install PREFIX= DESTDIR=    installs libraries, headers, pkg-config, the manual page and the program
#   make fuzz SECONDS=               attacks the library for C, each way for so many seconds (Debian: clang, libclang-rt-14-dev)
#   make python                      builds build/python/_calls.abi3.so, the module in C for Python (Debian: python3-dev)
#   make node                        builds build/node/fowharimu.node, the addon for Node (Debian: nodejs, libnode-dev)
#   make java                        builds build/java/fowharimu-VERSION.jar (Debian: openjdk-17-jdk-headless)
#   make dist KEY=                   writes a release into build/dist, of what ./check passed: it needs no kit where it is unpacked; signed by that key of gpg
#   make check-dist                  installs what is in build/dist where there is no kit, and has each caller answer all cases
#   make deb                         makes a release, and Debian packages of it (Debian: dpkg-dev, debhelper, lintian, nginx-dev)
#   make linux-aarch64               builds the libraries for that platform into build/linux-aarch64, over what is proved; so for each platform of
#                                    packaging/platforms but this one, which says what it needs of Debian. make linux-aarch64-program builds the program for it
#   make wasm                        builds build/wasm/fowharimu.wasm and program.wasm, the library and the program as WebAssembly, over what is proved
#                                    (bindings/wasm/README.md)
#   make page                        builds build/fowharimu.html, a page that looks at tokens (bindings/page/README.md)
#   make drawn                       draws anew what is drawn of tables: of faults (gate/faults.txt), of options, of crates (crates.txt), of costs and of texts (docs/pictures), and lists of files in specs/ and proofs/
#   make nginx                       builds build/nginx/ngx_http_fowharimu_module.so (Debian: nginx-dev)
#   make nginx-install DESTDIR=      installs it where Debian's nginx looks for modules, with the endpoint for other gateways
PREFIX ?= /usr/local
LIBDIR ?= $(PREFIX)/lib
VERSION = 0.1.0
CFLAGS ?= -O2 -g
WARNINGS = -std=c11 -Wall -Wextra -Werror -pedantic
BUILD = build
# What the archive of rt needs of C's library, over malloc.
LIBC = $(dir $(shell readlink -f "$$(command -v rt)"))../c/liblibc_c.a
CRATES = $(shell find crates/*/src crates/*/specs crates/*/proofs -type f) crates.txt
ARCHIVE = crates/jwt_c/out/libjwt_c.a
PROGRAM = crates/jwt_tool/out/jwt_tool
LIBRARIES = $(BUILD)/libfowharimu.a $(BUILD)/libfowharimu.so.0
PACKAGES = $(BUILD)/fowharimu.pc

all: libraries $(PROGRAM)

libraries: $(LIBRARIES) $(PACKAGES)

# What is built is as old as its build's beginning: a source that is changed meanwhile is newer.
$(ARCHIVE): $(CRATES)
	mkdir -p $(BUILD) && touch $(BUILD)/archive.begun
	cd crates/jwt_c && python3 ../../gate/progress.py $(abspath $(BUILD))/archive.log rt lib || { tail $(abspath $(BUILD))/archive.log; false; }
	touch -r $(BUILD)/archive.begun $@

$(BUILD)/fault_name.o: bindings/c/fault_name.c include/fowharimu.h
	mkdir -p $(BUILD)
	$(CC) $(CFLAGS) $(WARNINGS) -fPIC -Iinclude -c -o $@ bindings/c/fault_name.c

$(BUILD)/version.o: bindings/c/version.c include/fowharimu.h Makefile
	mkdir -p $(BUILD)
	$(CC) $(CFLAGS) $(WARNINGS) -fPIC -Iinclude -DVERSION='"$(VERSION)"' -c -o $@ bindings/c/version.c

$(BUILD)/libfowharimu.a: $(ARCHIVE) $(BUILD)/fault_name.o $(BUILD)/version.o
	rm -rf $(BUILD)/objects $@ && mkdir -p $(BUILD)/objects
	cd $(BUILD)/objects && ar x $(abspath $(ARCHIVE)) && ar x $(LIBC)
	ar rcs $@ $(BUILD)/objects/*.o $(BUILD)/fault_name.o $(BUILD)/version.o

# Only the names of the headers are seen from outside. The name without a number, by which a linker looks for a library, is the same
# file here: `rt ci` stops at symbolic links, and install makes one.
$(BUILD)/libfowharimu.so.0: $(BUILD)/libfowharimu.a bindings/c/fowharimu.map
	$(CC) -shared -o $@ -Wl,-soname,libfowharimu.so.0 -Wl,--version-script,bindings/c/fowharimu.map -Wl,-z,relro,-z,now \
	    -Wl,--whole-archive $(BUILD)/libfowharimu.a -Wl,--no-whole-archive
	ln -f $@ $(BUILD)/libfowharimu.so

# The same for another platform (packaging/platforms), for which the kit has a target and no heap: that is bindings/c/heap.c, and for the program os.c. It is compiled
# over what was proved for the archive and the program here, which have to stand first.
OTHERS := $(shell packaging/platform others)

$(BUILD)/%/libjwt_c.a: $(CRATES) | $(ARCHIVE)
	mkdir -p $(@D) && touch $(@D)/archive.begun
	gate/compiled.py library $$(packaging/platform $* target) $@
	touch -r $(@D)/archive.begun $@

$(BUILD)/%/jwt_tool.o: $(CRATES) | $(PROGRAM)
	mkdir -p $(@D) && touch $(@D)/program.begun
	gate/compiled.py program $$(packaging/platform $* target) $@
	touch -r $(@D)/program.begun $@

$(BUILD)/%/libfowharimu.a: $(BUILD)/%/libjwt_c.a bindings/c/heap.c bindings/c/fault_name.c bindings/c/version.c include/fowharimu.h Makefile
	rm -rf $(@D)/objects $@ && mkdir -p $(@D)/objects
	cd $(@D)/objects && ar x ../libjwt_c.a
	for it in heap fault_name version; do \
	    $$(packaging/platform $* cc) $(CFLAGS) $(WARNINGS) -fPIC -Iinclude -DVERSION='"$(VERSION)"' -c -o $(@D)/objects/$$it.o bindings/c/$$it.c || exit; done
	$$(packaging/platform $* tools)ar rcs $@ $(@D)/objects/*.o

$(BUILD)/%/libfowharimu.so.0: $(BUILD)/%/libfowharimu.a bindings/c/fowharimu.map
	$$(packaging/platform $* cc) -shared -o $@ -Wl,-soname,libfowharimu.so.0 -Wl,--version-script,bindings/c/fowharimu.map -Wl,-z,relro,-z,now \
	    -Wl,--whole-archive $< -Wl,--no-whole-archive
	ln -f $@ $(@D)/libfowharimu.so

$(BUILD)/%/fowharimu: $(BUILD)/%/jwt_tool.o bindings/c/heap.c bindings/c/os.c
	$$(packaging/platform $* cc) $(CFLAGS) $(WARNINGS) -fPIE -static-pie -s -o $@ $< bindings/c/heap.c bindings/c/os.c

$(OTHERS): %: $(BUILD)/%/libfowharimu.so.0

$(OTHERS:%=%-program): %-program: $(BUILD)/%/fowharimu

# WebAssembly: of the LLVM modules that the kit compiles the archive and the program of.
WASM = $(filter-out bindings/wasm/run %.md,$(wildcard bindings/wasm/* bindings/wasm/include/*))

$(BUILD)/wasm/library.bc: $(CRATES) | $(ARCHIVE)
	mkdir -p $(@D) && touch $(@D)/archive.begun
	gate/compiled.py library module $@
	touch -r $(@D)/archive.begun $@

$(BUILD)/wasm/program.bc: $(CRATES) | $(PROGRAM)
	mkdir -p $(@D) && touch $(@D)/program.begun
	gate/compiled.py program module $@
	touch -r $(@D)/program.begun $@

$(BUILD)/wasm/fowharimu.wasm: $(BUILD)/wasm/library.bc $(WASM) include/fowharimu.h bindings/c/fault_name.c bindings/c/version.c
	bindings/wasm/build library $< $@ $(VERSION)

$(BUILD)/wasm/program.wasm: $(BUILD)/wasm/program.bc $(WASM)
	bindings/wasm/build program $< $@ $(VERSION)

wasm: $(BUILD)/wasm/fowharimu.wasm $(BUILD)/wasm/program.wasm

$(BUILD)/fowharimu.html: $(BUILD)/wasm/program.wasm bindings/node/host.js $(wildcard bindings/page/*) docs/COMMAND.md $(wildcard examples/profiles/*/policy.json)
	bindings/page/build $< $@

page: $(BUILD)/fowharimu.html

.PRECIOUS: $(BUILD)/%/libjwt_c.a $(BUILD)/%/jwt_tool.o $(BUILD)/%/libfowharimu.a

# The prefix may be another than that of the last call, and root's call may have written the file.
$(BUILD)/%.pc: bindings/c/%.pc.in FORCE
	mkdir -p $(BUILD) && rm -f $@
	sed 's|@PREFIX@|$(PREFIX)|; s|@LIBDIR@|$(LIBDIR)|; s|@VERSION@|$(VERSION)|' $< > $@

$(PROGRAM): $(CRATES)
	mkdir -p $(BUILD) && touch $(BUILD)/program.begun
	./jwt --build-program
	touch -r $(BUILD)/program.begun $@

$(BUILD)/fowharimu.1: docs/jwt.1
	mkdir -p $(BUILD) && rm -f $@
	sed 's/^\(\.Nm\|\.Dt\) jwt/\1 fowharimu/I; s/\bjwt \(verify\|issue\|mac\|show\|keys\|jwk\|policy\)/fowharimu \1/g' docs/jwt.1 > $@

install: all $(PROGRAM) $(BUILD)/fowharimu.1
	install -d $(DESTDIR)$(LIBDIR)/pkgconfig $(DESTDIR)$(PREFIX)/include $(DESTDIR)$(PREFIX)/bin $(DESTDIR)$(PREFIX)/share/man/man1
	install -m 644 include/fowharimu.h $(DESTDIR)$(PREFIX)/include
	install -m 644 $(BUILD)/libfowharimu.a $(DESTDIR)$(LIBDIR)
	install -m 755 $(BUILD)/libfowharimu.so.0 $(DESTDIR)$(LIBDIR)
	ln -sf libfowharimu.so.0 $(DESTDIR)$(LIBDIR)/libfowharimu.so
	install -m 644 $(PACKAGES) $(DESTDIR)$(LIBDIR)/pkgconfig
	install -m 755 $(PROGRAM) $(DESTDIR)$(PREFIX)/bin/fowharimu
	install -m 644 $(BUILD)/fowharimu.1 $(DESTDIR)$(PREFIX)/share/man/man1

# Made of the release, in a folder outside the repository, since they have symbolic links.
deb: dist
	packaging/release/debs $(BUILD)/dist

# nginx's own configure, with the flags of Debian's nginx, writes the Makefile for the module.
NGINX = /usr/share/nginx/src
MODULE = ngx_http_fowharimu_module
NGINX_FLAGS = -O2 -g -ffile-prefix-map=$(CURDIR)=. -fPIC -fstack-protector-strong -D_FORTIFY_SOURCE=2

$(BUILD)/nginx/Makefile: bindings/nginx/config
	mkdir -p $(BUILD)/nginx
	cd $(NGINX) && bash -c '. ./conf_flags && ./configure --with-cc-opt="$(NGINX_FLAGS)" --with-ld-opt="-Wl,-z,relro -Wl,-z,now" \
	    "$${NGX_CONF_FLAGS[@]}" --add-dynamic-module=$(CURDIR)/bindings/nginx --builddir=$(CURDIR)/$(BUILD)/nginx' > $(CURDIR)/$(BUILD)/nginx/configure.log

$(BUILD)/nginx/$(MODULE).so: $(BUILD)/nginx/Makefile $(wildcard bindings/nginx/ngx_http_fowharimu*.[ch]) $(BUILD)/libfowharimu.a
	rm -f $@
	$(MAKE) -C $(NGINX) -f $(CURDIR)/$(BUILD)/nginx/Makefile modules

nginx: $(BUILD)/nginx/$(MODULE).so

# The module, and the endpoint that other gateways ask: its configuration, which stays where there is one, and its service, which isn't enabled.
nginx-files: nginx
	install -d $(DESTDIR)/usr/lib/nginx/modules $(DESTDIR)/usr/share/nginx/modules-available
	install -m 644 $(BUILD)/nginx/$(MODULE).so $(DESTDIR)/usr/lib/nginx/modules
	echo 'load_module modules/$(MODULE).so;' > $(DESTDIR)/usr/share/nginx/modules-available/mod-http-fowharimu.conf
	test -e $(DESTDIR)/etc/fowharimu/verify.conf || install -D -m 644 -t $(DESTDIR)/etc/fowharimu bindings/nginx/verify.conf
	install -D -m 644 -t $(DESTDIR)/lib/systemd/system bindings/nginx/fowharimu-verify.service
	install -D -m 644 bindings/nginx/fowharimu-verify.logrotate $(DESTDIR)/etc/logrotate.d/fowharimu-verify

nginx-install: nginx-files
	install -d $(DESTDIR)/etc/nginx/modules-enabled
	ln -sf /usr/share/nginx/modules-available/mod-http-fowharimu.conf $(DESTDIR)/etc/nginx/modules-enabled/50-mod-http-fowharimu.conf

# The module is handed the library's functions by ctypes, and isn't linked with it. (A slot of a type is a pointer to an object, which -pedantic keeps
# apart from one to a function.)
$(BUILD)/python/_calls.abi3.so: bindings/python/native/_calls.c include/fowharimu.h
	mkdir -p $(BUILD)/python
	$(CC) $(CFLAGS) $(filter-out -pedantic,$(WARNINGS)) -fPIC -shared -I$$(packaging/release/python_headers) -Iinclude -o $@ $<

python: $(BUILD)/python/_calls.abi3.so

# Each has the archive of the library inside.
$(BUILD)/node/fowharimu.node: bindings/node/src/addon.c bindings/node/src/around.c bindings/node/src/around.h include/fowharimu.h $(BUILD)/libfowharimu.a
	mkdir -p $(BUILD)/node
	$(CC) $(CFLAGS) $(WARNINGS) -fPIC -shared -fstack-protector-strong -I$$(packaging/release/node_headers) -Iinclude -o $@ $(filter %.c,$^) $(BUILD)/libfowharimu.a \
	    -Wl,-z,relro,-z,now -Wl,--exclude-libs,ALL

node: $(BUILD)/node/fowharimu.node

$(BUILD)/java/fowharimu-$(VERSION).jar: $(shell find bindings/java -type f) include/fowharimu.h $(BUILD)/libfowharimu.a
	bindings/java/build $(BUILD)/java $(VERSION) $(BUILD)/libfowharimu.a

java: $(BUILD)/java/fowharimu-$(VERSION).jar

dist: all
	KEY='$(KEY)' packaging/release/dist $(BUILD)/dist

check-dist:
	packaging/release/check $(BUILD)/dist

test: libraries
	tests/run

drawn:
	gate/faults.py --write
	gate/options.py --write
	bench/picture
	docs/pictures/draw
	printf '//! The version of the program, and the kit that proves it, drawn by `make drawn`.\n\n/// What `jwt --version` prints.\npub const VERSION: &str = "jwt %s, proved with %s";\n' '$(VERSION)' "$$(rt version)" > crates/jwt_command/src/version.rt

SECONDS = 20

fuzz: libraries
	tests/fuzz/run $(SECONDS)

clean:
	rm -rf $(BUILD)

FORCE:

.PHONY: all libraries wasm page $(OTHERS) $(OTHERS:%=%-program) python node java dist check-dist install deb nginx nginx-files nginx-install test drawn fuzz clean FORCE
