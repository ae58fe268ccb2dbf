# libzhargutai for C: the archive and the shared library, the header, a man page and zhargutai.pc, built from what `tools/build library` proves.
#
#   make                              builds in target/c
#   make install PREFIX=/usr/local    installs; DESTDIR is put before every path
#   make ARCHIVE=FILE                 takes an archive that is already built

PREFIX ?= /usr/local
ARCHIVE ?= target/staticlib/librelease.a
OUT ?= target/c
VERSION := $(shell cat VERSION)
MAJOR := $(firstword $(subst ., ,$(VERSION)))
LIB := $(DESTDIR)$(PREFIX)/lib
SHARED := libzhargutai.so.$(VERSION)

all: $(OUT)/libzhargutai.a $(OUT)/libzhargutai.so $(OUT)/zhargutai.pc $(OUT)/release

target/staticlib/librelease.a:
	tools/build library

$(OUT)/libzhargutai.a: $(ARCHIVE)
	mkdir -p $(OUT)
	cp $(ARCHIVE) $@

# Only what begins with zhargutai_ can be seen from outside.
$(OUT)/libzhargutai.so: $(OUT)/libzhargutai.a
	printf '{ global: zhargutai_*; local: *; };\n' >$(OUT)/exported
	$(CC) -shared -Wl,--whole-archive $< -Wl,--no-whole-archive -Wl,--version-script=$(OUT)/exported -Wl,-soname,libzhargutai.so.$(MAJOR) -o $(OUT)/$(SHARED)
	ln -sf $(SHARED) $(OUT)/libzhargutai.so.$(MAJOR)
	ln -sf $(SHARED) $@

$(OUT)/zhargutai.pc: VERSION Makefile
	mkdir -p $(OUT)
	printf 'prefix=%s\nlibdir=$${prefix}/lib\nincludedir=$${prefix}/include\n\nName: zhargutai\nDescription: Proved checker of quantum gate routines\nVersion: %s\nLibs: -L$${libdir} -lzhargutai\nCflags: -I$${includedir}\n' '$(PREFIX)' '$(VERSION)' >$@

$(OUT)/release: examples/release.c include/zhargutai.h $(OUT)/libzhargutai.a
	$(CC) -std=c11 -O2 -Wall -Wextra -Werror -pthread -Iinclude $< $(OUT)/libzhargutai.a -o $@

install: all
	install -d $(LIB)/pkgconfig $(DESTDIR)$(PREFIX)/include $(DESTDIR)$(PREFIX)/share/man/man3
	install -m 644 $(OUT)/libzhargutai.a $(LIB)/libzhargutai.a
	install -m 755 $(OUT)/$(SHARED) $(LIB)/$(SHARED)
	ln -sf $(SHARED) $(LIB)/libzhargutai.so.$(MAJOR)
	ln -sf $(SHARED) $(LIB)/libzhargutai.so
	install -m 644 $(OUT)/zhargutai.pc $(LIB)/pkgconfig/zhargutai.pc
	install -m 644 include/zhargutai.h $(DESTDIR)$(PREFIX)/include/zhargutai.h
	install -m 644 docs/zhargutai.3 $(DESTDIR)$(PREFIX)/share/man/man3/zhargutai.3

.PHONY: all install
