# For C programmers: the library's archive and the tool, under target/, and their installation. The archive is made by the Rattle toolchain (rt), which
# proves it first: some minutes the first time. Nothing is written outside target/ and the crates' folders out/, where the toolchain keeps its work, except
# by install, and a temporary file by test, which removes it.
#     make                                the archive and the tool
#     make test                           the gate
#     make install PREFIX=/usr DESTDIR=.. header, archive, tool and nichelarder.pc
#     make clean                          removes target/ and the crates' folders out/
CFLAGS ?= -O2
PREFIX ?= /usr/local
INSTALL ?= install

archive = target/staticlib/libnichelarder.a
tool = target/nichelarder
version = $(shell sed -n 's/^\#define NL_VERSION "\(.*\)"$$/\1/p' include/nichelarder.h)
to = $(DESTDIR)$(PREFIX)

all: $(archive) $(tool)

# what is stale in it, the toolchain knows better; this is when to ask
$(archive): $(shell find crates -type f -not -path '*/out/*') crates.txt
	bash tools/build.sh archive
	touch $@

$(tool): tools/nichelarder.c include/nichelarder.h $(archive)
	$(CC) -std=c99 $(CPPFLAGS) $(CFLAGS) $(LDFLAGS) tools/nichelarder.c $(archive) -o $@

test:
	bash .ci/run

install: all
	sed -e 's|@PREFIX@|$(PREFIX)|' -e 's|@VERSION@|$(version)|' tools/nichelarder.pc.in >target/nichelarder.pc
	$(INSTALL) -d $(to)/include $(to)/lib/pkgconfig $(to)/bin
	$(INSTALL) -m 644 include/nichelarder.h $(to)/include
	$(INSTALL) -m 644 $(archive) $(to)/lib
	$(INSTALL) -m 644 target/nichelarder.pc $(to)/lib/pkgconfig
	$(INSTALL) -m 755 $(tool) $(to)/bin

clean:
	rm -rf target crates/*/out

.PHONY: all test install clean
