# make            proves and builds the archive that C links and the checking program, where they are missing or older than a source. Needs the Rattle kit (rt).
# make install    copies them below PREFIX, with the header, spokeshaver.pc and the command spokeshaver-check. DESTDIR, if set, stands before PREFIX, and in no file.
# make uninstall  removes what install copied, of versions 1.0.0 on (the first had a file launch).
PREFIX = /usr/local
DESTDIR =
place = $(DESTDIR)$(PREFIX)

archive = target/staticlib/libspokeshaver.a
checker = target/bin/checker
sources := $(shell find crates.txt crates -regex 'crates/[^/]*/out' -prune -o -type f -print)
version := $(shell sed -n 's/^\#define SPOKESHAVER_VERSION "\(.*\)"$$/\1/p' include/spokeshaver.h)
programs = $(place)/libexec/spokeshaver

all: $(archive) $(checker)

$(archive): $(sources)
	tools/build archive

$(checker): $(sources)
	tools/build checker

install: all
	install -d "$(place)/bin" "$(place)/include" "$(place)/lib/pkgconfig" "$(programs)"
	install -m 644 include/spokeshaver.h "$(place)/include/spokeshaver.h"
	install -m 644 $(archive) "$(place)/lib/libspokeshaver.a"
	sed -e 's|@PREFIX@|$(abspath $(PREFIX))|' -e 's|@VERSION@|$(version)|' tools/spokeshaver.pc.in >"$(place)/lib/pkgconfig/spokeshaver.pc"
	chmod 644 "$(place)/lib/pkgconfig/spokeshaver.pc"
	install -m 755 $(checker) "$(programs)/checker"
	install -m 644 tools/verdict "$(programs)"
	install -m 755 tools/spokeshaver-check "$(place)/bin/spokeshaver-check"

uninstall:
	rm -f "$(place)/bin/spokeshaver-check" "$(place)/include/spokeshaver.h" "$(place)/lib/libspokeshaver.a" "$(place)/lib/pkgconfig/spokeshaver.pc"
	rm -f "$(programs)/checker" "$(programs)/launch" "$(programs)/verdict"
	[ ! -d "$(programs)" ] || rmdir "$(programs)"

.PHONY: all install uninstall
