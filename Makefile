# The library for C hosts on x86-64.
#
#     make                proves and builds target/staticlib/libkizmoolet.a (a while the first time)
#     make install        copies headers, archive and pkg-config file to include, lib and lib/pkgconfig below PREFIX
#     make uninstall      removes these files again
#
# PREFIX=FOLDER           /usr/local by default; a whole path without blanks
# DESTDIR=FOLDER          put before PREFIX where files are copied, and nowhere else: to make packages
# LIBRARY=FILE            take this archive, in place of building one with rt

PREFIX ?= /usr/local
DESTDIR ?=
built := target/staticlib/libkizmoolet.a
LIBRARY ?= $(built)

headers := include/kizmoolet.h include/kizmoolet_requests.h
version := $(shell sed -n 's/^.define KIZMOOLET_VERSION "\(.*\)"$$/\1/p' include/kizmoolet.h)

all: $(LIBRARY)

# What is proved has changed where any file of a crate has; out/ is made by rt.
$(built): crates.txt $(shell find crates -name out -prune -o '(' -name '*.rt' -o -name '*.antt' ')' -print)
	@command -v rt >/dev/null || { echo "needs rt to prove and build the library; or LIBRARY=FILE names an archive" >&2; exit 1; }
	tools/prove kizmoolet_c
	@mkdir -p $(dir $@)
	flock target/prove.lock cp crates/kizmoolet_c/out/libkizmoolet_c.a $@.$$$$ && mv $@.$$$$ $@

checked:
	@case '$(PREFIX)' in *[[:space:]]*) echo "PREFIX has a blank" >&2; exit 1;; /*) ;; *) echo "PREFIX is not a whole path" >&2; exit 1;; esac

install: checked $(LIBRARY)
	install -d '$(DESTDIR)$(PREFIX)/include' '$(DESTDIR)$(PREFIX)/lib/pkgconfig'
	install -m 644 $(headers) '$(DESTDIR)$(PREFIX)/include'
	install -m 644 '$(LIBRARY)' '$(DESTDIR)$(PREFIX)/lib/libkizmoolet.a'
	{ echo 'prefix=$(PREFIX)'; sed 's|@VERSION@|$(version)|' kizmoolet.pc.in; } >'$(DESTDIR)$(PREFIX)/lib/pkgconfig/kizmoolet.pc'
	chmod 644 '$(DESTDIR)$(PREFIX)/lib/pkgconfig/kizmoolet.pc'

uninstall: checked
	rm -f '$(DESTDIR)$(PREFIX)/lib/pkgconfig/kizmoolet.pc' '$(DESTDIR)$(PREFIX)/lib/libkizmoolet.a'
	cd '$(DESTDIR)$(PREFIX)/include' && rm -f $(notdir $(headers))

.PHONY: all checked install uninstall
