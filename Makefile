# Thin targets over ./build, ./install and capi/build, for those who type `make`.
PREFIX = /usr/local
LIBDIR = $(PREFIX)/lib
LIBEXEC = $(PREFIX)/libexec/dconfdb

all:
	./build

check:
	.ci/run

install:
	DESTDIR='$(DESTDIR)' LIBEXEC='$(LIBEXEC)' ./install '$(PREFIX)'

uninstall:
	DESTDIR='$(DESTDIR)' LIBEXEC='$(LIBEXEC)' ./install --uninstall '$(PREFIX)'

install-library:
	DESTDIR='$(DESTDIR)' LIBDIR='$(LIBDIR)' ./install --library '$(PREFIX)'

uninstall-library:
	DESTDIR='$(DESTDIR)' LIBDIR='$(LIBDIR)' ./install --uninstall --library '$(PREFIX)'

bench:
	bench/settings

docs:
	tools/man-pages
	tools/guarantees

.PHONY: all check install uninstall install-library uninstall-library bench docs
