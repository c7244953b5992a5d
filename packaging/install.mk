# Where 'make install' puts things; DESTDIR is put before every path.
PREFIX = /usr/local
LIBDIR = $(PREFIX)/lib
DESTDIR =
install:
	@packaging/install install '$(PREFIX)' '$(DESTDIR)' '$(LIBDIR)'
uninstall:
	@packaging/install uninstall '$(PREFIX)' '$(DESTDIR)' '$(LIBDIR)'
