# A built copy: nothing is built here, and no toolchain is needed.
.PHONY: help install uninstall
help:
	@echo "make install    the tool, the library and their pages below PREFIX=$(PREFIX) (LIBDIR=$(LIBDIR), DESTDIR=$(DESTDIR)); seconds"
	@echo "make uninstall  remove what 'make install' put there, with the same PREFIX, LIBDIR and DESTDIR; seconds"
	@echo "./tracetool     the tool, run from here"
include packaging/install.mk
