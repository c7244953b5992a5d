# 'make' alone prints what each target does and about how long it takes.
needs_rt = command -v rt >/dev/null || { echo "rt, the Rattle toolchain, is missing; a built copy needs none (make dist)" >&2; exit 1; }
needs_cargo = command -v cargo >/dev/null || { echo "cargo, of the Rust toolchain, is missing; a built copy needs none (make dist)" >&2; exit 1; }
.PHONY: help test speed lib tool programs lines clean dist install uninstall
.PHONY: rt-is-there cargo-is-there
help:
	@echo "make programs   target/bin/tracetool and tracecheck; some minutes from nothing, a minute after"
	@echo "make tool       target/bin/tracetool alone; some minutes from nothing, a minute after"
	@echo "make lib        target/lib/libgambozuri.a and libgambozuri.so.2 for C programs; some minutes from nothing, a minute after"
	@echo "make install    the tool, the library and their pages below PREFIX=$(PREFIX); seconds, builds nothing"
	@echo "make uninstall  remove what 'make install' put there, with the same PREFIX, LIBDIR and DESTDIR; seconds"
	@echo "make dist       target/gambozuri-$$(cat VERSION)-x86_64-linux.tar.gz, a built copy that needs no toolchain; seconds, builds nothing"
	@echo "make test       all tests: the proofs, then what runs against the archives and programs; minutes where rt has kept the proofs, longer from nothing"
	@echo "make speed      the benchmark against plain Rust; some minutes"
	@echo "make lines      lines of code, definitions and proofs of each crate; seconds"
	@echo "make clean      remove what was built"
	@echo "LIBDIR is $(LIBDIR); DESTDIR is put before every path that is installed."
	@echo "lib needs rt, the Rattle toolchain, and gcc; tool, programs, test and speed need cargo too."
rt-is-there:
	@$(needs_rt)
cargo-is-there:
	@$(needs_cargo)
test: rt-is-there cargo-is-there
	@tests/gate
lib: rt-is-there
	@packaging/prove trace_c traceorder_c tracetext_c tracesay_c
	@packaging/library target/staticlib target/lib
tool: rt-is-there cargo-is-there lib
	@packaging/tool
programs: tool
	@packaging/prove tracecheck
speed: cargo-is-there lib
	@tests/speed
lines:
	@tests/lines
dist:
	@packaging/dist
clean:
	@rm -rf target crates/*/out
include packaging/install.mk
