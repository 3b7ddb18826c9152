# The README's commands: `make demo` and `make test` each do their own set-up. `rt` is the Rattle kit's command; cargo
# builds without a network.
.PHONY: all library shared demo test gate check reference peers netpbm bench install uninstall clean tools

HOST := --offline --manifest-path host/Cargo.toml
SECOND := --offline --manifest-path reference/Cargo.toml
DEMO := target/demo
# specks of up to 0.1 mm at 600 dots an inch: README, Choosing the limit
DEMO_LIMIT := 17
# above the pixels of every snowfield of the map
EDGE_LIMIT := 500
# the greatest number of pixels in `make bench`, for all and for scikit-image
BENCH_PIXELS ?= 16777216
PEER_PIXELS ?= 4194304

# where `make install` puts things, below DESTDIR where that is given
PREFIX ?= /usr/local
BINDIR ?= $(PREFIX)/bin
LIBDIR ?= $(PREFIX)/lib
INCLUDEDIR ?= $(PREFIX)/include
MANDIR ?= $(PREFIX)/share/man
COMPLETIONDIR ?= $(PREFIX)/share/bash-completion/completions
# the version has one place; the shared library's soname has its first number
VERSION := $(shell sed -n 's/^version = "\(.*\)"/\1/p' host/Cargo.toml)
SONAME := liblivukoe.so.$(firstword $(subst ., ,$(VERSION)))
# what is installed
ARCHIVE := target/staticlib/liblivukoe.a
SHARED := target/shared/liblivukoe.so.$(VERSION)
TOOL := bin/livukoe

# the archive of a crate, made once the crate is proved, put where C callers and cargo look for it
define archive
cd crates/$(1) && rt lib
mkdir -p target/staticlib
cmp -s crates/$(1)/out/lib$(1).a target/staticlib/lib$(1).a || cp crates/$(1)/out/lib$(1).a target/staticlib/
endef

# the command-line tool, bin/livukoe, and the libraries for C
all: library shared
	cargo build $(HOST) --release --quiet
	mkdir -p bin
	cp host/target/release/livukoe host/target/release/livukoe-demo bin/

# the C functions, proved: target/staticlib/liblivukoe.a, for include/livukoe.h
library: tools
	$(call archive,livukoe)

# the same functions, and no other name, as a shared library: the archive's code is position independent
shared: library
	@$(MAKE) --no-print-directory $(SHARED)

$(SHARED): $(ARCHIVE) install/livukoe.map
	mkdir -p $(@D)
	cc -shared -o $@ -Wl,-soname,$(SONAME) -Wl,--version-script=install/livukoe.map -Wl,-z,text -Wl,-z,noexecstack \
	    -Wl,--whole-archive $(ARCHIVE) -Wl,--no-whole-archive

# takes the dust off a relief map, then its snowfields, of which the one that runs off the sheet stays: docs/before.png,
# docs/after.png, docs/edge.png
demo: all
	rm -rf $(DEMO)
	mkdir -p $(DEMO)
	bin/livukoe-demo relief $(DEMO)/before.pgm
	bin/livukoe clean --side light --limit $(DEMO_LIMIT) $(DEMO)/before.pgm $(DEMO)/between.pgm
	bin/livukoe clean --side dark --limit $(DEMO_LIMIT) $(DEMO)/between.pgm $(DEMO)/after.pgm
	bin/livukoe clean --side light --limit $(EDGE_LIMIT) $(DEMO)/after.pgm $(DEMO)/edge.pgm
	for name in before after edge; do bin/livukoe-demo png $(DEMO)/$$name.pgm docs/$$name.png || exit 1; done
	@echo "The map with dust on it is docs/before.png, the cleaned one docs/after.png. docs/edge.png is the same after"
	@echo "--limit $(EDGE_LIMIT) on the light side: the snowfields inside are gone, the one that runs off the lower border is there."
	@echo "As plate files they are $(DEMO)/before.pgm, after.pgm and edge.pgm."

# the proved functions against the second program, on plates, files and records by chance; the tool; what is installed
test: library reference
	cargo test $(HOST) --quiet

# the whole merge gate: every crate proved, every must-fail edit refused, every test
gate:
	.ci/run

# prove every crate that has changed
check:
	rt all check

# the second program's own tests; the cases of `test_vectors` and its answers are as stored, and so is what each other program prints
reference:
	cargo test $(SECOND) --quiet
	cargo build $(SECOND) --release --quiet
	reference/target/release/reference cases | cmp - crates/test_vectors/stdin
	reference/target/release/reference vectors <crates/test_vectors/stdin | cmp - crates/test_vectors/stdout
	reference/target/release/reference sizelist <crates/sizelist/stdin | cmp - crates/sizelist/stdout
	reference/target/release/reference deep | cmp - crates/test_pgm_deep/stdout

# on Debian: what `make bench` compares with, and Netpbm, whose tools `make test` runs on plate files; without them both
# leave out what needs them
peers: PACKAGES := python3-skimage libinsighttoolkit5-dev g++
netpbm: PACKAGES := netpbm
peers netpbm:
	apt-get update
	apt-get install --yes --no-install-recommends $(PACKAGES)

# writes docs/BENCHMARKS.md and docs/benchmarks.svg; the engine on 16-bit greys is measured through an archive of its own
bench: library
	$(call archive,test_tree)
	cargo bench $(HOST) --bench peers -- --pixels $(BENCH_PIXELS) --peer-pixels $(PEER_PIXELS)

# puts what `make` has built where others find it, and builds only what is missing
install: $(ARCHIVE) $(SHARED) $(TOOL)
	install -d $(addprefix $(DESTDIR),$(BINDIR) $(LIBDIR)/pkgconfig $(INCLUDEDIR) $(MANDIR)/man1 $(COMPLETIONDIR))
	install -m 755 $(TOOL) $(DESTDIR)$(BINDIR)/livukoe
	install -m 644 $(ARCHIVE) $(DESTDIR)$(LIBDIR)/liblivukoe.a
	install -m 755 $(SHARED) $(DESTDIR)$(LIBDIR)/liblivukoe.so.$(VERSION)
	ln -sf liblivukoe.so.$(VERSION) $(DESTDIR)$(LIBDIR)/$(SONAME)
	ln -sf $(SONAME) $(DESTDIR)$(LIBDIR)/liblivukoe.so
	install -m 644 include/livukoe.h $(DESTDIR)$(INCLUDEDIR)/livukoe.h
	sed -e 's,@PREFIX@,$(PREFIX),' -e 's,@LIBDIR@,$(LIBDIR:$(PREFIX)/%=$${prefix}/%),' \
	    -e 's,@INCLUDEDIR@,$(INCLUDEDIR:$(PREFIX)/%=$${prefix}/%),' -e 's,@VERSION@,$(VERSION),' \
	    install/livukoe.pc.in >$(DESTDIR)$(LIBDIR)/pkgconfig/livukoe.pc
	chmod 644 $(DESTDIR)$(LIBDIR)/pkgconfig/livukoe.pc
	install -m 644 install/livukoe.1 $(DESTDIR)$(MANDIR)/man1/livukoe.1
	install -m 644 install/livukoe.bash $(DESTDIR)$(COMPLETIONDIR)/livukoe

uninstall:
	rm -f $(addprefix $(DESTDIR),$(BINDIR)/livukoe $(INCLUDEDIR)/livukoe.h $(MANDIR)/man1/livukoe.1 \
	    $(COMPLETIONDIR)/livukoe $(LIBDIR)/pkgconfig/livukoe.pc \
	    $(addprefix $(LIBDIR)/,liblivukoe.a liblivukoe.so $(SONAME) liblivukoe.so.$(VERSION)))

$(ARCHIVE):
	$(call archive,livukoe)

$(TOOL):
	@$(MAKE) --no-print-directory all

# says what is missing on this machine
tools:
	@command -v rt >/dev/null || { echo "rt, the command of the Rattle kit, is not on the PATH"; exit 1; }
	@command -v cargo >/dev/null || { echo "cargo, of Rust, is not on the PATH"; exit 1; }
	@command -v cc >/dev/null || { echo "cc, a C compiler, is not on the PATH"; exit 1; }

clean:
	rm -rf target bin reference/target host/target crates/*/out
