# Short commands. `make` alone lists them.

# Where `make install` puts things. DESTDIR, if given, goes before each.
PREFIX ?= /usr/local
BINDIR ?= $(PREFIX)/bin
LIBDIR ?= $(PREFIX)/lib
INCLUDEDIR ?= $(PREFIX)/include
MANDIR ?= $(PREFIX)/share/man
DOCDIR ?= $(PREFIX)/share/doc/espenknoten

# The programs that are installed: target/bin/NAME as espenknoten-NAME, with the page docs/man/espenknoten-NAME.1.
programs := bench draw player

# Every call of the header has a man page of its own name, which shows espenknoten(3).
open := (
calls := $(shell sed -nE 's/^(static inline |struct )?[a-z0-9_]+ (ek_[a-z_]+)[$(open)].*/\2/p' include/espenknoten.h)

# Every C example has a target of its name.
examples := $(notdir $(basename $(wildcard examples/*.c)))

lib := target/staticlib/libboard.a
c99 := -std=c99 -Wall -Wextra -Werror -pedantic

version := $(shell cat VERSION)
date := $(shell sed -n 's/^## \[$(version)\] - //p' CHANGELOG.md)

.PHONY: help lib programs $(programs:%=program-%) demo demo-c $(examples) test compare bench install uninstall
.DELETE_ON_ERROR:
# One rt at a time.
.NOTPARALLEL:

help:
	@echo 'make demo       prove and build the bench, and play the rules page'\''s field of three tags'
	@echo 'make programs   prove and build the programs: $(programs:%=target/bin/%)'
	@echo 'make lib        prove the library and write $(lib)'
	@echo 'make inventory  from C: code an inventory request as a pulse track and read it back (make demo-c does the same)'
	@echo 'make tag        from C: play a tag; inventory, families, read, write, slot mark'
	@echo 'make walk       from C: walk fields of cards'
	@echo 'make racks      from C: walk two racks in turn over one list'
	@echo 'make tools      from C: walk a rack, and show length and wear of each tool in it'
	@echo 'make coil       from C: walk tags whose answers lie over each other as raw subcarrier'
	@echo 'make install    programs, library, header, pkg-config file and pages below PREFIX ($(PREFIX)); make uninstall takes them away'
	@echo 'make test       the whole gate: every proof, every must-fail edit, every comparison'
	@echo 'make compare    hold the library against the independent implementation'
	@echo 'make bench      time the library and the bench program beside plain C'

lib: $(lib)

# Written where a source is newer.
$(lib): crates.txt $(shell find crates -name out -prune -o '(' -name '*.rt' -o -name '*.antt' ')' -print)
	cd crates/board_c && rt lib
	mkdir -p $(dir $(lib))
	cp crates/board_c/out/libboard_c.a $(lib)

# rt builds a program that it runs: on no input.
programs: $(programs:%=program-%)

$(programs:%=program-%): program-%:
	cd crates/$* && rt run </dev/null
	mkdir -p target/bin
	cp crates/$*/out/$* target/bin/$*

# What rt says is kept in target/demo.log, and shown whole where it fails.
demo:
	@echo 'Proves the bench and all that it stands on, and builds it: some minutes from a clean clone. Then plays examples/fields/three.txt.'
	@mkdir -p target && : >target/demo.log
	@$(MAKE) --no-print-directory program-bench >target/demo.log 2>&1 & make=$$!; \
	    tail -n +1 -f --pid=$$make target/demo.log | sed -un 's/^crate \([a-z]*\): modules .*/\1/p'; \
	    wait $$make || { cat target/demo.log; echo 'The bench was not built; target/demo.log has the lines above.'; exit 1; }
	@tools/x86-64 >/dev/null && target/bin/bench <examples/fields/three.txt

demo-c: inventory

$(examples): %: lib
	mkdir -p target/c
	$(CC) $(c99) -O2 -Iinclude -o target/c/$@ examples/$@.c $(lib)
	target/c/$@

test:
	bash .ci/run

# The archive must stand: `make lib` makes it.
compare:
	RUSTC="$$(command -v rustc)" BOARD_LIB_DIR='$(CURDIR)/target/staticlib' CARGO_TARGET_DIR='$(CURDIR)/target/independent' \
	    cargo build --quiet --release --offline --manifest-path independent/Cargo.toml
	RUSTC="$$(command -v rustc)" BOARD_LIB_DIR='$(CURDIR)/target/staticlib' CARGO_TARGET_DIR='$(CURDIR)/target/independent' \
	    cargo test --quiet --release --offline --manifest-path independent/Cargo.toml
	VECTORS_DIR='$(CURDIR)/vectors' target/independent/release/comparison

bench: lib program-bench
	bench/run

# filled FILE FOLDER: a line that installs a file with version, date and folders put in. The folders of the pkg-config file follow its prefix.
folder = $(patsubst $(PREFIX)/%,$${prefix}/%,$(1))
define filled
	sed -e 's|@version@|$(version)|g' -e 's|@date@|$(date)|g' -e 's|@prefix@|$(PREFIX)|' -e 's|@libdir@|$(call folder,$(LIBDIR))|' \
	    -e 's|@includedir@|$(call folder,$(INCLUDEDIR))|' $(1) >target/filled
	install -D -m 644 target/filled '$(DESTDIR)$(2)/$(notdir $(1:.in=))'

endef

install: lib programs
	$(foreach name,$(programs),install -D -m 755 target/bin/$(name) '$(DESTDIR)$(BINDIR)/espenknoten-$(name)' &&) true
	install -D -m 644 $(lib) '$(DESTDIR)$(LIBDIR)/libespenknoten.a'
	install -D -m 644 include/espenknoten.h -t '$(DESTDIR)$(INCLUDEDIR)'
	install -D -m 644 docs/TRUST.md -t '$(DESTDIR)$(DOCDIR)'
	$(foreach name,$(programs),$(call filled,docs/man/espenknoten-$(name).1,$(MANDIR)/man1))
	$(call filled,docs/man/espenknoten.3,$(MANDIR)/man3)
	$(call filled,espenknoten.pc.in,$(LIBDIR)/pkgconfig)
	echo '.so man3/espenknoten.3' >target/filled
	for call in $(calls); do install -m 644 target/filled "$(DESTDIR)$(MANDIR)/man3/$$call.3" || exit 1; done

uninstall:
	rm -f $(programs:%='$(DESTDIR)$(BINDIR)/espenknoten-%') $(programs:%='$(DESTDIR)$(MANDIR)/man1/espenknoten-%.1') \
	    '$(DESTDIR)$(LIBDIR)/libespenknoten.a' '$(DESTDIR)$(INCLUDEDIR)/espenknoten.h' '$(DESTDIR)$(MANDIR)/man3/espenknoten.3' \
	    $(calls:%='$(DESTDIR)$(MANDIR)/man3/%.3') '$(DESTDIR)$(LIBDIR)/pkgconfig/espenknoten.pc' '$(DESTDIR)$(DOCDIR)/TRUST.md'
