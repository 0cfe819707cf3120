# make: programs, archive and shared library. make test: proves and tests everything. make run: solves the example.
# make lib: the library for hosts, target/lib/libforkhemit.a.
# make install PREFIX=/DIR: programs, library, header, man pages and documents there (below DESTDIR); make uninstall takes them away.
# make examples: builds the example hosts and runs them. make bench: compares with other solvers and with plain Rust.
# make checktime: how long each crate's check takes, from nothing. make pictures: draws docs/pictures.
# make statements: writes tests/statements.txt, in a commit that changes what is proved. make docs: writes the tables of documents that are made.
# make fmt: puts every file in its layout. make fmt-check: says which are not, but for those of crates.
# make drill: two stations and a back end, each in a folder of its own, on the example.
# make dist: target/dist/forkhemit-VERSION-x86_64-linux.tar.gz, what make install copies, with checksums; to unpack anywhere, without the kit.
# make help: this text. README.md has a table with what each command needs.
.PHONY: all test run lib install absolute uninstall examples drill dist help bench checktime pictures docs statements fmt fmt-check
# `rt` works in a crate's folder: one call at a time.
.NOTPARALLEL:

PROGRAMS := pair circuit whole

# the first line of a recipe that proves or compiles Rattle
KIT = @command -v rt >/dev/null || { echo 'the Rattle kit is missing: there is no rt in the path. It brings compiler and prover, is no part of' \
  'this repository and in no package registry: ask whoever gave you the repository. README.md says which kit proved this tree.' >&2; exit 1; }

# all that `make install` copies
all: $(PROGRAMS:%=target/static/%) target/lib/libforkhemit.a target/shared/libforkhemit.so target/examples/desk

help:
	@sed -n '/^\.PHONY/q; s/^# //p' Makefile

test:
	$(KIT)
	.ci/run

# what a proof reads; `rt` puts what it makes into crates/NAME/out
SOURCES := crates.txt $(shell find crates -name out -prune -o -name '*.rt' -print -o -name '*.antt' -print)

$(PROGRAMS:%=target/obj/%.o): target/obj/%.o: $(SOURCES)
	$(KIT)
	.ci/compile $* $@

# Linked statically, with the kit's C code: to load a shared C library takes longer than to solve.
$(PROGRAMS:%=target/static/%): target/static/%: target/obj/%.o
	$(KIT)
	mkdir -p target/static
	cc -static -o $@ $< $(dir $(shell rt doc))c/libos_c.a $(dir $(shell rt doc))c/liblibc_c.a

# the same, linked by `rt` to the shared C library
$(PROGRAMS:%=target/bin/%): target/bin/%: target/obj/%.o
	mkdir -p target/bin
	cp crates/$*/out/$* $@

run: target/static/pair
	cd examples/harbour && ../../target/static/pair <budget

# declared in include/forkhemit.h
lib: target/lib/libforkhemit.a

# The crate forkhemit exports the functions of the crates host_*.
target/lib/libforkhemit.a: $(SOURCES)
	$(KIT)
	.ci/compile forkhemit $@

# ---- make install

PREFIX ?= /usr/local
LIBDIR ?= $(PREFIX)/lib
# The version is read from the header. The soname has its first number: while that stays, hosts that were linked before run as they are.
VERSION := $(shell sed -n 's/^#define FORKHEMIT_VERSION_[A-Z]* //p' include/forkhemit.h | paste -sd.)
SONAME := libforkhemit.so.$(firstword $(subst ., ,$(VERSION)))
MAN := $(DESTDIR)$(PREFIX)/share/man/man1
DOC := $(DESTDIR)$(PREFIX)/share/doc/forkhemit
LIB := $(DESTDIR)$(LIBDIR)
PYTHON := $(DESTDIR)$(PREFIX)/share/forkhemit/python
# the index of the guide and its pages
GUIDE := docs/GUIDE.md docs/PLANNERS.md docs/HOSTS.md docs/BACKENDS.md
FILLED := sed -e 's|@VERSION@|$(VERSION)|' -e 's|@PREFIX@|$(PREFIX)|' -e 's|@LIBDIR@|$(LIBDIR)|'

# The archive's code is position independent (`text`) and needs nothing but C's library (`defs`). Without C's start files nothing runs when the
# library is loaded, and it has no symbol but the functions that hosts call. It is not in the archive's folder: of two there a linker takes the
# shared one.
target/shared/libforkhemit.so: target/lib/libforkhemit.a include/forkhemit.h
	mkdir -p target/shared
	cc -shared -nostartfiles -o $@ -Wl,-soname,$(SONAME),-z,text,-z,defs,-z,now,-z,noexecstack -Wl,--whole-archive $< -Wl,--no-whole-archive

# `pair`, `circuit` and `whole` are too general as names of commands: installed, they begin with the product's name.
install: absolute all
	install -d $(DESTDIR)$(PREFIX)/bin $(DESTDIR)$(PREFIX)/include $(LIB)/pkgconfig $(MAN) $(DOC) $(PYTHON)
	for program in $(PROGRAMS); do \
	  install -m 755 target/static/$$program $(DESTDIR)$(PREFIX)/bin/forkhemit-$$program && \
	  $(FILLED) man/forkhemit-$$program.1 | install -m 644 /dev/stdin $(MAN)/forkhemit-$$program.1 || exit 1; \
	done
	install -m 755 tools/forkhemit-plan $(DESTDIR)$(PREFIX)/bin
	install -D -m 755 target/examples/desk $(DESTDIR)$(PREFIX)/libexec/forkhemit/desk
	$(FILLED) man/forkhemit-plan.1 | install -m 644 /dev/stdin $(MAN)/forkhemit-plan.1
	install -m 644 include/forkhemit.h $(DESTDIR)$(PREFIX)/include
	install -m 644 target/lib/libforkhemit.a $(LIB)
	install -m 755 target/shared/libforkhemit.so $(LIB)/libforkhemit.so.$(VERSION)
	ln -sf libforkhemit.so.$(VERSION) $(LIB)/$(SONAME)
	ln -sf $(SONAME) $(LIB)/libforkhemit.so
	$(FILLED) forkhemit.pc.in | install -m 644 /dev/stdin $(LIB)/pkgconfig/forkhemit.pc
	install -m 644 python/forkhemit.py $(PYTHON)
	install -m 644 LICENSE CHANGES.md $(GUIDE) $(DOC)
	find examples -type f -exec install -D -m 644 {} $(DOC)/{} \;
	@echo 'installed. Before a host over the shared library runs: ldconfig, or LD_LIBRARY_PATH=$(LIBDIR). For Python: PYTHONPATH=$(PREFIX)/share/forkhemit/python'

# The pkg-config file and the readers of man pages use these paths, so they must be whole. Recipes hand them to the shell as they are, and
# `rm -rf` of half a path removes something else: so a path may have no blank and nothing that a shell interprets.
absolute: export GIVEN_PREFIX := $(value PREFIX)
absolute: export GIVEN_LIBDIR := $(LIBDIR)
absolute: export GIVEN_DESTDIR := $(value DESTDIR)
absolute:
	@case $$GIVEN_PREFIX in /*) ;; *) echo "PREFIX is a whole path, as /usr/local, and not '$$GIVEN_PREFIX'" >&2; exit 1 ;; esac
	@case $$GIVEN_LIBDIR in /*) ;; *) echo "LIBDIR is a whole path, as /usr/local/lib, and not '$$GIVEN_LIBDIR'" >&2; exit 1 ;; esac
	@case $$GIVEN_PREFIX$$GIVEN_LIBDIR$$GIVEN_DESTDIR in *[!A-Za-z0-9/._+@:,=~-]*) \
	  echo "PREFIX, LIBDIR and DESTDIR have letters, digits and / . _ + @ : , = ~ - alone, no blank:" \
	    "'$$GIVEN_PREFIX' '$$GIVEN_LIBDIR' '$$GIVEN_DESTDIR'" >&2; exit 1 ;; esac

uninstall: absolute
	rm -f $(DESTDIR)$(PREFIX)/bin/forkhemit-plan $(MAN)/forkhemit-plan.1 $(DESTDIR)$(PREFIX)/libexec/forkhemit/desk
	rm -f $(PROGRAMS:%=$(DESTDIR)$(PREFIX)/bin/forkhemit-%) $(PROGRAMS:%=$(MAN)/forkhemit-%.1) $(DESTDIR)$(PREFIX)/include/forkhemit.h
	rm -f $(LIB)/libforkhemit.a $(LIB)/libforkhemit.so $(LIB)/$(SONAME) $(LIB)/libforkhemit.so.$(VERSION) $(LIB)/pkgconfig/forkhemit.pc
	rm -rf $(DOC) $(DESTDIR)$(PREFIX)/share/forkhemit

# ---- make dist

NAME := forkhemit-$(VERSION)
DIST := target/dist/$(NAME)

# What `make install` copies, in a folder of its own that works wherever it is. One tree and one `make` give the same bytes each time. The
# folder goes once it is packed: it has links, and `rt ci` refuses a checkout with links.
dist: all
	rm -rf target/dist
	$(MAKE) --silent install DESTDIR=target/dist PREFIX=/$(NAME) LIBDIR=/$(NAME)/lib >/dev/null
	sed -i -e 's|^prefix=.*|prefix=$${pcfiledir}/../..|' -e 's|^libdir=.*|libdir=$${prefix}/lib|' $(DIST)/lib/pkgconfig/forkhemit.pc
	install -m 644 docs/DIST.md $(DIST)/README.md
	install -m 644 docs/PROOFS.md docs/DECISIONS.md docs/SPEED.md $(DIST)/share/doc/forkhemit
	cd $(DIST) && find . -type f ! -name SHA256SUMS | LC_ALL=C sort | xargs sha256sum >SHA256SUMS
	tar --sort=name --mtime=@0 --owner=0 --group=0 --numeric-owner --format=ustar -C target/dist -c $(NAME) | gzip -n >$(DIST)-x86_64-linux.tar.gz
	cd target/dist && sha256sum $(NAME)-x86_64-linux.tar.gz >$(NAME)-x86_64-linux.tar.gz.sha256
	rm -r $(DIST)
	@cat $(DIST)-x86_64-linux.tar.gz.sha256

# ---- make examples, make drill

C_HOSTS := host-c late-c proof-c turns-c page-c desk backend
C_HOST_FILES := examples/host/texts.h examples/host/host.h include/forkhemit.h target/lib/libforkhemit.a

$(filter %-c,$(C_HOSTS:%=target/examples/%)): target/examples/%-c: examples/host/%.c
target/examples/desk: examples/desk/desk.c
target/examples/backend: examples/backend/backend.c
$(C_HOSTS:%=target/examples/%): $(C_HOST_FILES)
	mkdir -p target/examples
	cc -std=c11 -O2 -Wall -Wextra -Wpedantic -Werror -Iinclude -o $@ $(filter %.c,$^) -Ltarget/lib -lforkhemit

# The folders stay in target/drill, to look at.
drill: target/examples/backend target/static/pair
	@sh examples/backend/drill.sh '$(CURDIR)/target/examples/backend' '$(CURDIR)/target/static/pair' '$(CURDIR)/examples/harbour' '$(CURDIR)/target/drill'

target/examples/host-rust: examples/host/host.rs target/lib/libforkhemit.a
	mkdir -p target/examples
	rustc --edition 2021 -O -D warnings -o $@ $< -L native=target/lib

# The two hosts answer as the pair program; the third is told of a late condition, in each of the stories of examples/harbour/late; the
# fourth lists a run step by step, by rule 4 and weighted; the fifth checks a proof of cadical's, of examples/harbour/unsatisfiable; the
# sixth says who can force the roster, in each way of taking turns of examples/harbour/turns; the last prints the roster as a page.
examples: target/examples/host-c target/examples/host-rust target/examples/late-c target/examples/desk target/examples/proof-c
examples: target/examples/turns-c target/examples/page-c target/examples/backend
	cd examples/harbour && for host in host-c host-rust; do \
	  echo "$$host left.cnf right.cnf public.cnf $$(cat budget)"; \
	  ../../target/examples/$$host left.cnf right.cnf public.cnf $$(cat budget) | tee ../../target/examples/$$host.out && cmp ../../target/examples/$$host.out answer || exit 1; \
	done
	cd examples/harbour && for story in crewed uncrewed; do \
	  echo "late-c left.cnf late/right.cnf public.cnf $$(cat late/$$story)"; \
	  ../../target/examples/late-c left.cnf late/right.cnf public.cnf $$(cat late/$$story) | tee ../../target/examples/late-$$story.out && cmp ../../target/examples/late-$$story.out late/$$story.answer || exit 1; \
	done
	cd examples/harbour && ../../target/examples/desk left.cnf right.cnf public.cnf $$(cat budget) | tee ../../target/examples/desk.out && cmp ../../target/examples/desk.out ../desk/listing
	cd examples/harbour && ../../target/examples/desk -w left.cnf right.cnf public.cnf $$(cat budget) | tee ../../target/examples/desk-weighted.out && cmp ../../target/examples/desk-weighted.out ../desk/listing-weighted
	cd examples/harbour/unsatisfiable && ../../../target/examples/proof-c ../left.cnf right.cnf ../public.cnf proof.drat | tee ../../../target/examples/proof.out && cmp ../../../target/examples/proof.out answer
	cd examples/harbour/turns && for way in by-turns at-once going-on; do \
	  echo "turns-c $$way.qdimacs"; \
	  ../../../target/examples/turns-c $$way.qdimacs | tee ../../../target/examples/turns-$$way.out && cmp ../../../target/examples/turns-$$way.out $$way.answer || exit 1; \
	done
	cd examples/harbour && ../../target/examples/page-c left.cnf right.cnf public.cnf $$(cat budget) 4 3 | tee ../../target/examples/page.out && cmp ../../target/examples/page.out page

bench: target/static/pair target/static/whole target/lib/libforkhemit.a
	cargo build --quiet --release --bins --offline --locked --manifest-path tests/Cargo.toml
	@lscpu | sed -n 's/^Model name: */on /p'
	tests/target/release/bench target/static/pair
	tests/target/release/bench-tables target/static/pair
	tests/target/release/bench-library
	tests/target/release/bench-weighted tests/dimacs
	tests/target/release/bench-proofs
	tests/target/release/bench-whole target/static/whole target/static/pair
	cargo build --quiet --profile plain --bin bench-evaluator --bin bench-columns --offline --locked --manifest-path tests/Cargo.toml
	tests/target/plain/bench-evaluator
	tests/target/plain/bench-columns

checktime:
	tests/checktime.sh

pictures:
	cargo build --quiet --release --bin pictures --offline --locked --manifest-path tests/Cargo.toml
	tests/target/release/pictures .

docs:
	cargo build --quiet --release --bin check --offline --locked --manifest-path tests/Cargo.toml
	tests/target/release/check docs crates

statements:
	cargo build --quiet --release --bin check --offline --locked --manifest-path tests/Cargo.toml
	tests/target/release/check statements crates >tests/statements.new
	mv tests/statements.new tests/statements.txt

# `rt` lays out the crate that it is called in.
fmt:
	$(KIT)
	for crate in crates/*/; do (cd $$crate && rt fmt) || exit 1; done
	cargo fmt --manifest-path tests/Cargo.toml
	rustfmt --edition 2021 --config-path tests/rustfmt.toml examples/host/host.rs

# What `rt fmt` lays out is checked by `rt ci`.
fmt-check:
	cargo fmt --check --manifest-path tests/Cargo.toml
	rustfmt --check --edition 2021 --config-path tests/rustfmt.toml examples/host/host.rs
