# make               proves and builds the program and the C library, and leaves them at crates/kmap/out/kmap and
#                    crates/kmap_c/out/libkmap_c.a, libkmap.so beside it, with the header include/kmap.h; at once
#                    where nothing changed
# make lib           builds the C library for the TARGET that is named, aarch64-linux-gnu, riscv64-linux-gnu or
#                    x86_64-kernel, from the LLVM text of what was proved, and leaves it at
#                    crates/kmap_c/out/TARGET/libkmap.a
# make quick         types a line with a program that is built without a proof, once: QUICK='check de.kbd' for other words,
#                    in examples/
# make test          runs all tests on what it builds without a proof, in 5 to 12 minutes of processor time
# make check         the gate: `make test`, then proves every crate that this machine has not proved as it stands, tries
#                    its edits that must be refused, and runs the scripts on what is proved, in one to three
#                    hours of processor time from nothing, as fast as the machine is
# make promises      prints each public call and law with its first sentence and its clauses, from the sources
# make bench         measures the program on large inputs, and fails where a limit of bench/limits is passed
# make install       installs the program, the C library with its header, manual pages, completions, examples and
#                    documents below $(DESTDIR)$(PREFIX), and writes nothing here where all is built
# make dist          puts what is installed into an archive, kmap-VERSION-x86_64-linux.tar.gz
# make uninstall     removes what this version installs
# make clean         removes what was made
#
# It is for any make: build.sh sees whether a source is newer than what is made, and the kit's `rt` what that changes.

# The one number to raise; tests/version.sh then tells each place that has another one.
VERSION = 0.3.0
PREFIX = /usr/local
LIBDIR = $(PREFIX)/lib
INCLUDEDIR = $(PREFIX)/include
MANDIR = $(PREFIX)/share/man
DESTDIR =
RT = rt
CC = cc
INSTALL = install
# What commands of README leave in examples/ is not installed.
EXAMPLE_FILES = accents.kbd console_ends.py console_test.py de.kbd de.script line.numbers line.script live.c load.c \
    test_keymap.py trap.kbd type.c type.py us.kbd
PYTHON_FILES = pyproject.toml kmap/__init__.py kmap/py.typed
# The documents for users; ARCHITECTURE and DECISIONS are for those who work on the repository.
DOCUMENTS = docs/FORMATS.md docs/GUIDE.md docs/PROOFS.md docs/TRANSLATION.md docs/de.svg
QUICK = play us.kbd line.script --typed
PROGRAM = crates/kmap/out/kmap
LIBRARY = crates/kmap_c/out/libkmap_c.a
TEXT = crates/kmap_c/out/libkmap_c.ll
TARGET = x86_64-kernel
SHARED = crates/kmap_c/out/libkmap.so
SONAME = libkmap.so.0
TESTS = crates/tests/out/tests_tests

# the calls of the library, under each of which its page is found
NAMES = sed -n 's/^[a-z0-9_ ]* \(kmap_[a-z_]*\)(.*/\1/p' include/kmap.h

LIB = $(DESTDIR)$(LIBDIR)
INCLUDE = $(DESTDIR)$(INCLUDEDIR)
SHARE = $(DESTDIR)$(PREFIX)/share
MAN = $(DESTDIR)$(MANDIR)
BASH_COMPLETIONS = $(SHARE)/bash-completion/completions
FISH_COMPLETIONS = $(SHARE)/fish/vendor_completions.d
ZSH_COMPLETIONS = $(SHARE)/zsh/site-functions
EXAMPLES = $(SHARE)/examples/kmap
PYTHON = $(SHARE)/kmap/python
DOC = $(SHARE)/doc/kmap

# The shared library names the processors that it is for, so the loader refuses it on others.
LINK_SHARED = if [ ! -f $(SHARED) ] || [ -n "$$(find $(LIBRARY) Makefile -newer $(SHARED))" ]; then \
    $(CC) -shared -Wl,-soname,$(SONAME) -Wl,-z,x86-64-v2 \
        -Wl,--whole-archive $(LIBRARY) -Wl,--no-whole-archive -o $(SHARED); \
    fi

all:
	@RT="$(RT)" sh build.sh kmap out/kmap run -- --version
	@RT="$(RT)" sh build.sh kmap_c out/libkmap_c.a lib
	@$(LINK_SHARED)

# The text is left by a build over kept work, as the gate leaves it.
lib:
	@RT="$(RT)" sh build.sh kmap_c out/libkmap_c.a lib
	@if [ ! -f $(TEXT) ] || [ -n "$$(find $(LIBRARY) -newer $(TEXT))" ]; then \
	    RT="$(RT)" python3 tests/kit.py crates/kmap_c; \
	fi
	@RT="$(RT)" sh library.sh "$(TARGET)" $(TEXT) "crates/kmap_c/out/$(TARGET)/libkmap.a"
	@echo "crates/kmap_c/out/$(TARGET)/libkmap.a"

# The program that it runs, crates/kmap/out/unproved/kmap, is taken by nothing else.
quick:
	@cd examples && RT="$(RT)" python3 ../tests/unproved --program $(QUICK)
	@echo "nothing was proved: that is what make is for"

# All tests that run something, on what is built without a proof in a copy.
test:
	@RT="$(RT)" CC="$(CC)" MAKE="$(MAKE)" python3 tests/unproved

# `rt ci` builds the program anew, by LLVM and by Rattle's own compiler (.by-rattle), the tests of the crates and the C
# library, and the scripts take what it leaves.
check: test
	RT="$(RT)" python3 tests/refused
	@RT="$(RT)" sh build.sh kmap_c out/libkmap_c.a lib
	$(MAKE) scripts
	$(MAKE) other-build

other-build:
	sh tests/transcripts.sh $(PROGRAM).by-rattle
	sh tests/files.sh $(PROGRAM).by-rattle
	sh tests/swapped_names.sh $(PROGRAM).by-rattle
	sh tests/stopped.sh $(PROGRAM).by-rattle
	sh tests/both_builds.sh $(PROGRAM) $(PROGRAM).by-rattle

.PHONY: promises
promises:
	@python3 -B tests/promises

# the tests of what stands in the repository, of the scripts themselves, and of how costs grow, which is the same
# however the program is built: `make test` alone runs these
texts:
	@$(LINK_SHARED)
	RT="$(RT)" python3 tests/layout
	sh tests/statements.sh
	sh tests/names.sh
	sh tests/words.sh
	sh tests/modules.sh
	python3 -B bench/unseen.py --check
	sh tests/checks.sh $(PROGRAM)
	sh tests/linear.sh $(PROGRAM)

# the tests of what is built; `make check` builds the static library alone
scripts:
	@$(LINK_SHARED)
	sh tests/version.sh $(PROGRAM)
	sh tests/transcripts.sh $(PROGRAM)
	sh tests/files.sh $(PROGRAM)
	sh tests/cover.sh $(PROGRAM)
	sh tests/forms.sh $(PROGRAM)
	sh tests/console_test.sh $(PROGRAM) $(LIBRARY)
	sh tests/swapped_names.sh $(PROGRAM)
	sh tests/stopped.sh $(PROGRAM)
	sh tests/c_library.sh $(PROGRAM) $(LIBRARY)
	sh tests/completions.sh $(PROGRAM)
	sh tests/manual.sh $(PROGRAM)
	sh tests/install.sh
	sh tests/guide.sh
	sh tests/recipes.sh $(PROGRAM)
	sh tests/refused_memory.sh $(PROGRAM)
	sh tests/refused_calls.sh $(TESTS)

bench: all
	@RT="$(RT)" sh build.sh tests out/tests_tests test
	sh bench/run.sh $(PROGRAM) $(TESTS) $(LIBRARY)

install: all
	$(INSTALL) -d "$(DESTDIR)$(PREFIX)/bin" "$(LIB)/pkgconfig" "$(INCLUDE)" "$(MAN)/man1" "$(MAN)/man3" \
	    "$(MAN)/man5" "$(EXAMPLES)" "$(PYTHON)/kmap" "$(DOC)/docs" "$(BASH_COMPLETIONS)" \
	    "$(FISH_COMPLETIONS)" "$(ZSH_COMPLETIONS)"
	$(INSTALL) -m 755 $(PROGRAM) "$(DESTDIR)$(PREFIX)/bin/kmap"
	$(INSTALL) -m 644 $(LIBRARY) "$(LIB)/libkmap.a"
	$(INSTALL) -m 755 $(SHARED) "$(LIB)/libkmap.so.$(VERSION)"
	ln -sf libkmap.so.$(VERSION) "$(LIB)/$(SONAME)"
	ln -sf $(SONAME) "$(LIB)/libkmap.so"
	$(INSTALL) -m 644 include/kmap.h "$(INCLUDE)"
	{ printf 'prefix=%s\nlibdir=%s\nincludedir=%s\n' "$(PREFIX)" "$(LIBDIR)" "$(INCLUDEDIR)" && \
	    sed -e '/^prefix=/d' -e '/^libdir=/d' -e '/^includedir=/d' include/kmap.pc; } > "$(LIB)/pkgconfig/kmap.pc"
	chmod 644 "$(LIB)/pkgconfig/kmap.pc"
	place=$$(printf '%s\n' "$(PREFIX)" | sed 's/[\\&,]/\\&/g') && for page in 1 3 5; do \
	    sed "s,/usr/local,$$place,g" man/kmap.$$page > "$(MAN)/man$$page/kmap.$$page" && \
	    chmod 644 "$(MAN)/man$$page/kmap.$$page" || exit 1; \
	done
	for name in $$($(NAMES)); do ln -sf kmap.3 "$(MAN)/man3/$$name.3" || exit 1; done
	$(INSTALL) -m 644 completions/kmap.bash "$(BASH_COMPLETIONS)/kmap"
	$(INSTALL) -m 644 completions/kmap.fish "$(FISH_COMPLETIONS)/kmap.fish"
	$(INSTALL) -m 644 completions/_kmap "$(ZSH_COMPLETIONS)/_kmap"
	for file in $(EXAMPLE_FILES); do $(INSTALL) -m 644 examples/$$file "$(EXAMPLES)" || exit 1; done
	for file in $(PYTHON_FILES); do $(INSTALL) -m 644 python/$$file "$(PYTHON)/$$file" || exit 1; done
	$(INSTALL) -m 644 CHANGELOG.md LICENSE "$(DOC)"
	sed -e '/^- \[docs\/ARCHITECTURE/d' -e '/^- \[docs\/DECISIONS/d' -e '/^- \[CONTRIBUTING/d' README.md \
	    > "$(DOC)/README.md" && chmod 644 "$(DOC)/README.md"
	$(INSTALL) -m 644 $(DOCUMENTS) "$(DOC)/docs"

# Folders that other programs share stay, and so does what a user put into the program's own.
uninstall:
	rm -f "$(DESTDIR)$(PREFIX)/bin/kmap" "$(INCLUDE)/kmap.h" "$(LIB)/pkgconfig/kmap.pc"
	rm -f "$(LIB)/libkmap.a" "$(LIB)/libkmap.so" "$(LIB)/$(SONAME)" "$(LIB)/libkmap.so.$(VERSION)"
	rm -f "$(MAN)/man1/kmap.1" "$(MAN)/man3/kmap.3" "$(MAN)/man5/kmap.5"
	for name in $$($(NAMES)); do rm -f "$(MAN)/man3/$$name.3"; done
	rm -f "$(BASH_COMPLETIONS)/kmap" "$(FISH_COMPLETIONS)/kmap.fish" "$(ZSH_COMPLETIONS)/_kmap"
	for file in $(EXAMPLE_FILES); do rm -f "$(EXAMPLES)/$$file"; done
	for file in $(PYTHON_FILES); do rm -f "$(PYTHON)/$$file"; done
	rm -rf "$(PYTHON)/kmap/__pycache__"
	for file in README.md CHANGELOG.md LICENSE $(DOCUMENTS); do rm -f "$(DOC)/$$file"; done
	for folder in "$(EXAMPLES)" "$(PYTHON)/kmap" "$(PYTHON)" "$(SHARE)/kmap" "$(DOC)/docs" "$(DOC)"; do \
	    rmdir "$$folder" 2> /dev/null || true; \
	done

# The same bytes for the same files: names in order, and no time, owner or name of this machine. Its kmap.pc finds the
# place where it is unpacked.
dist: all
	@folder=$$(mktemp -d) && trap 'rm -rf "$$folder"' EXIT && name=kmap-$(VERSION) && \
	    $(MAKE) DESTDIR="$$folder" PREFIX=/usr/local install > /dev/null && mv "$$folder/usr/local" "$$folder/$$name" && \
	    sed 's,^prefix=.*,prefix=$${pcfiledir}/../..,' include/kmap.pc > "$$folder/$$name/lib/pkgconfig/kmap.pc" && \
	    (cd "$$folder" && find "$$name" ! -type d | LC_ALL=C sort | tar -c --no-recursion --format=ustar \
	    --mtime=@0 --owner=0 --group=0 --numeric-owner -T - | gzip -9n) > $$name-x86_64-linux.tar.gz && \
	    echo $$name-x86_64-linux.tar.gz

clean:
	rm -rf crates/*/out kmap-*.tar.gz

.PHONY: all lib quick test check other-build texts scripts bench install uninstall dist clean
