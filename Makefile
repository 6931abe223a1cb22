# SPDX-License-Identifier: MIT OR Apache-2.0
# The program. To build it takes the Rattle kit with rt on the path, as ./kernfs_run --prove does.
#
#     make                                  proves the program's crates and builds it, if that is not done
#     make help                             prints what there is: these lines, the programs in tools/, the tests
#     make install DESTDIR=.. PREFIX=..     installs it with its manual page and examples, built first (PREFIX: /usr/local)
#     make uninstall DESTDIR=.. PREFIX=..   takes that away
#     make version                          writes the version that the file VERSION has wherever else it stands
#     make dist                             makes the tarballs of a release in out/dist, and their checksums
#     make dist-proved                      adds the tarball of the proved libraries, which are proved first

PREFIX ?= /usr/local
BIN := $(DESTDIR)$(PREFIX)/bin
MAN := $(DESTDIR)$(PREFIX)/share/man/man1
DOC := $(DESTDIR)$(PREFIX)/share/doc/kernfs_run
VERSION := $(shell cat VERSION)
TOOLS := $(shell find tools -type f -perm -u+x | LC_ALL=C sort)
TESTS := $(shell find tests c/test c/test_dist fakesys/test fakesys/test_tools -type f -perm -u+x | LC_ALL=C sort)
# A program's third line says what it is for.
first_lines = for it in $(2); do printf '    %-$(1)s %s\n' $$it "$$(sed -En '3s/^(\# |""")//; 3s/(\.|:  .*)$$//; 3p' $$it)"; done

all:
	./kernfs_run --prove --version

help:
	@sed -n 's/^#     /    /p' Makefile
	@echo '    make -C c ..                          builds, tests and installs the C library: see c/Makefile'
	@echo '    make -C fakesys ..                    builds, tests and installs fakesys: see fakesys/Makefile'
	@printf '\nThe program (%s explains itself):\n\n' './kernfs_run --help'
	@echo '    ./kernfs_run examples/tour.kf         runs a script; with --prove it proves and builds the program first'
	@printf '\nPrograms in tools/ (each explains itself with --help):\n\n'
	@$(call first_lines,25,$(TOOLS))
	@printf '\nTests (.ci/run proves everything, and runs them):\n\n'
	@$(call first_lines,40,$(TESTS))

install: all
	install -d "$(BIN)" "$(MAN)" "$(DOC)/examples"
	install crates/kernfs_run/out/kernfs_run "$(BIN)"
	install -m 644 docs/kernfs_run.1 "$(MAN)"
	install -m 644 docs/SCRIPTS.md LICENSE-MIT LICENSE-APACHE NOTICE "$(DOC)"
	install -m 644 examples/*.kf examples/*.out examples/*.options "$(DOC)/examples"

uninstall:
	rm -f "$(BIN)/kernfs_run" "$(MAN)/kernfs_run.1"
	rm -rf "$(DOC)"

version:
	tools/version --write

dist:
	rm -rf out/dist
	tools/dist
	$(MAKE) -C c dist
	cp c/out/kernfs_tree-$(VERSION).tar.gz out/dist
	cd out/dist && sha256sum *-$(VERSION).tar.gz > SHA256SUMS

dist-proved:
	tools/prove --library
	tools/dist_proved
	cd out/dist && sha256sum *-$(VERSION).tar.* > SHA256SUMS

.PHONY: all help install uninstall version dist dist-proved
