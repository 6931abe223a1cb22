# SPDX-License-Identifier: MIT OR Apache-2.0
# Installs fakesys, its tools, manual page, modules, machines, examples and document; the Makefile includes this file.
#
#     make install [PREFIX=/usr/local] [DESTDIR=..]        make uninstall ..
PREFIX ?= /usr/local
PROGRAMS := fakesys fakesys-record fakesys-uevent umockdev2fakesys
MODULES := $(wildcard python/*.py) python/pyproject.toml
EXAMPLES := $(wildcard examples/*.kf examples/*.tl examples/*.py)
SHARE := $(DESTDIR)$(PREFIX)/share
MANUALS := $(SHARE)/man/man1

install: all
	install -d $(DESTDIR)$(PREFIX)/bin $(SHARE)/fakesys/examples $(SHARE)/fakesys/machines $(SHARE)/doc/fakesys $(MANUALS)
	install -m 755 out/fakesysfs $(PROGRAMS:%=bin/%) $(DESTDIR)$(PREFIX)/bin
	install -m 644 $(MODULES) $(SHARE)/fakesys
	install -m 644 $(EXAMPLES) $(SHARE)/fakesys/examples
	install -m 644 $(MACHINES) $(SHARE)/fakesys/machines
	install -m 644 ../docs/FAKESYS.md ../LICENSE-MIT ../LICENSE-APACHE ../NOTICE $(SHARE)/doc/fakesys
	install -m 644 man/fakesys.1 $(MANUALS)
	for name in fakesysfs $(filter-out fakesys,$(PROGRAMS)); do \
	    echo '.so man1/fakesys.1' > $(MANUALS)/$$name.1; done

uninstall:
	rm -rf $(SHARE)/fakesys $(SHARE)/doc/fakesys
	cd $(DESTDIR)$(PREFIX)/bin && rm -f fakesysfs $(PROGRAMS)
	cd $(MANUALS) && rm -f fakesysfs.1 $(PROGRAMS:=.1)

.PHONY: install uninstall
