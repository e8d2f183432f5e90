# SPDX-License-Identifier: MIT
# Installs the libraries for C, and the tools where they are built. In a release this is the Makefile itself.
#     make install [PREFIX=/usr/local] [DESTDIR=] [ARCH=x86_64 | aarch64]
#     make uninstall, with the same variables
PREFIX ?= /usr/local
LIBDIR ?= $(PREFIX)/lib
INCLUDEDIR ?= $(PREFIX)/include
BINDIR ?= $(PREFIX)/bin
DATADIR ?= $(PREFIX)/share
DOCDIR ?= $(DATADIR)/doc/ruddoshan
DESTDIR ?=
ARCH ?= $(shell uname -m)

.PHONY: usage install uninstall

usage:
	@echo "make install [PREFIX=/usr/local] [DESTDIR=] [ARCH=x86_64 or aarch64]; make uninstall with the same"

# By the environment, so that no character of theirs means anything to the shell.
install uninstall: export PREFIX := $(PREFIX)
install uninstall: export LIBDIR := $(LIBDIR)
install uninstall: export INCLUDEDIR := $(INCLUDEDIR)
install uninstall: export BINDIR := $(BINDIR)
install uninstall: export DATADIR := $(DATADIR)
install uninstall: export DOCDIR := $(DOCDIR)
install uninstall: export DESTDIR := $(DESTDIR)
install uninstall: export ARCH := $(ARCH)
install uninstall:
	@packaging/install $@
