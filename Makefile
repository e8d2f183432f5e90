# SPDX-License-Identifier: MIT
# `make` builds, `make help` says what else there is.
.PHONY: all help libraries tools demo test lint pins memcheck secrets guide video arm64 dist deb packages clean

all: libraries tools
	@echo "Libraries: target/staticlib/libsframe_c.a and libmoq_c.a, with include/. Tools: sframe and moq in rust/target/release, log_check in target/bin."
	@echo "README.md shows how to use them; make help says what else there is."

help:
	@echo "make            proves and builds the libraries, and the tools sframe, moq and log_check"
	@echo "make demo       the same, then shows a ward round, and a publisher and a subscriber"
	@echo "make test       the whole gate: proofs, wrong programs, vectors, comparisons; an hour or more the first time"
	@echo "make lint       its quick part with no proof: lists, layout, pinned promises, documents"
	@echo "make libraries  target/staticlib/libsframe_c.a and libmoq_c.a"
	@echo "make tools      rust/target/release/sframe and moq, target/bin/log_check"
	@echo "make pins       writes promises.txt, floors.txt and edits.txt anew"
	@echo "make memcheck   the C examples and a part of the comparisons under valgrind"
	@echo "make secrets    tests that no address and no branch depends on a secret"
	@echo "make guide      compiles and runs the C code of the documents"
	@echo "make video      takes a video over a bad line, with ffmpeg"
	@echo "make arm64      the libraries for 64-bit Arm, compared under qemu"
	@echo "make install    what is built, below PREFIX (/usr/local); make uninstall takes it away"
	@echo "make dist       a release that links without the toolchain: target/dist"
	@echo "make deb        Debian packages of it, linted: target/deb"
	@echo "make packages   tries all of these outside the repository"
	@echo "make clean      removes what was built: target and rust/target; the proofs too"
	@echo "It needs rt (the Rattle toolchain of the file TOOLCHAIN), cargo, a C compiler and bash; test also python3 and rustfmt."

libraries:
	@scripts/libraries

tools: libraries
	@scripts/programs

demo:
	@scripts/demo

test:
	@scripts/gate

lint:
	@scripts/lint

guide:
	@scripts/guide

video:
	@scripts/video

pins:
	@scripts/promises --write
	@scripts/floors --write
	@scripts/edits --write

memcheck:
	@scripts/memcheck

secrets:
	@scripts/secrets

arm64:
	@scripts/arm64

dist:
	@scripts/dist

deb:
	@scripts/deb

packages:
	@scripts/packages

clean:
	@echo "removing target, rust/target and the out/ of each crate"
	@rm -rf target rust/target crates/*/out

include packaging/install.mk
