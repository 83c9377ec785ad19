# The program and the library for C, built, installed and packed. packaging/README.md says more.
#
#     make try               builds the program without proof, build/faxtool, once: two minutes; and sends a page over a bad line by it
#     make lib-try           builds the library for C without proof, in build: a minute
#     make                   proves and builds what isn't built yet, with the Rattle kit: crates/faxtool/out/faxtool and bindings/build;
#                            about an hour on four processors, the first time
#     make test              all tests, end to end and examples, over a build without proof
#     make check             the gate, .ci/run, from nothing: one to two hours on four processors
#     make install           copies what was built below $(DESTDIR)$(PREFIX), and builds nothing
#     make uninstall         removes what was copied there
#     make tarball, make deb packs what was built, into packaging/out
#     make wheel             packs the module for Python with the library, into packaging/out; after make lib-try with G3FAX=build
#     make book              writes what is proved, and the definitions that it rests on, as pages: out/book/index.html
#     make plants            tries the planted bugs that the gate leaves out, over what the gate left, and writes docs/PLANTS.md: an hour on
#                            four processors
#     make help              prints these lines
#
# PREFIX is where the files are used from. DESTDIR is put before it where they are gathered elsewhere first, as for a package. LIBDIR is
# where the libraries go, if not $(PREFIX)/lib. FAXTOOL and G3FAX name another program and another folder of the library.
PREFIX ?= /usr/local
DESTDIR ?=
LIBDIR ?= $(PREFIX)/lib
KIT ?= /opt/rattle
FAXTOOL ?= crates/faxtool/out/faxtool
G3FAX ?= bindings/build
export PREFIX DESTDIR LIBDIR KIT FAXTOOL G3FAX

all:
	packaging/build.sh

try:
	@packaging/try.sh

lib-try:
	@packaging/try.sh --library

test:
	.ci/test.sh

check:
	@[ -x "$(KIT)/bin/rt" ] || { echo "make check: there is no Rattle kit in $(KIT): unpack it there, or say by KIT where it is" >&2; exit 1; }
	.ci/run

help:
	@sed -n 's/^#     //p' Makefile

install:
	packaging/install.sh

uninstall:
	packaging/install.sh --uninstall

tarball:
	packaging/tarball.sh packaging/out

deb:
	packaging/deb.sh packaging/out

wheel:
	@bindings/python/make_wheel.py packaging/out

book:
	docs/book.py

plants:
	@[ -x "$(KIT)/bin/rt" ] || { echo "make plants: there is no Rattle kit in $(KIT): unpack it there, or say by KIT where it is" >&2; exit 1; }
	bench/plant/try_edits.py --all

.PHONY: all try lib-try test check help install uninstall tarball deb wheel book plants
