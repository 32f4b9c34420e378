# make                              what there is
# make command                      builds the command: target/host/pachallu
# make example                      shows the incident
# make install PREFIX=/usr/local    the command, its man page, the header, the library and a pkg-config file; DESTDIR is put before every path
# make uninstall PREFIX=/usr/local  removes them
# make dist                         a tarball with all of it, for offices without the toolchain

PREFIX = /usr/local
export PREFIX BINDIR INCLUDEDIR LIBDIR MANDIR PKGCONFIGDIR DESTDIR

help:
	@sed -n 's/^# make/make/p' Makefile

command:
	@./run --version

example:
	@./run incident

install:
	@command/install in

uninstall:
	@command/install out

dist:
	@command/install dist

.PHONY: help command example install uninstall dist
