# Puts what was proved where a system has it. README.md says what proves it.
#
#   make install [PREFIX=/usr/local] [DESTDIR=FOLDER]   the program, the library with its header, pages of the manual, completion
#   make uninstall [PREFIX=..] [DESTDIR=..]             takes these away
#   make library                                        proves the library, and keeps its archive
#   make dist                                           a tarball of the commit, with what was proved of it
#
# Install takes what is proved already, and refuses where there is nothing: `./iscsi-replay --prove` and `make library` prove the
# program and the library, `./test` both.
PREFIX ?= /usr/local
DESTDIR ?=
export PREFIX DESTDIR

.PHONY: help install uninstall library dist

help:
	@sed -n 's/^#   //p' Makefile

install:
	@package/install

uninstall:
	@package/install --undo

library:
	launcher/keep-archive . rt lib

dist:
	@package/dist
