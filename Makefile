# make run: the program's example. make test: exactly what the gate runs. make soak N=..: the comparison with a new seed, N cases
# (2,000,000 at the least). make sim N=..: the town of desks with a new seed, N steps (1,000,000 at the least). make pictures: the pictures of
# docs/pictures, from their texts. make kill N=..: desks as processes on one store file are killed N times (10,000 if nothing is said). make hard: the compiled library behind a fence, under memcheck, shared, and on the interpreter. make bench: the store against a straightforward Rust version and a tuned one, and the picture of docs/PERFORMANCE.md; make counts: by instructions alone. make audit: the further must-fail edits.
# make install PREFIX=.. DESTDIR=..: the command `lupaniele`, the header, the library, their pages and the file for pkg-config, under PREFIX (/usr/local) in DESTDIR (none); make uninstall takes them away.
.PHONY: run test soak sim hard kill pictures bench counts audit command install uninstall
N = 20000000
SHELL = /bin/bash
.SHELLFLAGS = -o pipefail -c

run:
	@echo "proving the program and what it is made of: some three minutes from nothing"
	@cd crates/cards && rt run < stdin 2> >(grep --line-buffered -E "^rt: " >&2)

test:
	.ci/run

soak:
	tools/build
	cd rust && cargo run --offline --release --quiet -p compare -- soak $(N)

sim:
	tools/build
	cd rust && cargo run --offline --release --quiet -p simulate --bin simulate -- soak $(N)

hard:
	tools/build
	tools/hard

kill: N = 10000
kill:
	tools/build
	cd rust && cargo run --offline --release --quiet -p kill -- run $(N)

pictures:
	tools/build
	tools/pictures

bench:
	tools/build
	cd rust && cargo run --offline --release --quiet -p bench -- table ../docs/pictures/speed.svg

counts:
	tools/build
	cd rust && cargo run --offline --release --quiet -p bench -- counts

audit:
	tools/audit

PREFIX = /usr/local
DESTDIR =
VERSION := $(shell sed -n 's/^\#define LUPANIELE_VERSION  *"\(.*\)"$$/\1/p' include/lupaniele.h)
SHARED := liblupaniele.so.$(VERSION)
SONAME := liblupaniele.so.$(firstword $(subst ., ,$(VERSION)))
TO = $(DESTDIR)$(PREFIX)

target/lib/liblupaniele.a:
	tools/build

command: target/lib/liblupaniele.a
	cd rust && cargo build --offline --release --quiet -p lupaniele-command

install: command
	install -d "$(TO)/bin" "$(TO)/include" "$(TO)/lib/pkgconfig" "$(TO)/share/man/man1" "$(TO)/share/man/man3"
	install -m 755 rust/target/release/lupaniele "$(TO)/bin/lupaniele"
	install -m 644 include/lupaniele.h "$(TO)/include/lupaniele.h"
	install -m 644 target/lib/liblupaniele.a "$(TO)/lib/liblupaniele.a"
	install -m 755 "target/lib/$(SHARED)" "$(TO)/lib/$(SHARED)"
	ln -sf "$(SHARED)" "$(TO)/lib/$(SONAME)"
	ln -sf "$(SONAME)" "$(TO)/lib/liblupaniele.so"
	sed 's|@PREFIX@|$(PREFIX)|; s|@VERSION@|$(VERSION)|' include/lupaniele.pc.in > "$(TO)/lib/pkgconfig/lupaniele.pc"
	for page in 1 3; do sed 's|@VERSION@|$(VERSION)|' docs/lupaniele.$$page > "$(TO)/share/man/man$$page/lupaniele.$$page" || exit 1; done
	chmod 644 "$(TO)/lib/pkgconfig/lupaniele.pc" "$(TO)/share/man/man1/lupaniele.1" "$(TO)/share/man/man3/lupaniele.3"

uninstall:
	cd "$(TO)" && rm -f bin/lupaniele include/lupaniele.h lib/liblupaniele.a lib/$(SHARED) lib/$(SONAME) lib/liblupaniele.so lib/pkgconfig/lupaniele.pc share/man/man1/lupaniele.1 share/man/man3/lupaniele.3
