# make try        builds the proved library and the host program, runs a whole small election from nothing and checks it from the published files
# make test       the gate: every proof from nothing, the must-fail edits, and the tests outside the proof
# make host-test  the tests of the host program: elections, damaged files, crashes
# make install    header, library, pkg-config file and host program, to DESTDIR/PREFIX
# make bench      the hot paths beside other libraries
# make layout     lays out the Rattle files
# try, host-test and install build the library first; with ARCHIVE=PATH they take one that is built.

PREFIX ?= /usr/local
DESTDIR ?=
version = 0.12

ARCHIVE ?=
library = $(if $(ARCHIVE),$(ARCHIVE),crates/jackdawnail/out/libjackdawnail.a)

host_flags = -std=c11 -D_GNU_SOURCE -O2 -Wall -Wextra -Wconversion -Iinclude -DELECTION_VERSION='"$(version)"'
# the library needs neither: the host's random numbers are libsodium's stream, and it makes rounds side by side
host_libraries = -lsodium -pthread
election_sources = $(filter-out host/digest.c,$(wildcard host/*.c))
host_headers = $(wildcard host/*.h) include/jackdawnail.h

.PHONY: try test host-test install bench layout

try: target/digest target/election
	host/try

test:
	.ci/run

host-test: target/election
	host/tests/run "$(abspath $(library))"

install: target/election target/jackdawnail.pc
	install -d $(DESTDIR)$(PREFIX)/bin $(DESTDIR)$(PREFIX)/include $(DESTDIR)$(PREFIX)/lib/pkgconfig
	install -m 755 target/election $(DESTDIR)$(PREFIX)/bin/election
	install -m 644 include/jackdawnail.h $(DESTDIR)$(PREFIX)/include/jackdawnail.h
	install -m 644 $(library) $(DESTDIR)$(PREFIX)/lib/libjackdawnail.a
	install -m 644 target/jackdawnail.pc $(DESTDIR)$(PREFIX)/lib/pkgconfig/jackdawnail.pc

bench:
	bench/run

layout:
	for crate in crates/*/; do (cd "$$crate" && rt fmt) || exit 1; done

ifeq ($(ARCHIVE),)
.PHONY: $(library)
$(library):
	cd crates/jackdawnail && rt lib
endif

target/digest: host/digest.c include/jackdawnail.h $(library)
	@mkdir -p target
	$(CC) $(host_flags) -o $@ host/digest.c $(library)

target/election: $(election_sources) $(host_headers) $(library) Makefile
	@mkdir -p target
	$(CC) $(host_flags) -o $@ $(election_sources) $(library) $(host_libraries)

# written anew each time, since PREFIX may be another one
.PHONY: target/jackdawnail.pc
target/jackdawnail.pc: host/jackdawnail.pc.in
	@mkdir -p target
	sed -e 's|@PREFIX@|$(PREFIX)|' -e 's|@VERSION@|$(version)|' host/jackdawnail.pc.in > $@
