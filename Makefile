# make            proves and builds the archive and the listing program (needs rt of the Rattle kit)
# make example    builds the example and runs it on a new store
# make archives   the archive, and beside it read on words, which tests/interface and bench/ link
# make install    puts header, archive, pkg-config file and listing program below PREFIX; DESTDIR stands before it
# make uninstall  takes them away
# make clean      removes what was built here
# make edits      lists the must-fail edits, wrong programs that the prover must refuse, with what each tries
#
# The archive and the listing program are made again if a source of any crate is newer. What was proved and has not changed is not
# proved again. LIB=.. and LISTING=.. name others, which are taken as they are.

LIB ?= target/staticlib/libaxle.a
LISTING ?= target/bin/listing
PREFIX ?= /usr/local
VERSION := $(shell sed -n 's/^.define AXLE_VERSION_[A-Z]* //p' include/axle.h | paste -sd.)
CFLAGS = -std=c99 -O2 -Wall -Wextra -Wpedantic -Werror

prefix = $(abspath $(PREFIX))
to = $(DESTDIR)$(prefix)
store = target/example/bench.store

sources := crates.txt $(shell find crates -mindepth 2 \( -name must-fail -o -name out \) -prune -o -print)

# Runs a command of rt in the folder of a crate and shows a line for each crate that it proves. target/build.log keeps all that the checker
# prints; its end is shown if a crate is not proved.
define quietly
@mkdir -p $(@D)
@{ (cd crates/$(1) && $(2)); echo $$? >target/build.status; } 2>&1 | tee target/build.log | \
    sed -u -n 's/^rt: chose --jobs [0-9]* for /rt: proves /p; /waiting for it/p'
@status=$$(cat target/build.status); \
    [ "$$status" = 0 ] || { grep -v ': modules loaded=' target/build.log | tail -n 30 | cut -c 1-300; exit "$$status"; }
endef

all: $(LIB) $(LISTING)

archives: $(LIB) target/staticlib/libword_exports.a

target/staticlib/libaxle.a: $(sources)
	$(call quietly,axle_c,rt lib)
	@cp crates/axle_c/out/libaxle_c.a $@

target/staticlib/libword_exports.a: $(sources)
	$(call quietly,word_exports,rt lib)
	@cp crates/word_exports/out/libword_exports.a $@

target/bin/listing: $(sources)
	$(call quietly,listing,rt run <stdin >/dev/null)
	@cp crates/listing/out/listing $@

target/example/sheet: examples/sheet.c include/axle.h $(LIB)
	mkdir -p $(@D)
	$(CC) $(CFLAGS) -Iinclude $< $(LIB) -o $@

# The power fails before the central store of an insert, and then after that of another.
example: target/example/sheet
	@rm -f $(store)
	@target/example/sheet $(store) 7
	@target/example/sheet $(store) 8

install: $(LIB) $(LISTING)
	install -d $(to)/include $(to)/lib/pkgconfig $(to)/bin
	install -m 644 include/axle.h $(to)/include/axle.h
	install -m 644 $(LIB) $(to)/lib/libaxle.a
	install -m 755 $(LISTING) $(to)/bin/axle-listing
	sed -e 's|@PREFIX@|$(prefix)|' -e 's|@VERSION@|$(VERSION)|' axle.pc.in >$(to)/lib/pkgconfig/axle.pc

uninstall:
	rm -f $(to)/include/axle.h $(to)/lib/libaxle.a $(to)/bin/axle-listing $(to)/lib/pkgconfig/axle.pc

clean:
	rm -rf target/example target/c target/staticlib target/bin/listing

edits:
	@for edit in crates/*/must-fail/*.edit; do \
	    name=$${edit#crates/}; name=$${name%.edit}; \
	    echo "$${name%%/*}/$${name##*/}: $$(sed -n '1s/^# *//p' "$$edit")"; \
	done

.PHONY: all archives example install uninstall clean edits
