# `make` builds the library, `make run` runs the product, `make test` runs every test. All work on a machine that has
# the Rattle kit, Debian's packages and git; what else they need they install. CC, CFLAGS and LDFLAGS are heeded, by
# `make install` PREFIX and DESTDIR too.

.PHONY: lib tool line run test bench fuzz shared install install-tool kit clean

# The interface's number is the shared library's version.
interface := $(shell sed -n 's/^.define HLQ_INTERFACE //p' include/prowcurl.h)
soname := libprowcurl.so.$(interface)

# target/staticlib/libprowcurl.a, target/include/prowcurl.h, and prowcurl_sheet.h beside it
lib:
	@tools/prove prowcurl lib
	@mkdir -p target/staticlib target/include
	@cp crates/prowcurl/out/libprowcurl.a target/staticlib/
	@cp include/prowcurl.h include/prowcurl_sheet.h target/include/
	@echo "target/staticlib/libprowcurl.a, target/include/prowcurl.h, target/include/prowcurl_sheet.h"

# The command-line tool, target/tool/prowcurl: docs/TOOL.md.
tool: lib
	@tools/build-tool target/tool/prowcurl
	@echo "target/tool/prowcurl"

# The tool on the sample line: a survey on six sheets, its areas, an edit and its undo, in target/line.
line: tool
	@tools/need python3 python3
	@tools/show-line target/tool/prowcurl target/line

# The listing program on Map A, the example: a day with a survey, and the tool on the sample line.
run: kit
	@echo "== the library is proved first, crate by crate; then it is compiled"
	@$(MAKE) --no-print-directory lib
	@tools/prove listing check
	@echo "== the listing program on Map A"
	@cd crates/listing && rt run <stdin 2>../../target/log/listing.txt
	@echo "== the example: a survey, its rules and waivers"
	@tools/compile-c target/c/example_survey examples/survey.c
	@tools/run-c target/c/example_survey <examples/survey.txt
	@$(MAKE) --no-print-directory --old-file=lib line

# The words and the documents, the proofs with their tests, the must-fail edits and the programs (rt ci), and the C
# tests. The last line is the gate's own.
test: kit
	@tests/run

# So many calls in random histories, the library against the second implementation, from this seed on: docs/STRESS.md.
# The gate tries some thousand.
CALLS ?= 1000000
SEED ?= 1
.PHONY: histories faults
histories: lib
	@tools/compile-c target/c/histories tests/c/test_histories.c tests/c/support.c tests/c/survey.c tests/c/reference.c
	@tools/run-c target/c/histories $(CALLS) $(SEED)

# A disk that fails under every command that writes a line, at each of its calls, and so many states of the disk after a
# crash at each: docs/STRESS.md. The gate tries a part of it.
STATES ?= 48
faults:
	@tests/tool/part build-plain
	@tests/tool/store.py target/tool/plain target/tool/faults.so $(STATES) $(SEED)

# Library against plain C, in one run: instructions where the emulator counts them, else nanoseconds.
bench: lib
	@tools/compile-c target/c/bench bench/bench.c bench/plain.c
	@tools/run-counted target/c/bench

# Each fuzzer for SECONDS, one after the other: docs/FUZZING.md. `make test` runs what they found so far.
SECONDS ?= 60
fuzz: lib
	@tests/fuzz/fuzz $(SECONDS)

# The archive's code as a shared library.
shared: lib
	@tools/link-shared target/shared/$(soname)

# Headers, archive, shared library and a pkg-config file below PREFIX, and the tool with its manual page and completion;
# DESTDIR stands before it where the files are only gathered.
PREFIX ?= /usr/local
install: shared install-tool
	install -d $(DESTDIR)$(PREFIX)/include $(DESTDIR)$(PREFIX)/lib/pkgconfig
	install -m 644 include/prowcurl.h include/prowcurl_sheet.h $(DESTDIR)$(PREFIX)/include/
	install -m 644 target/staticlib/libprowcurl.a $(DESTDIR)$(PREFIX)/lib/
	install -m 755 target/shared/$(soname) $(DESTDIR)$(PREFIX)/lib/
	ln -sf $(soname) $(DESTDIR)$(PREFIX)/lib/libprowcurl.so
	sed -e 's|@PREFIX@|$(PREFIX)|' -e 's|@INTERFACE@|$(interface)|' prowcurl.pc.in \
	    >$(DESTDIR)$(PREFIX)/lib/pkgconfig/prowcurl.pc

install-tool: tool
	install -d $(DESTDIR)$(PREFIX)/bin $(DESTDIR)$(PREFIX)/share/man/man1 \
	    $(DESTDIR)$(PREFIX)/share/bash-completion/completions
ifeq ($(shell uname -m),x86_64)
	install -m 755 target/tool/prowcurl $(DESTDIR)$(PREFIX)/bin/
else
	install -d $(DESTDIR)$(PREFIX)/libexec/prowcurl
	install -m 755 target/tool/prowcurl $(DESTDIR)$(PREFIX)/libexec/prowcurl/
	install -m 755 tools/emulated-tool.sh $(DESTDIR)$(PREFIX)/bin/prowcurl
endif
	install -m 644 tool/prowcurl.1 $(DESTDIR)$(PREFIX)/share/man/man1/
	install -m 644 tool/prowcurl.bash $(DESTDIR)$(PREFIX)/share/bash-completion/completions/prowcurl

# Says when another kit is found than the one that these proofs were made with, and goes on.
kit:
	@found=$$(rt version); pinned=$$(cat kit-id); \
	if [ "$$found" = "$$pinned" ]; then echo "kit: $$found"; \
	else echo "kit: found '$$found', but kit-id pins '$$pinned': the proofs were made with the pinned one"; fi

# Everything that the commands above have made, what rt keeps in the crates' folders included.
clean:
	rm -rf target crates/*/out
