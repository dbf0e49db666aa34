# The hosts in C and their tests, over the archive that `tools/prove htm_c` proves and writes. All output goes to target/.
#
#   make host        builds and runs examples/host.c
#   make test        every C call on the stored cases of query and archive, the lookups of floats beside C's own product, what the header says beside the
#                    calls, the stack of each call, what examples/host.c prints
#   make sky         the layer of degrees: random cones and polygons beside long double, and what is refused
#   make sky-measure what other ways to write cones and polygons would cost
#   make sqlite      the SQLite extension, target/hosts/htm_sqlite.so: every function, and searches of 300,000 frames beside a test of every frame
#   make postgres    the PostgreSQL extension in private servers: every function, and searches of 300,000 frames beside a test of every frame
#   make install     libraries, headers, pkg-config files, programs, manual pages and the Python module below PREFIX, /usr/local
#   make uninstall   removes what make install puts there; directories stay
#   make install-test   installs to a temporary directory, and tries all that is there
#   make python      the Python module's tests, by every Python from 3.9 on that is on the path, without numpy and with it
#
# LIB=FILE takes another archive, BIN=DIR takes the programs in another directory: these are then not built.
# PREFIX is where the files shall be used, DESTDIR a directory before it, for packages. PYTHONS names the interpreters of make python.

PREFIX = /usr/local
DESTDIR =
LIB = target/staticlib/libhtm.a
BIN = target/bin
INCLUDE = include
VERSION := $(shell sed -n 's/^.define HTM_VERSION "\(.*\)"$$/\1/p' $(INCLUDE)/htm.h)
CFLAGS = -std=c11 -Wall -Wextra -Werror -O2
COMPILE = $(CC) $(CFLAGS) -I$(INCLUDE)

.PHONY: host test sky sky-measure sqlite sqlite-header postgres libraries install uninstall install-test python

host: target/c/host
	target/c/host

test: target/c/calls target/c/index target/c/reports target/c/lookups target/c/header target/c/stack target/c/host
	target/c/calls crates/query/stdin crates/query/stdout
	target/c/index crates/archive/stdin crates/archive/stdout
	target/c/reports
	target/c/lookups
	target/c/header
	target/c/stack
	target/c/host | diff examples/host.expected -
	@echo "host: its output is that of examples/host.expected"

sky: target/c/sky
	target/c/sky

sky-measure: target/c/sky-measure
	target/c/sky-measure

# The extension in SQLite's library, then what the documents show in SQLite's shell.
sqlite: sqlite-header target/hosts/htm_sqlite.so target/c/sqlite
	target/c/sqlite target/hosts/htm_sqlite
	hosts/sqlite/session README.md docs/DATABASES.md

postgres: $(LIB)
	HTM_LIB=$(LIB) hosts/postgres/test.sh

sqlite-header:
	@echo '#include <sqlite3.h>' | $(CC) -E - > /dev/null 2>&1 || \
	  { echo "sqlite3.h is missing: install SQLite's header (Debian: apt-get install libsqlite3-dev)" >&2; exit 1; }

target/c/host: examples/host.c $(LIB) $(INCLUDE)/htm.h
	@mkdir -p target/c
	$(COMPILE) -o $@ examples/host.c $(LIB)

target/c/calls: tests/c/calls.c $(LIB) $(INCLUDE)/htm.h
	@mkdir -p target/c
	$(COMPILE) -o $@ tests/c/calls.c $(LIB)

target/c/index: tests/c/index.c $(LIB) $(INCLUDE)/htm.h
	@mkdir -p target/c
	$(COMPILE) -o $@ tests/c/index.c $(LIB)

target/c/reports: tests/c/reports.c $(LIB) $(INCLUDE)/htm.h
	@mkdir -p target/c
	$(COMPILE) -o $@ tests/c/reports.c $(LIB) -lm

target/c/lookups: tests/c/lookups.c $(LIB) $(INCLUDE)/htm.h
	@mkdir -p target/c
	$(COMPILE) -o $@ tests/c/lookups.c $(LIB) -lm

target/c/header: tests/c/header.c $(LIB) $(INCLUDE)/htm.h
	@mkdir -p target/c
	$(COMPILE) -o $@ tests/c/header.c $(LIB)

target/c/stack: tests/c/stack.c $(LIB) $(INCLUDE)/htm.h
	@mkdir -p target/c
	$(COMPILE) -o $@ tests/c/stack.c $(LIB) -lm

target/c/sky: hosts/sky/test.c hosts/sky/htm_sky.c hosts/sky/htm_sky.h $(LIB) $(INCLUDE)/htm.h
	@mkdir -p target/c
	$(COMPILE) -Ihosts/sky -o $@ hosts/sky/test.c hosts/sky/htm_sky.c $(LIB) -lm

target/c/sky-measure: hosts/sky/measure.c hosts/sky/htm_sky.c hosts/sky/htm_sky.h $(LIB) $(INCLUDE)/htm.h
	@mkdir -p target/c
	$(COMPILE) -Ihosts/sky -o $@ hosts/sky/measure.c $(LIB) -lm

# The library, the layer of degrees and nothing else is in it; only the two names by which SQLite loads it are visible.
target/hosts/htm_sqlite.so: hosts/sqlite/htm_sqlite.c hosts/sky/htm_sky.c hosts/sky/htm_sky.h $(LIB) $(INCLUDE)/htm.h
	@mkdir -p target/hosts
	$(COMPILE) -Ihosts/sky -fPIC -fvisibility=hidden -shared -o $@ hosts/sqlite/htm_sqlite.c hosts/sky/htm_sky.c $(LIB) -lm \
	  -Wl,-Bsymbolic -Wl,--exclude-libs,ALL -Wl,-z,defs

target/c/sqlite: hosts/sqlite/test.c $(LIB) $(INCLUDE)/htm.h
	@mkdir -p target/c
	$(COMPILE) -o $@ hosts/sqlite/test.c $(LIB) -lsqlite3 -lm

# From nothing the proofs take minutes; what has not changed since is not proved again.
SOURCES := crates.txt $(shell find crates -name out -prune -o \( -name '*.rt' -o -name '*.antt' \) -print)

target/staticlib/libhtm.a: $(SOURCES)
	tools/prove htm_c

PROGRAMS = cover catalogue query archive

$(PROGRAMS:%=target/bin/%): $(SOURCES)
	tools/prove $(@F)

# The shared objects. Only the calls that a header declares are visible: CALLS prints their names, a line each. A declaration begins a line.
MINOR := $(basename $(VERSION))
MAJOR := $(basename $(MINOR))
CALLS = sed -n 's/^[a-z][a-z0-9_ ]*[ *]\([a-z0-9_]*\)(.*/\1/p'
EXPORTS = { echo '$(1) {'; echo 'global:'; $(CALLS) $< | sed 's/$$/;/'; echo 'local: *;'; echo '};'; } > $@
SHARED = $(CC) -shared -o $@ -Wl,-soname,$(basename $(@F)) -Wl,-Bsymbolic -Wl,-z,defs -Wl,-z,noexecstack
# The names that a loader and a linker look for. They are copies here, since `rt ci` takes no checkout with links in it; make install makes links.
NAMES = cd $(@D) && cp -f $(@F) $(basename $(@F)) && cp -f $(@F) $(basename $(basename $(@F)))

SKY = hosts/sky
SKY_SOURCES := $(wildcard $(SKY)/htm_sky*.c)
SKY_OBJECTS = $(SKY_SOURCES:$(SKY)/%.c=target/lib/%.o)

libraries: target/lib/libhtm.so.$(MINOR) target/lib/libhtm_sky.so.$(MINOR) target/lib/libhtm_sky.a

target/lib/htm.map: $(INCLUDE)/htm.h Makefile
	@mkdir -p $(@D)
	$(call EXPORTS,HTM_$(MAJOR))

target/lib/htm_sky.map: $(SKY)/htm_sky.h Makefile
	@mkdir -p $(@D)
	$(call EXPORTS,HTM_SKY_$(MAJOR))

target/lib/libhtm.so.$(MINOR): $(LIB) target/lib/htm.map
	$(SHARED) -Wl,--version-script,target/lib/htm.map -Wl,--whole-archive $(LIB) -Wl,--no-whole-archive
	$(NAMES)

target/lib/%.o: $(SKY)/%.c $(SKY)/htm_sky.h $(INCLUDE)/htm.h
	@mkdir -p $(@D)
	$(COMPILE) -I$(SKY) -fPIC -c -o $@ $<

target/lib/libhtm_sky.a: $(SKY_OBJECTS)
	rm -f $@
	$(AR) rcs $@ $(SKY_OBJECTS)

# libhtm.so.1 is found beside it, wherever the two are put.
target/lib/libhtm_sky.so.$(MINOR): $(SKY_OBJECTS) target/lib/htm_sky.map target/lib/libhtm.so.$(MINOR)
	$(SHARED) -Wl,--version-script,target/lib/htm_sky.map -Wl,-rpath,'$$ORIGIN' $(SKY_OBJECTS) target/lib/libhtm.so.$(MINOR) -lm
	$(NAMES)

# The manual: pages of the programs from docs/man, pages of the calls from the headers' comments.
PAGES := $(wildcard docs/man/*.1)

target/man/made: tools/man $(PAGES) $(INCLUDE)/htm.h $(SKY)/htm_sky.h Makefile
	rm -rf target/man
	mkdir -p target/man/man1 target/man/man3
	for page in $(PAGES); do sed 's/@VERSION@/$(VERSION)/' "$$page" > "target/man/man1/$${page##*/}"; done
	tools/man $(VERSION) target/man/man3 $(INCLUDE)/htm.h $(SKY)/htm_sky.h
	touch $@

# The programs get a prefix: cover, catalogue, query and archive are anybody's words.
ROOT = $(DESTDIR)$(PREFIX)
LIBRARIES = $(foreach name,libhtm libhtm_sky,$(name).a $(name).so $(name).so.$(MAJOR) $(name).so.$(MINOR))
PC = sed -e 's|@PREFIX@|$(PREFIX)|' -e 's|@VERSION@|$(VERSION)|'

install: libraries $(LIB) $(PROGRAMS:%=$(BIN)/%) target/man/made
	@case '$(PREFIX)' in /*) ;; *) echo "PREFIX=$(PREFIX) does not begin with /" >&2; exit 1 ;; esac
	install -d "$(ROOT)/lib/pkgconfig" "$(ROOT)/include" "$(ROOT)/bin" "$(ROOT)/share/man/man1" "$(ROOT)/share/man/man3" "$(ROOT)/share/htm"
	install -m 644 $(LIB) "$(ROOT)/lib/libhtm.a"
	install -m 644 target/lib/libhtm_sky.a "$(ROOT)/lib"
	for name in libhtm libhtm_sky; do \
	  install -m 755 target/lib/$$name.so.$(MINOR) "$(ROOT)/lib" && ln -sf $$name.so.$(MINOR) "$(ROOT)/lib/$$name.so.$(MAJOR)" && \
	  ln -sf $$name.so.$(MAJOR) "$(ROOT)/lib/$$name.so" || exit 1; done
	install -m 644 $(INCLUDE)/htm.h $(SKY)/htm_sky.h "$(ROOT)/include"
	for name in htm htm_sky; do $(PC) tools/$$name.pc.in > "$(ROOT)/lib/pkgconfig/$$name.pc" && chmod 644 "$(ROOT)/lib/pkgconfig/$$name.pc" || exit 1; done
	for name in $(PROGRAMS); do install -m 755 $(BIN)/$$name "$(ROOT)/bin/htm-$$name" || exit 1; done
	install -m 644 target/man/man1/* "$(ROOT)/share/man/man1"
	install -m 644 target/man/man3/* "$(ROOT)/share/man/man3"
	install -m 644 hosts/python/htmsky.py "$(ROOT)/share/htm"
	@echo "installed below $(ROOT). If its lib is on the system's path, run ldconfig; else set LD_LIBRARY_PATH or HTM_LIBRARY_PATH"

uninstall: target/man/made
	cd "$(ROOT)/lib" && rm -f $(LIBRARIES) pkgconfig/htm.pc pkgconfig/htm_sky.pc
	cd "$(ROOT)/include" && rm -f htm.h htm_sky.h
	cd "$(ROOT)/bin" && rm -f $(PROGRAMS:%=htm-%)
	for section in man1 man3; do for page in target/man/$$section/*; do rm -f "$(ROOT)/share/man/$$section/$${page##*/}"; done; done
	rm -f "$(ROOT)/share/htm/htmsky.py"
	[ ! -d "$(ROOT)/share/htm" ] || rmdir "$(ROOT)/share/htm"

install-test: libraries $(LIB) $(PROGRAMS:%=$(BIN)/%) target/man/made
	tests/install.sh $(LIB) $(BIN)

python: libraries
	tests/python.sh target/lib $(PYTHONS)
