# make: proves every crate. make programs: builds the programs, into target/bin. make lib: the library for C and Python, into
# target/lib. make examples: the programs of examples/, over it. make install PREFIX=...: programs, library, header and Python
# package below PREFIX. make dist: all of that packed, into target/dist, for a machine without the kit. make test: the whole gate,
# with the tests outside the proofs. make bench: times of the library and of the program quotes, beside plain C and Arb.
.PHONY: all kit lib programs cases examples install dist test bench clean

LIB := target/lib
EXAMPLES := target/examples
SOURCES := crates.txt $(shell find crates -name out -prune -o \( -name '*.rt' -o -name '*.antt' \) -print)

PROGRAMS := quotes ends compare couples targets verdict
CASES := exp_cases day_cases
VERSION := $(shell sed -n 's/^__version__ = "\(.*\)"$$/\1/p' python/kulfizan/__init__.py)
SONAME := libkulfizan.so.$(firstword $(subst ., ,$(VERSION)))
PREFIX := /usr/local
ROOM := $(DESTDIR)$(PREFIX)
PACKED := kulfizan-$(VERSION)

all: kit
	rt all check

kit:
	@tools/kit

lib: $(LIB)/libkulfizan.a $(LIB)/libkulfizan.so

# Proved again only where a source is newer.
$(LIB)/libkulfizan.a: $(SOURCES) | kit
	@mkdir -p $(LIB)
	cd crates/kulfizan_c && rt lib >../../$(LIB)/log 2>&1 || { cat ../../$(LIB)/log; exit 1; }
	cp crates/kulfizan_c/out/libkulfizan_c.a $@

$(LIB)/libkulfizan.so: $(LIB)/libkulfizan.a
	gcc -shared -Wl,-soname,$(SONAME) -o $@ -Wl,--whole-archive $< -Wl,--no-whole-archive

# Built again only where a source is newer; `rt run` builds a program and runs it, here on nothing.
programs: $(PROGRAMS:%=target/bin/%)

target/bin/%: $(SOURCES) | kit
	@mkdir -p target/bin
	cd crates/$* && rt run </dev/null >../../target/bin/$*.log 2>&1 || { cat ../../target/bin/$*.log; exit 1; }
	cp crates/$*/out/$* $@
	rm target/bin/$*.log

# The programs that print what only tests compare.
cases: $(CASES:%=target/bin/%)

examples: $(patsubst examples/%.c,$(EXAMPLES)/%,$(wildcard examples/*.c))

$(EXAMPLES)/%: examples/%.c include/kulfizan.h $(LIB)/libkulfizan.a
	@mkdir -p $(EXAMPLES)
	gcc -std=c11 -O2 -Wall -Wextra -Iinclude -o $@ $< $(LIB)/libkulfizan.a

# The library under its version, with the names that linking and loading ask for; the package finds it two folders up.
install: lib programs
	install -d $(ROOM)/bin $(ROOM)/include $(ROOM)/lib/pkgconfig $(ROOM)/lib/kulfizan/kulfizan
	install -m 755 $(PROGRAMS:%=target/bin/%) tools/kulfizan $(ROOM)/bin
	install -m 644 include/kulfizan.h $(ROOM)/include
	install -m 644 $(LIB)/libkulfizan.a $(ROOM)/lib
	install -m 755 $(LIB)/libkulfizan.so $(ROOM)/lib/libkulfizan.so.$(VERSION)
	ln -sf libkulfizan.so.$(VERSION) $(ROOM)/lib/$(SONAME)
	ln -sf $(SONAME) $(ROOM)/lib/libkulfizan.so
	sed 's/@VERSION@/$(VERSION)/' tools/kulfizan.pc.in >$(ROOM)/lib/pkgconfig/kulfizan.pc
	install -m 644 python/kulfizan/*.py python/kulfizan/py.typed $(ROOM)/lib/kulfizan/kulfizan
	ln -sf ../../$(SONAME) $(ROOM)/lib/kulfizan/kulfizan/libkulfizan.so

# What is installed, with the example files and these pages, as one archive.
dist: lib programs
	rm -rf target/dist
	$(MAKE) --no-print-directory install DESTDIR= PREFIX=$(CURDIR)/target/dist/$(PACKED)
	cp -r examples docs README.md target/dist/$(PACKED)
	cp -r python target/dist/$(PACKED)/python
	cp $(LIB)/libkulfizan.so target/dist/$(PACKED)/python/kulfizan
	find target/dist -name __pycache__ -prune -exec rm -rf {} +
	tar -C target/dist -czf target/dist/$(PACKED)-linux-x86_64.tar.gz $(PACKED)

test: kit
	tests/run

bench: kit
	$(MAKE) --no-print-directory -C bench

clean:
	rm -rf target crates/*/out
