# What there is to do here: make help. rt, make, python3 (which rt needs too) and a POSIX shell are needed, and for an installation of a
# program that is built make and the shell alone.

PROGRAM = crates/nscd/out/nscd
LOADS = crates/nsc_loads/out/nsc_loads
TABLE_TRIALS = crates/nsc_table_trials/out/nsc_table_trials
READER_TRIALS = crates/nsc_reader_trials/out/nsc_reader_trials
IMAGE_TRIALS = crates/nsc_image_trials/out/nsc_image_trials
READERS = crates/nsc_fuzz/out/libnsc_fuzz.a
EXAMPLE = crates/nscd/stdin
WORDS = $(shell cat crates/nscd/args)
LOAD = $(shell cat crates/nsc_loads/args)

# All that the program is made from. A change in any of these asks for a new proof.
SOURCES := crates.txt HANDLES \
    $(shell find crates -name out -prune -o -type f \( -name '*.rt' -o -name '*.antt' \) -print)

# Where make install puts things, under which root, and the program that it takes.
PREFIX ?= /usr/local
SYSCONFDIR ?= /etc
DESTDIR ?=
NSCD ?= build/nscd

.PHONY: run help test build bench hostile fuzz install uninstall deb clean

# The first target, so plain `make` shows the program at work on the shipped example. The proved program runs where it is
# there and no source is newer; else rt makes one from the sources as they stand, in less than a minute and a half.
run: build/frames
	@if [ -x build/nscd ] && [ -z "$$(find $(SOURCES) -newer build/nscd)" ]; then \
	    build/nscd --replay < build/frames > build/replies; \
	elif ! command -v rt > /dev/null; then \
	    echo 'make run: there is no rt, the Rattle toolchain, and no build/nscd that is as new as the sources; one of them is needed' \
	        '(touch build/nscd if it was built elsewhere from these sources)' >&2; exit 1; \
	else \
	    echo 'This runs the sources before any proof, and takes about a minute; make test proves them.'; \
	    (cd crates/nscd && rt try -- --replay) < build/frames > build/replies 2> build/try.log || { cat build/try.log; exit 1; }; \
	fi
	@tools/show-replies build/frames build/replies
	@if [ -x build/nscd ] && [ -z "$$(find $(SOURCES) -newer build/nscd)" ]; then \
	    echo 'and as a daemon:'; tools/show-daemon build/nscd build/frames; \
	else \
	    echo 'make build, and then make run, shows the daemon too.'; \
	fi

build/frames: tools/make-frames examples/machine.txt $(wildcard examples/machine/*)
	@mkdir -p build
	@tools/make-frames examples/machine.txt > $@.new || { rm -f $@.new; exit 1; }
	@mv $@.new $@

help:
	@echo 'make run          shows a small machine, its questions and replies; needs rt, or a program that is built'
	@echo 'make build        proves and builds the program, build/nscd; needs rt'
	@echo 'make test         proves everything, and runs every test; needs rt; README.md says how long it takes'
	@echo 'make bench        measures; needs rt'
	@echo 'make fuzz         reads bytes that libFuzzer makes, beside second readings, for some twenty minutes; needs rt and clang++'
	@echo 'make hostile      gives the program hostile input for some minutes; needs python3, and cc for refused allocations'
	@echo 'make deb          makes a Debian package of the program, in build; MAINTAINER and HOMEPAGE name whose it is'
	@echo 'make install      installs the program; PREFIX, SYSCONFDIR and DESTDIR say where, and START=no starts nothing'
	@echo 'make uninstall    takes away what make install has put'
	@echo 'make clean        removes what was built and proved'
	@echo 'docs/INSTALL.md says more, and docs/CONTRIBUTING.md how to change nscd.'

# The whole gate: every proof, every edit that must be refused, every test and program.
test:
	@.ci/run

build: build/nscd build/nscd-loads build/nscd-table-trials build/nscd-reader-trials build/nscd-image-trials

# A copy under another name first: a run that is cut off leaves no half of a program behind.
build/nscd: $(PROGRAM)
	@mkdir -p build
	cp $(PROGRAM) build/nscd.new
	mv build/nscd.new build/nscd

build/nscd-loads: $(LOADS)
	@mkdir -p build
	cp $(LOADS) build/nscd-loads.new
	mv build/nscd-loads.new build/nscd-loads

build/nscd-table-trials: $(TABLE_TRIALS)
	@mkdir -p build
	cp $(TABLE_TRIALS) build/nscd-table-trials.new
	mv build/nscd-table-trials.new build/nscd-table-trials

build/nscd-reader-trials: $(READER_TRIALS)
	@mkdir -p build
	cp $(READER_TRIALS) build/nscd-reader-trials.new
	mv build/nscd-reader-trials.new build/nscd-reader-trials

build/nscd-image-trials: $(IMAGE_TRIALS)
	@mkdir -p build
	cp $(IMAGE_TRIALS) build/nscd-image-trials.new
	mv build/nscd-image-trials.new build/nscd-image-trials

# rt links the program once all is proved. The touch comes since rt leaves a program alone that a change of the sources
# did not alter, as one in a comment, and make would then prove again each time.
$(PROGRAM): $(SOURCES)
	cd crates/nscd && rt run -- $(WORDS) < stdin > /dev/null
	@touch $(PROGRAM)

# Calls of the database for many threads, for their time.
$(LOADS): $(SOURCES)
	cd crates/nsc_loads && rt run -- $(LOAD) < stdin > /dev/null
	@touch $(LOADS)

# Calls of a writer by chance, with the words of its table.
$(TABLE_TRIALS): $(SOURCES)
	cd crates/nsc_table_trials && rt run < /dev/null > /dev/null
	@touch $(TABLE_TRIALS)

# Searches that take no lock, beside a writer.
$(READER_TRIALS): $(SOURCES)
	cd crates/nsc_reader_trials && rt run < /dev/null > /dev/null
	@touch $(READER_TRIALS)

# Images that are checked and brought back.
$(IMAGE_TRIALS): $(SOURCES)
	cd crates/nsc_image_trials && rt run < stdin > /dev/null
	@touch $(IMAGE_TRIALS)

# The readers of bytes from outside, beside second readings of the same bytes.
fuzz: build/libnsc_fuzz.a
	@tests/fuzz

build/libnsc_fuzz.a: $(READERS)
	@mkdir -p build
	cp $(READERS) build/libnsc_fuzz.new
	mv build/libnsc_fuzz.new build/libnsc_fuzz.a

$(READERS): $(SOURCES)
	cd crates/nsc_fuzz && rt lib
	@touch $(READERS)

# The proved program and all that belongs to it, as docs/INSTALL.md says. Nothing is built or proved here.
install:
	@PREFIX='$(PREFIX)' SYSCONFDIR='$(SYSCONFDIR)' DESTDIR='$(DESTDIR)' NSCD='$(NSCD)' START='$(START)' dist/install in

uninstall:
	@PREFIX='$(PREFIX)' SYSCONFDIR='$(SYSCONFDIR)' DESTDIR='$(DESTDIR)' dist/install out

# A Debian package, in build.
deb:
	@NSCD='$(NSCD)' MAINTAINER='$(MAINTAINER)' HOMEPAGE='$(HOMEPAGE)' dist/make-deb build

# Refused allocations, and requests, replies, files and settings of any bytes, over the program that NSCD names.
hostile:
	@NSCD='$(NSCD)' tests/hostile

bench: build
	bench/machine
	bench/replay
	bench/store
	bench/daemon
	bench/gate
	bench/index
	bench/image

# What is proved already lies in the out folders too, so a build after this one proves from the start.
clean:
	rm -rf build crates/*/out
