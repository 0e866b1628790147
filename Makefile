# What a user and CI call. `make try` runs the program without a proof, `make build` proves and builds it, `make check` is the gate.
# Logs go to out/, which is never committed.

PREFIX  ?= /usr/local
DESTDIR ?=
ZSH     ?= site-functions
RT      ?= $(shell command -v rt || echo /opt/rattle/bin/rt)
BOOT    ?= /var/cache/noticed-boot
JOBS    ?= 3

export NOTICED ?= $(CURDIR)/crates/noticed/out/noticed
export PROBE   ?= $(CURDIR)/crates/probe/out/probe
export RT
export PYTHONDONTWRITEBYTECODE := 1

BUILT   := crates/noticed/out/noticed
VERSION := $(shell sed -n 's/.* VERSION: &str = "\(.*\)";/\1/p' crates/noticed/src/command_line.rt)
PROBES  := crates/probe/out/probe
LIBRARY := crates/noticed_dsn/out/libnoticed_dsn.a
LIBS    ?= out/lib
SOURCES := $(shell find crates -name out -prune -o -type f -print)
EXAMPLE := vectors/one-bounce

# The scripts of tests/. Those of QUIET run after the others, one at a time: they look at memory or time, end processes at random
# moments, wait for seconds to pass, or listen at a port that they found to be free. Those of BOOTS want a Debian to boot.
BOOTS   := boot boot_package boot_postfix
QUIET   := clients hand_in serve_hand_in resubmit mailers stop idle status postfix_beside postfix_faults postfix_notices \
           noticed_postfix journal_full journal_kills journal_stops fuzz_batch fuzz_serve forgetting memory start_memory \
           postfix_large
LOUD    := $(filter-out __init__ $(BOOTS) $(QUIET),$(patsubst tests/%.py,%,$(wildcard tests/*.py)))

SHELL := /bin/bash
.SHELLFLAGS := -euo pipefail -c
.ONESHELL:
.DELETE_ON_ERROR:
.PHONY: all build demo try check scripts test contracts mutants boot bench planted lib install deb dist clean

all: build

build: $(BUILT)

$(BUILT): $(SOURCES) crates.txt HANDLES
	@$(RT) all check --jobs $(JOBS)
	cd crates/noticed
	$(RT) run -- batch build.example < /dev/null > /dev/null

$(PROBES): $(SOURCES) crates.txt HANDLES | $(BUILT)
	@cd crates/probe
	$(RT) run -- call site < /dev/null

# A run of `batch`, with its standard output and standard error each under a heading of its own; then a daemon with two clients.
demo: $(BUILT)
	@mkdir -p out
	status=0
	$(BUILT) batch mx.example.net < $(EXAMPLE).frames > out/demo.outbox 2> out/demo.notes || status=$$?
	echo
	echo "== Requests: $(EXAMPLE).frames, one append and one flush =="
	od -A d -t x1 $(EXAMPLE).frames
	echo
	echo "== Answers: standard error of 'noticed batch mx.example.net' =="
	cat out/demo.notes
	echo
	echo "== Outbox: standard output, an SMTP client's side with the notice in it =="
	cat out/demo.outbox
	echo
	echo "== Exit status: $$status =="
	echo
	sh examples/demo.sh $(BUILT)
	exit $$status

# The same runs without a proof, by `rt try`: nothing is proved, and no program is kept.
try:
	@python3 -m tests.support.trial

# The gate: `rt ci`, then each script of tests/ on the programs that it built. The last line counts what both tried.
check:
	@mkdir -p out
	$(RT) ci 2>&1 | tee out/ci.log
	$(MAKE) --no-print-directory scripts BEFORE="$$(sed -n '$$s/ passed.*//p' out/ci.log)"

# The scripts alone, on the programs that NOTICED and PROBE name. BEFORE is how many things passed before them.
scripts: BEFORE := 0
scripts:
	@rm -rf out/scripts
	mkdir -p out/scripts
	$(MAKE) --no-print-directory -k -O -j$(JOBS) $(LOUD:%=script-%) || true
	$(MAKE) --no-print-directory -k -j1 $(QUIET:%=script-%) || true
	echo "== Skipped, since a program or a right is lacking:"
	for it in out/scripts/*.log; do tail -n1 "$$it" | sed -n "s|.*skipped: |$$(basename "$$it" .log): |p"; done
	passed=$$(find out/scripts -name '*.log' | wc -l)
	failed=$$(($(words $(LOUD) $(QUIET)) - passed))
	echo "$$((passed + $(BEFORE))) passed, $$failed failed"
	[ "$$failed" = 0 ]

# (a script that calls make is no part of this one)
script-%:
	@if MAKEFLAGS= python3 -m tests.$* > out/scripts/$*.failed 2>&1; then
	    mv out/scripts/$*.failed out/scripts/$*.log
	    cat out/scripts/$*.log
	else
	    cat out/scripts/$*.failed
	    exit 1
	fi

# Prints to out/contracts.md the public functions, the definitions to believe, and which test meets which refusal.
contracts:
	@python3 -m tests.contracts

# Tries the wrong edits of mutants/ that the gate doesn't: those of the crates in CRATE, or those named in EDITS as CRATE/NAME.
mutants:
	@python3 -m tests.support.mutants $(CRATE) $(EDITS)

# Boots a systemd of its own with the installed units, as root, and then some with Debian's Postfix, which comes from a mirror, and
# with the package; not part of `make check`. Debian's base systems, which the first run makes, stay in BOOT.
boot: $(BUILT)
	@python3 -m tests.boot "$(BOOT)"
	python3 -m tests.boot_postfix "$(BOOT)"
	python3 -m tests.boot_package "$(BOOT)"

# Measures the program on workloads made from a seed, crews in memory, and the daemon over sockets; not part of `make check`.
bench: $(BUILT) $(PROBES)
	@for it in crew daemon journal bench; do python3 -m bench.$$it; done

# Shows that the fuzzers of tests/ find small wrong edits of the plain reading; takes a minute or two.
planted: $(BUILT)
	@python3 -m tests.support.planted

# The writer of notices as a library for programs in C and other languages, into LIBS. The kit's calls of malloc go into it.
lib: $(LIBRARY)
	@mkdir -p "$(LIBS)"
	cp $(LIBRARY) "$(LIBS)"
	kit=$$(dirname "$$(dirname "$$(realpath "$$(command -v $(RT))")")")
	cd "$(LIBS)"
	ar x "$$kit/c/liblibc_c.a" heap.pic.o
	ar rs libnoticed_dsn.a heap.pic.o
	rm heap.pic.o
	$(CC) -shared -o libnoticed_dsn.so -Wl,--whole-archive libnoticed_dsn.a -Wl,--no-whole-archive

$(LIBRARY): $(SOURCES) crates.txt HANDLES
	@cd crates/noticed_dsn
	$(RT) lib

# What names the program names it below /usr, as the package has it, until it is installed below another PREFIX. A configuration
# file that is there stays. The library is installed if `make lib` has built it.
install: $(BUILT)
	@umask 022
	to() { install -D -m "$$1" "$$2" "$(DESTDIR)$$3"; }
	naming() {
	    to 644 "$$1" "$$2"
	    sed -i "s#/usr/\(s\?bin\|share\|share/doc\)/noticed#$(PREFIX)/\1/noticed#g" "$(DESTDIR)$$2"
	}
	to 755 $(BUILT) "$(PREFIX)/bin/noticed"
	to 755 dist/noticed-postfix "$(PREFIX)/sbin/noticed-postfix"
	for it in docs/noticed*.[58]; do naming "$$it" "$(PREFIX)/share/man/man$${it##*.}/$${it##*/}"; done
	for it in dist/noticed*.{service,socket,timer}; do naming "$$it" "$(PREFIX)/lib/systemd/system/$${it##*/}"; done
	for it in sysusers tmpfiles; do to 644 "dist/noticed.$$it" "$(PREFIX)/lib/$$it.d/noticed.conf"; done
	[ -e "$(DESTDIR)/etc/noticed/noticed.conf" ] || to 644 dist/noticed.conf /etc/noticed/noticed.conf
	naming dist/noticed.apparmor /etc/apparmor.d/noticed
	to 644 dist/noticed.bash "$(PREFIX)/share/bash-completion/completions/noticed"
	to 644 dist/noticed.zsh "$(PREFIX)/share/zsh/$(ZSH)/_noticed"
	for it in clients/*/*; do to 644 "$$it" "$(PREFIX)/share/noticed/$$it"; done
	if [ -e out/lib/libnoticed_dsn.a ]; then
	    for it in out/lib/libnoticed_dsn.{a,so}; do to 644 "$$it" "$(PREFIX)/lib/$${it##*/}"; done
	    to 644 lib/noticed_dsn.h "$(PREFIX)/include/noticed_dsn.h"
	    for it in lib/notice.*; do to 644 "$$it" "$(PREFIX)/share/noticed/$$it"; done
	fi
	for it in docs/{postfix,bounce-features,operating,troubleshooting,first-client}.md; do
	    naming "$$it" "$(PREFIX)/share/doc/noticed/$${it##*/}"
	done
	for it in LICENSE CHANGELOG.md dist/noticed.conf vectors/one-bounce.frames crates/dsn_report/specs/PlainWords.antt; do
	    to 644 "$$it" "$(PREFIX)/share/doc/noticed/$${it##*/}"
	done
	printf '%s\n' "noticed $(VERSION)" "built with $$($(RT) version || echo an unknown kit)" | \
	    to 644 /dev/stdin "$(PREFIX)/share/doc/noticed/BUILD"
	echo "installed $(DESTDIR)$(PREFIX)/bin/noticed, its manual pages, units, clients and $(DESTDIR)$(PREFIX)/share/doc/noticed"

# A package for Debian and an archive for other systems, of the program that is built. The same commit and program give the same bytes.
deb dist: export SOURCE_DATE_EPOCH ?= $(shell git log -1 --format=%ct)

deb: $(BUILT)
	@rm -rf out/deb
	mkdir -p out/deb
	cp -r dist/debian out/deb
	cd out/deb
	DEB_RULES_REQUIRES_ROOT=no debian/rules binary TOP="$(CURDIR)" BUILT="$(abspath $(BUILT))"
	cd ..
	sha256sum noticed[-_]$(VERSION)[._]* > SHA256SUMS

# (unpacked below /usr/local, with --strip-components=1, it is what `make install` puts there)
dist: $(BUILT)
	@rm -rf out/dist
	$(MAKE) --silent install --old-file=$(BUILT) BUILT=$(BUILT) PREFIX=/usr/local DESTDIR="$(CURDIR)/out/dist"
	cd out
	mv dist/usr/local dist/noticed-$(VERSION)
	tar --create --sort=name --mtime=@$$SOURCE_DATE_EPOCH --owner=0 --group=0 --numeric-owner --directory=dist noticed-$(VERSION) |
	    gzip -9 --no-name > noticed-$(VERSION).tar.gz
	sha256sum noticed[-_]$(VERSION)[._]* > SHA256SUMS

# Removes what was built and what the prover kept: the next build proves everything again.
clean:
	@rm -rf out crates/*/out
