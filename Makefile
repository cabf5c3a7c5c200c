# make run      builds funding-bench and plays document 01's example
# make test     the whole gate, as .ci/run
# make install  puts both programs with their manual pages, the header, the library and its pkg-config file under PREFIX
# make uninstall
# make compare DAY=examples/quiet.day.txt     terminal build and server build side by side
# make fuzz N=100000 SEED=1                   that many generated files against the reference
# make speed    the run for C and a close against a Rust version of it, and a trade by value against a copy of the book and against a
#               trade of a set
# make stack    how much of an ordinary stack the library's calls and each program take

PREFIX ?= /usr/local
# What is put before PREFIX where the files are gathered for a package.
DESTDIR ?=
DAY ?= examples/document-01.day.txt
N ?= 20000
SEED ?= 1

.PHONY: run test program daytext library install uninstall compare fuzz speed stack

run: program daytext
	target-rust/release/daytext encode examples/document-01.day.txt | target/bin/funding_bench

test:
	.ci/run

program:
	tests/build-program funding_bench

daytext:
	cargo build --quiet --release --package daytext

library:
	tests/build-library

installed = $(DESTDIR)$(PREFIX)

install: program daytext library
	install -D -m 755 target/bin/funding_bench "$(installed)/bin/funding-bench"
	install -D -m 755 target-rust/release/daytext "$(installed)/bin/daytext"
	install -D -m 644 docs/man/funding-bench.1 "$(installed)/share/man/man1/funding-bench.1"
	install -D -m 644 docs/man/daytext.1 "$(installed)/share/man/man1/daytext.1"
	install -D -m 644 include/funding.h "$(installed)/include/funding.h"
	install -D -m 644 target/staticlib/libfunding.a "$(installed)/lib/libfunding.a"
	install -d "$(installed)/lib/pkgconfig"
	sed 's|@PREFIX@|$(PREFIX)|' include/funding.pc.in >"$(installed)/lib/pkgconfig/funding.pc"

uninstall:
	cd "$(installed)" && rm -f bin/funding-bench bin/daytext share/man/man1/funding-bench.1 share/man/man1/daytext.1 \
		include/funding.h lib/libfunding.a lib/pkgconfig/funding.pc

compare:
	tools/compare $(DAY)

fuzz: program
	tests/build-program set_bench
	tests/run-hosts
	target-rust/release/differential --program target/bin/funding_bench --program 'target-rust/hosts/library_runner printout' \
		--library-runner target-rust/hosts/library_runner --count $(N) --seed $(SEED)
	target-rust/release/differential --sets target/bin/set_bench --count $(N) --seed $(SEED)

speed:
	benchmarks/run

stack:
	benchmarks/stack
