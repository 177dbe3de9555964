# A front for the scripts, which say more with --help: no rule of it does anything else.
.PHONY: help quick test check generate view install uninstall package release reference python go ruby rust node bench

help:
	@echo 'make quick                  what can be known in three minutes, without a proof (sh scripts/test.sh --quick)'
	@echo 'make test                   the gate: every proof, test and check, more than an hour (sh scripts/test.sh)'
	@echo 'make check [NAME=dump]      lists the checks, or runs those that are named, or all (sh scripts/check.sh)'
	@echo 'make generate [NAME=..]     makes the files that are not written by hand (python3 tools/generate.py)'
	@echo 'make view STREAM=.. [OTHER=..] [OUT=..]   a page that shows a journal, or two (sh scripts/run.sh journal view)'
	@echo 'make install PREFIX=..      puts the programs and the library for C below a folder (sh scripts/install.sh)'
	@echo 'make uninstall PREFIX=..    removes them'
	@echo 'make package                makes a Debian package of them in this folder (sh scripts/package.sh)'
	@echo 'make release OUT=..         makes the files of a release in that folder (sh scripts/release.sh)'
	@echo 'make reference OUT=..       makes the reference pages of all languages in that folder (sh scripts/reference.sh)'
	@echo 'make python                 builds the package for Python, with the library in it (sh scripts/python.sh)'
	@echo 'make go                     builds and vets the package for Go over the library that pkg-config finds'
	@echo 'make ruby [PREFIX=..]       builds the gem for Ruby, with the library that is installed there'
	@echo 'make rust                   builds the crate for Rust over the library that is installed (rust/README.md)'
	@echo 'make node [PREFIX=..]       builds the addon for Node over the library in that folder (sh node/build.sh)'
	@echo 'make bench [NAME=speed]     lists what is measured, or measures it (sh scripts/bench.sh)'

quick:
	sh scripts/test.sh --quick $(NAME)

test:
	sh scripts/test.sh

check:
	sh scripts/check.sh $(NAME)

generate:
	python3 tools/generate.py $(NAME)

view:
	sh scripts/run.sh journal view $(if $(STREAM),'$(STREAM)') $(if $(OTHER),'$(OTHER)') $(if $(OUT),-o '$(OUT)')

install:
	DESTDIR='$(DESTDIR)' sh scripts/install.sh '$(PREFIX)'

uninstall:
	DESTDIR='$(DESTDIR)' sh scripts/install.sh --uninstall '$(PREFIX)'

package:
	sh scripts/package.sh

release:
	sh scripts/release.sh $(if $(OUT),'$(OUT)')

reference:
	sh scripts/reference.sh $(if $(OUT),'$(OUT)')

python:
	sh scripts/python.sh

go:
	cd go && go build ./... && go vet ./...

ruby:
	[ -z '$(PREFIX)' ] || cp -L '$(PREFIX)/lib/libpendratsoa.so' ruby/lib/pendratsoa/
	sh scripts/ruby.sh
	cd ruby && gem build pendratsoa.gemspec

rust:
	cd rust && cargo build --release --offline

node:
	sh node/build.sh $(if $(PREFIX),'$(PREFIX)')

bench:
	sh scripts/bench.sh $(NAME)
