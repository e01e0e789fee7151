# Installs, releases and checks market. `make` alone lists what it can do. GNU make.
PREFIX ?= /usr/local
DESTDIR ?=
prefix = $(PREFIX)
exec_prefix = $(prefix)
bindir = $(exec_prefix)/bin
libexecdir = $(exec_prefix)/libexec
datarootdir = $(prefix)/share
datadir = $(datarootdir)
docdir = $(datarootdir)/doc/market
mandir = $(datarootdir)/man
unitdir = $(datadir)/market/units
bashcompletiondir = $(datadir)/bash-completion/completions
zshcompletiondir = $(datadir)/zsh/site-functions
fishcompletiondir = $(datadir)/fish/vendor_completions.d
places = DESTDIR bindir libexecdir datadir mandir docdir unitdir bashcompletiondir zshcompletiondir fishcompletiondir
# They go to the scripts by the environment, each as it is.
export $(places)

VERSION := $(shell cat VERSION)
tarball = build/market-$(VERSION).tar.gz
package = build/market_$(VERSION)_amd64.deb

.PHONY: help prove quick check site prebuilt install uninstall installcheck dist deb clean
help: ## lists the targets, and the variables that say where to
	@awk -F ':.*## ' '/^[a-z]+:.*## / { printf "make %-13s %s\n", $$1, $$2 }' Makefile
	@echo
	@echo "PREFIX is $(PREFIX). DESTDIR is put before all places: make install DESTDIR=/tmp/stage PREFIX=/usr"
	@echo "Also: bindir libexecdir datadir docdir mandir unitdir, and bash-, zsh- and fishcompletiondir."

prove: ## proves and builds the programs: market in 13 to 25 minutes on four processors, then live
	./market prove
	./market prove live

quick: ## runs the checks of pages, Python, the script and texts, in at most 8 minutes; needs no proof and no kit
	checks/run quick

check: ## runs the gate: every proof, must-fail edit, test and check
	.ci/run

site: ## builds the site of the pages, with a search, into build/site/html; needs mkdocs
	python3 -m checks.lint.site build/site

prebuilt: ## puts the programs that were proved here into prebuilt/, with their stamps
	@bash packaging/prebuilt.sh

sbom: ## writes the bill of materials, sbom.cdx.json
	@python3 packaging/sbom.py

install: ## installs the proved programs, their pages, completions, examples and units
	@bash packaging/install.sh install

uninstall: ## removes what install made
	@bash packaging/install.sh uninstall

installcheck: ## runs the installed program on the village and as a node, and compares what it writes
	@bash packaging/installcheck.sh

dist: ## packs the committed sources into build/
	@bash packaging/dist.sh $(tarball)

deb: ## builds a Debian package of the proved programs in build/
	@bash packaging/deb.sh $(package)

clean: ## removes what site, dist and deb made
	rm -rf build/site
	rm -f build/market-*.tar.gz build/market_*.deb
	[ ! -d build ] || rmdir build
