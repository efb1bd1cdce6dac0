# Builds, checks, installs and packs. `build` and `check` need the toolchain, the others what is built.
#
#   make build                    proves and builds every program
#   make check                    runs all checks
#   make install PREFIX=/usr/local DESTDIR=
#   make uninstall PREFIX=/usr/local DESTDIR=
#   make dist                     the files of `install` in out/ucdshop-VERSION.tar.gz, the same bytes each time

SHELL = /bin/sh
PREFIX = /usr/local
DESTDIR =
# where each crate lies, with its program in CRATE/out/CRATE
CRATES = crates
# where `dist` puts its file, and the time of all files in it
DIST = out
SOURCE_DATE_EPOCH ?= 1735689600

VERSION := $(shell cat VERSION)
# each program, as its crate, a colon and its name: the launcher has a line for it, which begins with the crate and how it is used
PROGRAMS := $(shell sed -nE "s/^ +'([a-z_]+) usage: ([a-z_-]+) .*/\1:\2/p" ucdshop)
PAGES := $(wildcard *.1)
# those that work on releases and runs; contracts works on the sources, which are not installed
TOOLS := $(sort $(filter-out contracts,$(patsubst tools/%,%,$(shell find tools -maxdepth 1 -type f -perm -u+x))))
# the scripts that work on real releases, not those that try this repository
COMPARISONS = ages compare conform sets step
READ_FIRST = README.md CHANGELOG.md CONTRIBUTING.md VERSION

root = $(DESTDIR)$(PREFIX)
bin = $(root)/bin
man = $(root)/share/man/man1
completions = $(root)/share/bash-completion/completions
functions = $(root)/share/zsh/site-functions
documents = $(root)/share/doc/ucdshop
shared = $(root)/share/ucdshop

.PHONY: build check install uninstall dist

build:
	./ucdshop --build

check:
	.ci/run

# The tools find the documents and the program where the repository has them: below the folder above their own.
install:
	@for program in $(PROGRAMS); do \
	    crate=$${program%:*}; built="$(CRATES)/$$crate/out/$$crate"; \
	    [ -x "$$built" ] || { echo "$$built is not there: run make build first" >&2; exit 1; }; \
	done
	install -d -m 755 "$(bin)" "$(man)" "$(completions)" "$(functions)" "$(documents)/docs" "$(shared)/tools" "$(shared)/conformance"
	@set -e; for program in $(PROGRAMS); do \
	    crate=$${program%:*}; name=$${program#*:}; \
	    install -m 755 "$(CRATES)/$$crate/out/$$crate" "$(bin)/$$name"; \
	    install -d -m 755 "$(shared)/crates/$$crate/out"; \
	    ln -sf "../../../../../bin/$$name" "$(shared)/crates/$$crate/out/$$crate"; \
	    ln -sf "../../bin/$$name" "$(shared)/$$name"; \
	done
	install -m 644 $(PAGES) "$(man)"
	install -m 644 completion/ucdshop.bash "$(completions)/ucdshop"
	install -m 644 completion/_ucdshop "$(functions)"
	@set -e; for program in $(PROGRAMS); do \
	    name=$${program#*:}; [ "$$name" = ucdshop ] || ln -sf ucdshop "$(completions)/$$name"; \
	done
	install -m 644 $(READ_FIRST) "$(documents)"
	install -m 644 docs/*.md "$(documents)/docs"
	@set -e; find examples -type d | while read -r folder; do install -d -m 755 "$(documents)/$$folder"; done; \
	find examples -type f | while read -r file; do install -m 644 "$$file" "$(documents)/$$file"; done
	ln -sfn ../doc/ucdshop/docs "$(shared)/docs"
	@set -e; for tool in $(TOOLS); do \
	    install -m 755 "tools/$$tool" "$(shared)/tools/$$tool"; \
	    ln -sf "../share/ucdshop/tools/$$tool" "$(bin)/ucdshop-$$tool"; \
	done
	@set -e; for script in $(COMPARISONS); do install -m 755 "conformance/$$script" "$(shared)/conformance/$$script"; done

# Folders that others use too stay, even if they are empty.
uninstall:
	@set -e; for program in $(PROGRAMS); do rm -f "$(bin)/$${program#*:}" "$(completions)/$${program#*:}"; done
	@set -e; for tool in $(TOOLS); do rm -f "$(bin)/ucdshop-$$tool"; done
	@set -e; for page in $(PAGES); do rm -f "$(man)/$$page"; done
	rm -f "$(functions)/_ucdshop"
	rm -rf "$(documents)" "$(shared)"

dist:
	@set -e; work=$$(mktemp -d); trap 'rm -rf "$$work"' EXIT; name=ucdshop-$(VERSION); \
	$(MAKE) --no-print-directory install DESTDIR="$$work" PREFIX="/$$name" CRATES="$(CRATES)" >/dev/null; \
	mkdir -p "$(DIST)"; \
	LC_ALL=C tar -C "$$work" --format=ustar --sort=name --mtime=@$(SOURCE_DATE_EPOCH) --owner=0 --group=0 --numeric-owner \
	    --mode=u=rwX,go=rX -cf "$$work/$$name.tar" "$$name"; \
	gzip -9n "$$work/$$name.tar"; \
	mv "$$work/$$name.tar.gz" "$(DIST)/$$name.tar.gz"; \
	echo "$(DIST)/$$name.tar.gz"
