# usage: make [TARGET] [NAME=VALUE..]          (`make help` lists the targets)

SHELL := bash
.SHELLFLAGS := -euo pipefail -c
.ONESHELL:
.SUFFIXES:
.PHONY: build run test docs install uninstall package help
.DEFAULT_GOAL := build

# How many crates are proved at once. Each takes up to 4 GB of memory.
JOBS ?= $$(nproc)
# Below which folder the program, its manual and its completions go, and what stands before it while a package is made.
PREFIX ?= /usr/local
DESTDIR ?=
# Where the archive of `make package` goes.
FOLDER ?= .
# Names may have spaces, so the shell sees them as they are: where they are used, and no test does.
install uninstall: export PREFIX := $(PREFIX)
install uninstall: export DESTDIR := $(DESTDIR)
package: export FOLDER := $(FOLDER)

PROGRAM := crates/edgematch/out/edgematch
# What is installed beside the program: the file here, and where it goes below PREFIX.
PAGES := docs/edgematch.1:share/man/man1/edgematch.1 \
  docs/FORMATS.md:share/doc/edgematch/FORMATS.md \
  docs/BY_HAND.md:share/doc/edgematch/BY_HAND.md \
  completions/edgematch.bash:share/bash-completion/completions/edgematch \
  completions/_edgematch:share/zsh/site-functions/_edgematch \
  completions/edgematch.fish:share/fish/vendor_completions.d/edgematch.fish

needs_rt = command -v rt >/dev/null || \
  { echo "make $@: rt isn't on the path: put the folder bin of the Rattle kit there, as README.md says" >&2; exit 1; }
needs_python = python3 -c 'import tomllib' 2>/dev/null || \
  { echo "make $@: python3 isn't on the path, or is older than 3.11" >&2; exit 1; }
needs_program = [ -x $(PROGRAM) ] || { echo "make $@: there is no $(PROGRAM): run make first" >&2; exit 1; }

build: ## proves and builds the program, crates/edgematch/out/edgematch; JOBS=N proves N crates at once
	@$(needs_rt)
	rt all check --jobs $(JOBS)
	cd crates/edgematch
	rt run -- --version

run: ## checks a stored puzzle, list and certificate, and prints `complete 1`; proves nothing
	@$(needs_rt)
	cat examples/square_of_four/{puzzle,list,certificate} | (cd crates/edgematch && rt try)

test: ## runs all proofs and tests; the last line counts them
	@$(needs_rt)
	$(needs_python)
	.ci/run

docs: ## makes the manual page and the completions from what the program says by --help
	@$(needs_program)
	$(needs_python)
	python3 scripts/make_docs.py $(PROGRAM)

# Puts the program and its pages below the folder that the shell's $root names.
define put
	install -D -m 755 -- $(PROGRAM) "$$root/bin/edgematch"
	for page in $(PAGES); do
	  install -D -m 644 -- "$${page%%:*}" "$$root/$${page#*:}"
	done
endef

install: ## installs the program, its manual and its completions below PREFIX (/usr/local); DESTDIR works
	@$(needs_program)
	root=$$DESTDIR$$PREFIX
	$(put)
	echo "installed: $$root/bin/edgematch, with its manual and completions below $$root/share"

uninstall: ## takes away what install put below PREFIX, and no more
	@root=$$DESTDIR$$PREFIX
	rm -f -- "$$root/bin/edgematch"
	for page in $(PAGES); do
	  rm -f -- "$$root/$${page#*:}"
	done
	[ ! -d "$$root/share/doc/edgematch" ] || rmdir --ignore-fail-on-non-empty -- "$$root/share/doc/edgematch"

# Equal programs and pages give equal archives. Its README is the page for readers, with the program's SHA-256, and
# with the commit of the sources where these are as they were committed.
package: ## makes an archive in FOLDER (.) for readers who only check, and prints its SHA-256
	@$(needs_program)
	$(needs_python)
	[ -d "$$FOLDER" ] || { echo "make $@: there is no folder $$FOLDER" >&2; exit 1; }
	name=edgematch-$$($(PROGRAM) --version | cut -d ' ' -f 2)-linux-x86_64
	made=$$(mktemp -d)
	trap 'rm -rf "$$made"' EXIT
	root=$$made/$$name
	$(put)
	mkdir -p "$$root/docs/pages" "$$root/web"
	# The page for readers stands above the others, and so do its links.
	sed -E -e 's/\]\(([A-Z_]+\.md)/](docs\/\1/g' -e 's/\]\(\.\.\//](/g' docs/CHECKING.md >"$$root/README.md"
	sources="its sources"
	if commit=$$(git rev-parse HEAD 2>/dev/null) && [ -z "$$(git status --porcelain 2>/dev/null)" ]; then
	  sources="the sources at commit $$commit"
	fi
	{
	  printf '\n## This archive\n\n'
	  echo 'The folder `examples/gallery` has a list and a certificate beside most puzzles of the gallery, as'
	  echo '`nine_cards.list` and `nine_cards.certificate`. Those of the larger ones are made in seconds, by'
	  echo '`bin/edgematch solve` with the options that [GALLERY](docs/GALLERY.md) has.'
	  printf '\nThe archive was made beside %s. They have further pages and scripts: those that\n' "$$sources"
	  echo 'the pages here name without a link. To be sure that the program came of them, build it anew there, as their'
	  echo 'README says, with the kit that `bin/edgematch --version` names. The SHA-256 of this one is'
	  printf '`%s`.\n' "$$(sha256sum <$(PROGRAM) | cut -d ' ' -f 1)"
	} >>"$$root/README.md"
	# The other pages for readers. What they lead to beside stands with the sources, and is a name alone here.
	for page in docs/{FORMATS,BY_HAND,SOLVING,MAKING,LARGE,GALLERY,THEOREM,PROVED,MEASURED,pages/README} web/README; do
	  sed -E -e 's/\[([^]]+)\]\((ARCHITECTURE\.md[^)]*|\.\.\/(CONTRIBUTING\.md|(crates|cases)\/[^)]*))\)/\1/g' \
	    -e 's/\]\(CHECKING\.md/](..\/README.md/g' -e 's/\]\(\.\.\/CHECKING\.md/](..\/..\/README.md/g' "$$page.md" \
	    >"$$root/$$page.md"
	done
	# The second checker, for readers whose system doesn't run the program.
	cp web/{check.html,check.js,cli.js} "$$root/web"
	cp -R docs/pictures "$$root/docs"
	cp docs/pages/*.{html,zip,png} "$$root/docs/pages"
	cp CHANGELOG.md "$$root"
	cp -R examples "$$root"
	python3 scripts/gallery.py $(PROGRAM) --texts "$$root/examples/gallery" >/dev/null
	archive=$$(realpath -- "$$FOLDER")/$$name.tar.gz
	tar --create --directory="$$made" --sort=name --mtime=@0 --owner=0 --group=0 --numeric-owner \
	  --mode=go-w,u+rwX,go+rX "$$name" | gzip --no-name --best >"$$archive"
	cd "$$(dirname "$$archive")"
	sha256sum "$$name.tar.gz"

help: ## lists the targets
	@sed -n 's/^\([a-z]*\):[^#]*## /make \1\t/p' Makefile | expand -t 18
