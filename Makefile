# Installs what was built, with its man pages and completion, or packs it. PREFIX and DESTDIR are as everywhere.
PREFIX = /usr/local
DESTDIR =
PROGRAM = crates/shrink_app/out/shrink_app
PACKAGES = crates/packages_app/out/packages_app
VERSION := $(shell cat VERSION)

BIN = $(DESTDIR)$(PREFIX)/bin
PARTS = $(DESTDIR)$(PREFIX)/libexec/mikadocherry
MAN = $(DESTDIR)$(PREFIX)/share/man/man1
COMPLETION = $(DESTDIR)$(PREFIX)/share/bash-completion/completions

# What `make dist` packs, beside the sums and the kit's line. The archive has the time of the last commit, so that it is the same
# each time.
NAME = mikadocherry-$(VERSION)
STAGE = out/$(NAME)
ARCHIVE = out/$(NAME).tar.gz
TIME = $(shell git log -1 --format=%ct 2>/dev/null || stat -c %Y VERSION)

help:
	@echo "make install [PREFIX=$(PREFIX)] [DESTDIR=]      installs mikadocherry and mikadocherry-tree in PREFIX/bin, the two proved"
	@echo "                                                  programs in PREFIX/libexec/mikadocherry, and man pages and completion"
	@echo "                                                  in PREFIX/share"
	@echo "make uninstall [PREFIX=$(PREFIX)] [DESTDIR=]    removes them"
	@echo "make dist                                         packs them as $(ARCHIVE), with their sums and"
	@echo "                                                  the line of the kit that has built them"

install: built
	install -d "$(BIN)" "$(PARTS)" "$(MAN)" "$(COMPLETION)"
	install -m 755 "$(PROGRAM)" "$(PARTS)/mikadocherry"
	install -m 755 "$(PACKAGES)" "$(PARTS)/mikadocherry-packages"
	install -m 644 VERSION launcher/explain.sh launcher/elf_headers.py "$(PARTS)"
	install -m 755 mikadocherry mikadocherry-tree "$(BIN)"
	install -m 644 man/mikadocherry.1 man/mikadocherry-tree.1 "$(MAN)"
	install -m 644 completion/mikadocherry completion/mikadocherry-tree "$(COMPLETION)"

uninstall:
	rm -f "$(BIN)/mikadocherry" "$(BIN)/mikadocherry-tree" "$(MAN)/mikadocherry.1" "$(MAN)/mikadocherry-tree.1"
	rm -f "$(COMPLETION)/mikadocherry" "$(COMPLETION)/mikadocherry-tree"
	rm -rf "$(PARTS)"

dist: built
	@command -v rt >/dev/null || { echo "rt isn't on the PATH, which says by which kit the program was built." >&2; exit 1; }
	rm -rf $(STAGE)
	@$(MAKE) --no-print-directory install PREFIX= DESTDIR=$(STAGE)
	rt version >$(STAGE)/KIT
	cd $(STAGE) && find . -type f ! -name SHA256SUMS -printf '%P\n' | LC_ALL=C sort | xargs sha256sum >SHA256SUMS
	tar -C out --sort=name --owner=0 --group=0 --numeric-owner --mtime=@$(TIME) -cf - $(NAME) | gzip -n9 >$(ARCHIVE)
	cd out && sha256sum $(NAME).tar.gz >$(NAME).tar.gz.sha256

built:
	@test -x "$(PROGRAM)" && test -x "$(PACKAGES)" || { echo "The programs aren't built: run ./mikadocherry first, which proves and builds them." >&2; exit 1; }

.PHONY: help install uninstall dist built
