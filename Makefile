# Installs the built program (docs/INSTALL.md says how to build it), its manual page and the clients: make install [PREFIX=..] [DESTDIR=..]
PREFIX ?= /usr/local
TO = $(DESTDIR)$(PREFIX)
TOOLS = mmkeep-lsp mmkeep-explain mmkeep-watch mmkeep-convert mmkeep-graph

install:
	install -D -m 755 crates/mmkeep/out/mmkeep $(TO)/bin/mmkeep
	install -D -m 644 docs/mmkeep.1 $(TO)/share/man/man1/mmkeep.1
	install -D -m 644 -t $(TO)/share/mmkeep/mmkeep clients/python/mmkeep/*.py clients/python/mmkeep/py.typed
	install -D -m 755 -t $(TO)/share/mmkeep/bin $(TOOLS:%=clients/python/bin/%)
	for tool in $(TOOLS); do ln -sf ../share/mmkeep/bin/$$tool $(TO)/bin/$$tool; done
	cp -R clients/editor clients/ci $(TO)/share/mmkeep/
	install -D -m 644 -t $(TO)/share/doc/mmkeep README.md CHANGELOG.md LICENSE docs/FAULTS.md docs/SCRIPTS.md docs/LANGUAGE.md

.PHONY: install
