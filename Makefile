# make install [PREFIX=/usr/local] [DESTDIR=]: installs the proved programs raml and explain, their manual pages,
# completions of their words for bash, zsh and fish, and the files of editors. It refuses where the programs are not
# proved on this machine.
# make uninstall [PREFIX=..]: removes them.

PREFIX = /usr/local
DESTDIR =

ROOT = $(DESTDIR)$(PREFIX)
MAN = $(ROOT)/share/man/man1
BASH = $(ROOT)/share/bash-completion/completions
ZSH = $(ROOT)/share/zsh/site-functions
FISH = $(ROOT)/share/fish/vendor_completions.d
EDITORS = $(ROOT)/share/explain

.PHONY: help proved install uninstall

help:
	@sed -n '1,/^$$/s/^# //p' Makefile

# The scripts find the programs that are proved of these sources, and are told to take no other ones.
proved:
	@RAML_UNPROVED=no ./raml types examples/first.raml >/dev/null
	@RAML_UNPROVED=no ./explain check examples/first.raml

install: proved
	install -d "$(ROOT)/bin" "$(MAN)" "$(BASH)" "$(ZSH)" "$(FISH)" "$(EDITORS)"
	install -m 755 crates/raml/out/raml crates/explain/out/explain "$(ROOT)/bin"
	install -m 644 install/raml.1 install/explain.1 "$(MAN)"
	install -m 644 install/raml.bash "$(BASH)/raml"
	ln -sf raml "$(BASH)/explain"
	install -m 644 install/_raml "$(ZSH)"
	install -m 644 install/raml.fish install/explain.fish "$(FISH)"
	install -m 644 editors/neovim.lua "$(EDITORS)"
	cp -R editors/vim editors/vscode "$(EDITORS)"

uninstall:
	rm -f "$(ROOT)/bin/raml" "$(ROOT)/bin/explain" "$(MAN)/raml.1" "$(MAN)/explain.1"
	rm -f "$(BASH)/raml" "$(BASH)/explain" "$(ZSH)/_raml" "$(FISH)/raml.fish" "$(FISH)/explain.fish"
	rm -rf "$(EDITORS)"
