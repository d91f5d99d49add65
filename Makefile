# The commands of every day. Each is one line that you may as well type.
CAPTURE ?= examples/handshake.pcap
PREFIX ?= /usr/local
HELPERS = table fields ethernet split many explain
BUILT = crates/mos_cli/out/mos_cli
TO = $(DESTDIR)$(PREFIX)
BASH_COMPLETION = $(TO)/share/bash-completion/completions
ZSH_COMPLETION = $(TO)/share/zsh/site-functions

.PHONY: run build check test measure install uninstall

run:            ## the report of a capture: make run CAPTURE=FILE
	@./mos < $(CAPTURE)

build:          ## prove what the program stands on, and build it
	./build

check:          ## prove one crate: make check CRATE=flow_table
	@test -n "$(CRATE)" || { echo "make check CRATE=NAME: one of"; sed -n 's/^\([a-z0-9_]*\):.*/  \1/p' crates.txt; exit 2; }
	cd crates/$(CRATE) && rt check

test:           ## prove all, try the wrong bodies, run every test and the program
	rt ci

measure:        ## measure the built program
	tools/measure/run

install:        ## the built program, its helpers, its page and completions: make install PREFIX=/usr/local DESTDIR=
	@test -x $(BUILT) || { echo "make install: there is no built program: ./build"; exit 1; }
	install -d $(TO)/bin $(TO)/lib/mos/helpers $(TO)/share/man/man1 $(BASH_COMPLETION) $(ZSH_COMPLETION)
	install -m 755 $(BUILT) $(TO)/lib/mos/mos
	install -m 644 helpers/captures.py crates/app_api/src/events.rt $(TO)/lib/mos/helpers
	ln -sf ../lib/mos/mos $(TO)/bin/mos
	for name in $(HELPERS); do \
	  install -m 755 helpers/$$name $(TO)/lib/mos/helpers && ln -sf ../lib/mos/helpers/$$name $(TO)/bin/mos-$$name && \
	  ln -sf mos $(BASH_COMPLETION)/mos-$$name || exit 1; done
	install -m 644 docs/mos.1 $(TO)/share/man/man1
	install -m 644 completion/mos.bash $(BASH_COMPLETION)/mos
	install -m 644 completion/_mos $(ZSH_COMPLETION)

uninstall:      ## takes away what install put there
	rm -rf $(TO)/lib/mos
	rm -f $(TO)/bin/mos $(TO)/share/man/man1/mos.1 $(BASH_COMPLETION)/mos $(ZSH_COMPLETION)/_mos
	for name in $(HELPERS); do rm -f $(TO)/bin/mos-$$name $(BASH_COMPLETION)/mos-$$name; done
