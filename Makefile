# make                    proves and builds the program, from nothing in two hours of one processor
# make gate               proves everything, tries the wrong bodies and runs all tests, as .ci/run
# make examples           compares what the program writes with what README.md and examples/README.md show
# make install            puts the program, its manual and its completion under PREFIX, /usr/local if not given, behind DESTDIR
# make uninstall          takes them away
# make dist               packs what install puts, for machines without the Rattle kit: dist/netlist-VERSION-SYSTEM.tar.gz
PREFIX ?= /usr/local
program := crates/netlist/out/netlist
version := $(shell sed -n 's/^\#\# \([0-9][0-9.]*\).*/\1/p' CHANGELOG.md | head -n 1)
name := netlist-$(version)-linux-x86_64
share := man/man1/netlist.1 bash-completion/completions/netlist zsh/site-functions/_netlist

.PHONY: all gate examples install uninstall dist
all:
	./netlist --build

gate:
	bash .ci/run

examples: all
	examples/check

install: all
	install -D -m 755 $(program) $(DESTDIR)$(PREFIX)/bin/netlist
	for file in $(share); do install -D -m 644 share/$$file $(DESTDIR)$(PREFIX)/share/$$file || exit 1; done

uninstall:
	rm -f $(DESTDIR)$(PREFIX)/bin/netlist $(addprefix $(DESTDIR)$(PREFIX)/share/,$(share))

dist:
	rm -rf dist/$(name)
	$(MAKE) install DESTDIR=dist/$(name) PREFIX=
	tar -C dist -czf dist/$(name).tar.gz $(name)
	cd dist && sha256sum $(name).tar.gz > $(name).tar.gz.sha256
