# Installs the proved program, its man page, its unit for systemd and its completion for bash.
#     make install PREFIX=/usr DESTDIR=package
PREFIX ?= /usr/local
DESTDIR ?=
INSTALL ?= install

program := crates/usbgate_cli/out/usbgate_cli
bin := $(PREFIX)/bin/usbgate
man := $(PREFIX)/share/man/man1/usbgate.1
unit := $(PREFIX)/lib/systemd/system/usbgate@.service
completion := $(PREFIX)/share/bash-completion/completions/usbgate

.PHONY: prove check install uninstall

prove:
	./usbgate prove

check:
	.ci/run
	examples/check
	install/check

install: prove
	$(INSTALL) -D -m 755 $(program) $(DESTDIR)$(bin)
	install/pages man | $(INSTALL) -D -m 644 /dev/stdin $(DESTDIR)$(man)
	sed 's|@PREFIX@|$(PREFIX)|' install/usbgate@.service | $(INSTALL) -D -m 644 /dev/stdin $(DESTDIR)$(unit)
	install/pages completion | $(INSTALL) -D -m 644 /dev/stdin $(DESTDIR)$(completion)

uninstall:
	rm -f $(DESTDIR)$(bin) $(DESTDIR)$(man) $(DESTDIR)$(unit) $(DESTDIR)$(completion)
