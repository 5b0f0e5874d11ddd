# Installs what .ci/run built: make install [PREFIX=/usr/local] [DESTDIR=] [PROGRAM=PATH] [PYTHON=/usr/bin/python3].
# Makes a Debian package of it: make deb [DEB=out/forkhost.deb] [ROOM=out/deb] [VERSION=..] [PROGRAM=PATH].
PREFIX ?= /usr/local
PROGRAM ?= crates/forkhost/out/forkhost
PYTHON ?= /usr/bin/python3
DEB ?= out/forkhost.deb
ROOM ?= out/deb
# The day of the last commit, and how many there are, below any release.
VERSION ?= 0~$(shell git log -1 --format=%cd --date=format:%Y%m%d).$(shell git rev-list --count HEAD)

BINDIR = $(PREFIX)/bin
LIBDIR = $(PREFIX)/lib/forkhost
MANDIR = $(PREFIX)/share/man
UNITDIR = $(PREFIX)/lib/systemd/system
USERDIR = $(PREFIX)/lib/sysusers.d
COMPLETIONS = $(PREFIX)/share/bash-completion/completions
CLIENTS = forkhost-ask forkhost-door forkhost-http forkhost-metrics forkhost-move forkhost-shell git-remote-forkhost
MODULES = forkhost_client forkhost_front forkhost_shards
HOOKS = forkhost_front/hooks
UNITS = forkhost.service forkhost-metrics.service forkhost-metrics.timer forkhost-sweep.service forkhost-sweep.timer

# The tests that end soon: what Git makes, tables of turns, plain programs of definitions, names, and what is kept of reads.
CHECKS = real_git.sh sessions plain_programs check_ref_format cache

.PHONY: all check install uninstall deb

all:
	@echo "build by .ci/run or rt, and then: make install"

# Proves nothing. It takes two minutes or less; .ci/run runs all tests, and proves every crate.
check:
	@test -x "$(PROGRAM)" || { echo "$(PROGRAM) does not exist; build it, or name another one by PROGRAM=" >&2; exit 1; }
	docs/clauses --check
	docs/pictures --check
	tests/run_all "$(PROGRAM)" $(CHECKS)

install:
	@test -x "$(PROGRAM)" || { echo "$(PROGRAM) is not there; build it, or name another one by PROGRAM=" >&2; exit 1; }
	install -d "$(DESTDIR)$(BINDIR)" "$(DESTDIR)$(LIBDIR)/$(HOOKS)" $(MODULES:%="$(DESTDIR)$(LIBDIR)/%")
	install -m 755 "$(PROGRAM)" "$(DESTDIR)$(BINDIR)/forkhost"
	for module in $(MODULES); do install -m 644 clients/$$module/*.py "$(DESTDIR)$(LIBDIR)/$$module/" || exit 1; done
	install -m 755 $(CLIENTS:%=clients/%) "$(DESTDIR)$(LIBDIR)/"
	install -m 755 clients/$(HOOKS)/* "$(DESTDIR)$(LIBDIR)/$(HOOKS)/"
	sed -i '1s|^#!/usr/bin/python3|#!$(PYTHON)|' $(CLIENTS:%="$(DESTDIR)$(LIBDIR)/%") "$(DESTDIR)$(LIBDIR)/$(HOOKS)/proc-receive"
	for client in $(CLIENTS); do ln -sf ../lib/forkhost/$$client "$(DESTDIR)$(BINDIR)/$$client" || exit 1; done
	$(PYTHON) -m compileall -q -s "$(DESTDIR)" "$(DESTDIR)$(LIBDIR)"
	$(PYTHON) install/manual "$(DESTDIR)$(MANDIR)"
	install -d "$(DESTDIR)$(UNITDIR)" "$(DESTDIR)$(USERDIR)" "$(DESTDIR)$(COMPLETIONS)"
	for unit in $(UNITS); do sed 's|@BINDIR@|$(BINDIR)|' install/$$unit > "$(DESTDIR)$(UNITDIR)/$$unit" || exit 1; done
	install -m 644 install/forkhost.sysusers "$(DESTDIR)$(USERDIR)/forkhost.conf"
	install -m 644 install/completion "$(DESTDIR)$(COMPLETIONS)/forkhost"
	for client in forkhost-ask forkhost-metrics; do ln -sf forkhost "$(DESTDIR)$(COMPLETIONS)/$$client" || exit 1; done

# The C library that it wants is the newest that the program names.
deb:
	rm -rf "$(ROOM)"
	$(MAKE) --no-print-directory install PREFIX=/usr DESTDIR="$(ROOM)"
	install -d "$(ROOM)/DEBIAN" "$(dir $(DEB))"
	libc=$$(objdump -T "$(PROGRAM)" | grep -o 'GLIBC_[0-9.]*' | sort -Vu | tail -1 | cut -d_ -f2) && \
	sed "s|@VERSION@|$(VERSION)|; s|@ARCHITECTURE@|$$(dpkg --print-architecture)|; s|@LIBC@|$$libc|" install/control > "$(ROOM)/DEBIAN/control"
	dpkg-deb --root-owner-group --build "$(ROOM)" "$(DEB)"

uninstall:
	rm -rf "$(DESTDIR)$(LIBDIR)"
	rm -f "$(DESTDIR)$(BINDIR)/forkhost" $(CLIENTS:%="$(DESTDIR)$(BINDIR)/%")
	rm -f $(UNITS:%="$(DESTDIR)$(UNITDIR)/%") "$(DESTDIR)$(USERDIR)/forkhost.conf"
	rm -f "$(DESTDIR)$(COMPLETIONS)/forkhost" "$(DESTDIR)$(COMPLETIONS)/forkhost-ask" "$(DESTDIR)$(COMPLETIONS)/forkhost-metrics"
	rm -f "$(DESTDIR)$(MANDIR)"/man1/forkhost*.1 "$(DESTDIR)$(MANDIR)/man1/git-remote-forkhost.1" "$(DESTDIR)$(MANDIR)"/man7/forkhost*.7
