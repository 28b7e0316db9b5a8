# Installs fail2ban-server, fail2ban-client and fail2ban-regex with their configuration, units, manuals and completion: docs/install.md tells how.
#
#     make                   proves and builds the programs (./build)
#     make install           installs them. It builds nothing, and leaves a configuration that is there as it is
#     make install-conf      lays the files that ship over a configuration that is there: those of other names stay, as all that end in .local
#     make uninstall         takes away what install made, but for the configuration and what the server keeps
#     make deb               a package for Debian and its kin, out/fail2ban-gearcrimson_VERSION_MACHINE.deb, by dpkg-deb
#
# With CHECKED=yes the programs are those of tests/program.sh: the proved ones where they stand, and else the same sources, built with checks while they run
# and without proofs. PREFIX is where they go, and DESTDIR a folder to be taken for /. Nothing is fetched.
PREFIX = /usr/local
DESTDIR =
CHECKED =

BINDIR = $(PREFIX)/bin
# What the units run beside the programs.
LIBDIR = $(PREFIX)/lib/fail2ban
UNITDIR = $(PREFIX)/lib/systemd/system
MANDIR = $(PREFIX)/share/man
DATADIR = $(PREFIX)/share/fail2ban
BASHDIR = $(PREFIX)/share/bash-completion/completions
ZSHDIR = $(PREFIX)/share/zsh/site-functions
CONFDIR = /etc/fail2ban
# Where the service may write: the server keeps its state there, and the configuration has links to two files there. The units, their scripts and
# conf/fail2ban.conf name it too, so it is no place to choose.
STATEDIR = /var/lib/fail2ban
ROTATEDIR = /etc/logrotate.d

# Folders that are taken away where nothing is left in them. All of another depth are there on each machine.
FOLDERS = $(foreach path,$(LIBDIR) $(UNITDIR) $(dir $(UNITDIR)) $(BASHDIR) $(dir $(BASHDIR)) $(ZSHDIR) $(dir $(ZSHDIR)) \
	$(foreach part,1 5 7,$(MANDIR)/man$(part)),'$(DESTDIR)$(patsubst %/,%,$(path))')

PROGRAMS = server client regex
UNITS = fail2ban.service fail2ban-zone.service fail2ban-zone.timer fail2ban-journal.service
SCRIPTS = boot-id zone stop
MANUALS = fail2ban-server.1 fail2ban-client.1 fail2ban-regex.1 jail.conf.5 fail2ban-differences.7

# Where the program stands whose name the shell has.
ifeq ($(CHECKED),)
program = path=crates/fail2ban_$$name/out/fail2ban_$$name
else
program = path=$$(tests/program.sh fail2ban_$$name) || exit 1
endif

# Paths in scripts and units, which stand in the repository as they are below /usr.
paths = sed -e 's|/usr/bin/fail2ban-|$(BINDIR)/fail2ban-|g' -e 's|/usr/lib/fail2ban/|$(LIBDIR)/|g' -e 's|/etc/fail2ban|$(CONFDIR)|g'
# Has systemd read its units again, where they are this machine's.
reread = [ -n '$(DESTDIR)' ] || [ ! -d /run/systemd/system ] || systemctl daemon-reload
# Lays conf/ into the configuration, where the shell's word `over` is yes over what is there. Other files stay, and links to what the service writes before each
# start are made where nothing of their names is there.
lay = to='$(DESTDIR)$(CONFDIR)'; \
	(cd conf && find . -type d) | while read -r name; do [ -d "$$to/$$name" ] || install -d "$$to/$$name" || exit 1; done && \
	(cd conf && find . -type f) | while read -r name; do \
		[ $$over = no ] && [ -e "$$to/$$name" ] || install -m 644 "conf/$$name" "$$to/$$name" || exit 1; \
	done && \
	for name in zone.local action.d/boot.local; do \
		[ -e "$$to/$$name" ] || [ -L "$$to/$$name" ] || ln -s '$(STATEDIR)'/$${name\#\#*/} "$$to/$$name" || exit 1; \
	done

.PHONY: all programs install install-conf uninstall deb

all:
ifeq ($(CHECKED),)
	./build
else
	for name in $(PROGRAMS); do $(program); echo "$$path"; done
endif

# Refuses to go on where a program is not there, or is older than what it is built of.
programs:
	@for name in $(PROGRAMS); do \
		$(program); \
		if [ ! -x "$$path" ]; then \
			echo "make: $$path is not there. 'make' builds it with all proofs, which takes hours the first time. With" >&2; \
			echo "make: CHECKED=yes, here as there, programs are built in some minutes, with checks while they run and without proofs" >&2; \
			exit 1; \
		fi; \
		if [ -n "$$(find crates.txt crates/*/src -newer "$$path" -name '*.*t' -print -quit)" ]; then \
			echo "make: $$path is older than its sources: run 'make' first" >&2; \
			exit 1; \
		fi; \
	done

install: programs
	@install -d '$(DESTDIR)$(BINDIR)' '$(DESTDIR)$(LIBDIR)' '$(DESTDIR)$(UNITDIR)' '$(DESTDIR)$(BASHDIR)' '$(DESTDIR)$(ZSHDIR)' \
		$(foreach part,1 5 7,'$(DESTDIR)$(MANDIR)/man$(part)') '$(DESTDIR)$(ROTATEDIR)' '$(DESTDIR)$(DATADIR)'
	@for name in $(PROGRAMS); do $(program); install -m 755 "$$path" '$(DESTDIR)$(BINDIR)'/fail2ban-$$name || exit 1; done
	@for name in $(SCRIPTS); do $(paths) service/$$name >'$(DESTDIR)$(LIBDIR)'/$$name && chmod 755 '$(DESTDIR)$(LIBDIR)'/$$name || exit 1; done
	@for name in $(UNITS); do $(paths) service/$$name >'$(DESTDIR)$(UNITDIR)'/$$name && chmod 644 '$(DESTDIR)$(UNITDIR)'/$$name || exit 1; done
	@for name in $(MANUALS); do install -m 644 man/$$name '$(DESTDIR)$(MANDIR)'/man$${name##*.}/$$name || exit 1; done
	@for name in $(PROGRAMS); do install -m 644 completion/fail2ban.bash '$(DESTDIR)$(BASHDIR)'/fail2ban-$$name || exit 1; done
	@install -m 644 completion/fail2ban.zsh '$(DESTDIR)$(ZSHDIR)/_fail2ban'
	@rm -rf '$(DESTDIR)$(DATADIR)/conf'
	@cp -R conf '$(DESTDIR)$(DATADIR)/conf' && chmod -R u=rwX,go=rX '$(DESTDIR)$(DATADIR)/conf'
	@if [ -e '$(DESTDIR)$(CONFDIR)/jail.conf' ]; then \
		echo "make: the configuration in $(CONFDIR) is left as it is. What ships stands in $(DATADIR)/conf: 'make install-conf' lays it over"; \
	else \
		over=no; $(lay); \
	fi
	@[ -e '$(DESTDIR)$(ROTATEDIR)/fail2ban' ] || install -m 644 service/fail2ban.logrotate '$(DESTDIR)$(ROTATEDIR)/fail2ban'
	@$(reread)
	@echo "make: installed below $(DESTDIR)$(PREFIX). 'systemctl enable --now fail2ban' starts the server, and 'man jail.conf' tells how to configure it"

install-conf:
	@over=yes; $(lay)
	@echo "make: the files that ship are in $(CONFDIR), and all others are as they were"

uninstall:
	@rm -f $(foreach name,$(PROGRAMS),'$(DESTDIR)$(BINDIR)/fail2ban-$(name)' '$(DESTDIR)$(BASHDIR)/fail2ban-$(name)')
	@rm -f $(foreach name,$(SCRIPTS),'$(DESTDIR)$(LIBDIR)/$(name)') $(foreach name,$(UNITS),'$(DESTDIR)$(UNITDIR)/$(name)')
	@rm -f $(foreach name,$(MANUALS),'$(DESTDIR)$(MANDIR)/man$(patsubst .%,%,$(suffix $(name)))/$(name)') '$(DESTDIR)$(ZSHDIR)/_fail2ban'
	@rm -rf '$(DESTDIR)$(DATADIR)'
	@for path in $(FOLDERS); do rmdir "$$path" 2>/dev/null || :; done
	@! cmp -s service/fail2ban.logrotate '$(DESTDIR)$(ROTATEDIR)/fail2ban' || rm -f '$(DESTDIR)$(ROTATEDIR)/fail2ban'
	@$(reread)
	@echo "make: $(CONFDIR) and $(STATEDIR) are left: take them away by hand where nobody needs them"

deb:
	@service/deb CHECKED='$(CHECKED)'
