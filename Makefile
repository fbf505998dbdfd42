# `make help` lists the targets. `make run` shows the programs in minutes, unproved; `make` proves and builds them;
# `make install` installs what `make` built, and proves nothing.

VERSION = 0.1.0
NAME = lithiumfinch

PREFIX ?= /usr/local
SYSCONFDIR ?= /etc
DESTDIR ?=
SBINDIR ?= $(PREFIX)/sbin
BINDIR ?= $(PREFIX)/bin
MANDIR ?= $(PREFIX)/share/man
DOCDIR ?= $(PREFIX)/share/doc/$(NAME)
UNITDIR ?= $(PREFIX)/lib/systemd/system
SYSUSERSDIR ?= $(PREFIX)/lib/sysusers.d

# The prefix of programs and pages. Below /usr the names are those of Debian's package sudo, so there a prefix keeps
# them apart, unless FRONT is empty on purpose: `make install PREFIX=/usr FRONT=`.
FRONT ?= $(if $(filter /usr,$(abspath $(PREFIX))),$(NAME)-)

CRATE = crates/sudo_logsrvd
PROGRAM = $(CRATE)/out/sudo_logsrvd
REPLAY_CRATE = crates/sudoreplay
REPLAY = $(REPLAY_CRATE)/out/sudoreplay
SENDLOG = crates/sudo_sendlog/out/sudo_sendlog
LOGCHECK = crates/sudo_logcheck/out/sudo_logcheck
MEASURES = crates/lsvt_bench

# Programs that were built without a proof, for a first look: `make run` alone uses them.
QUICK = out/quick
SOURCES = crates.txt $(shell find crates -name out -prune -o -name '*.rt' -print)

# How often the drill kills, and what: `serve`, or `once` with a process for each connection.
N ?= 50
AS ?= serve

# Scripts of contrib/ that use oracle/: each is installed as one file that stands alone, with its page.
SCRIPTS = sudo-cast sudo-grep sudo-layout sudo-logseal sudo-metrics sudo-prune

INSTALLED = \
	$(SBINDIR)/$(FRONT)sudo_logsrvd \
	$(BINDIR)/$(FRONT)sudoreplay \
	$(BINDIR)/$(FRONT)sudo_sendlog \
	$(BINDIR)/$(FRONT)sudo_logcheck \
	$(addprefix $(BINDIR)/$(FRONT),$(SCRIPTS)) \
	$(UNITDIR)/$(FRONT)sudo_logsrvd.service \
	$(UNITDIR)/$(FRONT)sudo_logsrvd-relay.service \
	$(UNITDIR)/$(FRONT)sudo_logsrvd-relay.timer \
	$(SYSUSERSDIR)/$(NAME).conf \
	$(addprefix $(MANDIR)/man1/$(FRONT),$(addsuffix .1,$(SCRIPTS))) \
	$(MANDIR)/man8/$(FRONT)sudo_logsrvd.8 \
	$(MANDIR)/man8/$(FRONT)sudoreplay.8 \
	$(MANDIR)/man8/$(FRONT)sudo_sendlog.8 \
	$(MANDIR)/man8/$(FRONT)sudo_logcheck.8 \
	$(MANDIR)/man5/$(FRONT)sudo_logsrvd.conf.5

PAGES = README.md CHANGELOG.md LICENSE bench/RESULTS.md \
	$(addprefix docs/,ARCHITECTURE.md COMING_FROM_SUDO.md CONTRIBUTING.md DECISIONS.md FORMATS.md OPERATIONS.md PROOFS.md SETTINGS.md SPEC.md TRUST.md)

.PHONY: all help prove build run run-proved test check wrong-bodies rows measures bench interop drill power install uninstall installed pages dist clean

all: prove

help: ## list these targets
	@sed -n 's/^\([a-z][a-z -]*\):.*## /\1\t/p' $(firstword $(MAKEFILE_LIST)) | expand -t 15

prove build: ## prove and build the programs (an hour or more at first)
	@bash tools/prove sudo_logsrvd once -f data/conf
	@bash tools/prove sudoreplay -d data/store -l
	@bash tools/prove sudo_sendlog
	@bash tools/prove sudo_logcheck

$(QUICK)/sudo_logsrvd: $(SOURCES) tools/quick-build
	@bash tools/quick-build $(QUICK) sudo_logsrvd sudoreplay

run: ## show a session with programs that aren't proved (minutes)
	@echo "This build is not proved: 'make prove' proves the programs, and builds those that 'make install' installs."
	@$(MAKE) -s $(QUICK)/sudo_logsrvd
	bash examples/run $(QUICK)/sudo_logsrvd $(QUICK)/sudoreplay
	@echo
	@echo "These programs, in $(QUICK), are not proved. 'make prove' proves and builds the ones to install."

run-proved: build ## show the same session with the proved programs
	bash examples/run $(PROGRAM) $(REPLAY)

test: ## the merge gate's proofs, wrong bodies, tests and programs: rt ci
	rt ci

check: ## the whole merge gate, exactly as it runs: .ci/run
	bash .ci/run

# Words after `wrong-bodies` are names of crates, and no targets.
ifeq (wrong-bodies,$(firstword $(MAKECMDGOALS)))
CRATES = $(wordlist 2,$(words $(MAKECMDGOALS)),$(MAKECMDGOALS))
.PHONY: $(CRATES)
$(CRATES): ; @:
endif

wrong-bodies: ## try the wrong bodies that the gate leaves out; with names of crates, theirs alone
	bash tools/wrong-bodies $(CRATES)

measures:
	cd $(MEASURES) && rt run -- decode >/dev/null

rows: ## write the cases of the programs of rows again, after a change of a rows.py
	bash tools/rows --write

bench: build measures ## measure, also beside sudo's own server if it is installed
	python3 bench/bench.py $(PROGRAM) $(MEASURES)/out/lsvt_bench
	python3 bench/replay.py $(REPLAY)
	python3 bench/check.py $(LOGCHECK)
	python3 bench/serve.py $(PROGRAM)
	python3 bench/sendlog.py $(PROGRAM) $(SENDLOG)
	python3 bench/relay.py $(PROGRAM)

interop: build ## try the programs with sudo's own clients; with ONLY=WORD, the parts of that name
	ONLY=$(ONLY) bash interop/run once serve $(if $(ONLY),installed)

drill: build ## kill the server N times under load, and read the store after each
	python3 interop/drill.py --server $(PROGRAM) --as $(AS) --kills $(N)

power: build measures ## the same on file systems whose power is cut, as root
	CUTS=$(N) bash interop/run power

# The settings are put in place if there are none, and are never overwritten.
install: ## install what `make` proved and built; it proves nothing
	@for program in $(PROGRAM) $(REPLAY) $(SENDLOG) $(LOGCHECK); do \
	  [ -x $$program ] || { echo "make install: $$program is missing: run make first, as another user than root. Programs of 'make run' are not proved, and are not installed." >&2; exit 1; }; \
	done
	install -D -m 755 $(PROGRAM) $(DESTDIR)$(SBINDIR)/$(FRONT)sudo_logsrvd
	install -D -m 755 $(REPLAY) $(DESTDIR)$(BINDIR)/$(FRONT)sudoreplay
	install -D -m 755 $(SENDLOG) $(DESTDIR)$(BINDIR)/$(FRONT)sudo_sendlog
	install -D -m 755 $(LOGCHECK) $(DESTDIR)$(BINDIR)/$(FRONT)sudo_logcheck
	for script in $(SCRIPTS); do \
	  PYTHONDONTWRITEBYTECODE=1 python3 -m oracle.alone contrib/$$script >$(DESTDIR)$(BINDIR)/$(FRONT)$$script && \
	  chmod 755 $(DESTDIR)$(BINDIR)/$(FRONT)$$script && \
	  install -D -m 644 man/$$script.1 $(DESTDIR)$(MANDIR)/man1/$(FRONT)$$script.1 || exit 1; \
	done
	install -D -m 644 man/sudo_logsrvd.8 $(DESTDIR)$(MANDIR)/man8/$(FRONT)sudo_logsrvd.8
	install -D -m 644 man/sudoreplay.8 $(DESTDIR)$(MANDIR)/man8/$(FRONT)sudoreplay.8
	install -D -m 644 man/sudo_sendlog.8 $(DESTDIR)$(MANDIR)/man8/$(FRONT)sudo_sendlog.8
	install -D -m 644 man/sudo_logcheck.8 $(DESTDIR)$(MANDIR)/man8/$(FRONT)sudo_logcheck.8
	install -D -m 644 man/sudo_logsrvd.conf.5 $(DESTDIR)$(MANDIR)/man5/$(FRONT)sudo_logsrvd.conf.5
	install -d $(DESTDIR)$(DOCDIR)/examples
	install -m 644 $(PAGES) $(DESTDIR)$(DOCDIR)
	install -m 644 crates/README.md $(DESTDIR)$(DOCDIR)/CRATES.md
	sed -i -e 's#](docs/#](#g' -e 's#](\.\./docs/#](#g' -e 's#](\(\.\./\)\?bench/#](#g' -e 's#](\(\.\./\)\?crates/README#](CRATES#g' -e 's#](\.\./README#](README#g' \
	  $(addprefix $(DESTDIR)$(DOCDIR)/,$(notdir $(filter %.md,$(PAGES))) CRATES.md)
	install -m 644 etc/sudo_logsrvd.conf etc/tmpfiles etc/proxy.socket etc/check.timer etc/prune.timer etc/seal.timer $(DESTDIR)$(DOCDIR)/examples
	for sample in check prune seal; do \
	  sed -e 's#/usr/local/bin/#$(BINDIR)/$(FRONT)#' -e 's#man:#man:$(FRONT)#' etc/$$sample.service >$(DESTDIR)$(DOCDIR)/examples/$$sample.service && \
	  chmod 644 $(DESTDIR)$(DOCDIR)/examples/$$sample.service || exit 1; \
	done
	for sample in logrotate proxy.service; do \
	  sed -e 's#\(systemctl .*\|=\)\bsudo_logsrvd\b#\1$(FRONT)sudo_logsrvd#' etc/$$sample >$(DESTDIR)$(DOCDIR)/examples/$$sample && \
	  chmod 644 $(DESTDIR)$(DOCDIR)/examples/$$sample || exit 1; \
	done
	install -d $(DESTDIR)$(UNITDIR)
	for unit in sudo_logsrvd.service sudo_logsrvd-relay.service sudo_logsrvd-relay.timer; do \
	  sed -e 's#/usr/local/sbin/sudo_logsrvd#$(SBINDIR)/$(FRONT)sudo_logsrvd#' -e 's#/etc/sudo_logsrvd.conf#$(SYSCONFDIR)/sudo_logsrvd.conf#' \
	  -e 's#\bsudo_logsrvd\(-relay\)\?\.\(service\|timer\)#$(FRONT)&#g' -e 's#man:#man:$(FRONT)#g' etc/$$unit >$(DESTDIR)$(UNITDIR)/$(FRONT)$$unit && \
	  chmod 644 $(DESTDIR)$(UNITDIR)/$(FRONT)$$unit || exit 1; \
	done
	install -D -m 644 etc/sysusers $(DESTDIR)$(SYSUSERSDIR)/$(NAME).conf
	@if [ -e $(DESTDIR)$(SYSCONFDIR)/sudo_logsrvd.conf ]; then \
	  echo "make install: $(DESTDIR)$(SYSCONFDIR)/sudo_logsrvd.conf is there, and stays as it is"; \
	  echo "make install: for the unit, its iolog_dir and path must lie below /var/lib/sudo-logsrvd"; \
	else \
	  install -D -m 644 etc/sudo_logsrvd.conf $(DESTDIR)$(SYSCONFDIR)/sudo_logsrvd.conf; \
	fi

uninstall: ## remove what `make install` put in place, but the settings; no store is touched
	rm -f $(addprefix $(DESTDIR),$(INSTALLED))
	rm -rf $(DESTDIR)$(DOCDIR)

installed: ## try an installed tree, in a folder of its own
	bash interop/installed $(PROGRAM) $(REPLAY) $(SENDLOG) $(LOGCHECK)

pages: ## check the manual pages against what the programs take and say
	python3 interop/pages.py $(PROGRAM) $(REPLAY) $(SENDLOG) $(LOGCHECK)

# Of what is committed; in an unpacked tarball, of what is there without what was built.
dist: ## make a tarball in out/
	mkdir -p out
	if [ -e .git ]; then \
	  git archive --prefix=$(NAME)-$(VERSION)/ -o out/$(NAME)-$(VERSION).tar.gz HEAD; \
	else \
	  tar --exclude=./out --exclude='./crates/*/out' --transform='s#^\.#$(NAME)-$(VERSION)#' -czf out/$(NAME)-$(VERSION).tar.gz .; \
	fi

clean: ## remove all that was built
	rm -rf crates/*/out out
