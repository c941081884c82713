# Proves and builds the programs, installs them with tools, manual pages and completions, or packs them.
#   make                            proves and builds the six programs with the Rattle kit
#   make check                      the whole gate with the kit, and without it the tests, on the programs in dist/
#   make install PREFIX=FOLDER      /usr/local where nothing is said; DESTDIR is put in front, for packages
#   make uninstall PREFIX=FOLDER
#   make dist                       a tarball and a Debian package in DIST, which is dist where nothing is said
PREFIX = /usr/local
PROGRAM = crates/fail_star/out/fail_star
EXPORT = crates/fail_export/out/fail_export
REPLAY = crates/fail_replay/out/fail_replay
DEBUG = crates/fail_debug/out/fail_debug
WINDOW = crates/fail_window/out/fail_window
ANSWERS = crates/fail_answers/out/fail_answers
INSTALL = install
DIST = dist

bin = $(DESTDIR)$(PREFIX)/bin
library = $(DESTDIR)$(PREFIX)/lib/fail_star
man = $(DESTDIR)$(PREFIX)/share/man
bash = $(DESTDIR)$(PREFIX)/share/bash-completion/completions
zsh = $(DESTDIR)$(PREFIX)/share/zsh/site-functions
fish = $(DESTDIR)$(PREFIX)/share/fish/vendor_completions.d

# The tools that are commands, and the package that they start; `pip install .` installs the same without the programs.
tools = again check compare estimate explain fault_map keep_info plan replay report sample_places sql sweep version watch where
package = fail_star_tools fail_star_tools/read fail_star_tools/count fail_star_tools/page fail_star_tools/run

# Installs a program that may not have been built: its name, its file, and what says that here.
define with
	if [ -f "$(2)" ]; then \
	    $(INSTALL) -m 755 "$(2)" "$(bin)/$(1)" && \
	    $(INSTALL) -m 644 man/$(1).1 "$(man)/man1" && \
	    $(INSTALL) -m 644 completions/$(1).bash "$(bash)/$(1)" && \
	    $(INSTALL) -m 644 completions/_$(1) "$(zsh)" && \
	    $(INSTALL) -m 644 completions/$(1).fish "$(fish)"; \
	else \
	    echo "Without $(1): (cd crates/$(1) && rt run) proves and builds it, and $(3)=FILE says where one is."; \
	fi
endef

programs:
	@python3 release/prove.py

check:
	@bash release/check.sh

help:
	@sed -n '/^#/!q; s/^# \{0,1\}//p' Makefile

install: $(PROGRAM)
	$(INSTALL) -d "$(bin)" "$(library)" "$(man)/man1" "$(man)/man5" "$(bash)" "$(zsh)" "$(fish)"
	$(INSTALL) -m 755 $(PROGRAM) "$(bin)/fail_star"
	$(INSTALL) -m 755 $(tools:%=tools/%.py) "$(library)"
	for folder in $(package); do \
	    $(INSTALL) -d "$(library)/$$folder" && $(INSTALL) -m 644 tools/$$folder/*.py "$(library)/$$folder" || exit 1; \
	done
	for tool in $(tools); do ln -sf "../lib/fail_star/$$tool.py" "$(bin)/fail_star-$$tool" || exit 1; done
	$(INSTALL) -m 644 man/fail_star.1 "$(man)/man1"
	$(INSTALL) -m 644 man/fail_star-campaign.5 man/fail_star-classes.5 "$(man)/man5"
	$(INSTALL) -m 644 man/fail_star-tools.1 "$(man)/man1"
	$(INSTALL) -m 644 $(tools:%=man/fail_star-%.1) "$(man)/man1"
	$(INSTALL) -m 644 completions/fail_star.bash "$(bash)/fail_star"
	$(INSTALL) -m 644 completions/_fail_star "$(zsh)"
	$(INSTALL) -m 644 completions/fail_star.fish "$(fish)"
	$(INSTALL) -m 644 completions/fail_star-tools.bash "$(bash)/fail_star-tools"
	$(INSTALL) -m 644 completions/_fail_star-tools "$(zsh)"
	$(INSTALL) -m 644 completions/fail_star-tools.fish "$(fish)"
	for tool in $(tools); do \
	    ln -sf fail_star-tools "$(bash)/fail_star-$$tool" && ln -sf fail_star-tools.fish "$(fish)/fail_star-$$tool.fish" || exit 1; \
	done
	$(call with,fail_export,$(EXPORT),EXPORT)
	$(call with,fail_replay,$(REPLAY),REPLAY)
	$(call with,fail_debug,$(DEBUG),DEBUG)
	$(call with,fail_window,$(WINDOW),WINDOW)
	$(call with,fail_answers,$(ANSWERS),ANSWERS)

uninstall:
	rm -f "$(bin)/fail_star" "$(bin)/fail_export" "$(bin)/fail_replay" "$(bin)/fail_debug" "$(bin)/fail_window" "$(bin)/fail_answers" $(tools:%="$(bin)/fail_star-%")
	rm -rf "$(library)"
	rm -f "$(man)/man1/fail_star.1" "$(man)/man1/fail_export.1" "$(man)/man1/fail_replay.1" "$(man)/man1/fail_debug.1" "$(man)/man1/fail_window.1" "$(man)/man1/fail_answers.1" "$(man)/man5/fail_star-campaign.5" "$(man)/man5/fail_star-classes.5" "$(man)/man1/fail_star-tools.1" $(tools:%="$(man)/man1/fail_star-%.1")
	rm -f "$(bash)/fail_star" "$(zsh)/_fail_star" "$(fish)/fail_star.fish"
	rm -f $(tools:%="$(bash)/fail_star-%") $(tools:%="$(fish)/fail_star-%.fish")
	rm -f "$(bash)/fail_star-tools" "$(zsh)/_fail_star-tools" "$(fish)/fail_star-tools.fish"
	rm -f "$(bash)/fail_export" "$(zsh)/_fail_export" "$(fish)/fail_export.fish"
	rm -f "$(bash)/fail_replay" "$(zsh)/_fail_replay" "$(fish)/fail_replay.fish"
	rm -f "$(bash)/fail_debug" "$(zsh)/_fail_debug" "$(fish)/fail_debug.fish"
	rm -f "$(bash)/fail_window" "$(zsh)/_fail_window" "$(fish)/fail_window.fish"
	rm -f "$(bash)/fail_answers" "$(zsh)/_fail_answers" "$(fish)/fail_answers.fish"

dist: $(PROGRAM)
	@bash release/dist.sh "$(DIST)" "$(PROGRAM)" "$(EXPORT)" "$(REPLAY)" "$(DEBUG)" "$(WINDOW)" "$(ANSWERS)"

crates/fail_star/out/fail_star:
	@echo "There is no program yet: make proves and builds it, with the kit that README.md names."
	@echo "One that was built elsewhere is installed with PROGRAM=FILE."
	@false

.PHONY: programs check help install uninstall dist
