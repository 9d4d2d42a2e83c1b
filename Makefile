# Installs svemu, svemu-tool, the runner, the tools, the manual pages, and what a program without a C library is built with:
# make install PREFIX=/usr/local DESTDIR=
# The program is the one that ./svemu runs: that of dist/, which needs neither kit nor proof, or the one that was built
# here; sources that have changed are built first.
# PROGRAM=FILE installs another, and TOOL=FILE another svemu-tool.

PREFIX = /usr/local
PROGRAM =
TOOL =
TO = $(DESTDIR)$(PREFIX)

# Tools in Python stand in lib/svemu beside their modules and the programs, svemu-tool by a link, and in bin/ by links.
SCRIPTS = svemu-runner svemu-filter svemu-lengths svemu-debug
TOOLS = svemu-lanes svemu-curve svemu-cover svemu-diff svemu-schedules
MODULES = svemu_pages.py svemu_steps.py svemu_aliases.py svemu_lanes_page.py svemu_program.py svemu_calls.py svemu_turns.py svemu_accesses.py svemu_trace.py svemu_failing.py
GUESTS = start.S guest.h threads.h kernel_test.h

# The shell reads both as they are, whatever quotes they have.
export PROGRAM TOOL TO

install:
	mkdir -p "$$TO/bin" "$$TO/lib/svemu" "$$TO/share/svemu" "$$TO/share/man/man1"
	program=$${PROGRAM:-$$(./svemu --program || { ./svemu --build && ./svemu --program; })} && install -m 755 "$$program" "$$TO/lib/svemu/svemu"
	tool=$${TOOL:-$$(./svemu-tool --program || { ./svemu-tool --build && ./svemu-tool --program; })} && install -m 755 "$$tool" "$$TO/bin/svemu-tool"
	./svemu --help | sed '/^of this checkout:$$/,$$d' | sed '$$d' >"$$TO/lib/svemu/help"
	./svemu --version | if [ -n "$$PROGRAM" ]; then sed 's/,.*/, another build/'; else cat; fi >"$$TO/lib/svemu/version"
	install -m 755 tools/svemu-installed "$$TO/bin/svemu"
	install -m 755 $(SCRIPTS:%=tools/%) "$$TO/bin"
	install -m 755 $(TOOLS:%=tools/%) "$$TO/lib/svemu"
	install -m 644 $(MODULES:%=tools/%) "$$TO/lib/svemu"
	ln -sf ../../bin/svemu-tool "$$TO/lib/svemu/svemu-tool"
	for tool in $(TOOLS); do ln -sf "../lib/svemu/$$tool" "$$TO/bin/$$tool" || exit 1; done
	install -m 644 $(GUESTS:%=examples/%) "$$TO/share/svemu"
	install -m 644 docs/svemu.1 docs/svemu-tool.1 "$$TO/share/man/man1"

uninstall:
	for file in svemu svemu-tool $(SCRIPTS) $(TOOLS); do rm -f "$$TO/bin/$$file" || exit 1; done
	for file in svemu svemu-tool help version $(TOOLS) $(MODULES); do rm -f "$$TO/lib/svemu/$$file" || exit 1; done
	for file in $(GUESTS); do rm -f "$$TO/share/svemu/$$file" || exit 1; done
	rm -f "$$TO/share/man/man1/svemu.1" "$$TO/share/man/man1/svemu-tool.1"
	for folder in lib share; do [ ! -d "$$TO/$$folder/svemu" ] || rmdir "$$TO/$$folder/svemu" || exit 1; done

# The tests that need no proof and no kit, part by part with their seconds.
check:
	@echo "make check: the tests that need no proof, part by part, in some eight minutes (make gate proves everything, too)"
	@sh tests/tools.sh

# The whole gate: every proof, and then these tests. It wants the Rattle kit's own rt, and no other program of that name.
gate:
	@case $$(rt version 2>/dev/null) in \
		rattle-kit-*) echo "make gate: every proof, which takes an hour or more where none is kept, and then the tests of make check" && .ci/run ;; \
		*) echo "make gate: the proofs want the Rattle kit, whose command rt isn't in the PATH (README says what it is); make check has the tests that need none" >&2; exit 1 ;; \
	esac

.PHONY: install uninstall check gate
