# The program (if bin/ob0 is up to date, demo, build, package and install need no toolchain):
#
#   make demo           plays a conversation with the server: with bin/ob0 if that is up to date,
#                       otherwise with the program compiled without its proofs (1 to 3 minutes)
#   make build          proves and builds the program, bin/ob0
#   make test           the gate (every proof), some mutants, and the end-to-end tests; the kit
#                       reuses what passed before on this machine. ANEW=1: proves from scratch
#   make package        packs the proved program into bin/: a Debian package, an archive, the .vsix
#                       if it can be made, and their SHA256SUMS
#   make vsix           packs the extension for VS Code into bin/; needs the modules that
#                       `make editors RELEASE=trixie` gets
#   make install        copies the program, manual pages, completions, editor files, pages and
#                       examples to PREFIX (/usr/local)
#   make uninstall      removes from PREFIX what was installed there
#   make help           prints these lines, as `make` does
#
# For a change:
#
#   make check          proves all crates and their tests, reusing what earlier checks proved;
#                       links and runs nothing. It isn't the gate
#   make try            runs the tables of check, run and rename on the program compiled without
#                       its proofs (2 to 4 minutes). WORDS=".." selects some
#   make end-to-end     runs only the end-to-end tests, on bin/ob0
#   make wrong-bodies   tries the mutants that weren't yet refused in their present form.
#                       ALL=1: all of them; CRATE="NAME.." selects some
#   make faults         runs the tests that take longer: each allocation fails once; long
#                       conversations; random changes, texts and runs. WORDS=".." selects some
#   make bench          measures the program, and writes docs/PERFORMANCE.md with its plots
#   make surface        writes bin/SURFACE.md (crates, functions, mutants), and counts in README.md
#   make statement      writes docs/STATEMENT.md, and bin/DEFINITIONS.md with all other definitions
#   make pictures       draws the pictures of README (an editor) and docs/ARCHITECTURE.md
#   make editors        installs the editors and tools of the end-to-end tests, by apt-get.
#                       RELEASE=trixie runs the editors' tests on another Debian, as root
PREFIX ?= /usr/local
PYTHON ?= python3
# A recipe reads these from the environment, so that no shell expands them.
export PREFIX DESTDIR

.PHONY: help demo test build check editors try end-to-end faults wrong-bodies surface statement bench pictures package vsix place install uninstall python

help:
	@sed -n '/^#/!q; s/^# \{0,1\}//p' Makefile

demo: python
	@$(PYTHON) tools/demo.py

test: python
	@$(PYTHON) tools/test.py $(if $(ANEW),--anew)

build: python
	@$(PYTHON) tools/build.py

check: python
	@$(PYTHON) tools/build.py --check

editors: python
	@$(PYTHON) $(if $(RELEASE),tools/editors_of.py $(RELEASE) $(WORDS),tools/editors.py)

try: python
	@$(PYTHON) tools/try_cases.py $(WORDS)

end-to-end: build
	@$(PYTHON) tests/run.py

faults: build
	@$(PYTHON) tools/faults.py $(WORDS)

wrong-bodies: python
	@$(PYTHON) tools/mutants.py $(if $(ALL),--all) $(CRATE)

surface: python
	@$(PYTHON) tools/public_functions.py

statement: python
	@$(PYTHON) tools/statement.py

bench: build
	@$(PYTHON) bench/run.py
	@$(PYTHON) bench/report.py

pictures: build
	@$(PYTHON) tools/rooms.py
	@$(PYTHON) tools/screens.py

package: build
	@$(PYTHON) tools/package.py package

vsix: python
	@$(PYTHON) tools/package.py vsix

# (looks before anything is built whether the folders can be made)
place: python
	@$(PYTHON) tools/package.py place "$$PREFIX" "$$DESTDIR"

install: place build
	@$(PYTHON) tools/package.py install "$$PREFIX" "$$DESTDIR"

uninstall: python
	@$(PYTHON) tools/package.py uninstall "$$PREFIX" "$$DESTDIR"

python:
	@command -v $(PYTHON) >/dev/null || { echo "$(PYTHON) is missing: install Python 3.8 or later (on Debian: apt-get install python3)" >&2; exit 2; }
