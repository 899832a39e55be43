# The goals of this repository. README.md says what each proves and how long it takes.
RT ?= rt

# The program that is measured and tried: the proved one, unless SERVER names another program.
GIVEN := $(SERVER)
ifndef SERVER
SERVER := crates/scanvolt/out/scanvolt
PROOF := scanvolt
endif

# If SERVER names a program, it is checked before anything is proved, built or made for it.
TRIED := bench clients hostile soak python install dist packages
ifdef GIVEN
ifneq ($(filter $(TRIED),$(MAKECMDGOALS)),)
ifneq ($(shell tools/runnable '$(GIVEN)' && echo runs),runs)
$(error SERVER=$(GIVEN) can't be taken)
endif
endif
endif

# Only results of the proved program are kept.
KEPT := $(if $(GIVEN),,--results)

# The server with which the program is compared.
ECHO := crates/echo/out/echo

# Where the program is installed. If DESTDIR is given, it comes before these paths.
PREFIX ?= /usr/local
BIN = $(DESTDIR)$(PREFIX)/bin
MAN = $(DESTDIR)$(PREFIX)/share/man/man1
DATA = $(DESTDIR)$(PREFIX)/share/scanvolt
DOC = $(DESTDIR)$(PREFIX)/share/doc/scanvolt
DATA_FILES := VERSION examples/bench.scenario examples/identity.replay examples/scan.replay
DOC_FILES := LICENSE CHANGELOG.md docs/INSTRUMENT.md docs/REPLAY.md docs/STEPS.md examples/identity.md examples/scan.md
PICTURES := $(addprefix docs/,$(shell grep -oh 'pictures/[a-z-]*\.svg' $(DOC_FILES)))

.PHONY: test lint rows check scanvolt run serve bench echo clients hostile soak python install uninstall dist packages

# Checks what a proof doesn't see (tools/lint). Then proves what changed and the crates above it from nothing
# (every crate and its tests by `rt ci --anew`), tries the must-fail edits in the same way, and runs the programs
# and the tests. Last come the tests of the Python package that need only the standard library, with the proved
# program: they print nothing if they pass. If rows differ, tools/row-diff shows them.
test: lint rows
	@$(RT) ci || { status=$$?; tools/row-diff || :; exit $$status; }
	@RT='$(RT)' python/run-proved-tests

# Prints faults of layout, length and edits; it takes seconds.
lint:
	@tools/lint

# Writes stdin and stdout of the test crates from the text of their rows.
rows:
	@tools/rows

# Proves every crate, lowest first, except what earlier checks have proved.
check:
	@$(RT) all check

# Proves the program, except what earlier checks have proved, and writes it to crates/scanvolt/out/scanvolt.
scanvolt:
	@cd crates/scanvolt && $(RT) run -- replay < ../../examples/identity.replay > /dev/null

# Replays the example of a scan with the program, built with run-time checks and no proof.
run:
	@cd crates/scanvolt && $(RT) try -- replay < ../../examples/scan.replay

# Serves an instrument until it is stopped, with the program built with run-time checks and no
# proof. These may be set: CORE, ABORT and PORTMAP, the ports; SCENARIO, a file; PORT111=1, the port
# mapper on port 111; PROVED=1, the proved program; SERVER, another program. See `tools/serve --help`.
serve:
	@exec tools/serve 'CORE=$(CORE)' 'ABORT=$(ABORT)' 'PORTMAP=$(PORTMAP)' 'SCENARIO=$(SCENARIO)' \
	    'PORT111=$(PORT111)' 'PROVED=$(PROVED)' 'SERVER=$(GIVEN)'

# Proves the program as above, measures its speed and memory, and prints them with their aims. Then compares
# its server with one made by rpcgen, with itself without a record or a panel, and with a bare echo. Results
# of the proved program are appended to bench/results; if SERVER names a program, nothing is.
bench: $(PROOF) echo
	@bench/run $(KEPT) '$(SERVER)'
	@bench/serve $(KEPT) '$(SERVER)' $(ECHO)

# Proves the bare echo, and lets it look for bytes ten times.
echo:
	@cd crates/echo && $(RT) run -- 0 10 > /dev/null

# Runs the clients of examples/ against the program and compares what they print; it needs some
# Debian packages, which it names, and a network namespace, so root.
clients: $(PROOF)
	@tools/clients '$(SERVER)'
	@tools/documents '$(SERVER)'

# Serves with the program, and attacks it with peers that drop, reset, half-close, send random bytes or never
# read. Meanwhile another client must lose no reply.
hostile: $(PROOF)
	@tools/hostile $(KEPT) '$(SERVER)'

# Serves under such attacks for MINUTES (15 if not said), then for a minute with few file descriptors, and for a
# minute with memory that is used up. Meanwhile no reply and no request for service may be lost.
soak: $(PROOF)
	@tools/soak $(KEPT) '$(SERVER)' $(MINUTES)

# Checks the types of the Python package and runs its tests and those of the examples of drivers, with the program that
# `tools/serve BUILD=1` builds, or with SERVER. It needs some Debian packages, and says which.
python:
	@python/run-all-tests '$(GIVEN)'

# Installs the proved program, its man page, its version, the scenario and scripts of the examples, and the licence.
install: $(PROOF)
	@install -d -m 755 '$(BIN)' '$(MAN)' '$(DATA)' '$(DOC)/pictures'
	@install -m 755 '$(SERVER)' '$(BIN)/scanvolt'
	@install -m 644 docs/scanvolt.1 '$(MAN)'
	@install -m 644 $(DATA_FILES) '$(DATA)'
	@install -m 644 $(DOC_FILES) '$(DOC)'
	@install -m 644 $(PICTURES) '$(DOC)/pictures'

# Removes what install put there, with the same PREFIX and DESTDIR.
uninstall:
	@rm -f '$(BIN)/scanvolt' '$(MAN)/scanvolt.1'
	@for name in $(notdir $(DATA_FILES)); do rm -f '$(DATA)/'"$$name"; done
	@for name in $(notdir $(DOC_FILES)); do rm -f '$(DOC)/'"$$name"; done
	@for name in $(notdir $(PICTURES)); do rm -f '$(DOC)/pictures/'"$$name"; done
	@for folder in '$(DATA)' '$(DOC)/pictures' '$(DOC)'; do [ ! -d "$$folder" ] || rmdir "$$folder"; done

# Packs the proved program as a .tar.gz and a .deb in dist/, with their checksums.
dist: $(PROOF)
	@RT='$(RT)' tools/dist '$(SERVER)'

# Packs as above, and tries the packages: they are installed, serve and replay. If ROOT is given, a clean root as
# debootstrap makes one, dpkg installs them in it; that needs root.
packages: dist
	@tools/packages $(if $(ROOT),'$(ROOT)')
