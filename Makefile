# make demo       builds the program without proving it as out/dugnatsew, and boots the example image
# make            proves the program and every crate below it, builds it as crates/boot_cli/out/boot_cli, and boots the example image
# make test       runs the worked rows of rows/ on the newer of the two programs, and builds the unproved one where there is none; proves nothing
# make prove      the gate: proves everything, tries the must-fail edits, and runs the tests and the programs; then lists what no example holds
# make edits      tries the edits of crates/NAME/edits/ that have to be refused, many in one check; CRATES="a b" those of these crates, SINCE=REV those of
#                 the crates that differ from a commit
# make rows       writes the rows with whole files into out/rows, some 300 MiB, for another implementation
# make pack       writes the small rows anew as the text that test_rows reads
# make examples   writes the files that the documents take as examples into examples/
# make readme     runs each session of the documents with the newer of the two programs, and compares the manual page, the
#                 completions, the page of faults, the places that RULES names, the layers and the sizes of the pages; needs bash, and tries zsh and mandoc where they are
# make interface  writes the completions and the manual's synopsis anew, as the program's own --help has them
# make faults     compares the page of faults with the program's code; needs no program
# make faults-io  makes each file call of each command fail in turn; needs strace
# make plays      counts that cuts and check play a script once, with the program of make demo; needs gdb
# make fuzz       changes the example files at random for a quarter of an hour, and looks at how each command ends
# make board      makes the cases for a board, compares their sheet, tries the kit on a board's stand-in that fails, and plays
#                 all cases on the program in a board's place
# make record     tries tools/record.py on captures of USB that are made for it; needs tshark
# make real       links small firmware with the toolchains that are there, and takes it from its ELF file to a swept update;
#                 installs nothing, and says which of Debian's packages it uses
# make pictures   draws flashes and sweeps, compares the documents' with docs/map.svg and docs/chart.svg, and renders them where Chromium is there, into out/pictures
# make install    puts the proved program, its manual page, its completions, the pages for users, the kit for a board and record.py
#                 below PREFIX; make it first
# make uninstall  takes them away again
# make dist       writes a tarball of the proved program and of what an installation has into out/, with its SHA-256, for a machine without rt
# make bench      proves, builds for processors of x86-64-v3, and then times the program beside `openssl dgst -sha256` on flashes of 16 MiB

PREFIX = /usr/local
BIN = $(DESTDIR)$(PREFIX)/bin/dugnatsew
MANUAL = $(DESTDIR)$(PREFIX)/share/man/man1/dugnatsew.1
BASH_WORDS = $(DESTDIR)$(PREFIX)/share/bash-completion/completions/dugnatsew
ZSH_WORDS = $(DESTDIR)$(PREFIX)/share/zsh/site-functions/_dugnatsew
PAGES = $(DESTDIR)$(PREFIX)/share/doc/dugnatsew
TOOLS = $(DESTDIR)$(PREFIX)/share/dugnatsew

# How long `make prove` takes where nothing is kept.
PROVE_TIME = about an hour on four processors

PROVED = crates/boot_cli/out/boot_cli
UNPROVED = out/dugnatsew
PACK = crates/test_rows/data/rows.txt
SESSIONS = README.md docs/GUIDE.md docs/TUTORIAL.md docs/MODEL.md
USERS = docs/GUIDE.md docs/TUTORIAL.md docs/REFERENCE.md docs/PROMISE.md docs/PROVED.md docs/FAQ.md docs/MODEL.md docs/CHIP.md docs/RULES.md docs/chart.svg docs/FAULTS.md docs/GLOSSARY.md
KIT = $(addprefix real/board/,README.md cases.py contents.py fake.py make.py picoboot.py play.py usb_link.py probe.S probe_riscv.S sheet.tsv)

# The newer of the two programs.
NEWER = program=$$(ls -t $(PROVED) $(UNPROVED) 2> /dev/null | head -n 1); \
	if [ -z "$$program" ]; then echo 'There is no program: "make demo" builds one, and "make" a proved one.' >&2; exit 1; fi; \
	echo "With $$program:"

.PHONY: all demo test prove edits rows pack examples readme interface faults faults-io plays fuzz board record real pictures install uninstall dist bench

all:
	cd crates/boot_cli && rt run -- boot data/flash data/otp arm normal

demo:
	@echo 'The program is built without its proofs here, and kept as $(UNPROVED); "make" proves it.' >&2
	@python3 tools/demo.py $(UNPROVED)

test:
	@test -e $(PROVED) -o -e $(UNPROVED) || $(MAKE) --no-print-directory demo
	@python3 tools/rows.py pack --check $(PACK)
	@python3 tools/rows.py run

prove:
	@echo 'With nothing kept this takes $(PROVE_TIME). With the kit 13f what passes is kept on'
	@echo 'this machine by the checksums of all that was read, so that the next run proves only what'
	@echo 'changed and the crates above it. Each test and each program is run every time.'
	rt ci
	@python3 tools/premises.py

edits:
	@python3 tools/edits.py $(if $(SINCE),--since $(SINCE)) $(CRATES)

rows:
	@python3 tools/rows.py make

pack:
	@python3 tools/rows.py pack $(PACK)

examples:
	@$(NEWER); python3 tools/examples.py "$$program" examples

readme: faults
	@$(NEWER); python3 tools/interface.py "$$program" && python3 tools/pages.py && python3 tools/layers.py && python3 tools/rules.py && python3 tools/sessions.py "$$program" $(SESSIONS)

interface:
	@$(NEWER); python3 tools/interface.py --write "$$program"

faults:
	@python3 tools/faults.py

faults-io:
	@$(NEWER); python3 tools/faults_of_io.py "$$program"

plays:
	@python3 tools/plays.py out/dugnatsew

fuzz:
	@$(NEWER); python3 tools/fuzz.py "$$program"

board:
	@$(NEWER); python3 real/board/make.py out/board "$$program" real/board/sheet.tsv && \
	python3 real/board/kit_test.py "$$program" && rm -f out/board/sheet.out && \
	python3 real/board/play.py --fake "$$program" out/board/sheet.out

record:
	@$(NEWER); python3 tools/record_test.py "$$program"

real:
	@$(NEWER); echo "Of Debian's packages gcc-arm-none-eabi, gcc-riscv64-unknown-elf, clang and lld:"; \
	python3 real/real.py "$$program" && \
	if command -v arm-none-eabi-gcc > /dev/null; then python3 tools/sessions.py --needing arm-none-eabi-gcc "$$program" docs/TUTORIAL.md; \
	else echo "The tutorial's walk from a toolchain to an update is not run: there is no arm-none-eabi-gcc"; fi

pictures:
	@$(NEWER); python3 tools/pictures.py "$$program" out/pictures

install:
	@test -x $(PROVED) || { echo 'There is no proved program: "make" builds it.' >&2; exit 1; }
	install -d $(dir $(BIN)) $(dir $(MANUAL)) $(dir $(BASH_WORDS)) $(dir $(ZSH_WORDS)) $(PAGES) $(TOOLS)/board
	install -m 755 $(PROVED) $(BIN)
	install -m 644 man/dugnatsew.1 $(MANUAL)
	install -m 644 completions/dugnatsew.bash $(BASH_WORDS)
	install -m 644 completions/_dugnatsew $(ZSH_WORDS)
	install -m 644 $(USERS) $(PAGES)
	install -m 644 $(KIT) $(TOOLS)/board
	install -m 755 tools/record.py $(TOOLS)

uninstall:
	rm -f $(BIN) $(MANUAL) $(BASH_WORDS) $(ZSH_WORDS)
	rm -f $(addprefix $(PAGES)/,$(notdir $(USERS)))
	rm -f $(addprefix $(TOOLS)/board/,$(notdir $(KIT))) $(TOOLS)/record.py
	-rmdir $(PAGES) $(TOOLS)/board $(TOOLS)

dist:
	@rm -rf out/dist && $(MAKE) --no-print-directory install DESTDIR=out/dist PREFIX=
	@python3 tools/dist.py out/dist out

bench:
	cd crates/boot_cli && rt run --cpu x86-64-v3 -- boot data/flash data/otp arm normal
	python3 bench/bench.py $(PROVED)
