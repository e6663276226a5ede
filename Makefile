# make            proves and builds the program, crates/smk/out/smk: long where nothing is proved yet, seconds where all is
# make demo       shows examples/mapping running: by the proved program where it is built, else by the sources without proof
# make install    copies the program to $(PREFIX)/bin, its manual page and completions for bash and zsh below $(PREFIX)/share
# make dist       packs all that, the pages, the examples and the licences of what the program is built from into a tarball in dist/
# make test       everything that decides what lands
# make edits      the must-fail edits that the gate leaves out: all, or those of NAMES="NAME .."

PREFIX ?= /usr/local
# How many crates are proved at a time, each with a processor and up to 2 GB; where it is empty, as many as there are processors and memory for.
JOBS ?=

.PHONY: program demo install dist test edits

program:
	RT_JOBS=$(JOBS) tools/build
	crates/smk/out/smk --version

demo:
	tools/demo

install: program
	install -d $(DESTDIR)$(PREFIX)/bin
	install -m 755 crates/smk/out/smk $(DESTDIR)$(PREFIX)/bin/smk
	install -D -m 644 man/smk.1 $(DESTDIR)$(PREFIX)/share/man/man1/smk.1
	install -D -m 644 completion/smk.bash $(DESTDIR)$(PREFIX)/share/bash-completion/completions/smk
	install -D -m 644 completion/_smk $(DESTDIR)$(PREFIX)/share/zsh/site-functions/_smk

dist: program
	tools/dist

test:
	bash .ci/run

edits:
	tools/edits $(NAMES)
