# make                 builds and proves the judge (tens of minutes)
# make install PREFIX=/usr/local   the program, its manual page, completions for bash and zsh
# make uninstall PREFIX=/usr/local
PREFIX ?= /usr/local
DESTDIR ?=
PROGRAM ?= crates/rvjudge/out/rvjudge
TO := $(DESTDIR)$(PREFIX)
SHARE := $(TO)/share
FILES = $(TO)/bin/rvjudge $(TO)/libexec/rvjudge/rvjudge $(TO)/libexec/rvjudge/run_judge.sh \
    $(TO)/libexec/rvjudge/usage.txt $(TO)/libexec/rvjudge/version $(TO)/libexec/rvjudge/words.py \
    $(TO)/libexec/rvjudge/words.tsv $(TO)/libexec/rvjudge/registers.tsv \
    $(SHARE)/man/man1/rvjudge.1 \
    $(SHARE)/bash-completion/completions/rvjudge $(SHARE)/zsh/site-functions/_rvjudge

.PHONY: all install uninstall
# The empty list of words is refused with status 2; before that bin/rvjudge builds what is missing.
all:
	@bin/rvjudge >/dev/null 2>&1; [ $$? -eq 2 ] || { bin/rvjudge; exit 1; }

install:
	@[ -f $(PROGRAM) ] || { echo "$(PROGRAM) is not built: run make first" >&2; exit 1; }
	install -d $(sort $(dir $(FILES)))
	install -m 755 contrib/install/rvjudge $(TO)/bin/rvjudge
	install -m 755 $(PROGRAM) $(TO)/libexec/rvjudge/rvjudge
	install -m 644 bin/run_judge.sh bin/usage.txt bin/words.py bin/words.tsv bin/registers.tsv \
	    $(TO)/libexec/rvjudge
	{ echo "rvjudge $$(git describe --always --dirty --tags 2>/dev/null || echo unknown)"; \
	    rt version 2>/dev/null || true; echo "sha256 $$(sha256sum <$(PROGRAM) | cut -d ' ' -f 1)"; } \
	    >$(TO)/libexec/rvjudge/version
	python3 contrib/install/make.py man "$$(head -n 1 $(TO)/libexec/rvjudge/version)" \
	    >$(SHARE)/man/man1/rvjudge.1
	python3 contrib/install/make.py bash >$(SHARE)/bash-completion/completions/rvjudge
	python3 contrib/install/make.py zsh >$(SHARE)/zsh/site-functions/_rvjudge

uninstall:
	rm -f $(FILES)
