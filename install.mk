# `make install` and `make uninstall`. Nothing is built here and nothing proved: what is there is put in its place,
# and where a part is missing nothing is put anywhere.

PREFIX = /usr/local
BINDIR = $(PREFIX)/bin
LIBDIR = $(PREFIX)/lib
INCLUDEDIR = $(PREFIX)/include
MANDIR = $(PREFIX)/share/man
PKGCONFIGDIR = $(LIBDIR)/pkgconfig
DOCDIR = $(PREFIX)/share/doc/caisson

define folders
PREFIX=$(PREFIX)
BINDIR=$(BINDIR)
LIBDIR=$(LIBDIR)
INCLUDEDIR=$(INCLUDEDIR)
MANDIR=$(MANDIR)
PKGCONFIGDIR=$(PKGCONFIGDIR)
DOCDIR=$(DOCDIR)
endef

# The sources of the host, and what its documents name as examples.
host_sources = $(sort $(wildcard host/*.[ch] host/*.trace host/*.console host/*.expected))

define newline


endef

# Of each part the mode, the target that makes it, the file and its place. Uninstall removes the places.
define parts
644|library|$(library)|$(LIBDIR)/libcaisson.a
755|tool|target/tools/release/caisson|$(BINDIR)/caisson
755|lister|target/bin/lister|$(BINDIR)/caisson-lister
755|host|target/host/outstation|$(BINDIR)/caisson-outstation
644||include/caisson.h|$(INCLUDEDIR)/caisson.h
644||include/caisson_refusals.def|$(INCLUDEDIR)/caisson_refusals.def
644||man/caisson.1|$(MANDIR)/man1/caisson.1
644||man/caisson-lister.1|$(MANDIR)/man1/caisson-lister.1
644||man/caisson-outstation.1|$(MANDIR)/man1/caisson-outstation.1
644||caisson.pc.in|$(PKGCONFIGDIR)/caisson.pc
644||host/caisson-outstation.service.in|$(DOCDIR)/examples/caisson-outstation.service
644||host/Makefile|$(DOCDIR)/examples/host/Makefile
644||host/README.md|$(DOCDIR)/examples/host/README.md
$(subst $(newline) ,$(newline),$(foreach source,$(host_sources),644||$(source)|$(DOCDIR)/examples/$(source)$(newline)))
endef

install uninstall: export folders := $(folders)
install uninstall: export parts := $(parts)
install uninstall: export staged := $(DESTDIR)

each_folder = printf '%s\n' "$$folders" | while IFS='=' read -r name folder; do
each_part = printf '%s\n' "$$parts" | grep . | while IFS='|' read -r mode target file place; do

# The places go into caisson.pc as they are, and pkg-config parts what it reads at blanks.
refuse_folders = $(each_folder) case $$folder in \
	[!/]* | '') echo "make $@: $$name=$$folder: a path from / on is needed" >&2; exit 1 ;; \
	*[!a-zA-Z0-9/._+~@,-]*) \
		echo "make $@: $$name=$$folder: only letters, digits and / . _ + ~ @ , - may stand in it" >&2; exit 1 ;; \
	esac; done

# What the header defines a name as.
defined = $(shell awk '$$2 == "CAISSON_$(1)" { gsub(/"/, "", $$3); print $$3 }' include/caisson.h)
# A folder as caisson.pc has it: below the prefix where it is, so that the prefix can be changed in one place.
below = $(patsubst $(PREFIX)/%,$${prefix}/%,$(1))
fill = sed -e 's|@prefix@|$(PREFIX)|' -e 's|@libdir@|$(call below,$(LIBDIR))|' \
	-e 's|@includedir@|$(call below,$(INCLUDEDIR))|' -e 's|@bindir@|$(BINDIR)|' \
	-e 's|@version@|$(call defined,VERSION)|' -e 's|@format@|$(call defined,FORMAT)|'

# Beside its place and then renamed, so that there is the old file or the new one. A folder that is there keeps
# its mode.
put = new=$$staged$$place.new; folder=$${new%/*}; \
	{ [ -d "$$folder" ] || install -d -m 755 "$$folder"; } && \
	{ case $$file in \
	*.in) $(fill) "$$file" >"$$new" && chmod "$$mode" "$$new" ;; \
	*) install -m "$$mode" "$$file" "$$new" ;; \
	esac && mv -fT "$$new" "$$staged$$place" || { rm -f "$$new"; exit 1; }; }

# Library, headers, tool, lister, host with its sources, man pages and caisson.pc, below $(DESTDIR)$(PREFIX).
.PHONY: install
install:
	@$(refuse_folders)
	@missing=$$($(each_part) [ -f "$$file" ] || echo "$$target|$$file"; done); \
	[ -z "$$missing" ] || { \
		echo "$$missing" | while IFS='|' read -r target file; do \
			echo "make install: there is no $$file$${target:+, which \`make $$target\` makes}"; done; \
		targets=$$(echo "$$missing" | cut -d '|' -f 1 | grep . | paste -sd ' '); \
		echo "make install: nothing was installed$${targets:+; build first: make $$targets}"; exit 1; } >&2
	@$(each_part) $(put) && printf 'installed %s\n' "$$staged$$place" || exit 1; done

# The same files again; folders stay, since others may have files in them.
.PHONY: uninstall
uninstall:
	@$(refuse_folders)
	@there=$$($(each_part) [ ! -e "$$staged$$place" ] && [ ! -L "$$staged$$place" ] || echo there; done); \
	[ -n "$$there" ] || echo 'nothing to remove: PREFIX, DESTDIR and the folders must be those of the install'
	@$(each_part) [ ! -e "$$staged$$place" ] && [ ! -L "$$staged$$place" ] || { \
		rm -f "$$staged$$place" && printf 'removed %s\n' "$$staged$$place" || exit 1; }; done
