# `make deb`: a Debian package of what `make install` puts in place, with dpkg-deb alone. Nothing is built here and
# nothing proved; where a part is missing there is no package.

deb_version = $(call defined,VERSION)
deb_file = target/caisson_$(deb_version)_amd64.deb
deb_stage = target/deb
deb_folders = PREFIX=/usr BINDIR=/usr/bin LIBDIR=/usr/lib/x86_64-linux-gnu INCLUDEDIR=/usr/include \
	MANDIR=/usr/share/man PKGCONFIGDIR=/usr/lib/x86_64-linux-gnu/pkgconfig DOCDIR=/usr/share/doc/caisson

define deb_control
Package: caisson
Version: $(deb_version)
Architecture: amd64
Maintainer: Pozhimer <pozhimer@localhost>
Section: devel
Priority: optional
Description: proved library that checks and runs designs for a shared box
 A box at a site that several parties share runs a design, and each party sees
 nothing that depends on what it may not see. The package has the proved
 library with its headers, the tool for designs, the cycle lister, and the
 outstation host with its sources, to start from.
endef

deb: export control := $(deb_control)

# The oldest C library that has what the programs need.
deb_libc = objdump -T $(deb_stage)/usr/bin/* 2>/dev/null | sed -n 's/.*GLIBC_\([0-9.]*\).*/\1/p' | sort -Vu | tail -n 1

.PHONY: deb
deb:
	@command -v dpkg-deb >/dev/null || { echo 'make deb: dpkg-deb is needed, and is not there' >&2; exit 1; }
	@rm -rf $(deb_stage) && install -d -m 755 $(deb_stage) $(deb_stage)/DEBIAN
	@$(MAKE) --no-print-directory install DESTDIR=$(deb_stage) $(deb_folders) >/dev/null
	@cd $(deb_stage) && find usr -type f | sort | xargs md5sum >DEBIAN/md5sums
	@printf '%s\nDepends: libc6 (>= %s), libgcc-s1\nInstalled-Size: %s\n' "$$control" "$$($(deb_libc))" \
		"$$(du -ks $(deb_stage)/usr | cut -f 1)" >$(deb_stage)/DEBIAN/control
	@chmod 644 $(deb_stage)/DEBIAN/*
	@dpkg-deb --root-owner-group --build $(deb_stage) $(deb_file) >/dev/null
	@rm -rf $(deb_stage)
	@echo 'made $(deb_file)'
