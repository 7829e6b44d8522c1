# `make install` and `make uninstall`: the library that scripts/archive left, what compilers read to find it, and the program
# mlsign with its page, if scripts/archive left it and the library is for this machine; `mlsign=FILE` installs another one, and
# `mlsign=` none. DESTDIR stands before all places, for those who make packages. With an empty PREFIX what pkg-config reads names
# no folder, so that the tree may be moved.
archive = out/archive/$(LIBRARY)
version := $(shell sed -n 's/^.define MLDSA_VERSION_TEXT "\(.*\)"/\1/p' c/mldsa.h)
# Before 1.0 a minor version may change calls.
minor := $(basename $(version))
soname = libmldsa.so.$(minor)
shared = $(wildcard $(archive)/libmldsa.so)
# The libraries for this machine's processor, for which cargo builds `mlsign`.
own = rust $(if $(filter x86_64,$(shell uname -m)),x86-64 x86-64-v2 x86-64-v3,$(shell uname -m))
built = out/archive/mlsign/mlsign
mlsign = $(if $(filter $(own),$(LIBRARY)),$(wildcard $(built)))
page = $(if $(mlsign),$(if $(shell command -v pandoc),out/mlsign.1))

lib = $(DESTDIR)$(LIBDIR)
include = $(DESTDIR)$(PREFIX)/include
bin = $(DESTDIR)$(PREFIX)/bin
man = $(DESTDIR)$(PREFIX)/share/man/man1
completions = $(DESTDIR)$(PREFIX)/share/bash-completion/completions
doc = $(DESTDIR)$(PREFIX)/share/doc/mldsa
$(if $(findstring ',$(DESTDIR)$(PREFIX)$(LIBDIR)),$(error a folder may have no ' in its name))
# What stands for itself in the replacement of sed. The folder of libraries is named below the prefix, if it lies there.
literal = $(subst |,\|,$(subst &,\&,$(subst \,\\,$(1))))
below = $(subst :^,,$(subst :^$(PREFIX)/,$${prefix}/,:^$(LIBDIR)))
filled = sed -e 's|@PREFIX@|$(call literal,$(or $(PREFIX),$${pcfiledir}/../..))|' -e 's|@LIBDIR@|$(call literal,$(below))|' \
	-e 's|@VERSION@|$(version)|' -e 's|@MINOR@|$(minor)|' -e 's|@SONAME@|$(soname)|'
export INSTALL

out/mlsign.1: man/mlsign.1.md packaging/manual.lua
	@mkdir -p out
	pandoc -s -t man -f commonmark_x --shift-heading-level-by=-1 --lua-filter=packaging/manual.lua \
		-V footer='mldsa $(version)' -o $@ $<

install: $(page)
	@test -f $(archive)/libmldsa_c.a || { echo 'the library is not there: `make LIBRARY=$(LIBRARY)` builds it'; exit 1; }
	@scripts/archive --check $(LIBRARY) || { echo '`make LIBRARY=$(LIBRARY)` builds it'; exit 1; }
	@test '$(mlsign)' != $(built) || scripts/archive --check mlsign || \
		{ echo '`make program` builds it, and `make install mlsign=` installs none'; exit 1; }
	$(INSTALL) -d '$(lib)/pkgconfig' '$(lib)/cmake/mldsa' '$(include)' '$(doc)/examples'
	packaging/put 644 $(archive)/libmldsa_c.a '$(lib)/libmldsa.a'
	$(if $(shared),packaging/put 644 $(shared) '$(lib)/$(soname)')
	$(if $(shared),ln -sf $(soname) '$(lib)/libmldsa.so.new' && mv -f '$(lib)/libmldsa.so.new' '$(lib)/libmldsa.so')
	packaging/put 644 c/mldsa.h '$(include)/mldsa.h'
	$(if $(filter x86-64,$(LIBRARY)),packaging/put 644 c/mldsa_x86_64.h '$(include)/mldsa_x86_64.h')
	$(filled) packaging/mldsa.pc | packaging/put 644 /dev/stdin '$(lib)/pkgconfig/mldsa.pc'
	$(filled) packaging/mldsa-config.cmake | packaging/put 644 /dev/stdin '$(lib)/cmake/mldsa/mldsa-config.cmake'
	$(filled) packaging/mldsa-config-version.cmake | packaging/put 644 /dev/stdin '$(lib)/cmake/mldsa/mldsa-config-version.cmake'
	packaging/put 644 LICENSE '$(doc)/LICENSE'
	packaging/put 644 c/sign_file.c '$(doc)/sign_file.c'
	for it in $(notdir $(wildcard c/examples/*.c)); do packaging/put 644 c/examples/$$it '$(doc)/examples/'$$it || exit; done
	$(if $(mlsign),$(INSTALL) -d '$(bin)' '$(completions)')
	$(if $(mlsign),packaging/put 755 $(mlsign) '$(bin)/mlsign')
	$(if $(mlsign),packaging/put 644 packaging/mlsign.bash '$(completions)/mlsign')
	$(if $(page),$(INSTALL) -d '$(man)')
	$(if $(page),packaging/put 644 $(page) '$(man)/mlsign.1')
	@test -n '$(DESTDIR)' || test "$$(id -u)" != 0 || ldconfig

# What `install` wrote, and the folders that are its own.
uninstall:
	rm -f '$(include)/mldsa.h' '$(include)/mldsa_x86_64.h' '$(lib)/libmldsa.a' '$(lib)/libmldsa.so' '$(lib)/$(soname)' \
		'$(lib)/pkgconfig/mldsa.pc' '$(bin)/mlsign' '$(man)/mlsign.1' '$(completions)/mlsign'
	rm -rf '$(lib)/cmake/mldsa' '$(doc)'
	@test -n '$(DESTDIR)' || test "$$(id -u)" != 0 || ldconfig

.PHONY: install uninstall
