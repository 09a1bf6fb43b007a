# make             proves the three libraries and writes their archives, for x86-64, to target/staticlib
# make install     puts below PREFIX the headers, the archives, a pkg-config file for each, and the pages that the headers name
# make uninstall   takes them away again
#
# DESTDIR stands before every path that is written to, and in no file. The headers and archives have folders of their own, which the
# pkg-config files name, and these are pcl11b, pcl11b-board and pcl11b-shares: other libraries have a pcl.h, and names like board.h are
# anybody's. The links of an installed page lead into the repository.
PREFIX = /usr/local

libraries := pcl board shares
package_of = pcl11b$(patsubst %,-%,$(filter-out pcl,$(1)))
headers := $(notdir $(wildcard include/*.h))
pages := $(notdir $(shell grep -ho 'docs/[A-Z]*\.md' include/*.h | sort -u))
version := $(shell sed -n 's/^\#define PCL_VERSION_TEXT "\(.*\)"/\1/p' include/pcl.h)

prefix := $(abspath $(PREFIX))
includes := $(DESTDIR)$(prefix)/include/pcl11b
archives := $(DESTDIR)$(prefix)/lib/pcl11b
packages := $(DESTDIR)$(prefix)/lib/pkgconfig
docs := $(DESTDIR)$(prefix)/share/doc/pcl11b

all:
	@tools/archive $(libraries)

install: all
	@install -d '$(includes)' '$(archives)' '$(packages)' '$(docs)'
	@install -m 644 $(headers:%=include/%) '$(includes)'
	@install -m 644 $(libraries:%=target/staticlib/lib%.a) '$(archives)'
	@install -m 644 $(pages:%=docs/%) '$(docs)'
	@for name in $(libraries); do \
	    about=$$(sed -n '1s/.* - \(.*\):.*/\1/p' include/$$name.h); \
	    package=pcl11b; [ $$name = pcl ] || package=pcl11b-$$name; \
	    printf '%s\n' 'prefix=$(prefix)' 'includedir=$${prefix}/include/pcl11b' 'libdir=$${prefix}/lib/pcl11b' '' "Name: $$package" \
	        "Description: $$about" 'Version: $(version)' 'Cflags: -I$${includedir}' "Libs: -L\$${libdir} -l$$name" \
	        >'$(packages)'/$$package.pc && chmod 644 '$(packages)'/$$package.pc || exit; \
	done
	@echo 'Installed below $(DESTDIR)$(prefix). A compiler takes what this prints:'
	@echo '    PKG_CONFIG_PATH=$(prefix)/lib/pkgconfig pkg-config --cflags --libs pcl11b'
	@[ "$$(uname -m)" = x86_64 ] || echo 'The archives are for x86-64: on this machine they link only into programs of a compiler for' \
	    'x86-64, as x86_64-linux-gnu-gcc is. Such a program runs on an x86-64, or under an emulator.'

uninstall:
	@rm -f $(headers:%='$(includes)/%') $(libraries:%='$(archives)/lib%.a') $(foreach name,$(libraries),'$(packages)/$(call package_of,$(name)).pc') $(pages:%='$(docs)/%')
	@for folder in '$(includes)' '$(archives)' '$(docs)'; do rmdir "$$folder" 2>/dev/null || true; done
	@echo 'Taken away from $(DESTDIR)$(prefix).'

.PHONY: all install uninstall
