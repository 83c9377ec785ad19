#!/bin/sh
# Installs what build.sh left in a folder, and the man pages; `make install` calls it:
#
#     bindings/install.sh FOLDER PREFIX [DESTDIR]
#
# PREFIX is where the library is used from. DESTDIR is put before it where the files are gathered elsewhere first, as for a package.
set -e
[ $# = 2 ] || [ $# = 3 ] || { echo "usage: install.sh FOLDER PREFIX [DESTDIR]" >&2; exit 2; }
from=$1 prefix=$2 to=$3$2
mkdir -p "$to/lib/pkgconfig" "$to/include" "$to/share/doc/g3fax" "$to/share/man/man3"
# the pages that it links to aren't there
sed 's,\[\([^]]*\)\](\.\./[^)]*),\1,g' "$(dirname "$0")/README.md" > "$to/share/doc/g3fax/README.md"
chmod 644 "$to/share/doc/g3fax/README.md"
install -m644 "$(dirname "$0")"/../docs/man/*.3 "$to/share/man/man3/"
install -m644 "$from/g3fax.h" "$to/include/g3fax.h"
install -m644 "$from/libg3fax.a" "$to/lib/libg3fax.a"
install -m755 "$from/libg3fax.so.0" "$to/lib/libg3fax.so.0"
ln -sf libg3fax.so.0 "$to/lib/libg3fax.so"
# a build to be tried has folders of its own there
sed "s|^prefix=.*|prefix=$prefix|; s|^includedir=.*|includedir=\${prefix}/include|; s|^libdir=.*|libdir=\${prefix}/lib|" "$from/g3fax.pc" \
    > "$to/lib/pkgconfig/g3fax.pc"
chmod 644 "$to/lib/pkgconfig/g3fax.pc"
