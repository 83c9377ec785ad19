#!/bin/sh
# Builds softfax, the fax terminal in C, over the library that bindings/build.sh left in a folder, and leaves it there with inits.txt;
# packaging/build.sh and packaging/try.sh call it:
#
#     packaging/build_softfax.sh FOLDER
#
# The compiler is the one that CC names, or cc. With libspandsp-dev it has sound and modems, else modems alone. Without a compiler there is
# none, a line says so, and what an earlier build left is removed.
set -e
top=$(cd "$(dirname "$0")/.." && pwd)
[ $# = 1 ] || { echo "usage: build_softfax.sh FOLDER" >&2; exit 2; }
to=$(cd "$1" && pwd)
CC=${CC:-cc}
for word in "$CC" make; do
    command -v "$word" > /dev/null && continue
    echo "softfax isn't built: the program $word is missing"
    rm -f "$to/softfax" "$to/inits.txt"
    exit 0
done
make -s -C "$top/bindings/c/softfax" CC="$CC" LIB="$to" OUT="$to" CFLAGS=-O2 softfax
