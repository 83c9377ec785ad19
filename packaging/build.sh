#!/bin/sh
# Builds what is installed, where that isn't done: `rt` proves the program and the library for C first, and builds nothing that isn't
# proved. `make` calls it.
#
#     packaging/build.sh [--built]
#
# With --built, as the gate calls it, the program must be there and be newer than its sources, and only the library is linked. After
# either bindings/build/SOURCES has the sum of the sources. KIT is where the kit lies, if not /opt/rattle.
set -e
top=$(cd "$(dirname "$0")/.." && pwd)
. "$top/packaging/common.sh"
KIT=${KIT:-/opt/rattle}
export KIT
cd "$top"
program=crates/faxtool/out/faxtool
[ $# = 0 ] || [ "$*" = --built ] || { echo "usage: build.sh [--built]" >&2; exit 2; }
if [ $# = 0 ] && [ -f $program ] && [ -f bindings/build/libg3fax.so.0 ] && [ -f bindings/build/SOURCES ] \
    && [ "$(cat bindings/build/SOURCES)" = "$(packaging/trust.py --sources)" ]; then
    packaging/build_softfax.sh bindings/build
    echo "$program and bindings/build are built already"
    exit 0
fi
[ -x "$KIT/bin/rt" ] || ends "there is no Rattle kit in $KIT: unpack it there, or say by KIT where it is"
if [ $# = 1 ]; then
    [ -f $program ] || ends "$program is missing: .ci/run, or make, proves and builds it"
    newer=$(find crates/*/src crates/*/specs crates/*/proofs crates.txt -type f -newer $program | head -n 3 | tr '\n' ' ')
    [ -z "$newer" ] || ends "$program is older than $newer: .ci/run, or make, proves and builds it"
else
    (cd crates/faxtool && "$KIT/bin/rt" run -- version)
fi
bindings/build.sh bindings/build
packaging/build_softfax.sh bindings/build
packaging/trust.py --sources > bindings/build/SOURCES
