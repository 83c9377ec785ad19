#!/bin/sh
# All tests, end to end and examples, over a build without proof; `make test` calls it:
#
#     .ci/test.sh
#
# It shows what the program and the library do, and nothing of what is proved: .ci/run does. Ends with status 1 at the first difference.
set -e
top=$(cd "$(dirname "$0")/.." && pwd)
cd "$top"
# what `make` hands on for `make install` is for that alone
unset PREFIX DESTDIR LIBDIR MAKEFLAGS MAKEOVERRIDES MAKELEVEL
KIT=${KIT:-/opt/rattle}
work=$(mktemp -d)
trap 'rm -rf "$work"' EXIT
PYTHONDONTWRITEBYTECODE=1 FAXTOOL=build/faxtool G3FAX=build STREAM=$work/stream_tool
export KIT PYTHONDONTWRITEBYTECODE FAXTOOL G3FAX STREAM
[ -x "$KIT/bin/rt" ] || { echo "test: there is no Rattle kit in $KIT: unpack it there, or say by KIT where it is" >&2; exit 1; }
# what waits for the program and the library comes before what doesn't
set -- packaging/try.sh "packaging/try.sh --library" "packaging/build_unproved.sh crates/stream_tool '$STREAM'" \
    "after 1 3: .ci/end_to_end.sh --share files build/faxtool" "after 1: .ci/end_to_end.sh --share pages build/faxtool" \
    "after 1: .ci/end_to_end.sh --share calls build/faxtool" "after 1: .ci/end_to_end.sh --share stations build/faxtool" \
    "after 2: .ci/bindings.sh --share softfax" "after 2: .ci/bindings.sh --share library" "after 2: .ci/worst.py build" \
    "after 1 2: .ci/packages.sh --share installed" "after 1 2: .ci/packages.sh --share packed" "nice -n 5 .ci/growths.py"
for crate in crates/*_tests; do set -- "$@" "nice -n 5 .ci/crate_tests.sh ${crate##*/}"; done
.ci/beside.py "$@"
