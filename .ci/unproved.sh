#!/bin/sh
# Builds the program and the library without proof, as a newcomer does, and runs every command of that program on real files: a wrong word or
# a race shows in minutes, and not after the proofs. Calls have each growth of memory refused in turn; the worst octets cost what they did.
set -e
cd "$(dirname "$0")/.."
packaging/try.sh
packaging/try.sh --library
.ci/readme_programs.sh build
installed=$(mktemp -d)
trap 'rm -rf "$installed"' EXIT
cp build/libg3fax.* build/g3fax.* "$installed"
.ci/installed.sh "$installed"
.ci/wheel.sh "$installed"
FAXTOOL=build/faxtool G3FAX=build .ci/packages.sh
.ci/growths.py
.ci/worst.py build
.ci/end_to_end.sh build/faxtool
