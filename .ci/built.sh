#!/bin/sh
# What `rt ci` has proved and built: the library for C, with its examples, and beside these all of it as it is installed and packed.
set -e
cd "$(dirname "$0")/.."
packaging/build_library.sh
.ci/beside.py .ci/bindings.sh .ci/packages.sh
