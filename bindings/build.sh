#!/bin/sh
# Builds the library for C in a folder:
#
#     bindings/build.sh FOLDER [--unproved]
#
# It leaves libg3fax.a, libg3fax.so.0, g3fax.h and g3fax.pc there. The proved crate is crates/g3fax: packaging/build_library.sh proves what
# of it isn't yet proved, and compiles it. With it go g3fax.c, compiled by the kit's clang, the functions that from_header.py writes, and the
# kit's heap over malloc, realloc and free. With --unproved nothing is proved, and g3_version says so. KIT is where the kit lies, if not /opt/rattle.
set -e
kit=${KIT:-/opt/rattle}
[ $# = 1 ] || [ "$# $2" = "2 --unproved" ] || { echo "usage: build.sh FOLDER [--unproved]" >&2; exit 2; }
[ -x "$kit/bin/rt" ] || { echo "build.sh: there is no Rattle kit in $kit: unpack it there, or say by KIT where it is" >&2; exit 1; }
top=$(cd "$(dirname "$0")/.." && pwd)
mkdir -p "$1"
to=$(cd "$1" && pwd)
version=$(cat "$top/VERSION")
number=$(echo "$version" | awk -F . '{ print $1 * 10000 + $2 * 100 + $3 }')
archive=$top/crates/g3fax/out/libg3fax.a
work=$(mktemp -d)
trap 'rm -rf "$work"' EXIT
said=$version description=
if [ $# = 2 ]; then
    said="$version, built without proof" description='s|^Description: proved |Description: built without proof: |'
    "$top/packaging/build_unproved.sh" "$top/crates/g3fax" "$work/g3fax.o" --library
    cd "$work"
else
    "$top/packaging/build_library.sh" > "$work/said" 2>&1 || { cat "$work/said" >&2; exit 1; }
    cd "$work"
    "$kit/toolchain/bin/llvm-ar" x "$archive"
fi
"$kit/toolchain/bin/llvm-ar" x "$kit/c/liblibc_c.a"
"$top/bindings/from_header.py" wrappers > wrappers.h
"$top/bindings/from_header.py" exports > exports
"$kit/toolchain/bin/clang" -std=c11 -O2 -fPIC -Wall -Wextra -Werror -ffreestanding -nostdinc -isystem "$top/bindings/include" -I. \
    -DG3_VERSION="\"$said\"" -DG3_BUILT="$number" -c "$top/bindings/g3fax.c" -o g3fax_c.o
# one object, whose only names for other programs are those of the functions of the header
mkdir one
"$kit/toolchain/bin/ld.lld" -r -o one/libg3fax.o ./*.o
"$top/bindings/own_names.py" one/libg3fax.o exports
rm -f "$to/libg3fax.a"
"$kit/toolchain/bin/llvm-ar" rcs "$to/libg3fax.a" one/libg3fax.o
"$kit/toolchain/bin/ld.lld" -shared -soname libg3fax.so.0 -z relro -z noexecstack --version-script exports \
    -o "$to/libg3fax.so.0" ./*.o "$kit/toolchain/lib/libc.so.6"
cp "$top/bindings/g3fax.h" "$to/g3fax.h"
sed "s|@VERSION@|$version|; $description" "$top/bindings/g3fax.pc.in" > "$to/g3fax.pc"
