#!/bin/sh
# Installs the library for C that bindings/build.sh left in a folder into a new folder there, and builds an example by the flags that the
# installed g3fax.pc gives, with the shared library and with the archive; runs both on a page, and compares their octets with those of
# another program:
#
#     .ci/installed.sh FOLDER
#
# The flags are read from the file here; where pkg-config is there, it must give the same. The kit's clang compiles, and knows no folder
# but those of the flags and bindings/include. Ends with status 1 at the first difference.
set -e
top=$(cd "$(dirname "$0")/.." && pwd)
kit=${KIT:-/opt/rattle}
work=$(cd "$1" && pwd)
data=$top/.ci/data
lib=$kit/toolchain/lib

fails() {
    echo "installed: FAILED: $*" >&2
    exit 1
}

# flags LINE: the flags of a line of the installed g3fax.pc, its variables put in
flags() (
    pc=$work/prefix/lib/pkgconfig/g3fax.pc
    eval "$(grep '^[a-z]*=' "$pc")"
    eval "echo $(sed -n "s/^$1: //p" "$pc")"
)

# links NAME WORDS: the example as a program, linked with these words alone
links() {
    name=$1
    shift
    "$kit/toolchain/bin/ld.lld" -pie --eh-frame-hdr -dynamic-linker /lib64/ld-linux-x86-64.so.2 -o "$work/$name" "$lib/Scrt1.o" \
        "$lib/crti.o" "$lib/crtbeginS.o" "$work/installed.o" "$@" "$lib/libc.so.6" "$lib/libc_nonshared.a" "$lib/crtendS.o" "$lib/crtn.o"
}

# codes NAME: the program codes a page as another program does
codes() {
    "$work/$1" "$data/page.pbm" "$work/code" mmr msb || fails "$1 ended with status $?"
    difference=$(cmp "$work/code" "$data/page.mmr.msb" 2>&1) || fails "$1: other octets: $difference"
}

# `make install` of what isn't built says so, and starts no proof: there is no kit
if command -v make > /dev/null; then
    mkdir "$work/unbuilt"
    cp "$top"/bindings/Makefile "$top"/bindings/*.sh "$top"/bindings/g3fax.* "$work/unbuilt/"
    ! KIT=$work/missing make -s -C "$work/unbuilt" install PREFIX="$work/unbuilt/prefix" DESTDIR= > "$work/said" 2>&1 \
        || fails "make -C bindings install of what isn't built ends well"
    grep -q "nothing was installed, since bindings/build/libg3fax.a isn't built yet: make" "$work/said" \
        || { cat "$work/said" >&2; fails "make -C bindings install doesn't say what to run first"; }
    [ ! -e "$work/unbuilt/prefix" ] || fails "make -C bindings install of what isn't built installs something"
    # the examples start no proof either; they take another library, and run under the compiler's sanitizers, if it has them
    cp -r "$top/bindings/c" "$work/unbuilt/"
    ! KIT=$work/missing make -s -C "$work/unbuilt" examples FROM="$work/missing" > "$work/said" 2>&1 \
        || fails "make -C bindings examples without a library ends well"
    grep -q "no example was built, since no library is: make lib-try" "$work/said" \
        || { cat "$work/said" >&2; fails "make -C bindings examples doesn't say what to run first"; }
    CC=${CC:-cc}
    if echo 'int main(void) { return 0; }' | "$CC" -fsanitize=address,undefined -x c -o "$work/sanitized" - > "$work/said" 2>&1; then
        make -s -C "$work/unbuilt" examples LIB="$work" CC="$CC" CFLAGS="-O1 -fsanitize=address,undefined -fno-sanitize-recover=undefined" \
            > "$work/said" 2>&1 || { cat "$work/said" >&2; fails "make -C bindings examples"; }
        "$work/unbuilt/build/encode" "$data/page.pbm" "$work/code" mmr msb && cmp "$work/code" "$data/page.mmr.msb" \
            && "$work/unbuilt/build/decode" "$work/code" "$work/decoded" mmr msb 315 && cmp "$work/decoded" "$data/page.pbm" \
            && "$work/unbuilt/build/frames" "$top/docs/examples/line.bits" > "$work/said" || fails "the examples under the sanitizers of $CC"
    fi
fi

"$top/bindings/install.sh" "$work" "$work/prefix"
"$top/bindings/install.sh" "$work" /opt/g3fax "$work/stage"
(cd "$work/prefix" && find . | sort) > "$work/wanted"
(cd "$work/stage/opt/g3fax" && find . | sort) | cmp - "$work/wanted" || fails "other files where DESTDIR is given"
! grep -n '](\.\./' "$work/prefix/share/doc/g3fax/README.md" || fails "the installed README.md has a link to what isn't there"
grep -q '^prefix=/opt/g3fax$' "$work/stage/opt/g3fax/lib/pkgconfig/g3fax.pc" || fails "g3fax.pc has another prefix"
grep -q "^Version: $(cat "$top/VERSION")\$" "$work/prefix/lib/pkgconfig/g3fax.pc" || fails "g3fax.pc has another version"

# a library that was used where it was built, as `make lib-try` leaves it, is installed with the folders of any other
mkdir "$work/tried"
cp "$work/libg3fax.a" "$work/libg3fax.so.0" "$work/g3fax.h" "$work/tried/"
# shellcheck disable=SC2016
sed 's|^prefix=.*|prefix=${pcfiledir}|; s|^libdir=.*|libdir=${prefix}|; s|^includedir=.*|includedir=${prefix}|' "$work/g3fax.pc" \
    > "$work/tried/g3fax.pc"
"$top/bindings/install.sh" "$work/tried" /opt/g3fax "$work/again"
cmp "$work/again/opt/g3fax/lib/pkgconfig/g3fax.pc" "$work/stage/opt/g3fax/lib/pkgconfig/g3fax.pc" || fails "g3fax.pc after make lib-try"

# the version in the header is that of the library and of the file VERSION; each function of the header is exported, with the version that
# it came with, and nothing below them
"$top/bindings/from_header.py" exports > "$work/exports"
python3 - "$work/prefix" "$(cat "$top/VERSION")" "$work/exports" << 'ABI' || fails "the header and the shared library differ"
import ctypes
import re
import sys

folder, version, exports = sys.argv[1:]
header = open(f"{folder}/include/g3fax.h").read()
library = ctypes.CDLL(f"{folder}/lib/libg3fax.so.0")
find = ctypes.CDLL(None).dlvsym
find.argtypes, find.restype = [ctypes.c_void_p, ctypes.c_char_p, ctypes.c_char_p], ctypes.c_void_p
names = re.findall(r"^(?:G3_CHECK )?(?:g3_status|void|uint32_t|const char \*)\s*\*?(g3_\w+)\(", header, re.M)
nodes = {name: node for node, inside in re.findall(r"^(G3FAX_[\d.]+) \{\n(.*?)^\}", open(exports).read(), re.M | re.S)
         for name in re.findall(r"g3_\w+", inside)}
lost = sorted(set(names) ^ set(nodes)) + [name for name in names if not find(library._handle, name.encode(), nodes.get(name, "").encode())]
major, minor, patch = map(int, version.split("."))
number = major * 10000 + minor * 100 + patch
if len(names) < 60 or lost:
    sys.exit(f"{len(names)} functions, of which aren't exported as from_header.py says: {lost}")
if f"#define G3_VERSION_NUMBER {number}\n" not in header or library.g3_version_number() != number:
    sys.exit(f"version {version} isn't {number} in the header and in the library")
if hasattr(library, "g3_core_free"):
    sys.exit("what is below the functions of the header is exported too")
ABI

if pkg=$(command -v pkg-config); then
    for line in Cflags Libs; do
        word=$(echo --$line | tr CL cl)
        given=$(PKG_CONFIG_PATH=$work/prefix/lib/pkgconfig "$pkg" $word g3fax | sed 's/ *$//')
        [ "$given" = "$(flags $line)" ] || fails "pkg-config $word gives $given"
    done
fi

# the words of these flags have no spaces of their own, unless TMPDIR has
# shellcheck disable=SC2046
"$kit/toolchain/bin/clang" -std=c11 -Wall -Wextra -Werror -O1 -fPIE -nostdinc -isystem "$top/bindings/include" $(flags Cflags) \
    -c "$top/bindings/c/encode.c" -o "$work/installed.o"
# shellcheck disable=SC2046
links shared $(flags Libs)
# shellcheck disable=SC2046
links static $(flags Libs | sed 's/-lg3fax/-l:libg3fax.a/')
codes static
status=0
"$work/shared" "$data/page.pbm" "$work/code" mmr msb 2> /dev/null || status=$?
[ "$status" = 127 ] || fails "shared wants no libg3fax.so.0: status $status"
LD_LIBRARY_PATH=$work/prefix/lib codes shared

# in C++ too; the header of the C library here is for C alone
printf 'extern "C" {\n#include <stdio.h>\n}\n#include "%s"\n' "$top/docs/man/examples/pages.c" > "$work/installed.cc"
# shellcheck disable=SC2046
"$kit/toolchain/bin/clang" -std=c++98 -Wall -Wextra -Werror -O1 -fPIE -nostdinc -isystem "$top/bindings/include" $(flags Cflags) \
    -c "$work/installed.cc" -o "$work/installed.o"
# shellcheck disable=SC2046
links c++ $(flags Libs)
[ "$(LD_LIBRARY_PATH=$work/prefix/lib "$work/c++")" = "done: 6 octets" ] || fails "the example in C++"

# in a root that has neither the kit nor these sources: the programs, the library and the C library alone
where="as it is"
if [ "$(id -u)" = 0 ] && command -v chroot ldd > /dev/null; then
    root=$work/root
    mkdir -p "$root/lib64" "$root/lib" "$root/tmp"
    cp "$work/static" "$work/shared" "$work/c++" "$work/prefix/lib/libg3fax.so.0" "$data/page.pbm" "$root/"
    cp /lib64/ld-linux-x86-64.so.2 "$root/lib64/"
    cp "$(ldd "$work/shared" | sed -n 's/.*libc.so.6 => \([^ ]*\).*/\1/p')" "$root/lib/"
    for name in static shared; do
        chroot "$root" /lib64/ld-linux-x86-64.so.2 --library-path /lib:/ "/$name" /page.pbm /code mmr msb || fails "$name in a root of its own: $?"
        cmp "$root/code" "$data/page.mmr.msb" || fails "$name in a root of its own codes otherwise"
        rm "$root/code"
    done
    [ "$(chroot "$root" /lib64/ld-linux-x86-64.so.2 --library-path /lib:/ /c++)" = "done: 6 octets" ] || fails "the example in C++ in a root of its own"
    where="also in a root without the kit"
fi
echo "installed: an example runs with the installed shared library and with the archive, by the flags of g3fax.pc, in C and C++, $where"
