#!/bin/sh
# Installs what is built into a new folder and tries it there, and packs it: `make install` and `make uninstall`, the command lines of the
# README in the installed examples, an example in C, tarballs that are the same twice, and Debian's packages where its tools are. Holds
# docs/PROOF.md against the kit and the built files. Ends with status 1 at the first difference.
#
#     .ci/packages.sh [--share installed|packed]
#
# With --share the packages are tried alone, or all but them. The program and the library are those that .ci/run has proved and built;
# FAXTOOL and G3FAX name others, as for `make install`. It needs the kit, GNU tar and Python's standard library; what it doesn't find of
# make, cc, pkg-config and dpkg it names, and leaves that out.
set -e
top=$(cd "$(dirname "$0")/.." && pwd)
cd "$top"
case ${1-}${2-} in
'') tried="refused install program library packed" said_too="installed and removed with nothing left; packed twice, the same octets" ;;
--shareinstalled) tried="refused install program library" said_too="installed and removed with nothing left" ;;
--sharepacked) tried=packed said_too="packed twice, the same octets" ;;
*) echo "usage: packages.sh [--share installed|packed]" >&2; exit 2 ;;
esac
work=$(mktemp -d)
trap 'rm -rf "$work"' EXIT
# a folder with a space, since nothing must depend on there being none
to="$work/a folder"
mkdir "$to"

fails() {
    echo "packages: FAILED: $*" >&2
    exit 1
}

# makes WORDS: make does it.
makes() {
    make -s "$@" > "$work/said" 2>&1 || { cat "$work/said" >&2; fails "make $*"; }
}

# refuses TEXT WORDS: make ends with a status above 0, says the text, and leaves the folder empty.
refuses() {
    text=$1
    shift
    ! make -s "$@" DESTDIR="$to" > "$work/said" 2>&1 || fails "make $* isn't refused"
    grep -qF -e "$text" "$work/said" || { cat "$work/said" >&2; fails "make $* doesn't say: $text"; }
    is_empty "after make $*"
}

# is_empty WORDS: nothing is in the folder.
is_empty() {
    left=$(find "$to" -mindepth 1 | head -5)
    [ -z "$left" ] || fails "$1 this is left: $left"
}

# is_same FILE WANTED WORDS: the file has the octets of the other one.
is_same() {
    difference=$(cmp "$1" "$2" 2>&1) || fails "$3: other octets: $difference"
}

# try_install: install, install again, uninstall; a folder that isn't the install's own stays.
try_install() {
    odd='/opt/a & b|100%'
    mkdir -p "$to/usr/share/doc" "$to/usr/bin"
    echo mine > "$to/usr/bin/mine"
    makes install DESTDIR="$to" PREFIX=/usr
    (cd "$to" && find . | LC_ALL=C sort) > "$work/first"
    makes install DESTDIR="$to" PREFIX=/usr
    (cd "$to" && find . | LC_ALL=C sort) > "$work/second"
    is_same "$work/second" "$work/first" "a second install"
    makes uninstall DESTDIR="$to" PREFIX=/usr
    [ "$(cd "$to" && find . ! -type d) $(cd "$to" && find . -type d | wc -l)" = "./usr/bin/mine 5" ] || fails "uninstall left or took too much"
    rm -r "${to:?}/usr"
    makes install DESTDIR="$to" LIBDIR=/usr/local/lib64
    [ -f "$to/usr/local/lib64/pkgconfig/g3fax.pc" ] || fails "LIBDIR isn't heeded"
    makes uninstall DESTDIR="$to"
    is_empty "after make uninstall"
    makes install DESTDIR="$to" PREFIX="$odd"
    unit=$to$odd/lib/systemd/system/softfax@.service
    [ ! -f "$unit" ] || grep -qF 'ExecStart="/opt/a & b|100%%/bin/softfax" --tty /dev/%I ' "$unit" ||
        fails "the unit runs another program: $(grep ExecStart "$unit")"
    makes uninstall DESTDIR="$to" PREFIX="$odd"
    is_empty "after make uninstall of $odd"
}

# try_refused: what can't be installed, and leaves nothing.
try_refused() {
    refuses "$work/missing/libg3fax.so.0" install G3FAX="$work/missing"
    refuses "$work/missing" install FAXTOOL="$work/missing"
    refuses "not a path from the root" install PREFIX=usr
    refuses "is missing: nothing is installed there" uninstall
}

# try_program: the installed program, on the README's command lines in the installed examples, and the installed documents' links.
try_program() {
    makes install DESTDIR="$to" PREFIX=/usr
    mkdir -p "$work/try/.ci" "$work/try/docs"
    cp .ci/sessions.py "$work/try/.ci/"
    docs="$to/usr/share/doc/faxtool"
    cp -r "$docs/examples" "$work/try/docs/examples"
    commands=$("$work/try/.ci/sessions.py" "$to/usr/bin/faxtool" "$docs/README.md" "$docs/docs/USING.md") || fails "the installed program"
    "$to/usr/bin/faxtool" version > "$work/said" || fails "faxtool version ended with status $?"
    [ "$(cat "$work/said")" = "$said" ] || fails "the installed program has version $(cat "$work/said")"
    [ -s "$docs/COMMIT" ] || fails "there is no commit"
    [ -s "$docs/book/index.html" ] || fails "there is no book"
    leads "$to/usr/share/doc"
}

# leads FOLDER: each link of a document in the folder leads to a file.
leads() {
    python3 - "$1" << 'LINKS' || fails "links of installed documents"
import re
import sys
from pathlib import Path

lost = [
    f"{page}: {link}"
    for page in Path(sys.argv[1]).rglob("*.md")
    for link in re.findall(r"\]\(([^)#:]+)(?:#[^)]*)?\)", page.read_text())
    if not (page.parent / link).exists()
]
sys.exit("\n".join(lost) or 0)
LINKS
}

# try_library: an installed example in C, with the flags of the installed g3fax.pc, and softfax over plain bits.
try_library() {
    for word in cc pkg-config; do
        command -v $word > /dev/null || { echo "packages: no $word, so no example in C was built"; return; }
    done
    docs="$to/usr/share/doc" lib="$to/usr/lib"
    flags=$(PKG_CONFIG_LIBDIR=$lib/pkgconfig PKG_CONFIG_ALLOW_SYSTEM_CFLAGS=1 PKG_CONFIG_ALLOW_SYSTEM_LIBS=1 pkg-config --cflags --libs g3fax)
    [ "${flags% }" = "-I/usr/include -L/usr/lib -lg3fax" ] || fails "pkg-config gives $flags"
    cc -std=c11 -Wall -Wextra -Werror -O1 -o "$work/encode" "$docs/g3fax/c/encode.c" -I"$to/usr/include" -L"$lib" -lg3fax \
        || fails "the installed example isn't built"
    LD_LIBRARY_PATH=$lib "$work/encode" "$docs/faxtool/examples/page.pbm" "$work/code" mmr msb || fails "the installed example"
    is_same "$work/code" .ci/data/page.mmr.msb "the installed example"
    # softfax over bits, which wants no modems, as it is installed: by pkg-config, in a folder without spaces
    cp -r "$to" "$work/root"
    PKG_CONFIG_SYSROOT_DIR=$work/root PKG_CONFIG_LIBDIR=$work/root/usr/lib/pkgconfig PKG_CONFIG_ALLOW_SYSTEM_CFLAGS=1 \
        PKG_CONFIG_ALLOW_SYSTEM_LIBS=1 make -s -C "$work/root/usr/share/doc/g3fax/c/softfax" OUT="$work/soft" CFLAGS=-O1 bits-test softfax \
        > "$work/said" 2>&1 || { cat "$work/said" >&2; fails "the installed softfax isn't built"; }
    LD_LIBRARY_PATH=$lib "$work/soft/bits-test" > "$work/said" || { cat "$work/said" >&2; fails "the installed softfax over bits"; }
    LD_LIBRARY_PATH=$lib packaging/try_softfax.sh "$work/soft/softfax" > "$work/said" 2>&1 || { cat "$work/said" >&2; fails "softfax"; }
    [ ! -f "$to/usr/bin/softfax" ] || packaging/try_softfax.sh "$to/usr/bin/softfax" > "$work/said" 2>&1 \
        || { cat "$work/said" >&2; fails "the installed program softfax"; }
    # each option of its usage is in its man page
    for option in $("$work/soft/softfax" 2>&1 | grep -o -e '--[a-z-]*'); do
        sed 's/\\//g' docs/man/softfax.1 | grep -qF -e "$option" || fails "docs/man/softfax.1 has no $option"
    done
}

# try_packed: the tarballs and the packages are the same twice; the packages are tried.
try_packed() {
    debian=yes
    for word in dpkg dpkg-deb strip readelf cc pkg-config; do
        command -v $word > /dev/null || { echo "packages: no $word, so no package for Debian was made"; debian=; break; }
    done
    for out in "$work/out" "$work/again"; do
        [ -z "$debian" ] || packaging/deb.sh "$out" > "$work/said" 2>&1 || { cat "$work/said" >&2; fails "packaging/deb.sh"; }
        packaging/tarball.sh "$out" > "$work/said" 2>&1 || { cat "$work/said" >&2; fails "packaging/tarball.sh"; }
    done
    for file in "$work/out"/*; do is_same "$work/again/${file##*/}" "$file" "packed twice: ${file##*/}"; done
    (cd "$work/out" && sha256sum --quiet -c SHA256SUMS) || fails "SHA256SUMS"
    mkdir "$work/unpacked"
    tar -C "$work/unpacked" --strip-components=1 -xzf "$work/out/faxtool-$(cat VERSION)$built-x86_64-linux.tar.gz"
    is_same "$work/unpacked/bin/faxtool" "${FAXTOOL:-crates/faxtool/out/faxtool}" "the program of the tarball"
    ! grep -rn /unpacked/ "$work/unpacked/lib" || fails "the tarball knows the folder that it was gathered in"
    if command -v pkg-config > /dev/null; then
        folder=$(PKG_CONFIG_LIBDIR=$work/unpacked/lib/pkgconfig pkg-config --variable=includedir g3fax)
        is_same "$folder/g3fax.h" "${G3FAX:-bindings/build}/g3fax.h" "the header by the tarball's g3fax.pc"
    fi
    if [ -n "$debian" ]; then
        if [ "$(id -u)" = 0 ] || command -v fakeroot > /dev/null; then
            packaging/try_deb.sh "$work/out" || fails "packaging/try_deb.sh"
        else
            echo "packages: no fakeroot, so the packages for Debian weren't tried"
        fi
    fi
}

packaging/trust.py --check
command -v make > /dev/null || { echo "packages: not run, there is no make"; exit 0; }
[ -n "$FAXTOOL$G3FAX" ] || packaging/build.sh --built > "$work/said" 2>&1 || { cat "$work/said" >&2; fails "packaging/build.sh --built"; }
# what is built without proof says so
. packaging/common.sh
said=$(cat VERSION) built=
is_proved "${FAXTOOL:-crates/faxtool/out/faxtool}" "${G3FAX:-bindings/build}" || said="$said, built without proof" built=+unproved
for what in $tried; do "try_$what"; done
echo "packages: $said_too${commands:+; $commands command lines in the installed examples}"
