#!/bin/sh
# Installs the packages that packaging/deb.sh left in a folder into a fresh root, tries them there, removes them, and shows that nothing
# is left:
#
#     packaging/try_deb.sh FOLDER
#
# The root is a new folder with a list of packages of its own, in which the C library stands as this machine has it, and Python; dpkg
# installs there by --root, so nothing else of the machine changes. Tried are: the command lines of the README and of docs/USING.md in the
# installed examples, the man pages, the completion, an example in C that is built by pkg-config with the shared library and with the
# archive, and the module for Python. It needs dpkg, pkg-config, cc, python3, and fakeroot where it isn't run as root. Ends with status 1
# at the first difference.
set -e
# dpkg wants ldconfig and start-stop-daemon on the path, also of one who has no sbin on it
PATH="$PATH:/usr/local/sbin:/usr/sbin:/sbin"
top=$(cd "$(dirname "$0")/.." && pwd)
. "$top/packaging/common.sh"
[ $# = 1 ] || { echo "usage: try_deb.sh FOLDER" >&2; exit 2; }
needs dpkg dpkg-query pkg-config cc python3
from=$(cd "$1" && pwd)
version=$(cat "$top/VERSION") said=$(cat "$top/VERSION") pc=$(cat "$top/VERSION")
[ ! -f "$from/faxtool_$version+unproved_amd64.deb" ] || version=$version+unproved said="$said, built without proof"
soft=
[ ! -f "$from/softfax_${version}_amd64.deb" ] || soft=softfax
libdir=/usr/lib/x86_64-linux-gnu
work=$(mktemp -d)
trap 'rm -rf "$work"' EXIT
root=$work/root
fakeroot=
if [ "$(id -u)" != 0 ]; then
    needs fakeroot
    fakeroot="fakeroot --"
    PATH=$PATH:/usr/sbin:/sbin
fi

# dpkgs WORDS: dpkg works on the root, and says nothing but what it does.
dpkgs() {
    # shellcheck disable=SC2086
    $fakeroot dpkg --root="$root" --force-script-chrootless --log=/dev/null "$@" > "$work/said" 2>&1 || { cat "$work/said" >&2; ends "dpkg $1"; }
    ! grep -i warning "$work/said" >&2 || ends "dpkg $1 has a warning"
}

# files: what is in the root, without dpkg's own.
files() {
    (cd "$root" && find . -mindepth 1 ! -path './var/lib/dpkg/*' | LC_ALL=C sort)
}

# is_same FILE WANTED WORDS: the file has the octets of the other one.
is_same() {
    difference=$(cmp "$1" "$2" 2>&1) || ends "$3: other octets: $difference"
}

# builds NAME FLAGS: the installed example that codes a page, by these flags alone; it codes as another program does.
builds() {
    name=$1
    shift
    cc -std=c11 -Wall -Wextra -Werror -O1 -o "$work/$name" "$root/usr/share/doc/libg3fax-dev/c/encode.c" "$@" \
        || ends "the example isn't built: $*"
    LD_LIBRARY_PATH=$root$libdir "$work/$name" "$root/usr/share/doc/faxtool/examples/page.pbm" "$work/code" mmr msb \
        || ends "the example, $name: status $?"
    is_same "$work/code" "$root/usr/share/doc/faxtool/examples/page.mmr" "the example, $name"
}

for package in faxtool_${version}_amd64 libg3fax0_${version}_amd64 libg3fax-dev_${version}_amd64 python3-g3fax_${version}_all; do
    [ -f "$from/$package.deb" ] || ends "$from/$package.deb is missing: run packaging/deb.sh"
done
mkdir -p "$root/var/lib/dpkg/info" "$root/var/lib/dpkg/updates" "$root/var/lib/dpkg/triggers"
stands_for() { # stands_for PACKAGE VERSION TEXT: a package of this machine that the root has
    printf 'Package: %s\nStatus: install ok installed\nArchitecture: amd64\nMaintainer: none <none@example>\nVersion: %s\n' "$1" "$2"
    printf 'Description: %s of this machine\n\n' "$3"
    echo /. > "$root/var/lib/dpkg/info/$1.list"
}
base="libc6 python3 "
{ dpkg-query -s libc6 | sed 's/^\(Pre-\)*Depends:.*//' | sed '/^$/d'; echo
    stands_for python3 "$(python3 -c 'import platform; print(platform.python_version())')" "the Python"
    spandsp=$(dpkg-query -W -f '${Version}' libspandsp2 2> /dev/null || true)
    [ -z "$spandsp" ] || stands_for libspandsp2 "$spandsp" "the modems"
} > "$root/var/lib/dpkg/status"
[ ! -f "$root/var/lib/dpkg/info/libspandsp2.list" ] || base="libc6 libspandsp2 python3 "
echo /. > "$root/var/lib/dpkg/info/libc6:amd64.list"
files > "$work/before"

# the shared library first, since the others may need it
dpkgs --install "$from/libg3fax0_${version}_amd64.deb" "$from/libg3fax-dev_${version}_amd64.deb" "$from/faxtool_${version}_amd64.deb" \
    "$from/python3-g3fax_${version}_all.deb" ${soft:+"$from/softfax_${version}_amd64.deb"}
dpkgs --verify
files > "$work/installed"
for package in faxtool libg3fax0 libg3fax-dev python3-g3fax $soft; do
    [ "$(dpkg-query --root="$root" -W -f '${db:Status-Status}' $package 2> /dev/null)" = installed ] || ends "$package isn't installed"
    case $version in
    *+unproved) [ -n "$(dpkg-query --root="$root" -W -f '${Description}' $package | grep 'built without proof')" ] ;;
    *) [ -z "$(dpkg-query --root="$root" -W -f '${Description}' $package | grep 'without proof')" ] ;;
    esac || ends "$package doesn't say whether it is proved"
    [ -z "$(find "$root/usr/share/doc/$package" -name COMMIT -empty)" ] || ends "$package has no commit"
    [ -n "$(find "$root/usr/share/doc/$package" -name PROOF.md)" ] || ends "$package has no PROOF.md"
done

# each link of an installed document leads to a file, but those to licences, which are in the file copyright
python3 - "$root/usr/share/doc" << 'LINKS' || ends "links of installed documents"
import re
import sys
from pathlib import Path

lost = [
    f"{page}: {link}"
    for page in Path(sys.argv[1]).rglob("*.md")
    for link in re.findall(r"\]\(([^)#:]+)(?:#[^)]*)?\)", page.read_text())
    if not (page.parent / link).exists() and not link.startswith("LICENSE-")
]
sys.exit("\n".join(lost) or 0)
LINKS

# README's command lines, in the installed examples; they are run as the gate runs them
mkdir -p "$work/try/.ci" "$work/try/docs"
cp "$top/.ci/sessions.py" "$work/try/.ci/"
cp -r "$root/usr/share/doc/faxtool/examples" "$work/try/docs/examples"
commands=$("$work/try/.ci/sessions.py" "$root/usr/bin/faxtool" "$root/usr/share/doc/faxtool/README.md" \
    "$root/usr/share/doc/faxtool/docs/USING.md") || ends "a command line of a document"
[ "$commands" -gt 20 ] || ends "the documents have $commands commands alone"
"$root/usr/bin/faxtool" version > "$work/said" || ends "faxtool version: status $?"
[ "$(cat "$work/said")" = "$said" ] || ends "faxtool version"
"$root/usr/bin/faxtool" version --proof > "$work/said" || ends "faxtool version --proof: status $?"
case $version in
*+unproved) grep -q "built without proof" "$work/said" && grep -q "were built without proof" "$root/usr/share/doc/faxtool/docs/PROOF.md" ;;
*) grep -qxF "$(cat "$work/said")" "$root/usr/share/doc/faxtool/docs/PROOF.md" ;;
esac || ends "faxtool version --proof"

if command -v man > /dev/null; then
    for page in "$root"/usr/share/man/man1/*.1.gz "$root"/usr/share/man/man3/*.3.gz; do
        name=$(basename "${page%.[13].gz}")
        MANPATH=$root/usr/share/man man "$name" 2> "$work/error" > "$work/page" || ends "man $name"
        grep -q "^NAME" "$work/page" || ends "man $name shows no page"
        [ ! -s "$work/error" ] || ends "man $name has a warning"
    done
fi
if command -v bash > /dev/null; then
    shown=$(bash -c '. "$1" && COMP_WORDS=(faxtool de) COMP_CWORD=1 && _faxtool && echo "${COMPREPLY[@]}"' bash \
        "$root/usr/share/bash-completion/completions/faxtool")
    [ "$shown" = decode ] || ends "the completion gives: $shown"
fi

# the library for C, by the flags of the installed g3fax.pc
pkg() {
    PKG_CONFIG_SYSROOT_DIR=$root PKG_CONFIG_LIBDIR=$root$libdir/pkgconfig PKG_CONFIG_ALLOW_SYSTEM_CFLAGS=1 \
        PKG_CONFIG_ALLOW_SYSTEM_LIBS=1 pkg-config "$@" g3fax
}
[ "$(pkg --modversion)" = "$pc" ] || ends "g3fax.pc has another version"
# the words of these flags have no spaces of their own, unless TMPDIR has
# shellcheck disable=SC2046
builds shared $(pkg --cflags --libs)
# shellcheck disable=SC2046
builds static $(pkg --cflags --libs | sed 's/-lg3fax/-l:libg3fax.a/')
ldd "$work/shared" | grep -q 'libg3fax\.so\.0' || ends "the example doesn't want libg3fax.so.0"
! ldd "$work/static" | grep -q g3fax || ends "the example wants libg3fax though it has the archive"

# softfax is built by those flags too, in the folder where its sources are; the installed one refuses numbers that would be commands, says that
# a modem is busy, answers on a pty, over modems of a program that is built there too, and with sound two of it carry a page
if [ -n "$soft" ]; then
    PKG_CONFIG_SYSROOT_DIR=$root PKG_CONFIG_LIBDIR=$root$libdir/pkgconfig PKG_CONFIG_ALLOW_SYSTEM_CFLAGS=1 \
        PKG_CONFIG_ALLOW_SYSTEM_LIBS=1 make -s -C "$root/usr/share/doc/libg3fax-dev/c/softfax" OUT="$work/soft" CFLAGS=-O1 softfax ptys \
        || ends "softfax isn't built from the installed library"
    LD_LIBRARY_PATH=$root$libdir "$top/packaging/try_softfax.sh" "$work/soft/softfax" || ends "softfax of the installed sources"
    # it is the packages' program that answers, and it needs no libg3fax; the modems' program does
    printf '#!/bin/sh\nLD_LIBRARY_PATH="%s" exec "%s" "$@"\n' "$root$libdir" "$work/soft/ptys" > "$work/modems"
    chmod +x "$work/modems"
    "$top/packaging/try_softfax.sh" "$root/usr/bin/softfax" "$work/modems" || ends "the installed softfax"
    if command -v systemd-analyze > /dev/null; then
        mkdir "$work/units"
        sed "s,=/usr/bin/,=$root/usr/bin/," "$root/usr/lib/systemd/system/softfax@.service" > "$work/units/softfax@.service"
        systemd-analyze --man=no verify "$work/units/softfax@ttyS0.service" > "$work/said" 2>&1 || { cat "$work/said" >&2; ends "the unit"; }
        [ ! -s "$work/said" ] || { cat "$work/said" >&2; ends "the unit has a warning"; }
    fi
fi

# the module for Python finds the installed library; what Python compiles it to goes with the package
(cd "$work" && PYTHONPATH=$root/usr/lib/python3/dist-packages LD_LIBRARY_PATH=$root$libdir python3 -W error -c '
import g3fax, pathlib, sys
with g3fax.Page.read_pbm(pathlib.Path(sys.argv[1]).read_bytes()) as page:
    sys.stdout.buffer.write(page.encode())' "$root/usr/share/doc/faxtool/examples/page.pbm") > "$work/code" \
    || ends "the module for Python: status $?"
is_same "$work/code" "$root/usr/share/doc/faxtool/examples/page.mmr" "the module for Python"
[ -d "$root/usr/lib/python3/dist-packages/g3fax/__pycache__" ] || [ -n "$PYTHONDONTWRITEBYTECODE" ] || ends "Python compiled no module"

# what the packages say that they need is what Debian's own tool finds
if command -v dpkg-shlibdeps > /dev/null; then
    mkdir -p "$work/shlibs/debian"
    printf 'Source: faxtool\n\nPackage: faxtool\nArchitecture: amd64\n' > "$work/shlibs/debian/control"
    for pair in "faxtool /usr/bin/faxtool" "libg3fax0 $libdir/libg3fax.so.0" ${soft:+"softfax /usr/bin/softfax"}; do
        found=$(cd "$work/shlibs" && dpkg-shlibdeps -O "$root${pair#* }" 2> "$work/error" | sed 's/^shlibs:Depends=//')
        said=$(dpkg-query --root="$root" -W -f '${Depends}' "${pair%% *}")
        [ "$found" = "$said" ] || ends "${pair%% *} needs $found and says $said"
    done
fi

# a second install over the first, and the end
dpkgs --install "$from/faxtool_${version}_amd64.deb"
files | grep -v __pycache__ | cmp - "$work/installed" || ends "a second install leaves other files"
dpkgs --purge python3-g3fax libg3fax-dev libg3fax0 faxtool $soft
files > "$work/after"
is_same "$work/after" "$work/before" "what is left in the root"
left=$(dpkg-query --root="$root" -W -f '${Package} ')
[ "$left" = "$base" ] || ends "dpkg still lists $left"
echo "try_deb: installed, $commands command lines, two C examples, the module for Python, and nothing left of $(wc -l < "$work/installed") files and folders"
