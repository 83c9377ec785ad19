#!/bin/sh
# Packs what was built, and the sources, each as one file, in a folder:
#
#     packaging/tarball.sh FOLDER
#
# faxtool-VERSION-x86_64-linux.tar.gz, with VERSION+unproved of what was built without proof, has the tree that `make install` makes, and is unpacked anywhere: `tar -C /usr/local
# --strip-components=1 -xzf`. faxtool-VERSION-source.tar.gz has the sources, with the commit. SHA256SUMS has the sums of both, and of
# packages and a wheel that are there. Names are in order, and times, owners and modes are the same each time, so the same sources give
# the same octets. It needs GNU tar and gzip.
set -e
top=$(cd "$(dirname "$0")/.." && pwd)
. "$top/packaging/common.sh"
[ $# = 1 ] || { echo "usage: tarball.sh FOLDER" >&2; exit 2; }
needs tar gzip sha256sum python3
mkdir -p "$1"
to=$(cd "$1" && pwd)
version=$(cat "$top/VERSION") built=
cd "$top"
is_proved "${FAXTOOL:-crates/faxtool/out/faxtool}" "${G3FAX:-bindings/build}" || built=+unproved
time=$(epoch)
work=$(mktemp -d)
trap 'rm -rf "$work"' EXIT
umask 022

# packs NAME: the folder of the work folder as a file.
packs() {
    (cd "$work" && tar --sort=name --format=gnu --mtime="@$time" --owner=0 --group=0 --numeric-owner --mode=u=rwX,go=rX -cf - "$1") \
        | gzip -9n > "$work/$1.tar.gz"
    mv "$work/$1.tar.gz" "$to/"
    echo "$to/$1.tar.gz"
}

name=faxtool-$version$built-x86_64-linux
# the prefix of g3fax.pc is found from where it lies
PREFIX=/unpacked LIBDIR='' DESTDIR=$work "$top/packaging/install.sh" > /dev/null
mv "$work/unpacked" "$work/$name"
rm "$work/$name/share/doc/faxtool/INSTALLED"
# shellcheck disable=SC2016
sed -i 's|^prefix=.*|prefix=${pcfiledir}/../..|' "$work/$name/lib/pkgconfig/g3fax.pc"
# systemd looks for a program without a path in /usr/local/bin and /usr/bin
unit=$work/$name/lib/systemd/system/softfax@.service
[ ! -f "$unit" ] || sed -i 's|^ExecStart=/unpacked/bin/|ExecStart=|' "$unit"
packs "$name"

name=faxtool-$version-source
mkdir "$work/$name"
sources > "$work/sources"
(cd "$top" && tar -cf - --no-recursion --files-from="$work/sources") | tar -C "$work/$name" -xf -
commit > "$work/$name/COMMIT"
packs "$name"
(cd "$to" && find . -maxdepth 1 \( -name "*_${version}*_*.deb" -o -name "faxtool-$version*.tar.gz" \
    -o -name "g3fax-$version*.whl" \) | sed 's,^\./,,' | LC_ALL=C sort \
    | xargs -d '\n' sha256sum) > "$work/SHA256SUMS"
mv "$work/SHA256SUMS" "$to/SHA256SUMS"
