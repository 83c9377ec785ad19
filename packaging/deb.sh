#!/bin/sh
# Packs what was built for Debian and its kin, in a folder:
#
#     packaging/deb.sh FOLDER
#
# Five packages: faxtool, libg3fax0 (the shared library), libg3fax-dev, python3-g3fax and, if it was built, softfax. Programs that were built
# without proof make packages of version VERSION+unproved that say so. Each needs the C library that its files ask for
# by their versioned symbols; the module for Python needs its own version of the shared library. Symbols that nothing wants at run time
# are taken out of the program and the shared library. The same sources and tools give the same octets. It needs dpkg-deb and binutils;
# where lintian is there, its errors are refused.
set -e
top=$(cd "$(dirname "$0")/.." && pwd)
. "$top/packaging/common.sh"
[ $# = 1 ] || { echo "usage: deb.sh FOLDER" >&2; exit 2; }
needs dpkg-deb strip readelf gzip md5sum python3
mkdir -p "$1"
to=$(cd "$1" && pwd)
program=${FAXTOOL:-crates/faxtool/out/faxtool}
library=${G3FAX:-bindings/build}
cd "$top"
version=$(cat "$top/VERSION") proved=", proved" checked="Each of its functions has a contract that a prover has checked."
is_proved "$program" "$library" || {
    version=$version+unproved proved=", built without proof" checked="It was built without proof: no prover has checked it."
}
SOURCE_DATE_EPOCH=$(epoch)
export SOURCE_DATE_EPOCH
who="Badrejmo maintainers <maintainers@users.noreply.badrejmo.example>"
triplet=x86_64-linux-gnu
libdir=/usr/lib/$triplet
work=$(mktemp -d)
trap 'rm -rf "$work"' EXIT
umask 022

# wants FILE: the packages that a program or a shared library asks for: the C library, of the least version that has its symbols, and
# libspandsp.
wants() {
    needed=$(readelf -W -d "$1" | sed -n 's/.*(NEEDED).*\[\(.*\)\]/\1/p')
    other=$(echo "$needed" | grep -vx -e 'libc\.so\.6' -e 'libm\.so\.6' -e 'libspandsp\.so\.2' || true)
    [ -z "$other" ] || ends "$1 asks for a library that no dependency is known of: $other"
    least=$(readelf -W -V "$1" | grep -o 'Name: GLIBC_[0-9.]*' | sed 's/.*_//' | sort -t . -k 1,1n -k 2,2n -k 3,3n | tail -n 1)
    more=
    if echo "$needed" | grep -qx 'libspandsp\.so\.2'; then
        mkdir -p "$work/shlibs/debian"
        printf 'Source: faxtool\n\nPackage: softfax\nArchitecture: amd64\n' > "$work/shlibs/debian/control"
        # of the version that has its symbols, if dpkg-dev is there to say so
        more=", $( (cd "$work/shlibs" && dpkg-shlibdeps -O "$1" 2> /dev/null) | grep -o 'libspandsp2[^,]*' || echo libspandsp2)"
    fi
    echo "libc6${least:+ (>= $least)}$more"
}

# takes PACKAGE PATH..: the package has these of the installed files.
takes() {
    package=$1
    shift
    for path in "$@"; do
        mkdir -p "$work/$package${path%/*}"
        mv "$work/stage$path" "$work/$package${path%/*}/"
    done
}

# copyright: what Debian wants to read of the licences.
copyright() {
    echo "Format: https://www.debian.org/doc/packaging-manuals/copyright-format/1.0/"
    echo
    echo "Files: *"
    echo "Copyright: $(sed -n 's/^Copyright (c) //p' "$top/LICENSE-MIT")"
    echo "License: Expat or Apache-2.0"
    echo
    echo "License: Expat"
    sed -n '/^Permission/,$p' "$top/LICENSE-MIT" | sed 's/^$/./; s/^/ /'
    echo
    echo "License: Apache-2.0"
    echo " The text of this licence is in /usr/share/common-licenses/Apache-2.0."
}

# documents PACKAGE: what each package has beside its files.
documents() {
    docs=$work/$1/usr/share/doc/$1
    mkdir -p "$docs"
    copyright > "$docs/copyright"
    {
        printf 'faxtool (%s) unstable; urgency=medium\n\n' "$version"
        printf '  * The changes are in CHANGELOG.md of the package faxtool and of the sources.\n\n'
        printf ' -- %s  %s\n' "$who" "$(LC_ALL=C date -u -R -d "@$SOURCE_DATE_EPOCH")"
    } | gzip -9n > "$docs/changelog.gz"
    [ -f "$docs/COMMIT" ] || cp "$work/COMMIT" "$docs/"
}

# control PACKAGE SECTION DEPENDS MORE [ARCHITECTURE]: what dpkg reads of it; MORE has further lines, and the text comes on standard input.
control() {
    folder=$work/$1
    mkdir -p "$folder/DEBIAN"
    size=$(du -k -s --apparent-size --exclude=DEBIAN "$folder" | cut -f 1)
    {
        printf 'Package: %s\nSource: faxtool\nVersion: %s\nArchitecture: %s\nMaintainer: %s\n' "$1" "$version" "${5:-amd64}" "$who"
        printf 'Installed-Size: %s\nDepends: %s\nSection: %s\nPriority: optional\n%s' "$size" "$3" "$2" "$4"
        cat
    } > "$folder/DEBIAN/control"
    (cd "$folder" && find usr -type f | LC_ALL=C sort | xargs -d '\n' md5sum > DEBIAN/md5sums)
    find "$folder" -exec touch -h -d "@$SOURCE_DATE_EPOCH" {} +
    dpkg-deb --root-owner-group -Zxz --build "$folder" "$to/$1_${version}_${5:-amd64}.deb" > /dev/null
}

# page FILE: the page of trust, with the sums of the built files and of those in the packages too.
page() {
    "$top/packaging/trust.py" --package "faxtool=$program" "libg3fax.a=$library/libg3fax.a" "libg3fax.so.0=$library/libg3fax.so.0" \
        "stripped faxtool=$work/faxtool/usr/bin/faxtool" "stripped libg3fax.so.0=$work/libg3fax0$libdir/libg3fax.so.0" > "$1"
    marks "$1" "$program" "$library"
}

PREFIX=/usr LIBDIR=$libdir DESTDIR=$work/stage "$top/packaging/install.sh" > /dev/null
share=/usr/share
rm "$work/stage$share/doc/faxtool/INSTALLED"
cp "$work/stage$share/doc/faxtool/COMMIT" "$work/COMMIT"
gzip -9n "$work/stage$share/man/man1"/*.1 "$work/stage$share/man/man3"/*.3
mkdir -p "$work/stage$share/zsh/vendor-completions"
mv "$work/stage$share/zsh/site-functions/_faxtool" "$work/stage$share/zsh/vendor-completions/"
mv "$work/stage$share/doc/g3fax" "$work/stage$share/doc/libg3fax-dev"
module=/usr/lib/python3/dist-packages/g3fax
mkdir -p "${work}/stage${module%/*}"
mv "$work/stage$share/doc/libg3fax-dev/python/g3fax" "$work/stage$module"
rmdir "$work/stage$share/doc/libg3fax-dev/python"
packages="faxtool libg3fax0 libg3fax-dev python3-g3fax" others="libg3fax0 libg3fax-dev python3-g3fax"
if [ -f "$work/stage/usr/bin/softfax" ]; then
    packages="$packages softfax" others="$others softfax"
    takes softfax /usr/bin/softfax $share/softfax $share/man/man1/softfax.1.gz /usr/lib/systemd/system/softfax@.service
    strip --strip-all "$work/softfax/usr/bin/softfax"
fi
takes faxtool /usr/bin/faxtool $share/man/man1 $share/bash-completion/completions/faxtool $share/zsh/vendor-completions/_faxtool \
    $share/fish/vendor_completions.d/faxtool.fish $share/doc/faxtool
takes libg3fax0 $libdir/libg3fax.so.0
takes libg3fax-dev /usr/include/g3fax.h $libdir/libg3fax.a $libdir/libg3fax.so $libdir/pkgconfig/g3fax.pc $share/man/man3 \
    $share/doc/libg3fax-dev
takes python3-g3fax $module
[ -z "$(find "$work/stage" ! -type d)" ] || ends "in no package: $(cd "$work/stage" && find . ! -type d | tr '\n' ' ')"
strip --strip-all "$work/faxtool/usr/bin/faxtool"
strip --strip-unneeded "$work/libg3fax0$libdir/libg3fax.so.0"
chmod 644 "$work/libg3fax0$libdir/libg3fax.so.0"
for package in $packages; do documents $package; done
page "$work/faxtool$share/doc/faxtool/docs/PROOF.md"
# in the other packages the page leads to the documents of the package faxtool
for package in $others; do
    cp "$work/faxtool$share/doc/faxtool/public_clauses.txt" "$work/$package$share/doc/$package/"
    sed -e 's,](\.\./public_clauses\.txt),](public_clauses.txt),' -e 's,](\.\./README,](../faxtool/README,g' \
        -e 's,](\([A-Z]*\.md\)),](../faxtool/docs/\1),g' "$work/faxtool$share/doc/faxtool/docs/PROOF.md" > "$work/$package$share/doc/$package/PROOF.md"
done
# the licences are in the file copyright
rm "$work/faxtool$share/doc/faxtool"/LICENSE-*

control faxtool comm "$(wants "$work/faxtool/usr/bin/faxtool")" "" << TEXT
Description: Group 3 fax pages, frames and calls$proved
 faxtool codes images as fax pages of ITU-T T.4 and T.6, shows, decodes and
 repairs such pages, lists the HDLC frames in a capture of a line, runs calls
 of T.30 over a simulated line, and is one end of a call for a program that
 has a modem.
 $checked
 .
 It needs a processor of x86-64-v2, which has SSE4.2.
TEXT
mkdir -p "$work/libg3fax0/DEBIAN"
echo "activate-noawait ldconfig" > "$work/libg3fax0/DEBIAN/triggers"
echo "libg3fax 0 libg3fax0 (>= $version)" > "$work/libg3fax0/DEBIAN/shlibs"
control libg3fax0 libs "$(wants "$work/libg3fax0$libdir/libg3fax.so.0")" "Multi-Arch: same
" << TEXT
Description: Group 3 fax pages and frames for C$proved: shared library
 libg3fax has page codes of ITU-T T.4 and T.6, raw PBM in memory, salvage and
 repair of broken pages, and HDLC frames. It opens no file and keeps no state
 of its own.
 $checked
 .
 It needs a processor of x86-64-v2, which has SSE4.2.
TEXT
control libg3fax-dev libdevel "libg3fax0 (= $version)" "Multi-Arch: same
" << TEXT
Description: Group 3 fax pages and frames for C$proved: header and archive
 libg3fax has page codes of ITU-T T.4 and T.6, raw PBM in memory, salvage and
 repair of broken pages, and HDLC frames.
 $checked
 .
 This package has the header g3fax.h, the archive libg3fax.a, g3fax.pc for
 pkg-config, and examples.
TEXT
mkdir -p "$work/python3-g3fax/DEBIAN"
# removes what Python compiles the module to if someone who may write there imports it
# shellcheck disable=SC2016
printf '#!/bin/sh\nset -e\nrm -rf "$DPKG_ROOT%s/__pycache__"\n' "$module" > "$work/python3-g3fax/DEBIAN/prerm"
chmod 755 "$work/python3-g3fax/DEBIAN/prerm"
control python3-g3fax python "python3 (>= 3.8), libg3fax0 (>= $version)" "" all << TEXT
Description: Group 3 fax pages and frames for Python
 g3fax has page codes of ITU-T T.4 and T.6, raw PBM in memory, salvage and
 repair of broken pages, HDLC frames, and the stations of a call, by libg3fax.
 Pages go in and out as packed rows or pixels, and as images of PIL.
 .
 Of the library: $checked
TEXT
case $packages in
*softfax)
    control softfax comm "$(wants "$work/softfax/usr/bin/softfax")" "Suggests: faxtool, unifont
" << TEXT
Description: Group 3 fax terminal behind a Class 1 modem
 softfax sends and answers faxes by a modem on a tty that speaks Class 1, one
 call or all calls of a line, and over streams of sound if libspandsp was there
 when it was built. It is a program in C over libg3fax, tested and not proved.
 .
 Of the library in it: $checked
TEXT
    ;;
esac
set -- "$to/faxtool_${version}_amd64.deb" "$to/libg3fax0_${version}_amd64.deb" "$to/libg3fax-dev_${version}_amd64.deb" \
    "$to/python3-g3fax_${version}_all.deb"
[ ! -d "$work/softfax" ] || set -- "$@" "$to/softfax_${version}_amd64.deb"
if command -v lintian > /dev/null; then
    lintian --fail-on error "$@" > "$work/said" 2>&1 || { cat "$work/said" >&2; ends "lintian refuses a package"; }
fi
printf '%s\n' "$@"
