#!/bin/sh
# Installs the program and the library for C, which are built already; `make install` calls it, and `make uninstall` with --uninstall:
#
#     PREFIX=/usr DESTDIR=FOLDER packaging/install.sh [--uninstall]
#
# The variables are those of the Makefile. All files are first gathered in a temporary folder, so nothing is written where something is
# missing. share/doc/faxtool/INSTALLED lists what was made; --uninstall removes that, and each folder that is empty then and was not there
# before. A second install removes what the first one made and it has no more.
set -e
top=$(cd "$(dirname "$0")/.." && pwd)
. "$top/packaging/common.sh"
cd "$top"
prefix=$(printf '%s\n' "${PREFIX-/usr/local}" | sed 's,//*,/,g; s,/$,,')
libdir=$(printf '%s\n' "${LIBDIR:-$prefix/lib}" | sed 's,//*,/,g; s,/$,,')
program=${FAXTOOL:-crates/faxtool/out/faxtool}
library=${G3FAX:-bindings/build}
list=$prefix/share/doc/faxtool/INSTALLED
# The sum of the sources that were built; of a program or a library that is given by hand there is none.
record=bindings/build/SOURCES
[ "$program $library" = "crates/faxtool/out/faxtool bindings/build" ] || record=

# is_place NAME PATH: the path begins at the root, and can stand in a list of lines.
is_place() {
    case $2 in
    /*) ;;
    *) ends "$1 is $2, and not a path from the root" ;;
    esac
    case "$2/" in
    */../* | *'
'*) ends "$1 has a part .. or an end of line" ;;
    esac
}

# is_built: all that is installed is built, or it is said what is missing.
is_built() {
    missing=
    for file in "$program" "$library/libg3fax.a" "$library/libg3fax.so.0" "$library/g3fax.h" "$library/g3fax.pc" $record; do
        [ -f "$file" ] || missing="$missing$(printf '\n    %s' "$file")"
    done
    [ -z "$missing" ] || ends "nothing was installed, since this is not built yet:$missing
Run .ci/run, or make, which prove and build it with the Rattle kit."
    [ -z "$record" ] || [ "$(cat "$record")" = "$(packaging/trust.py --sources)" ] \
        || ends "nothing was installed, since what is built is of other sources: run .ci/run, or make"
}

# puts MODE FILE.. FOLDER: the files, in a folder of the stage.
puts() {
    mode=$1
    shift
    for to in "$@"; do :; done
    mkdir -p "$stage$to"
    while [ $# -gt 1 ]; do
        install -m "$mode" "$1" "$stage$to/"
        shift
    done
}

# escaped TEXT: a path as a .pc file has it, with a backslash before what isn't plain.
escaped() {
    printf '%s\n' "$1" | sed 's,[^A-Za-z0-9_/.@%:+${}-],\\&,g'
}

# gather_library: the library, by its own install, with the folder that it is to be in.
gather_library() {
    bindings/install.sh "$library" /usr "$work/library"
    mkdir -p "$stage$libdir" "$stage$prefix/include"
    mv "$work/library/usr/include"/* "$stage$prefix/include/"
    mv "$work/library/usr/lib"/* "$stage$libdir/"
    pc=$stage$libdir/pkgconfig/g3fax.pc
    { printf 'prefix=%s\n' "$(escaped "$prefix")"; grep -v '^prefix=' "$pc"; } > "$work/pc"
    [ "$libdir" = "$prefix/lib" ] || sed -i "s|^libdir=.*|libdir=$(escaped "$(escaped "$libdir")")|" "$work/pc"
    install -m 644 "$work/pc" "$pc"
    docs=$prefix/share/doc/g3fax
    sed 's,](\.\./,](../faxtool/,' bindings/README.md > "$work/README.md"
    puts 644 "$work/README.md" "$docs"
    puts 644 bindings/c/*.[ch] "$docs/c"
    puts 644 bindings/c/softfax/*.[ch] bindings/c/softfax/Makefile bindings/c/softfax/inits.txt "$docs/c/softfax"
    puts 644 bindings/tests/heap.h "$docs/tests"
    puts 644 bindings/python/g3fax/*.py bindings/g3fax.h bindings/python/g3fax/py.typed "$docs/python/g3fax"
    puts 644 docs/man/*.3 "$prefix/share/man/man3"
}

# gather_softfax: the fax terminal, if there was a C compiler to build it.
gather_softfax() {
    if [ ! -f "$library/softfax" ]; then
        rm "$stage$prefix/share/man/man1/softfax.1"
        echo "softfax isn't installed, since $library/softfax isn't built: it wants a C compiler"
        return
    fi
    puts 755 "$library/softfax" "$prefix/bin"
    puts 644 "$library/inits.txt" "$prefix/share/softfax"
    # as systemd reads it: in quotes if not plain, and with each % twice
    bin=$(printf '%s\n' "$prefix/bin/softfax" | sed 's,[\\"],\\&,g; s,%,%%,g')
    case $bin in *[!A-Za-z0-9_/.:@+-]*) bin="\"$bin\"" ;; esac
    bin=$(printf '%s\n' "$bin" | sed 's,[\\&|],\\&,g')
    sed "s|@BINDIR@/softfax|$bin|" packaging/softfax@.service > "$work/softfax@.service"
    puts 644 "$work/softfax@.service" "$prefix/lib/systemd/system"
}

# gather_documents: the documents in folders as they are here, so that each leads to the others.
gather_documents() {
    docs=$prefix/share/doc/faxtool
    puts 644 README.md CHANGELOG.md CONTRIBUTING.md LICENSE-APACHE LICENSE-MIT .ci/public_clauses.txt "$docs"
    puts 644 docs/*.md docs/*.svg "$docs/docs"
    puts 644 docs/examples/* "$docs/examples"
    chmod 755 "$stage$docs"/examples/*.py
    sed -i 's,](\.\./\([A-Z]*\.md\),](../docs/\1,g' "$stage$docs/examples/README.md"
    ln -s ../examples "$stage$docs/docs/examples"
    puts 644 bindings/README.md "$docs/bindings"
    puts 644 packaging/README.md "$docs/packaging"
    for crate in crates/*/README.md; do puts 644 "$crate" "$docs/${crate%/README.md}"; done
    commit > "$stage$docs/COMMIT"
    packaging/trust.py --package "faxtool=$program" "libg3fax.a=$library/libg3fax.a" "libg3fax.so.0=$library/libg3fax.so.0" \
        > "$stage$docs/docs/PROOF.md"
    marks "$stage$docs/docs/PROOF.md" "$program" "$library"
    # the sources aren't installed: the documents lead to the book in their place
    docs/book.py --install "$stage$docs" > "$work/said" || { cat "$work/said" >&2; ends "docs/book.py"; }
    chmod 644 "$stage$docs/book"/*.html
    chmod 644 "$stage$docs/COMMIT" "$stage$docs/docs/PROOF.md"
}

# gather: all files, in the stage.
gather() {
    puts 755 "$program" "$prefix/bin"
    [ "${program##*/}" = faxtool ] || mv "$stage$prefix/bin/${program##*/}" "$stage$prefix/bin/faxtool"
    puts 644 docs/man/*.1 "$prefix/share/man/man1"
    puts 644 docs/completion/faxtool.bash "$prefix/share/bash-completion/completions"
    mv "$stage$prefix/share/bash-completion/completions/faxtool.bash" "$stage$prefix/share/bash-completion/completions/faxtool"
    puts 644 docs/completion/_faxtool "$prefix/share/zsh/site-functions"
    puts 644 docs/completion/faxtool.fish "$prefix/share/fish/vendor_completions.d"
    gather_library
    gather_softfax
    gather_documents
}

# copy: the stage below DESTDIR; the list of what was made has the folders that an earlier install made too.
copy() {
    [ ! -f "$DESTDIR$list" ] || cp "$DESTDIR$list" "$work/before"
    touch "$work/before"
    (cd "$stage" && find . -mindepth 1 -type d | sed 's,^\.,,' | LC_ALL=C sort) > "$work/folders"
    (cd "$stage" && find . -mindepth 1 ! -type d | sed 's,^\.,,' | LC_ALL=C sort) > "$work/files"
    mkdir -p "$DESTDIR/" || ends "can't make $DESTDIR: nothing was installed"
    while IFS= read -r folder; do
        if [ ! -d "$DESTDIR$folder" ] || grep -qxF "folder $folder" "$work/before"; then printf 'folder %s\n' "$folder"; fi
        [ -d "$DESTDIR$folder" ] || install -d -m 755 "$DESTDIR$folder" || ends "can't make $DESTDIR$folder: nothing was installed"
    done < "$work/folders" > "$work/made"
    { cat "$work/made"; sed 's,^,file ,' "$work/files"; printf 'file %s\n' "$list"; } > "$work/list"
    install -m 644 "$work/list" "$DESTDIR$list" || ends "can't write into $DESTDIR$prefix: nothing was installed"
    while IFS= read -r file; do
        cp -P -T --remove-destination --preserve=mode "$stage$file" "$DESTDIR$file" || ends "can't write $DESTDIR$file: run make uninstall"
    done < "$work/files"
    removes "$work/before" "$work/list"
}

# removes LIST [KEPT]: the files and the empty folders of a list, but those of another one.
removes() {
    touch "$work/none"
    grep -vxF -f "${2:-$work/none}" "$1" > "$work/gone" || true
    sed -n 's,^file ,,p' "$work/gone" | while IFS= read -r file; do
        is_place "a line of $list" "$file"
        rm -f "$DESTDIR$file" || ends "can't remove $DESTDIR$file"
    done
    sed -n 's,^folder ,,p' "$work/gone" | LC_ALL=C sort -r | while IFS= read -r folder; do
        is_place "a line of $list" "$folder"
        [ ! -d "$DESTDIR$folder" ] || rmdir --ignore-fail-on-non-empty "$DESTDIR$folder"
    done
}

[ $# = 0 ] || [ "$*" = --uninstall ] || { echo "usage: install.sh [--uninstall]" >&2; exit 2; }
is_place PREFIX "${PREFIX-$prefix}"
is_place LIBDIR "$libdir"
case ${DESTDIR:-/} in
/*) ;;
*) DESTDIR=$PWD/$DESTDIR ;;
esac
work=$(mktemp -d)
trap 'rm -rf "$work"' EXIT
if [ $# = 1 ]; then
    [ -f "$DESTDIR$list" ] || ends "$DESTDIR$list is missing: nothing is installed there, or not by this"
    cp "$DESTDIR$list" "$work/there"
    removes "$work/there"
    exit 0
fi
needs install python3 sha256sum
is_built
stage=$work/stage
gather
copy
echo "installed below $DESTDIR$prefix: $(wc -l < "$work/files") files"
