#!/bin/sh
# Builds the program of a crate with no proof, to try it and for scripts that only run it; with --test its tests, with --checked these under
# the address sanitizer, with --library the static library of a crate that exports functions to C:
#
#     packaging/build_unproved.sh FOLDER OUT [--test | --checked | --library]
#
# FOLDER is the crate's, below crates/ of a copy of this repository, and OUT the file that is made. It needs the kit alone, KIT if not
# /opt/rattle. After each 10 seconds a line says what is being done.
#
# `rt try` builds a program but keeps no file. So it is called by the front of a copy of the kit (links to it, in a temporary folder), whose
# compiler and linker leave out the sanitizer, but with --checked, and keep what was made, and whose checker, which would only look for names
# that a check refuses, does nothing. A library is compiled as a program that calls each exported function.
#
# What is built is a copy of the sources, in which crates/commands/src/version.rt says that it was built without proof.
set -e
folder=$1 out=$2 kind=$3
case $kind in
'' | --test | --checked | --library) ;;
*) folder= ;;
esac
if [ ! -d "$folder/src" ] || [ -z "$out" ] || [ $# -gt 3 ]; then
    echo "usage: packaging/build_unproved.sh FOLDER OUT [--test | --checked | --library]" >&2
    exit 2
fi
here=$(cd "$(dirname "$0")" && pwd)
kit=${KIT:-/opt/rattle}
fails() {
    echo "build_unproved.sh: $*" >&2
    exit 1
}
[ -x "$kit/bin/rt" ] || fails "there is no Rattle kit in $kit: unpack it there, or say by KIT where it is"
folder=$(cd "$folder" && pwd)
crate=${folder##*/}
root=$(dirname "$(dirname "$folder")")
[ -f "$root/crates.txt" ] || fails "$root has no crates.txt, so $folder is no crate"
copy=$(mktemp -d)
teller=
# shellcheck disable=SC2317
leaves() {
    [ -z "$teller" ] || kill "$teller" 2> /dev/null || true
    rm -rf "$copy"
}
trap leaves EXIT
trap 'exit 130' INT
trap 'exit 143' TERM HUP

# the copy of the kit
mkdir -p "$copy/bin" "$copy/toolchain/bin"
for file in "$kit"/*; do
    [ -e "$copy/${file##*/}" ] || ln -s "$file" "$copy/"
done
ln -s "$kit"/bin/* "$copy/bin/"
ln -s "$kit/toolchain/lib" "$copy/toolchain/lib"
ln -s "$kit"/toolchain/bin/* "$copy/toolchain/bin/"
rm "$copy/bin/rt" "$copy/bin/rtlib.py" "$copy/bin/rattle" "$copy/toolchain/bin/clang" "$copy/toolchain/bin/ld.lld"
cp "$kit/bin/rt" "$kit/bin/rtlib.py" "$copy/bin/"
cat > "$copy/bin/rattle" << CHECKER
#!/bin/sh
case " \$* " in
*" --start "*) exit 0 ;;
esac
exec "$kit/bin/rattle" "\$@"
CHECKER
# how far the compiler optimizes, and what it and the linker leave out; with the sanitizer that takes a tenth of the time that -O0 does
level=O3 uncompiled=' -fsanitize=address ' unlinked=' --whole-archive [^ ]* --no-whole-archive '
[ "$kind" != --checked ] || level=O1 uncompiled=' nothing ' unlinked=' nothing ' kind=--test
if [ "$kind" = --library ]; then
    # The functions of the module get the names that they are exported by. It ends with status 1, so that nothing is linked. Another
    # module, which has the sanitizer's options, comes first, and is compiled as it is.
    cat > "$copy/toolchain/bin/clang" << COMPILER
#!/bin/sh
case " \$* " in
*" -fsanitize=address "*) ;;
*) exec "$kit/toolchain/bin/clang" "\$@" ;;
esac
echo "compiles all of it" > "$copy/step"
module=
for word in "\$@"; do
    case \$word in
    *.bc) module=\$word ;;
    esac
done
"$kit/toolchain/bin/clang" --target=x86_64-unknown-linux-gnu --no-default-config -x ir "\$module" -S -emit-llvm -O0 \\
    -Xclang -disable-llvm-passes -o module.ll || exit 1
sed -f "$copy/names.sed" module.ll > named.ll
words=\$(printf ' %s ' "\$*" | sed 's/ -fsanitize=address / /; s/ -O0 / -O3 /; s/ -fPIE / -fPIC /; s, [^ ]*\\.bc , named.ll ,')
"$kit/toolchain/bin/clang" \$words && cp module.o "$copy/made"
exit 1
COMPILER
else
    cat > "$copy/toolchain/bin/clang" << COMPILER
#!/bin/sh
echo "compiles all of it" > "$copy/step"
words=\$(printf ' %s ' "\$*" | sed 's/$uncompiled/ /; s/ -O0 / -$level /')
exec "$kit/toolchain/bin/clang" \$words
COMPILER
fi
# It ends with status 1, so that nothing is run.
cat > "$copy/toolchain/bin/ld.lld" << LINKER
#!/bin/sh
words=\$(printf ' %s ' "\$*" | sed 's/$unlinked/ /')
"$kit/toolchain/bin/ld.lld" \$words && cp program "$copy/made"
exit 1
LINKER
chmod +x "$copy/bin/rattle" "$copy/toolchain/bin/clang" "$copy/toolchain/bin/ld.lld"

# the copy of the sources
mkdir "$copy/sources"
set -- crates crates.txt
[ ! -f "$root/HANDLES" ] || set -- "$@" HANDLES
tar -C "$root" -cf - --exclude='crates/*/out' "$@" | tar -C "$copy/sources" -xf -
own=$copy/sources/crates/$crate
version=$copy/sources/crates/commands/src/version.rt
if [ -z "$kind" ] && [ -f "$version" ]; then
    sed -i -e 's/^\(const VERSION: &str = "[^"]*\)";$/\1, built without proof";/' \
        -e 's/^\(const KIT: &str = \)"[^"]*";$/\1"none: built without proof";/' "$version"
    [ "$(grep -c 'built without proof";$' "$version")" = 2 ] \
        || fails "crates/commands/src/version.rt has no line const VERSION, or no line const KIT"
fi
if [ "$kind" = --library ]; then
    "$here/reach_exports.py" "$own" > "$copy/names.sed"
    sed -i "s/^$crate  *staticlib/$crate/" "$copy/sources/crates.txt"
    kind=
fi

echo "reads the sources of $crate and of the crates below it" > "$copy/step"
started=$(date +%s)
(
    trap 'kill $!; exit' TERM
    while sleep 10 & wait $!; do
        echo "$crate without proof, after $(($(date +%s) - started)) s: $(cat "$copy/step")"
    done
) >&2 &
teller=$!
(cd "$own" && "$copy/bin/rt" try ${kind:+"$kind"} > "$copy/log" 2>&1 < /dev/null) || true
if [ ! -f "$copy/made" ]; then
    cat "$copy/log" >&2
    exit 1
fi
cp "$copy/made" "$out"
