#!/bin/sh
# Tries packaging/build_library.sh on a copy of a few sources, with a kit that proves nothing and notes how it is called: after `rt ci` of the
# same sources the library is built over what that has left, else by `rt lib`, and what is built already isn't built again. Ends with status
# 1 at the first difference.
set -e
top=$(cd "$(dirname "$0")/.." && pwd)
work=$(mktemp -d)
trap 'rm -rf "$work"' EXIT
copy=$work/copy
export KIT="$work/a kit"
unset PROVED

fails() {
    echo "library: FAILED: $*" >&2
    exit 1
}

# builds HOW WORDS: it builds the library so: by `rt lib`, over what is proved, or not at all.
builds() {
    how=$1
    : > "$work/called"
    "$copy/packaging/build_library.sh" > "$work/said" 2>&1 || { cat "$work/said" >&2; fails "$2: status $?"; }
    [ "$(cat "$work/called")" = "$how" ] || fails "$2: it was built by '$(tr '\n' ' ' < "$work/called")', and not by '$how'"
    [ -s "$copy/crates/g3fax/out/libg3fax.a" ] || fails "$2: there is no library"
}

mkdir -p "$copy/packaging" "$copy/bindings/python/g3fax" "$copy/crates/g3fax/src" "$KIT/bin"
cp "$top/packaging/build_library.sh" "$top/packaging/trust.py" "$copy/packaging/"
cp "$top/bindings/build.sh" "$top/bindings/own_names.py" "$top/bindings/from_header.py" "$copy/bindings/"
cp "$top/bindings/python/g3fax/_header.py" "$copy/bindings/python/g3fax/"
cp "$top/crates.txt" "$top/HANDLES" "$top/VERSION" "$copy/"
echo "//! One." > "$copy/crates/g3fax/src/lib.rt"
echo "a kit" > "$KIT/KIT-ID"
cat > "$KIT/bin/rt" << RT
#!/bin/sh
echo "rt \$*" >> "$work/called"
mkdir -p out
echo library > out/libg3fax.a
RT
cat > "$KIT/bin/rattle" << RATTLE
#!/bin/sh
echo "rattle \$1" >> "$work/called"
[ ! -e "$work/refused" ] || exit 1
while [ \$# -gt 1 ]; do shift; done
echo library > "\$1"
RATTLE
chmod +x "$KIT/bin/rt" "$KIT/bin/rattle"

builds "rt lib" "with nothing proved"
builds "" "a second time"
echo "//! Two." > "$copy/crates/g3fax/src/lib.rt"
PROVED=$("$copy/packaging/trust.py" --sources)
export PROVED
builds "rt lib" "after a proof of which nothing is left"
for crate in $(sed -n 's/^g3fax  *staticlib://p' "$copy/crates.txt"); do
    mkdir -p "$copy/crates/$crate/out/rlib/$crate.rlib"
    touch "$copy/crates/$crate/out/rlib/$crate.rlib/format"
done
builds "" "after a proof of what is built"
rm "$copy/crates/g3fax/out/libg3fax.sources"
builds "rattle build" "after a proof"
rm "$copy/crates/g3fax/out/libg3fax.sources"
touch "$work/refused"
builds "rattle build
rt lib" "where what a proof has left doesn't fit"
rm "$work/refused"
echo "//! Three." > "$copy/crates/g3fax/src/lib.rt"
builds "rt lib" "after a proof of other sources"
echo "another kit" > "$KIT/KIT-ID"
builds "rt lib" "by another kit"
echo "library: built over what is proved where that is of the same sources, else by rt lib, and once"
