#!/bin/sh
# Builds crates/g3fax/out/libg3fax.a, the proved static library; bindings/build.sh calls it:
#
#     packaging/build_library.sh
#
# After `rt ci` each crate below g3fax lies proved in its out/rlib, but without the stamp by which `rt lib` would know it, so `rt lib`
# would prove all of them a second time. So the gate keeps the sum of the sources that packaging/trust.py --sources prints before `rt ci`,
# and passes it as PROVED. If that is the sum of the sources now, the library is built over what `rt ci` has left, and g3fax alone is
# proved again: some five minutes. In any other case, or if that fails, `rt lib` builds it.
#
# The gate's .ci/prove.py calls it as soon as g3fax is proved, beside other proofs, with the folder of the crates as CRATES: then it is built
# over what is proved, or not at all.
#
# out/libg3fax.sources says of which sources and by which kit the library was built. If these are the same, nothing is done. KIT is where
# the kit lies, if not /opt/rattle. RT_JOBS is how many processors its proof takes, 2 if it isn't set.
set -e
top=$(cd "$(dirname "$0")/.." && pwd)
kit=${KIT:-/opt/rattle}
cd "$top/crates/g3fax"
sum=$("$top/packaging/trust.py" --sources)
record="$sum $(head -n 1 "$kit/KIT-ID")"
crates=${CRATES:-..}

mkdir -p out
if [ -f out/libg3fax.a ] && [ -f out/libg3fax.sources ] && [ "$(cat out/libg3fax.sources)" = "$record" ]; then
    echo "crates/g3fax/out/libg3fax.a is built of these sources already"
    exit 0
fi
rm -f out/libg3fax.a out/libg3fax.sources

# over_proved: the library, over the crates that `rt ci` has proved and built. It is checked as `rt ci` checks it, and then compiled.
over_proved() {
    set -- --crate-name g3fax src/lib.rt --extern "std=$kit/rlibs/std.rlib" -L "dependency=$kit/rlibs"
    # the names have no blanks
    # shellcheck disable=SC2013
    for crate in $(sed -n 's/^g3fax  *staticlib://p' "$top/crates.txt"); do
        [ -f "$crates/$crate/out/rlib/$crate.rlib/format" ] || { echo "$crate has no out/rlib, so rt lib builds the library"; return 1; }
        set -- "$@" --extern "$crate=$crates/$crate/out/rlib/$crate.rlib" -L "dependency=$crates/$crate/out/rlib"
    done
    "$kit/bin/rattle" build "$@" --antt-project "$kit/rattle/logic/antt-project.json" --logic-built "$kit/logic_built" --jobs "${RT_JOBS:-2}" \
        --links g3fax= --crate-type staticlib --toolchain "$kit/toolchain" --backend llvm -o out/libg3fax.a
}

if [ "${PROVED:-none}" != "$sum" ] || ! over_proved; then
    # `rt lib` would prove each crate again, and what the gate has proved isn't what it says
    [ -z "$CRATES" ] || { echo "build_library.sh: the library can't be built over the crates in $CRATES" >&2; exit 1; }
    "$kit/bin/rt" lib
fi
[ -f out/libg3fax.a ] || { echo "build_library.sh: crates/g3fax/out/libg3fax.a wasn't built" >&2; exit 1; }
# sources that were changed meanwhile have no record
[ "$("$top/packaging/trust.py" --sources)" = "$sum" ] || exit 0
echo "$record" > out/libg3fax.sources
