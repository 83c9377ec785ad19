#!/bin/sh
# Builds without proof what there is to try, in build/; `make try` and `make lib-try` call it:
#
#     packaging/try.sh             the program, build/faxtool; then a page of docs/examples is sent over a line that loses a fifth of all
#                                  items, and the page that is stored is compared with it
#     packaging/try.sh --library   the library for C: libg3fax.a, libg3fax.so.0, g3fax.h and g3fax.pc
#
# If build/ has it already, of the same sources by the same kit, nothing is built. KIT is where the kit lies, if not /opt/rattle. The status
# is above 0 if anything fails.
set -e
top=$(cd "$(dirname "$0")/.." && pwd)
. "$top/packaging/common.sh"
KIT=${KIT:-/opt/rattle}
export KIT
cd "$top"
[ $# = 0 ] || [ "$*" = --library ] || { echo "usage: try.sh [--library]" >&2; exit 2; }
[ -x "$KIT/bin/rt" ] || ends "there is no Rattle kit in $KIT: unpack it there, or say by KIT where it is"
needs python3 tar sha256sum cmp
program=build/faxtool
mkdir -p build

# is_built NAME FILE CRATE: the file is there, and was built of what is there now.
is_built() {
    sources=$(unproved_sum "$3")
    [ -f "$2" ] && [ -f "build/$1.sources" ] && [ "$(cat "build/$1.sources")" = "$sources" ]
}

# build_program: build/faxtool.
build_program() {
    if is_built faxtool $program faxtool; then
        echo "$program is built of these sources already, without proof"
        return
    fi
    echo "$program is built without proof, once: two minutes"
    rm -f $program build/faxtool.sources
    packaging/build_unproved.sh crates/faxtool build/faxtool.part
    mv build/faxtool.part $program
    echo "$sources" > build/faxtool.sources
    echo
}

# build_library: what `make install` needs of the library, in build.
build_library() {
    if is_built libg3fax build/libg3fax.so.0 g3fax; then
        echo "build/libg3fax.a is built of these sources already, without proof"
        return
    fi
    echo "build/libg3fax.a is built without proof, once: a minute"
    rm -f build/libg3fax.* build/g3fax.*
    bindings/build.sh build --unproved
    # the folder is found from where g3fax.pc lies
    # shellcheck disable=SC2016
    sed -i 's|^prefix=.*|prefix=${pcfiledir}|; s|^libdir=.*|libdir=${prefix}|; s|^includedir=.*|includedir=${prefix}|' build/g3fax.pc
    echo "$sources" > build/libg3fax.sources
}

# send_page: the page of docs/examples, over a line that loses a fifth of all items.
send_page() {
    rm -f build/a4.pbm build/stored.pbm build/call.svg
    set -- decode --code mmr --width 1728 --fine docs/examples/a4.mmr build/a4.pbm
    echo "\$ $program $*"
    $program "$@" || ends "the page wasn't read"
    set -- call --lose 20% --seed 44 --fine --expect normal --out build/stored.pbm --diagram build/call.svg build/a4.pbm
    echo "\$ $program $*"
    $program "$@" > build/call.txt || ends "the call didn't end normally: $(tail -n 2 build/call.txt)"
    head -n 1 build/call.txt
    echo "..."
    tail -n 7 build/call.txt
    echo
    awk '$2 ~ /^(lose-)?to-/ { items++ } $2 ~ /^lose-/ { lost++ } $3 ~ /^FCD:/ { if ($3 in sent) again++; sent[$3] }
        END { printf "%d of %d items were lost, and %d frames of the page were sent again\n", lost, items, again }' build/call.txt
    cmp build/a4.pbm build/stored.pbm || ends "the stored page is another one than was sent"
    echo "the stored page is the page that was sent, pixel for pixel"
}

if [ $# = 1 ]; then
    build_library
    packaging/build_softfax.sh build
    echo "libg3fax.a, libg3fax.so.0, g3fax.h and g3fax.pc are in build, built without proof; \`make\` proves them"
    [ ! -f build/softfax ] || echo "the fax terminal over them: build/softfax"
    echo "a program in C:      cc program.c -Ibuild build/libg3fax.a"
    echo "a program in Python: G3FAX_LIBRARY=build/libg3fax.so.0 PYTHONPATH=bindings/python python3 program.py"
    exit 0
fi
build_program
send_page
echo
echo "the picture of the call: build/call.svg, which a browser shows; all its lines: build/call.txt"
echo "the stored page:         build/stored.pbm"
echo "the program:             $program, version $($program version); \`make\` proves it"
