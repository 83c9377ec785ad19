#!/bin/sh
# Builds the library for C, and its examples with the kit's clang under the address sanitizer and with traps for what C doesn't define;
# runs them on files that other programs wrote, and compares octets and texts. Then it installs the library, runs the first programs of
# bindings/README.md, tries the fax terminal and the archive over the library, and tests the module for Python. Ends with status 1 at the
# first difference.
#
#     .ci/bindings.sh [--share library|softfax] [CALLS]
#
# With --share the fax terminal is tried alone, or all but it. CALLS is how many random calls are made, 200000 where it isn't said. G3FAX
# names the folder of a library that is built, as `make lib-try` leaves it without proof; else the proved one is built. It needs the kit and
# Python's standard library alone; calls over real modems are tried where libspandsp-dev is installed.
set -e
top=$(cd "$(dirname "$0")/.." && pwd)
kit=${KIT:-/opt/rattle}
data=$top/.ci/data
work=$(mktemp -d)
trap 'rm -rf "$work"' EXIT
runs=0 share=
if [ "${1-}" = --share ]; then
    share=$2
    shift 2
    [ "$share" = library ] || [ "$share" = softfax ] || { echo "bindings.sh: no share has the name $share" >&2; exit 2; }
fi

fails() {
    echo "bindings: FAILED: $*" >&2
    exit 1
}

# builds FILE WORDS: a C file of bindings as a program in the work folder, linked with these words.
builds() {
    file=$top/bindings/$1 name=$(basename "$1" .c)
    shift
    "$kit/toolchain/bin/clang" -std=c11 -Wall -Wextra -Werror -O1 -g -fPIE -fsanitize=address,undefined -fsanitize-trap=undefined \
        -nostdinc -isystem "$top/bindings/include" -I "$work" -c "$file" -o "$work/$name.o"
    lib=$kit/toolchain/lib
    "$kit/toolchain/bin/ld.lld" -pie --eh-frame-hdr -dynamic-linker /lib64/ld-linux-x86-64.so.2 -o "$work/$name" "$@" "$lib/Scrt1.o" \
        "$lib/crtbeginS.o" "$work/$name.o" "$work/libg3fax.a" --whole-archive "$kit/c/asan.a" --no-whole-archive "$lib/libc.so.6" \
        "$lib/libc_nonshared.a" "$lib/libm.so.6" "$lib/ld-linux-x86-64.so.2" "$lib/libgcc_s.so.1" "$lib/libgcc.a" "$lib/crtendS.o"
}

# builds_plain FILE: a C file of bindings as a program in the work folder, without the sanitizers, whose own instructions would be counted.
builds_plain() {
    file=$top/bindings/$1 name=$(basename "$1" .c) lib=$kit/toolchain/lib
    "$kit/toolchain/bin/clang" -std=c11 -Wall -Wextra -Werror -O1 -g -fPIE -nostdinc -isystem "$top/bindings/include" -I "$work" \
        -c "$file" -o "$work/$name.o"
    "$kit/toolchain/bin/ld.lld" -pie --eh-frame-hdr -dynamic-linker /lib64/ld-linux-x86-64.so.2 -o "$work/$name" "$lib/Scrt1.o" \
        "$lib/crti.o" "$lib/crtbeginS.o" "$work/$name.o" "$work/libg3fax.a" "$lib/libc.so.6" "$lib/libc_nonshared.a" \
        "$lib/crtendS.o" "$lib/crtn.o"
}

# builds_older FILE [FOLDER]: a C file of bindings as a program of the last version that is out, in the work folder: by the header of then, and
# linked to a library of then, or to that of the folder, of which it sees the names alone.
builds_older() {
    file=$top/bindings/$1 name=older-$(basename "$1" .c) lib=$kit/toolchain/lib shared=${2:-$work/older}/libg3fax.so.0
    "$kit/toolchain/bin/clang" -std=c11 -Wall -Wextra -Werror -O1 -g -fPIE -nostdinc -isystem "$top/bindings/include" \
        -I "$work/then" -I "$work/older" -c "$file" -o "$work/$name.o"
    "$kit/toolchain/bin/ld.lld" -pie --eh-frame-hdr -dynamic-linker /lib64/ld-linux-x86-64.so.2 -o "$work/$name" "$lib/Scrt1.o" \
        "$lib/crti.o" "$lib/crtbeginS.o" "$work/$name.o" "$shared" "$lib/libc.so.6" "$lib/libc_nonshared.a" \
        "$lib/crtendS.o" "$lib/crtn.o"
}

# gives STATUS NAME WORDS: the example ends with the status.
gives() {
    end=$1 name=$2 status=0
    shift 2
    timeout 600 "$work/$name" "$@" > "$work/output" 2> "$work/error" || status=$?
    [ "$status" = "$end" ] || { head -5 "$work/error" >&2; fails "$name $* ended with status $status, and not $end"; }
    runs=$((runs + 1))
}

# is_same FILE WANTED WORDS: the file has the octets of the other one.
is_same() {
    difference=$(cmp "$1" "$2" 2>&1) || fails "$3: other octets: $difference"
}

# takes_library: it is in the work folder.
takes_library() {
    if [ -n "$G3FAX" ]; then cp "$G3FAX"/libg3fax.* "$G3FAX"/g3fax.* "$work/"; else "$top/bindings/build.sh" "$work"; fi
}

[ "$share" != softfax ] || { takes_library; "$top/.ci/softfax.sh" "$work"; exit; }
"$top/docs/man/make_library.py" --check || fails "man pages"
for part in exports record; do "$top/bindings/from_header.py" $part > "$work/$part"; done
"$top/bindings/from_header.py" calls > "$work/random_calls.h"
"$top/.ci/library.sh"
takes_library
for name in encode decode raster frames signals call answer own misuse; do builds "c/$name.c"; done
for name in memory random readers; do builds "tests/$name.c" --wrap=malloc --wrap=realloc --wrap=free; done
for name in pages rows terminals signals; do builds "tests/statuses_$name.c"; done
for name in abi refusals pixels init; do builds "tests/$name.c"; done
! grep -n '^enum {' "$top/bindings/g3fax.h" || fails "a list of numbers without a tag"
for kind in c99 c11 c17 c++98 c++11 c++14 c++17 c++20; do
    as=$(echo $kind | sed 's/[0-9]//g')
    "$kit/toolchain/bin/clang" -x "$as" -std=$kind -Wall -Wextra -Wpedantic -Werror -fsyntax-only -nostdinc -isystem "$top/bindings/include" \
        -I "$work" "$top/bindings/tests/init.c" || fails "the initializers in $kind"
done
builds_plain tests/growth.c
"$top/bindings/from_header.py" wrappers > "$work/wrappers.h"
# the header of the last version that is out; before the first one today's, as it is recorded then
mkdir "$work/then" "$work/older"
last=$(find "$top/bindings/tests/older" -name g3fax.h 2> /dev/null | sort -V | tail -n 1)
cp "${last:-$work/record}" "$work/then/g3fax.h"
sed -n 's/^[^(]*\(g3_[a-z0-9_]*\)(.*);$/NAME(\1)/p' "$work/then/g3fax.h" > "$work/older/names.h"
# shares FOLDER FILE EXPORTS FOLDERS: a C file as the shared library, with what its types are, by headers in these folders
shares() {
    to=$1 file=$2 exports=$3
    shift 3
    "$kit/toolchain/bin/clang" -std=c11 -g -gdwarf-4 -fPIC -ffreestanding -DG3_CHECK= -DG3_VERSION='""' \
        -DG3_BUILT="$(sed -n 's/^#define G3_VERSION_NUMBER //p' "$top/bindings/g3fax.h")" \
        -nostdinc -isystem "$top/bindings/include" "$@" -c "$file" -o "$to/shared.o"
    "$kit/toolchain/bin/ld.lld" -shared -soname libg3fax.so.0 --version-script "$exports" -o "$to/libg3fax.so.0" "$to/shared.o"
}
{
    echo '#include "g3fax.h"'
    sed -n 's/^\(G3_CHECK \)*\(.*g3_[a-z0-9_]*(.*)\);$/\2 { __builtin_trap(); }/p' "$work/then/g3fax.h"
} > "$work/older/names.c"
"$top/bindings/from_header.py" older > "$work/older/exports"
shares "$work/older" "$work/older/names.c" "$work/older/exports" -I "$work/then"
for name in tests/older c/call c/misuse; do builds_older "$name.c"; done
# a program of a later version, which has a function more, in a node of its own
mkdir "$work/newer"
echo 'void g3_later(void); void g3_later(void) {}' | cat "$work/older/names.c" - > "$work/newer/names.c"
node=$(sed -n 's/ {$//p' "$work/older/exports" | tail -n 1)
echo "G3FAX_0.99.0 { global: g3_later; } $node;" | cat "$work/older/exports" - > "$work/newer/exports"
shares "$work/newer" "$work/newer/names.c" "$work/newer/exports" -I "$work/then"
builds_older tests/newer.c "$work/newer"
# no function or struct of that version has changed: from_header.py holds both headers against each other, and abidiff what a compiler makes
if command -v abidiff > /dev/null; then
    mkdir "$work/today"
    shares "$work/today" "$top/bindings/g3fax.c" "$work/exports" -I "$work"
    abidiff --no-added-syms "$work/older/libg3fax.so.0" "$work/today/libg3fax.so.0" > "$work/output" \
        || { head -40 "$work/output" >&2; fails "the ABI has changed"; }
    sed 's/^typedef struct g3_wish {/&uint32_t more;/' "$work/then/g3fax.h" > "$work/today/g3fax.h"
    shares "$work/today" "$work/older/names.c" "$work/older/exports" -I "$work/today"
    ! abidiff --no-added-syms "$work/older/libg3fax.so.0" "$work/today/libg3fax.so.0" > "$work/output" || fails "abidiff sees no change"
else
    echo "bindings: the ABI was compared by from_header.py alone: there is no abidiff (Debian: abigail-tools)"
fi

for code in mh mmr; do
    for order in msb lsb; do
        gives 0 encode "$data/page.pbm" "$work/code" "$code" "$order"
        is_same "$work/code" "$data/page.$code.$order" "encode $code $order"
        gives 0 decode "$data/page.$code.$order" "$work/page.pbm" "$code" "$order" 315
        is_same "$work/page.pbm" "$data/page.pbm" "decode $code $order"
    done
done

# rows in memory with octets between them
gives 0 raster "$data/page.pbm" "$work/page.pbm"
is_same "$work/page.pbm" "$data/page.pbm" raster

# a page of A4, in and out through pipes too
a4=$top/docs/examples/a4.mmr
gives 0 decode "$a4" "$work/a4.pbm" mmr msb 1728
gives 0 encode "$work/a4.pbm" "$work/code" mmr msb
is_same "$work/code" "$a4" "encode a4"
gives 0 raster "$work/a4.pbm" "$work/page.pbm"
is_same "$work/page.pbm" "$work/a4.pbm" "raster a4"
for lost in 0 3 5; do
    gives 0 call "$work/a4.pbm" "$work/stored.pbm" "$lost"
    is_same "$work/stored.pbm" "$work/a4.pbm" "call with a4 without burst $lost"
done
# through OUTPUT WORDS: cat gives the file to the example and takes what it writes, which is as the output
through() {
    wanted=$1 from=$2 name=$3
    shift 3
    rm -f "$work/status"
    # a pipe's status is that of its last command
    # shellcheck disable=SC2002
    cat "$from" | { timeout 600 "$work/$name" "$@" 2> "$work/error" || echo $? > "$work/status"; } | cat > "$work/output"
    [ ! -e "$work/status" ] || fails "$name through pipes ended with status $(cat "$work/status")"
    is_same "$work/output" "$wanted" "$name through pipes"
    runs=$((runs + 1))
}
through "$work/a4.pbm" "$a4" decode /dev/stdin /dev/stdout mmr msb 1728
through "$a4" "$work/a4.pbm" encode /dev/stdin /dev/stdout mmr msb
through "$work/a4.pbm" "$work/a4.pbm" raster /dev/stdin /dev/stdout
"$work/frames" "$data/line.bits" > "$work/wanted"
through "$work/wanted" "$data/line.bits" frames /dev/stdin
"$work/signals" "$data/line.bits" > "$work/wanted"
through "$work/wanted" "$data/line.bits" signals /dev/stdin
"$work/call" "$work/a4.pbm" "$work/stored.pbm" 3 > "$work/wanted"
through "$work/wanted" "$work/a4.pbm" call /dev/stdin "$work/stored.pbm" 3
is_same "$work/stored.pbm" "$work/a4.pbm" "call through pipes"

# raster of the narrowest page and of the widest one
for width in 1 512 513 2431 2432; do
    # a white row, and one with each eighth pixel black
    row=$(((width + 7) / 8))
    {
        printf 'P4\n%d 2\n' "$width"
        printf '%0*d' $row 0 | tr 0 '\000'
        printf '%0*d' $row 0 | tr 0 '\200'
    } > "$work/wide.pbm"
    gives 0 raster "$work/wide.pbm" "$work/page.pbm"
    is_same "$work/page.pbm" "$work/wide.pbm" "raster of $width pixels"
done

# a page that is cut short: the fault and its bit, and the rows before it
head -c 500 "$data/page.mmr.msb" > "$work/cut"
gives 1 decode "$work/cut" "$work/page.pbm" mmr msb 315
[ "$(cat "$work/error")" = "fault 11 at bit 3999: the bits end inside a code" ] || fails "decode said of a cut page: $(cat "$work/error")"

# IN as OUT; what can't be read is no empty file, and OUT stays where nothing comes in its place
for code in mh mmr; do
    cp "$data/page.pbm" "$work/same"
    gives 0 encode "$work/same" "$work/same" "$code" msb
    is_same "$work/same" "$data/page.$code.msb" "encode into its own file"
    gives 0 decode "$work/same" "$work/same" "$code" msb 315
    is_same "$work/same" "$data/page.pbm" "decode into its own file"
done
gives 1 encode "$data/page.mh.msb" "$work/same" mh msb
gives 1 decode "$data/page.mh.msb" "$work/same" mh msb 0
for words in "encode $work $work/same mh msb" "decode $work $work/same mh msb 315" "raster $work $work/same" "call $work $work/same" \
    "frames $work" "signals $work"; do
    # shellcheck disable=SC2086
    gives 1 $words
done
is_same "$work/same" "$data/page.pbm" "the output of an example that fails"

# the frames of a line that was written with no code of this repository
gives 0 frames "$data/line.bits"
grep '^[0-9]' "$data/line.txt" | cut -d ' ' -f 1,2 > "$work/wanted"
grep '^[0-9]' "$work/output" > "$work/contents"
is_same "$work/contents" "$work/wanted" "frames"
tail -n 1 "$data/line.txt" > "$work/wanted"
tail -n 1 "$work/output" > "$work/counts"
is_same "$work/counts" "$work/wanted" "the counts of frames"

# what they say, as another program says it by the standard's tables
gives 0 signals "$data/line.bits"
grep '^[0-9]' "$data/line.txt" > "$work/wanted"
is_same "$work/output" "$work/wanted" "signals"

# a call in one process, with each of its bursts lost in turn; and answerers by lines, whose answers another program wrote
for lost in 0 1 2 3 4 5 6 7 8; do
    gives 0 call "$top/docs/examples/row.pbm" "$work/stored.pbm" "$lost"
    is_same "$work/stored.pbm" "$top/docs/examples/row.pbm" "call without burst $lost"
done
# and with a line that goes before the page is confirmed: the caller has its document again, and calls once more
for last in 1 2 3 4 5 6; do
    gives 0 call "$top/docs/examples/row.pbm" "$work/stored.pbm" 0 $last
    is_same "$work/stored.pbm" "$top/docs/examples/row.pbm" "a second call, after burst $last"
    [ "$(grep '^caller:' "$work/output" | tr '\n' ' ')" = "caller: the line was lost, 0 confirmed caller: all pages went over, 1 confirmed " ] \
        || fails "a second call, after burst $last: $(cat "$work/output")"
done
answerers=0 talks=
for words in "$top"/.ci/conversations/*.words; do
    talk=${words%.words}
    # those by other options, with a line that is none, and with a caller that is refused, are for faxtool
    case "$(cat "$words")" in
        '--answer --out DIR' | '--answer --no-refuse --out DIR') ;;
        *) continue ;;
    esac
    if grep -q -e '^fault' -e '^end refused' "$talk.error"; then continue; fi
    end=1
    grep -q '^end normal ' "$talk.error" && end=0
    gives "$end" answer "$work/stored.pbm" < "$talk.lines"
    is_same "$work/output" "$talk.expected" "answer to $(basename "$talk")"
    answerers=$((answerers + 1)) talks="$talks ${talk#"$top"/}"
done
[ "$answerers" -gt 5 ] || fails "there were $answerers answerers"
# and by a modem that waits for each answer; the names of the talks have no spaces
# shellcheck disable=SC2086
(cd "$top" && .ci/by_lines.py "$work/answer" "$work/stored.pbm" $talks) || fails "answer by lines"

# a later call adds its pages
rm "$work/stored.pbm"
for pages in 1 2; do
    gives 0 answer "$work/stored.pbm" < "$top/docs/examples/answer.lines"
    for page in $(seq $pages); do cat "$top/docs/examples/row.pbm"; done > "$work/page.pbm"
    is_same "$work/stored.pbm" "$work/page.pbm" "the pages of $pages calls"
done

gives 0 own
[ "$(cat "$work/output")" = "5 octets, the first is 36, 1 page" ] || fails "own printed: $(cat "$work/output")"
for name in abi init refusals pixels misuse readers statuses_pages statuses_rows statuses_terminals statuses_signals; do
    gives 0 "$name"
    [ ! -s "$work/output" ] || fails "$name printed: $(cat "$work/output")"
done

# programs of the last version that is out over the shared library of today: all of its functions, as it had them
LD_LIBRARY_PATH=$work LD_BIND_NOW=1
export LD_LIBRARY_PATH LD_BIND_NOW
gives 0 older-older
[ ! -s "$work/output" ] || fails "a program of the last version printed: $(cat "$work/output")"
gives 0 older-misuse
gives 0 older-call "$work/a4.pbm" "$work/stored.pbm" 3
is_same "$work/stored.pbm" "$work/a4.pbm" "a call by the last version"
unset LD_BIND_NOW
# and one of a later version ends before it begins
status=0
"$work/older-newer" > "$work/output" 2> "$work/error" || status=$?
if [ "$status" = 0 ] || [ -s "$work/output" ] || ! grep -q "version \`G3FAX_0.99.0' not found" "$work/error"; then
    fails "a program of a later version: status $status, $(cat "$work/output" "$work/error")"
fi
unset LD_LIBRARY_PATH

# the archive beside another library with the same proved functions, whose names are for all: of the archive only those of the header are
proved=$top/crates/g3fax/out/libg3fax.a
[ -z "$G3FAX" ] || proved=
if [ -n "$proved" ]; then
    mkdir "$work/other"
    "$kit/toolchain/bin/clang" -std=c11 -fPIC -ffreestanding -nostdinc -isystem "$top/bindings/include" -DOTHER -c "$top/bindings/tests/beside.c" \
        -o "$work/other/beside.o"
    (cd "$work/other" && "$kit/toolchain/bin/llvm-ar" x "$proved" && "$kit/toolchain/bin/llvm-ar" x "$kit/c/liblibc_c.a")
    "$kit/toolchain/bin/ld.lld" -r -o "$work/other.o" "$work"/other/*.o
    builds tests/beside.c "$work/other.o" --whole-archive "$work/libg3fax.a" --no-whole-archive
    gives 0 beside
fi

# three readers under the thread sanitizer of a compiler that has one, which sees what g3fax.c reads and writes, and not only the handles.
# It has to find a number that each call counts up.
CC=${CC:-cc}
# watches NAME FILE: readers.c over this g3fax.c, as a program
watches() {
    "$CC" -std=c11 -O1 -g -fsanitize=thread -DG3_VERSION='"tried"' \
        -DG3_BUILT="$(sed -n 's/^#define G3_VERSION_NUMBER //p' "$work/g3fax.h")" -I "$work" \
        "$top/bindings/tests/readers.c" "$2" "$proved" "$kit/c/liblibc_c.a" -Wl,--wrap=malloc,--wrap=realloc,--wrap=free -o "$work/$1"
}
echo 'int main(void) { return 0; }' > "$work/empty.c"
if [ -z "$proved" ]; then
    echo "bindings: without the crate as it is proved no reader was watched, and nothing linked beside it"
elif "$CC" -fsanitize=thread "$work/empty.c" -o "$work/empty" 2> "$work/error" && "$work/empty" 2> "$work/error"; then
    watches readers-watched "$top/bindings/g3fax.c"
    gives 0 readers-watched
    [ ! -s "$work/output" ] || fails "readers under the thread sanitizer printed: $(cat "$work/output")"
    sed -i 's/^    HANDLE(page); SIZED(size);/    static int calls; calls++;\n&/' "$work/wrappers.h"
    watches readers-counting "$top/bindings/g3fax.c"
    gives 66 readers-counting
    grep -q "data race" "$work/error" || fails "the thread sanitizer said: $(head -5 "$work/error")"
else
    echo "bindings: readers weren't watched: $CC has no thread sanitizer that runs here"
fi

# each growth of memory refused in turn; and random calls on random handles
gives 0 memory "$data/page.pbm" "$data/line.bits"
growths=$(sed -n 's/^growths //p' "$work/output")
[ "${growths:-0}" -gt 50 ] || fails "memory refused $growths growths"
gives 0 random "${1:-200000}"
[ ! -s "$work/output" ] || fails "random printed: $(head -3 "$work/output")"

# a row that doesn't end: what reading takes grows by its octets
status=0
timeout 600 "$work/growth" 2> "$work/error" || status=$?
case $status in
0) runs=$((runs + 1)) ;;
77) echo "bindings: growth wasn't counted: no program may step through another here" ;;
*) fails "growth ended with status $status: $(head -3 "$work/error")" ;;
esac
"$top/.ci/installed.sh" "$work"
"$top/.ci/readme_programs.sh" "$work"
"$top/.ci/wheel.sh" "$work"
[ "$share" = library ] || "$top/.ci/softfax.sh" "$work"
"$top/.ci/archive.py" "$work"

# the module for Python, over the shared library
for test in test_g3fax test_figures test_returned test_help; do
    PYTHONDONTWRITEBYTECODE=1 G3FAX_LIBRARY=$work/libg3fax.so.0 timeout 600 python3 -W error "$top/bindings/python/$test.py" \
        > "$work/output" 2>&1 || { cat "$work/output" >&2; fails "bindings/python/$test.py"; }
    left=$(sed -n 's/^OK (skipped=\([0-9]*\))$/\1/p' "$work/output")
    [ -z "$left" ] || echo "bindings: $left tests of $test.py were left out: python3 has no numpy, or no PIL"
done
echo "bindings: $runs runs of the examples, under the sanitizers, gave what other programs wrote; $growths growths were refused in turn"
