#!/bin/sh
# Compiles and runs the first programs of bindings/README.md in C and in Python as they stand there, with the library for C that
# bindings/build.sh left in a folder, its loop of a call for both ends of a line of virtual time (bindings/tests/line.c), its loop over
# the pages of a file (bindings/tests/pages.c), and the examples of the man pages (docs/man/examples):
#
#     .ci/readme_programs.sh FOLDER
#
# Each has 25 lines at most, ends with status 0, prints something and nothing on standard error. The C program is built with the kit's clang
# under the address sanitizer, with the archive. Ends with status 1 at the first difference.
set -e
top=$(cd "$(dirname "$0")/.." && pwd)
kit=${KIT:-/opt/rattle}
work=$(cd "$1" && pwd)
lib=$kit/toolchain/lib
page=$top/bindings/README.md

fails() {
    echo "readme programs: FAILED: $*" >&2
    exit 1
}

# takes KIND FILE: the first block of a kind, in a file.
takes() {
    awk -v kind="$1" '$0 == "```" kind && !done { inside = 1; next } $0 == "```" { if (inside) done = 1; inside = 0 } inside' "$page" > "$2"
    lines=$(wc -l < "$2")
    [ "$lines" -gt 0 ] || fails "bindings/README.md has no block of $1"
    [ "$lines" -le 25 ] || fails "the first block of $1 has $lines lines, and not 25 at most"
}

# runs NAME WORDS: the program ends with status 0, prints something, and nothing on standard error.
runs() {
    name=$1
    shift
    (cd "$work/readme" && timeout 60 "$@") > "$work/output" 2> "$work/error" || { cat "$work/error" >&2; fails "the program in $name"; }
    [ -s "$work/output" ] || fails "the program in $name prints nothing"
    [ ! -s "$work/error" ] || { cat "$work/error" >&2; fails "the program in $name writes to standard error"; }
}

# links NAME OBJECTS: a program of these objects.
links() {
    name=$1
    shift
    (cd "$work/readme" && "$kit/toolchain/bin/ld.lld" -pie --eh-frame-hdr -dynamic-linker /lib64/ld-linux-x86-64.so.2 -o "$name" \
        "$lib/Scrt1.o" "$lib/crtbeginS.o" "$@" "$work/libg3fax.a" --whole-archive "$kit/c/asan.a" --no-whole-archive "$lib/libc.so.6" \
        "$lib/libc_nonshared.a" "$lib/libm.so.6" "$lib/ld-linux-x86-64.so.2" "$lib/libgcc_s.so.1" "$lib/libgcc.a" "$lib/crtendS.o")
}

rm -rf "$work/readme"
mkdir "$work/readme"
find "$top/docs/examples" -maxdepth 1 -type f -exec cp {} "$work/readme" \;
takes c "$work/readme/program.c"
"$kit/toolchain/bin/clang" -std=c11 -Wall -Wextra -Werror -O1 -g -fPIE -fsanitize=address,undefined -fsanitize-trap=undefined \
    -nostdinc -isystem "$top/bindings/include" -I "$work" -c "$work/readme/program.c" -o "$work/readme/program.o" \
    || fails "the program in C isn't built"
links program program.o
runs C ./program
# the loop of a call, over a modem that is only declared, and then over that of the line
{
    printf '#include "g3fax.h"\ntypedef struct modem modem;\nuint64_t modem_now(modem *);\nint modem_is_quiet(modem *);\n'
    printf 'g3_status modem_listen(modem *, const g3_state *, g3_terminal *), store_pages(g3_terminal *), modem_send(modem *, g3_terminal *);\n'
    printf 'g3_status talk(g3_terminal *terminal, modem *line);\n'
    sed -n '/^## A call/,/^## /p' "$page" | sed -n '/^```c$/,/^```$/p' | sed '1d;$d'
} > "$work/readme/loop.c"
grep -q 'g3_terminal_tick' "$work/readme/loop.c" || fails "bindings/README.md has no loop of a call"
"$kit/toolchain/bin/clang" -std=c11 -Wall -Wextra -Werror -nostdinc -isystem "$top/bindings/include" -O1 -g -fPIE -I "$work" -c "$work/readme/loop.c" \
    -o "$work/readme/loop.o" || fails "the loop of a call isn't built"
"$kit/toolchain/bin/clang" -std=c11 -Wall -Wextra -Werror -O1 -g -fPIE -nostdinc -isystem "$top/bindings/include" -I "$work" \
    -c "$top/bindings/tests/line.c" -o "$work/readme/line.o" || fails "the line of virtual time isn't built"
links line loop.o line.o
runs line ./line
cat "$work/output"
# the loop over the pages of a file, of three that follow one another and of a file that is none
{
    printf '#include "g3fax.h"\ng3_status read_pages(uint8_t *, size_t, g3_status (*)(g3_page *, const g3_found *));\n'
    sed -n '/^## A file/,/^## /p' "$page" | sed -n '/^```c$/,/^```$/p' | sed '1d;$d'
} > "$work/readme/file.c"
grep -q 'g3_page_next' "$work/readme/file.c" || fails "bindings/README.md has no loop over a file"
for name in readme/file tests/pages; do
    from=$work
    [ $name = readme/file ] || from=$top/bindings
    "$kit/toolchain/bin/clang" -std=c11 -Wall -Wextra -Werror -O1 -g -fPIE -fsanitize=address,undefined -fsanitize-trap=undefined \
        -nostdinc -isystem "$top/bindings/include" -I "$work" -c "$from/$name.c" -o "$work/readme/$(basename $name).o" \
        || fails "the loop over a file isn't built"
done
links pages file.o pages.o
for name in mh.msb mh.lsb mmr.msb mmr.lsb; do
    for copy in 1 2 3; do cat "$top/.ci/data/wide.$name"; done > "$work/readme/three.$name"
    runs "file $name" ./pages "three.$name" 3
    grep -q '^done: 3 pages, 84 rows$' "$work/output" || fails "the loop over three.$name: $(cat "$work/output")"
done
(cd "$work/readme" && ./pages page.pbm 0 > "$work/output" 2>&1) && fails "the loop over a file that is no page"
grep -q ': 0 pages, 0 rows$' "$work/output" || fails "the loop over a file that is no page: $(cat "$work/output")"
# the examples of the man pages, which print what their first lines say
for file in "$top"/docs/man/examples/*.c; do
    name=$(basename "$file" .c)
    "$kit/toolchain/bin/clang" -std=c11 -Wall -Wextra -Werror -O1 -g -fPIE -fsanitize=address,undefined -fsanitize-trap=undefined \
        -nostdinc -isystem "$top/bindings/include" -I "$work" -c "$file" -o "$work/readme/man.o" || fails "the example of g3fax_$name isn't built"
    links man man.o
    runs "the example of g3fax_$name" ./man
    said=$(sed -n '1s/.*"\(.*\)".*/\1/p' "$file")
    [ -n "$said" ] || fails "the first line of $name.c doesn't say what is printed"
    [ "$(cut -c "1-${#said}" "$work/output")" = "$said" ] || fails "the example of g3fax_$name prints $(cat "$work/output")"
done
takes python "$work/readme/program.py"
runs Python env PYTHONDONTWRITEBYTECODE=1 PYTHONPATH="$top/bindings/python" G3FAX_LIBRARY="$work/libg3fax.so.0" python3 -W error program.py
echo "readme programs: the first ones of bindings/README.md, in C and in Python, run as they stand there; its loops carry calls and read files; man pages"
