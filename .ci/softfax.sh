#!/bin/sh
# Tries softfax over the library for C that bindings/build.sh left in a folder:
#
#     .ci/softfax.sh FOLDER
#
# The terminal over modems of plain bits, and softfax on ptys over Class 1 modems of its own, are built with the kit's clang under the
# address sanitizer and with traps for what C doesn't define, and always run, the terminal also with growths of memory refused in turn. The
# rest wants libspandsp-dev and a C compiler, the one that CC names or cc: bindings/c/softfax/run.sh, with calls over its modems and its
# Class 1 modem, the program itself under the compiler's sanitizers, if it has them, and under valgrind, if that is installed. Ends with
# status 1 at the first fault.
set -e
top=$(cd "$(dirname "$0")/.." && pwd)
kit=${KIT:-/opt/rattle}
work=$(cd "$1" && pwd)
here=$top/bindings/c/softfax
lib=$kit/toolchain/lib
# After so many seconds a test hangs: each takes some minutes at most, but ten times as long on a machine that does much else.
longest=3600

fails() {
    cat "$work/output" >&2
    echo "softfax: FAILED: $*" >&2
    exit 1
}

# compiles PARTS: their objects are added to $objects
compiles() {
    for part in "$@"; do
        "$kit/toolchain/bin/clang" -std=c11 -Wall -Wextra -Werror -O2 -g -fPIE -fsanitize=address,undefined -fsanitize-trap=undefined \
            -nostdinc -isystem "$work/posix" -isystem "$top/bindings/include" -I "$work" -I "$top/bindings/c" -c "$here/$part.c" -o "$work/softfax-$part.o"
        objects="$objects $work/softfax-$part.o"
    done
}

# builds NAME WORDS: a test over plain bits, linked with these words
builds() {
    name=$1 objects=$shared
    shift
    compiles "$name"
    # the words have no spaces of their own, unless TMPDIR has
    # shellcheck disable=SC2086
    "$kit/toolchain/bin/ld.lld" -pie --eh-frame-hdr -dynamic-linker /lib64/ld-linux-x86-64.so.2 -o "$work/$name" "$@" "$lib/Scrt1.o" \
        "$lib/crtbeginS.o" $objects "$work/libg3fax.a" --whole-archive "$kit/c/asan.a" --no-whole-archive "$lib/libc.so.6" \
        "$lib/libc_nonshared.a" "$lib/libm.so.6" "$lib/ld-linux-x86-64.so.2" "$lib/libgcc_s.so.1" "$lib/libgcc.a" "$lib/crtendS.o"
}

# the headers of POSIX, in a few lines
mkdir -p "$work/posix/sys"
cp "$top/.ci/posix.h" "$work/posix/"
for name in errno fcntl poll sched signal stdarg strings termios time unistd sys/file sys/ioctl sys/stat sys/wait; do
    echo '#include <posix.h>' > "$work/posix/$name.h"
done
for name in stdio stdlib string; do printf '#include_next <%s.h>\n#include <posix.h>\n' $name > "$work/posix/$name.h"; done

objects=
compiles lock
shared=$objects
builds lock-test
mkdir "$work/ttys"
timeout $longest "$work/lock-test" 500 "$work/ttys" > "$work/output" 2>&1 || fails lock-test
cat "$work/output"

objects=
compiles identity behind t31 class1 class1_setup class1_frame class1_words stopped trial line paper terminal bits
shared=$objects
builds bits-test
timeout $longest "$work/bits-test" > "$work/output" || fails bits-test
echo "softfax: $(grep -c '24 of 24' "$work/output") lines of plain bits carry all calls"
builds memory-test --wrap=malloc --wrap=realloc --wrap=free
timeout $longest "$work/memory-test" 40 > "$work/output" || fails memory-test
sed 's/^/softfax: /' "$work/output"
objects=$shared
compiles on_pty pty call stop told record pages header tty lock inits
shared=$objects
builds class1-test
mkdir "$work/papers"
timeout $longest "$work/class1-test" "$work/papers" > "$work/output" 2>&1 || fails class1-test
grep '^softfax: ' "$work/output"

objects=$shared
compiles options
shared=$objects
builds header-test --wrap=time
mkdir "$work/headers"
timeout $longest python3 "$here/header.py" "$work/header-test" "$work/headers" > "$work/output" 2>&1 || fails header-test
cat "$work/output"

objects=$shared
compiles service
shared=$objects
builds service-test
mkdir "$work/soak"
timeout $longest "$work/service-test" "$work/soak" > "$work/output" 2>&1 || { tail -n 20 "$work/soak/records" >> "$work/output"; fails service-test; }
grep '^softfax: ' "$work/output"

CC=${CC:-cc}
if ! command -v "$CC" > /dev/null; then
    echo "softfax: not run, there is no C compiler"
elif ! echo '#include <spandsp.h>' | "$CC" -E - > /dev/null 2>&1; then
    echo "softfax: not run, libspandsp-dev is not installed"
else
    LIB=$work OUT=$work/softfax CC=$CC "$here/run.sh" --audio > "$work/output" 2>&1 || fails run.sh
    grep '^softfax: ' "$work/output"
fi
