#!/bin/sh
# Packs the module for Python with the library for C that bindings/build.sh left in a folder as a wheel, and tries it:
#
#     .ci/wheel.sh FOLDER
#
# The wheel is made twice, with the same octets, and by pip from bindings/python. The first program of bindings/README.md runs with it and
# nothing else: installed by pip without an index into a new environment, in the system's Python, and, if this is run as root, in a root that
# has this Python, the C library and the package alone. Where mypy is, the module and a program that uses the installed package are checked
# by `mypy --strict`. What isn't there of pip and mypy is named. Ends with status 1 at the first difference.
set -e
top=$(cd "$(dirname "$0")/.." && pwd)
work=$(cd "$1" && pwd)
to=$work/wheel
# one time for all wheels, also if something is committed meanwhile
SOURCE_DATE_EPOCH=1700000000
export SOURCE_DATE_EPOCH
PYTHONDONTWRITEBYTECODE=1 PIP_DISABLE_PIP_VERSION_CHECK=1 PIP_NO_INDEX=1 PIP_NO_CACHE_DIR=1 PIP_ROOT_USER_ACTION=ignore
export PYTHONDONTWRITEBYTECODE PIP_DISABLE_PIP_VERSION_CHECK PIP_NO_INDEX PIP_NO_CACHE_DIR PIP_ROOT_USER_ACTION
rm -rf "$to"
mkdir "$to"

fails() {
    [ ! -f "$to/said" ] || cat "$to/said" >&2
    echo "wheel: FAILED: $*" >&2
    exit 1
}

# runs WORDS: the program of bindings/README.md runs with the installed package, in an environment with nothing else.
runs() {
    (cd "$to" && env -i PYTHONDONTWRITEBYTECODE=1 "$@" -W error program.py) > "$to/said" 2>&1 || fails "the program with the package"
    grep -q '^whole rows: 1, ' "$to/said" || fails "the program says something else"
    (cd "$to" && env -i PYTHONDONTWRITEBYTECODE=1 "$@" -c 'import g3fax, os
assert os.path.dirname(g3fax._library._name) == os.path.dirname(g3fax.__file__), g3fax._library._name
assert os.path.exists(os.path.join(os.path.dirname(g3fax.__file__), "py.typed"))') > "$to/said" 2>&1 \
        || fails "the package has no library of its own"
}

awk '$0 == "```python" && !done { inside = 1; next } $0 == "```" { if (inside) done = 1; inside = 0 } inside' "$top/bindings/README.md" \
    > "$to/program.py"
for out in first second; do
    G3FAX=$work "$top/bindings/python/make_wheel.py" "$to/$out" > "$to/said" 2>&1 || fails make_wheel.py
done
wheel=$(cd "$to/first" && ls)
said=
! grep -q "built without proof" "$work/g3fax.pc" || said=+unproved
case $wheel in
"g3fax-$(cat "$top/VERSION")$said-py3-none-manylinux_2_"*_x86_64.whl) ;;
*) fails "the wheel is $wheel" ;;
esac
cmp "$to/first/$wheel" "$to/second/$wheel" || fails "two wheels of the same library differ"
! G3FAX=$work/missing "$top/bindings/python/make_wheel.py" "$to/third" > "$to/said" 2>&1 || fails "a wheel without a library"
grep -q "isn't built yet" "$to/said" || fails "make_wheel.py doesn't say what is missing"

# each file has the sum that RECORD has of it
python3 -c 'import base64, hashlib, sys, zipfile
wheel = zipfile.ZipFile(sys.argv[1])
lines = [line.split(",") for line in wheel.read(next(name for name in wheel.namelist() if name.endswith("RECORD"))).decode().split()]
assert sorted(name for name, *_ in lines) == sorted(wheel.namelist())
for name, given, length in lines[:-1]:
    octets = wheel.read(name)
    made = base64.urlsafe_b64encode(hashlib.sha256(octets).digest()).rstrip(b"=").decode()
    assert (given, int(length)) == ("sha256=" + made, len(octets)), name' "$to/first/$wheel" > "$to/said" 2>&1 || fails RECORD
python3 -m zipfile -e "$to/first/$wheel" "$to/unpacked"
runs PYTHONPATH="$to/unpacked" "$(python3 -c 'import sys; print(sys.executable)')"

# in the system's Python, which may be another one
[ ! -x /usr/bin/python3 ] || runs PYTHONPATH="$to/unpacked" /usr/bin/python3

# and in a root that has that Python, the C library and the package alone
root=$to/root where="as it is"
python=$(readlink -f /usr/bin/python3 || true)
stdlib=/usr/lib/$(basename "$python")
if [ "$(id -u)" = 0 ] && chroot=$(command -v chroot) && [ -d "$stdlib/lib-dynload" ]; then
    mkdir -p "$root/usr/bin" "$root/usr/lib" "$root/lib64"
    cp "$python" "$root/usr/bin/python3"
    cp -r "$stdlib" "$root/usr/lib/"
    cp /lib64/ld-linux-x86-64.so.2 "$root/lib64/"
    ldd "$python" "$stdlib"/lib-dynload/*.so 2> /dev/null | sed -n 's/.* => \(\/[^ ]*\) .*/\1/p' | sort -u | while read -r file; do
        cp -L --parents "$file" "$root"
    done
    cp -r "$to/unpacked" "$root/package"
    cp "$to/program.py" "$root/"
    runs PYTHONPATH=/package "$chroot" "$root" /usr/bin/python3
    where="also in a root without the kit"
fi

how="unpacked, since there is no pip"
if python3 -m pip --version > /dev/null 2>&1 && python3 -m venv "$to/env" > "$to/said" 2>&1; then
    "$to/env/bin/python" -m pip install -q "$to/first/$wheel" > "$to/said" 2>&1 || fails "pip install"
    runs "$to/env/bin/python"
    G3FAX=$work "$to/env/bin/python" -m pip wheel -q -w "$to/third" "$top/bindings/python" > "$to/said" 2>&1 || fails "pip wheel"
    cmp "$to/third/$wheel" "$to/first/$wheel" || fails "pip makes another wheel"
    how="installed by pip"
fi
if command -v mypy > /dev/null; then
    mypy --strict --cache-dir="$to/mypy" "$top/bindings/python/g3fax" > "$to/said" 2>&1 || fails "mypy of the package"
    printf '%s\n' 'import g3fax' 'with g3fax.Page.read_pbm(b"") as page:' '    reveal_type(page[0])' '    reveal_type(page[1:])' \
        'g3fax.Page.decode(b"").bits + 1' > "$to/typed.py"
    (cd "$to" && MYPYPATH=$to/unpacked mypy --strict --cache-dir="$to/mypy" typed.py) > "$to/said" 2>&1 || fails "mypy of a program"
    for type in memoryview 'Page"'; do grep -q "$type" "$to/said" || fails "the package has no type $type"; done
    # each line has one error of a caller, which is found
    printf '%s\n' 'import g3fax' 'g3fax.encode([1, 2])' 'g3fax.decode("text")' 'g3fax.Page.of_rows(7)' 'g3fax.Deframer().feed(None)' \
        'g3fax.Answerer().hear([b""])' 'g3fax.write_signal(g3fax.Kind.MCF, g3fax.Side.CALLER)' 'g3fax.Document(g3fax.Page())' \
        'g3fax.Caller([g3fax.Page()])' 'g3fax.encode_pixels([[0, 1]])' 'g3fax.Document().code("mmr")' > "$to/wrong.py"
    (cd "$to" && MYPYPATH=$to/unpacked mypy --strict --cache-dir="$to/mypy" wrong.py) > "$to/said" 2>&1 && fails "mypy of wrong calls"
    for line in 2 3 4 5 6 7 8 9 10 11; do grep -q "^wrong.py:$line: error" "$to/said" || fails "mypy finds no error in line $line"; done
    how="$how, and strict for mypy, which finds 10 wrong calls of 10"
else
    how="$how; its types weren't checked: there is no mypy"
fi
rm -rf "$to"
echo "wheel: $wheel, twice the same, $where, $how"
