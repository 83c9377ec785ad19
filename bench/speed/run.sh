#!/bin/sh
# Times a part: `frames`, the deframer on 16 MiB of frames in pieces of 1, 7 and 4,096 octets; `blocks`, cutting a coded page of
# 1, 2, 4 and 8 MiB into blocks and joining their frames again; `call`, whole calls of a page of 65, 129 and 257 blocks, with the
# greatest memory taken. Builds the program of bench/speed/NAME, which uses the libraries that its libraries.txt names, in a copy of
# the repository, over what its checks kept, and runs it.
set -e
root=$(cd "$(dirname "$0")/../.." && pwd)
name=$1
if [ -z "$name" ] || [ ! -f "$root/bench/speed/$name/main.txt" ]; then
    echo "usage: bench/speed/run.sh frames|blocks|call" >&2
    exit 2
fi
copy=$(mktemp -d)
trap 'rm -rf "$copy"' EXIT
cp -r "$root/crates" "$root/crates.txt" "$root/HANDLES" "$copy"
mkdir -p "$copy/crates/${name}_bench/src"
cp "$root/bench/speed/$name/main.txt" "$copy/crates/${name}_bench/src/main.rt"
echo "${name}_bench: $(cat "$root/bench/speed/$name/libraries.txt")" >> "$copy/crates.txt"
cd "$copy/crates/${name}_bench"
rt run 2> "$copy/log" || { cat "$copy/log"; exit 1; }
