#!/bin/sh
# Tries an installed softfax: numbers that would be commands; a modem on a pty that is busy, by the name of a chip of its inits.txt; and, if it
# has sound, a call of two of them over two pipes:
#
#     packaging/try_softfax.sh PROGRAM [PTYS]
#
# PTYS is the program of bindings/c/softfax that has modems on two ptys: then one process answers two calls on a pty, as the unit has it. A
# call that fails, as one may in real time on a machine that does much else, is made again. Ends with status 1 if anything is another way.
set -e
top=$(cd "$(dirname "$0")/.." && pwd)
. "$top/packaging/common.sh"
[ $# = 1 ] || [ $# = 2 ] || { echo "usage: try_softfax.sh PROGRAM [PTYS]" >&2; exit 2; }
needs python3 mkfifo
program=$1 ptys=$2
work=$(mktemp -d)
exchange=
# shellcheck disable=SC2317
leaves() {
    [ -z "$exchange" ] || kill "$exchange" 2> /dev/null || true
    rm -rf "$work"
}
trap leaves EXIT
{ printf 'P4\n1728 40\n'; seq 10000 99999 | head -c 8640; } > "$work/page.pbm"
# what a stranger gives as a number gives the modem no command: it is refused before the tty is opened
dials() { # dials NUMBER STATUS WORDS: it ends so on a tty that isn't there
    status=0
    "$program" --tty "$work/none" --call "$1" "$work/page.pbm" 2> "$work/said" || status=$?
    [ "$status" = "$2" ] || ends "the number $1: status $status"
    grep -q "$3" "$work/said" || ends "the number $1: $(cat "$work/said")"
}
for number in '5;+FCLASS=0' '555;H0' T5 ''; do dials "$number" 2 "the number: it is not of 1 to 60 digits"; done
dials '+49 (30) 12-34,W@!*#ABCD' 1 "none: No such file"
python3 - "$program" "$work/page.pbm" << 'MODEM' || ends "the modem that is busy"
import os
import pty
import subprocess
import sys
import tty

master, slave = pty.openpty()
tty.setraw(slave)
words = [sys.argv[1], "--tty", os.ttyname(slave), "--call", "555", sys.argv[2], "--init", "usr"]
with subprocess.Popen(words, stderr=subprocess.PIPE, text=True) as program:
    told = b""
    while b"ATDT555\r" not in told:
        told += os.read(master, 500)
        os.write(master, b"\r\nBUSY\r\n" if told.endswith(b"ATDT555\r") else b"\r\nOK\r\n")
    os.read(master, 500)
    os.write(master, b"\r\nOK\r\n")
    said = program.stderr.read()
is_right = program.returncode == 1 and "the modem says BUSY" in said and b"AT&F1E0\r" in told
sys.exit(0 if is_right else f"status {program.returncode}, {said}, {told!r}")
MODEM
if ldd "$program" | grep -q libspandsp; then
    mkdir "$work/got"
    mkfifo "$work/to" "$work/from"
    timeout 120 "$program" --answer "$work/got" --rx "$work/to" --tx "$work/from" 2> "$work/said" &
    timeout 120 "$program" --call "$work/page.pbm" --rx "$work/from" --tx "$work/to" || ends "a call over sound"
    wait $! || { cat "$work/said" >&2; ends "the answerer of a call over sound"; }
    cmp "$work/page.pbm" "$work/got/page-1.pbm" || ends "the page of a call over sound"
fi
# what the unit runs, over modems on two ptys: each call has a folder with its page, and SIGUSR1 ends the wait for another one
if [ -n "$ptys" ]; then
    # a tty is locked by its name, so that no other run of this has the same one
    caller=$work/caller$$ called=$work/called$$
    mkdir "$work/calls"
    "$ptys" "$caller" "$called" &
    exchange=$!
    "$program" --tty "$called" --wait-tty --answer "$work/calls" --calls forever --json 2> "$work/said" &
    answerer=$!
    calls=0
    for try in 1 2 3 4 5; do
        kill -0 "$answerer" 2> /dev/null || { cat "$work/said" >&2; ends "the answerer has left after $calls calls"; }
        [ $calls = 2 ] || ! timeout 300 "$program" --tty "$caller" --wait-tty --call 5551234 "$work/page.pbm" 2> "$work/error" \
            || calls=$((calls + 1))
    done
    kill -USR1 "$answerer"
    wait "$answerer" || { cat "$work/said" >&2; ends "the answerer of two calls"; }
    [ $calls = 2 ] || { cat "$work/error" "$work/said" >&2; ends "two of $try calls on two ptys"; }
    pages=$(find "$work/calls" -name page-1.pbm)
    [ "$(echo "$pages" | wc -l)" -ge 2 ] || ends "two calls have stored $pages"
    for page in $pages; do cmp "$work/page.pbm" "$page" || ends "the page of a call on two ptys"; done
    [ "$(grep -c '^{"end":"normal","pages":1,.*"folder":' "$work/said")" -ge 2 ] || { cat "$work/said" >&2; ends "the records of two calls"; }
fi
