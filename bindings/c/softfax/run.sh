#!/bin/sh
# Builds softfax and its tests, and runs them: calls of the terminal with itself over plain bits, also with each growth of memory refused in
# turn; calls over libspandsp's modems and over its Class 1 modem, with its own terminal each way and with itself; two processes that are
# joined by two pipes, or by two ttys, under the sanitizers, also with growths of memory refused, and under valgrind; and what softfax says
# of wrong files, signals, streams that stall and modems that fail.
#
#     bindings/c/softfax/run.sh [--audio | --table SEEDS]
#
# --audio leaves out plain bits; --table adds the table of docs/AUDIO.md, with so many calls by chance of each kind. It wants
# libspandsp-dev (apt-get install libspandsp-dev), and the library that bindings/build.sh left in the folder LIB, if not bindings/build.
# OUT is where the programs go. docs/examples/driver.py is tried with the program that FAXTOOL names, or the one that is proved.
set -e
here=$(cd "$(dirname "$0")" && pwd)
LIB=${LIB:-$here/../../build}
OUT=${OUT:-$here/build}
work=$(mktemp -d)
exchange='' modems='' iaxmodems='' driven=''
leaves() {
    for one in $exchange $modems $iaxmodems $driven; do kill "$one" 2> /dev/null || true; done
    rm -rf "$work"
}
trap leaves EXIT

fails() {
    echo "softfax: FAILED: $*" >&2
    exit 1
}

# joins CALLER_STATUS ANSWERER_STATUS ANSWERER -- WORDS: a call of two processes, joined by two pipes. ANSWERER is the program, WORDS are
# those of the caller.
joins() {
    caller_status=$1 answerer_status=$2 answerer=$3 status=0
    shift 4
    rm -f "$work/to" "$work/from"
    mkfifo "$work/to" "$work/from"
    timeout 60 "$answerer" --answer "$work/got" --rx "$work/to" --tx "$work/from" 2> "$work/answerer" &
    timeout 60 "$softfax" --call "$@" --rx "$work/from" --tx "$work/to" 2> "$work/caller" || status=$?
    [ "$status" = "$caller_status" ] || { cat "$work/caller" "$work/answerer" >&2; fails "the caller ended with status $status"; }
    status=0
    wait $! || status=$?
    [ "$status" = "$answerer_status" ] || { cat "$work/caller" "$work/answerer" >&2; fails "the answerer ended with status $status"; }
}

# refuses STATUS TEXT WORDS: softfax ends so, and the last line on standard error has the text.
refuses() {
    wanted=$1 text=$2 status=0
    shift 2
    timeout 60 "$softfax" "$@" > /dev/null 2> "$work/said" < /dev/null || status=$?
    [ "$status" = "$wanted" ] || fails "softfax $* ended with status $status"
    grep -q "$text" "$work/said" || fails "softfax $* said: $(cat "$work/said")"
}

make -s -C "$here" LIB="$LIB" OUT="$OUT" softfax softfax-test bench driven
softfax=$OUT/softfax
# the program runs under the sanitizers, where the compiler has them: status 99 is a report
if make -s -C "$here" LIB="$LIB" OUT="$OUT" softfax-checked > "$work/said" 2>&1; then
    softfax=$OUT/softfax-checked
    export ASAN_OPTIONS=exitcode=99 UBSAN_OPTIONS=exitcode=99:print_stacktrace=1
fi
if [ "$1" != --audio ]; then
    make -s -C "$here" LIB="$LIB" OUT="$OUT" bits-test class1-test memory-test
    "$OUT/bits-test"
    mkdir "$work/papers"
    "$OUT/class1-test" "$work/papers"
    "$OUT/memory-test"
fi

# modems that fail, by the machine's clock: they are tried beside the rest
{ printf 'P4\n1728 40\n'; seq 10000 99999 | head -c 8640; } > "$work/short.pbm"
mkdir "$work/got" "$work/unused"
timeout 300 python3 "$here/modems.py" "$softfax" "$work/short.pbm" "$work/unused" > "$work/modems" 2>&1 &
modems=$!
mkdir "$work/iax"
timeout 600 python3 "$here/iax.py" "$softfax" "$work/short.pbm" "$work/iax" > "$work/iaxmodems" 2>&1 &
iaxmodems=$!
faxtool=${FAXTOOL:-$here/../../../crates/faxtool/out/faxtool}
if [ -x "$faxtool" ]; then
    mkdir "$work/driver"
    timeout 400 python3 "$here/driven.py" "$OUT/driven" "$faxtool" "$here/../../../docs/examples/driver.py" "$work/driver" > "$work/driven" 2>&1 &
    driven=$!
else
    echo "softfax: driver.py isn't tried over libspandsp's modems: there is no $faxtool" > "$work/driven"
fi
"$OUT/softfax-test" "$work"
"$OUT/bench" "$work"

# pages whose pixels are text
for page in 1 2; do { printf 'P4\n1728 200\n'; seq "$page"0000 99999 | head -c 43200; } > "$work/$page.pbm"; done
joins 0 0 "$softfax" -- "$work/1.pbm" "$work/2.pbm" --wav "$work/call.wav" --id "+49 30 1234"
for page in 1 2; do cmp "$work/$page.pbm" "$work/got/page-$page.pbm" || fails "page $page is another"; done
ends=$(cat "$work/caller" "$work/answerer" | sed 's/^[1-9][0-9]* s; //' | tr '\n' ' ')
figures="blocks 2, PPRs 0, frames sent again 0, failed checks 0, retries 0; v17-14400 to v17-14400" # a page has 142 frames, and a block 256
[ "$ends" = "$figures end normal confirmed 2 $figures; peer +49 30 1234 end normal pages 2 " ] || fails "the ends are $ends"
[ "$(head -c 4 "$work/call.wav")" = RIFF ] || fails "call.wav"

# a page that can't be written: files may have 512 octets here, which is as if the disk were full
printf '#!/bin/sh\nulimit -f 1\nexec "%s" "$@"\n' "$softfax" > "$work/narrow"
chmod +x "$work/narrow"
joins 1 1 "$work/narrow" -- "$work/1.pbm"
grep -q "part: File too large" "$work/answerer" || fails "the answerer said: $(cat "$work/answerer")"
grep -q "confirmed 0" "$work/caller" || fails "a page that isn't kept was confirmed"
[ "$(ls -A "$work/got" | tr '\n' ' ')" = "page-1.pbm page-2.pbm " ] || fails "a part of a page was left: $(ls -A "$work/got")"
[ "$(stat -c %a "$work/got/page-1.pbm")" = 600 ] || fails "page-1.pbm has mode $(stat -c %a "$work/got/page-1.pbm")"

# records; and a page of 3.85 lines as square pixels, after a name that is taken
printf '#!/bin/sh\nexec "%s" "$@" --json --square --id "0 1"\n' "$softfax" > "$work/records"
chmod +x "$work/records"
echo taken > "$work/got/page-3.pbm"
joins 0 0 "$work/records" -- "$work/1.pbm" --json --id "+49 30 1234"
has() { grep -qF "$2" "$work/$1" || fails "the $1 recorded: $(cat "$work/$1")"; }
has answerer '{"page":1,"file":"'"$work"'/got/page-4.pbm","width":1728,"height":200,"lines":"standard","square":true,"peer":"+49 30 1234"}'
figures='"blocks":1,"failed_checks":0,"first_speed":"v17-14400","last_speed":"v17-14400"' none='"pprs":0,"resent":0,"retries":0'
has answerer '{"end":"normal","pages":1,'"$figures"',"peer":"+49 30 1234",'"$none"',"seconds":'
has answerer ',"why":null}'
has caller '{"confirmed":1,"file":"'"$work"'/1.pbm","width":1728,"height":200,"lines":"standard","peer":"0 1"}'
has caller '{"end":"normal","confirmed":1,'"$figures"',"peer":"0 1",'"$none"',"seconds":'
[ "$(cat "$work/got/page-3.pbm")" = taken ] || fails "page-3.pbm was overwritten"
[ "$(head -n 2 "$work/got/page-4.pbm" | tail -n 1)" = "1728 400" ] || fails "page-4.pbm isn't square"

# a line at the head of each page, by the machine's clock
mkdir "$work/headers"
python3 "$here/header.py" --softfax "$softfax" "$work/headers" > "$work/said" 2>&1 || { cat "$work/said" >&2; fails header.py; }
grep '^softfax: ' "$work/said"

# files of several images are one call; a page past a limit isn't confirmed
{ printf 'P4\n# two images\n1728\n#1 2\n200 '; tail -c 43200 "$work/1.pbm"; cat "$work/2.pbm"; } > "$work/both.pbm"
printf '#!/bin/sh\nexec "%s" "$@" --json --most-pages 2 --most-octets 90000\n' "$softfax" > "$work/limits"
chmod +x "$work/limits"
joins 1 1 "$work/limits" -- "$work/both.pbm" "$work/1.pbm" --json
for page in 1 2; do cmp "$work/$page.pbm" "$work/got/page-$((4 + page)).pbm" || fails "page $page of two images is another"; done
has caller '{"confirmed":2,"file":"'"$work"'/both.pbm","image":2,"width":1728'
has answerer '{"end":"stopped","pages":2,"blocks":2,"failed_checks":0,"first_speed":"v17-14400"'
has answerer ',"why":"'"$work"'/got: a page past --most-pages"}'
rm "$work/got/page-5.pbm" "$work/got/page-6.pbm"

# a caller without error correction
mkfifo "$work/up" "$work/down"
timeout 60 "$softfax" --answer "$work/got" --rx "$work/up" --tx "$work/down" --json 2> "$work/answerer" &
answerer=$! status=0
timeout 60 "$OUT/softfax-test" "$work" --refused "$work/down" "$work/up" || fails "a caller without error correction ended with status $?"
wait "$answerer" || status=$?
[ "$status" = 1 ] || fails "the answerer of a caller without error correction ended with status $status"
has answerer '{"end":"refused","pages":0,"blocks":0,"failed_checks":0,"first_speed":null,"last_speed":null,"peer":null,'"$none"',"seconds":'
has answerer ',"why":"the caller sends without error correction"}'

# a build without libspandsp's header has modems alone
mkdir "$work/deaf"
echo '#error none' > "$work/deaf/spandsp.h"
make -s -C "$here" LIB="$LIB" OUT="$work/mute" CC="${CC:-cc} -I$work/deaf" softfax
status=0
"$work/mute/softfax" --answer "$work" --rx /dev/null --tx /dev/null 2> "$work/said" || status=$?
{ [ "$status" = 1 ] && grep -q "built without libspandsp, and has modems alone" "$work/said"; } \
    || fails "softfax without sound ended with status $status and said: $(cat "$work/said")"

refuses 2 usage
refuses 2 usage --call --rx /dev/null --tx /dev/null
refuses 2 usage --call "$work/1.pbm" --answer "$work" --rx /dev/null --tx /dev/null
refuses 2 usage --call "$work/1.pbm" --rx /dev/null --tx /dev/null --modems v8
refuses 1 "no.pbm: No such file" --call "$work/no.pbm" --rx /dev/null --tx /dev/null
refuses 1 "/dev/zero: it is too long" --call /dev/zero --rx /dev/null --tx /dev/null
refuses 1 "call.wav: the header is no raw PBM header" --call "$work/call.wav" --rx /dev/null --tx /dev/null
printf 'abc' > "$work/odd.raw"
printf 'P4\n8 1\n.' > "$work/narrow.pbm"
refuses 1 "1728, 2048 or 2432" --call "$work/narrow.pbm" --rx /dev/null --tx /dev/null
cat "$work/1.pbm" "$work/narrow.pbm" > "$work/two.pbm"
refuses 1 "two.pbm: .*1728, 2048 or 2432" --call "$work/two.pbm" --rx /dev/null --tx /dev/null
cat "$work/1.pbm" "$work/odd.raw" > "$work/two.pbm"
refuses 1 "two.pbm: " --call "$work/two.pbm" --rx /dev/null --tx /dev/null
refuses 1 "nowhere: No such file" --answer "$work/nowhere" --rx /dev/null --tx /dev/null
refuses 1 "1.pbm: Not a directory" --answer "$work/1.pbm" --rx /dev/null --tx /dev/null
refuses 1 "none.raw: No such file" --answer "$work" --rx "$work/none.raw" --tx /dev/null
refuses 1 "odd.raw: it ends in the middle of a sample" --answer "$work" --rx "$work/odd.raw" --tx /dev/null
refuses 1 "odd.raw: File exists" --answer "$work" --rx /dev/null --tx "$work/odd.raw"
refuses 1 "call.wav: File exists" --answer "$work" --rx /dev/null --tx /dev/null --wav "$work/call.wav"
refuses 1 "/dev/full: No space left" --answer "$work" --rx /dev/zero --tx /dev/full
refuses 1 "end line-lost pages 0" --answer "$work" --rx /dev/null --tx /dev/null
refuses 1 "end no-answer confirmed 0" --call "$work/1.pbm" --rx /dev/zero --tx /dev/null
refuses 1 "end no-answer pages 0" --answer "$work" --rx /dev/zero --tx "$work/said.raw"
# who listens goes away: the call goes on as on a line that carries nothing that way
rm -f "$work/status"
{ timeout 60 "$softfax" --answer "$work" --rx /dev/zero --tx - 2> "$work/said" || echo $? > "$work/status"; } | head -c 1000 > /dev/null
[ "$(cat "$work/status")" = 1 ] || fails "softfax with a closed pipe ended with status $(cat "$work/status")"
grep -q "end no-answer pages 0" "$work/said" || fails "softfax said of a closed pipe: $(cat "$work/said")"

# a stream that stalls ends no signal's work, nor does a pipe that nobody opens; and --most-seconds ends both
mkfifo "$work/still" "$work/unread"
stops() { # stops SECONDS TEXT WORDS: it ends so after SIGTERM, which comes after a second if SECONDS is 1
    signalled=$1 text=$2
    shift 2
    timeout --foreground 20 "$softfax" "$@" > /dev/null 2> "$work/said" < /dev/null &
    if [ "$signalled" = 1 ]; then sleep 1; kill -TERM $!; fi
    status=0
    wait $! || status=$?
    [ "$status" = 1 ] || fails "softfax $* ended with status $status"
    grep -q "$text" "$work/said" || fails "softfax $* said: $(cat "$work/said")"
}
sleep 60 > "$work/still" &
holder=$!
stops 1 "end stopped pages 0" --answer "$work" --rx "$work/still" --tx /dev/null
stops 0 "end stopped pages 0" --answer "$work" --rx "$work/still" --tx /dev/null --most-seconds 1
kill "$holder"
stops 1 "end stopped confirmed 0" --call "$work/1.pbm" --rx /dev/zero --tx "$work/unread"
stops 0 "end stopped confirmed 0" --call "$work/1.pbm" --rx /dev/zero --tx /dev/null --most-seconds 5
# nor does standard error, which nobody reads, and which is full
mkfifo "$work/err"
# it keeps the pipe open, and reads nothing
# shellcheck disable=SC2217
sleep 60 < "$work/err" &
holder=$!
head -c 65536 /dev/zero > "$work/err"
status=0
timeout 20 "$softfax" --answer "$work" --rx /dev/null --tx /dev/null 2> "$work/err" || status=$?
[ "$status" = 1 ] || fails "softfax with nobody to tell it to ended with status $status"
kill "$holder"
echo "softfax: two processes carry pages over two pipes; wrong files are told, and signals heeded"


if [ "$softfax" = "$OUT/softfax-checked" ]; then
    { printf 'P4\n1728 8\n'; seq 10000 99999 | head -c 1728; } > "$work/few.pbm"
    mkdir "$work/refusals"
    timeout 1200 python3 "$here/refusals.py" "$softfax" "$work/few.pbm" "$work/refusals"
else
    echo "softfax: the compiler has no sanitizers: growths of memory aren't refused here"
fi

# modems that fail
refuses 2 usage --tty /dev/null --call 1
refuses 2 usage --tty /dev/null --call 1 "$work/1.pbm" --rx /dev/zero
refuses 2 usage --tty /dev/null --call 1 "$work/1.pbm" --calls 2
refuses 2 usage --tty /dev/null --answer "$work" --calls 0
refuses 2 usage --answer "$work" --rx /dev/null --tx /dev/null --calls 2
refuses 2 usage --answer "$work" --rx /dev/null --tx /dev/null --most-pages 0
# who gives a number gives no commands: before the tty is opened
for number in '5;+FCLASS=0' '555;H0' '' 'T5' '5"' "5$(printf '\r')ATH0" 5551234567890123456789012345678901234567890123456789012345678901; do
    refuses 2 "the number: it is not of 1 to 60 digits" --tty "$work/none" --call "$number" "$work/1.pbm"
done
refuses 1 "none: No such file" --tty "$work/none" --call '+49 (30) 12-34,W@!*#ABCD' "$work/1.pbm"
refuses 2 usage --tty /dev/null --call 1 "$work/1.pbm" --id "a name"
refuses 2 usage --tty /dev/null --answer "$work" --init AT1 --init AT2 --init AT3 --init AT4 --init AT5
refuses 1 "inits.txt: it doesn't have that modem" --tty /dev/null --call 1 "$work/1.pbm" --init another
refuses 1 "none: No such file" --tty "$work/none" --call 1 "$work/1.pbm"
refuses 1 "/dev/null: Inappropriate ioctl" --tty /dev/null --call 1 "$work/1.pbm"

mkdir "$work/locks"
timeout 300 python3 "$here/locks.py" "$softfax" "$work/locks"

# two processes over two ttys, in real time
"$OUT/bench" --ptys "$work/tty0" "$work/tty1" &
exchange=$!
while [ ! -e "$work/tty1" ]; do sleep 0.1; done

# ttys STATUS PAGE SIGNALS: a call; its caller gets so many SIGINTs once its page goes out
ttys() {
    rm -f "$work/caller.at" # of the call before
    status=0
    timeout --foreground 120 "$softfax" --tty "$work/tty0" --call 5551234 "$2" --trace-at "$work/caller.at" 2> "$work/caller" &
    caller=$!
    for number in $(seq "$3"); do
        until grep -q "AT+FTM=146" "$work/caller.at" 2> /dev/null || ! kill -0 "$caller" 2> /dev/null; do sleep 0.1; done
        sleep 0.5
        kill -INT "$caller" 2> /dev/null || fails "the caller had ended before signal $number"
    done
    wait "$caller" || status=$?
    [ "$status" = "$1" ] || { cat "$work/caller" "$work/caller.at" >&2; fails "the caller on a tty ended with status $status"; }
}

# a lock by the name that is given, or by that of the device; later what a process that is gone has left is taken over
device=$(basename "$(readlink "$work/tty0")")
for name in "$device" tty0; do
    lock=/var/lock/LCK..$name
    if (echo $$ > "$lock") 2> /dev/null; then
        refuses 1 "process $$ has it" --tty "$work/tty0" --call 1 "$work/short.pbm"
        [ "$(cat "$lock")" = $$ ] || fails "$lock was changed"
        for other in "$device" tty0; do [ "$other" = "$name" ] || [ ! -e "/var/lock/LCK..$other" ] || fails "one of two locks is left"; done
        rm "$lock"
    fi
done
for name in "$device" tty0; do (echo 99999999 > "/var/lock/LCK..$name") 2> /dev/null || true; done
# one process answers both calls, with a folder for each
mkdir "$work/calls"
timeout 240 "$softfax" --tty "$work/tty1" --answer "$work/calls" --calls 2 --trace-at "$work/answerer.at" 2> "$work/answerer" &
answerer=$!
ttys 0 "$work/short.pbm" 0
cmp "$work/short.pbm" "$work/calls"/*/page-1.pbm || fails "the page over two ttys is another"
grep -q "> AT+FCLASS=1" "$work/caller.at" || fails "the trace is $(cat "$work/caller.at")"
for name in "$device" tty0; do [ ! -e "/var/lock/LCK..$name" ] || fails "/var/lock/LCK..$name is left"; done
# two signals amid a block of half a minute: it is cut, and DCN goes out
{ printf 'P4\n1728 200\n'; seq 200000 | gzip -n | head -c 43200; } > "$work/dense.pbm"
ttys 1 "$work/dense.pbm" 2
status=0
wait "$answerer" || status=$?
[ "$status" = 0 ] || { cat "$work/answerer" "$work/answerer.at" >&2; fails "the answerer of two calls ended with status $status"; }
grep -q "end stopped confirmed 0" "$work/caller" || fails "after two signals the caller said: $(cat "$work/caller")"
said=$(grep -v ' s; blocks ' "$work/answerer" | tr '\n' ' ')
case $said in
"softfax: call 1 end normal pages 1 in $work/calls/"*"-1 softfax: call 2 end peer-left pages 0 ") ;;
*) fails "the answerer of two calls said: $said" ;;
esac
[ "$(grep -c "> ATZ" "$work/answerer.at")" = 1 ] || fails "the modem was set up twice"
[ "$(find "$work/calls" -mindepth 1 -maxdepth 1 | wc -l)" = 1 ] || fails "a call without a page has a folder"
kill "$exchange"
exchange=
echo "softfax: two processes carry a page over two ttys, and two signals end a call by DCN; one answers both calls"

if command -v valgrind > /dev/null; then
    make -s -C "$here" LIB="$LIB" OUT="$OUT" memory-test class1-test service-test
    mkdir "$work/few" "$work/service"
    valgrind -q --error-exitcode=99 --leak-check=full "$OUT/service-test" "$work/service" 3 > "$work/said" 2>&1 \
        || { cat "$work/said" "$work/service/records" >&2; fails "valgrind of service-test"; }
    valgrind -q --error-exitcode=99 --leak-check=full --track-fds=yes "$OUT/class1-test" "$work/few" --few > "$work/said" 2>&1 \
        || { cat "$work/said" >&2; fails "valgrind of class1-test"; }
    ! grep "Open file descriptor.*: /dev/p" "$work/said" || fails "a pty is left open"
    valgrind -q --error-exitcode=99 --leak-check=full "$OUT/memory-test" 100 30 > "$work/said" 2>&1 \
        || { cat "$work/said" >&2; fails "valgrind of memory-test"; }
    printf '#!/bin/sh\nexec valgrind -q --error-exitcode=99 --leak-check=full --track-fds=yes "%s" "$@"\n' "$OUT/softfax" > "$work/valgrind"
    chmod +x "$work/valgrind"
    softfax=$work/valgrind
    joins 0 0 "$softfax" -- "$work/short.pbm" "$work/short.pbm" --wav "$work/valgrind.wav"
    ! grep "Open file descriptor.*: $work" "$work/caller" "$work/answerer" || fails "a descriptor is left open"
    echo "softfax: valgrind finds nothing in calls over libspandsp's modems and on ptys, nor where growths are refused"
else
    echo "softfax: valgrind isn't installed"
fi

wait "$iaxmodems" || { cat "$work/iaxmodems" >&2; fails "iax.py"; }
iaxmodems=
cat "$work/iaxmodems"
wait "$modems" || { cat "$work/modems" >&2; fails "modems.py"; }
modems=
cat "$work/modems"
[ -z "$driven" ] || wait "$driven" || { cat "$work/driven" >&2; fails "driven.py"; }
driven=
cat "$work/driven"

if [ "$1" = --table ]; then "$OUT/softfax-test" "$work" --table "${2:-1}"; fi
