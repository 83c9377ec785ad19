#!/bin/sh
# Refuses each growth of memory in turn, one a run, until a run meets none, and tells how the runs ended. Those of whole calls are the
# gate's, by .ci/growths.py:
#
#     bench/memory/refuse_growths.sh [CRATE.. | words]       with no word all crates of tests, and the words
#
# Of a crate: each of its tests alone. A run has to end with an error that says that memory was refused, or by a stop of
# the test's own. Ends with status 1 where one ends by another error or a signal, or takes more than a minute. To be looked at are
# what else than refused memory an assert found, `error Io` (right where a writer into memory failed), and runs that
# pass though a growth was refused (right where the test expects the refusal, or the growth wasn't needed).
# A test of more than MOST growths (300) has half as many refused from its first on, and the others spread over the rest.
#
# Of `words`: commands of the program that read one file. Where a growth is refused, it ends with fault 9, after lines that are a
# beginning of those that it prints else; with fault 8 where the growth was that of an image in memory, which is a writer like others;
# or it does all that it does else.
#
# Not covered: what a test doesn't call, and two refusals in one run.
# The tests are those that `rt ci` or `rt test` left, where no source is newer, or are built with no proof. Needs gcc.
set -e
root=$(cd "$(dirname "$0")/../.." && pwd)
work=$(mktemp -d)
trap 'rm -rf "$work"' EXIT
ulimit -c 0
bad=0
gcc -O2 -Wall -shared -fPIC -o "$work/refuse.so" "$root/.ci/end_to_end/memory.c"

# refuse K PROGRAM WORDS: one run whose growth K is refused, 0 for none. Leaves what it said, and answers its status.
refuse() {
    k=$1
    shift
    timeout 60 env MEMORY_AT="$k" MEMORY_COUNT="$work/growths" LD_PRELOAD="$work/refuse.so" "$@" > "$work/said" 2>&1
}

memory='\(NoMemory\|AllocError\|AllocFailed\|No(9)\)'

# How a run of a test ended, by its status and what it said.
ending() {
    case $1 in
    0) echo "passed" ;;
    101) sed -n "s/^error: .*$memory.*/no memory/p; s/^error: /error /p" "$work/said" | head -1 ;;
    124) echo "no end" ;;
    134)
        grep -q '^test stopped at .*test' "$work/said" || echo "status 134"
        sed -n "s/^ *left: .*$memory.*/no memory by an assert/p; s/^ *left: 9$/fault 9 by an assert/p; s/^ *left: /assert found /p
            s/^assertion failed: /assert of /p; s/^test stopped at .*/stopped by the test/p" "$work/said" | head -1
        ;;
    *) echo "status $1" ;;
    esac
}

# The growths to refuse of so many: all, or half of MOST from the first on and as many spread over the rest.
chosen() {
    most=${MOST:-300}
    if [ "$1" -le "$most" ]; then
        seq "$1"
    else
        seq $((most / 2))
        seq $((most / 2 + 1)) $(($1 * 2 / most / 2 * 2 + 1)) "$1"
    fi
}

# try_test CRATE PROGRAM TEST: refuses the test's growths, and prints a line for each way to end.
try_test() {
    refuse 0 "$2" "$3" || { echo "$1 $3: FAILS with no growth refused"; bad=1; return; }
    growths=$(cat "$work/growths")
    : > "$work/endings"
    : > "$work/by_growth"
    for k in $(chosen "$growths"); do
        status=0
        refuse "$k" "$2" "$3" 2> /dev/null || status=$?
        echo "$(ending $status)" >> "$work/endings"
        tail -1 "$work/endings" | sed "s/^/$k /" >> "$work/by_growth"
    done
    echo "$1 $3: $growths growths, refused in turn: $(sort "$work/endings" | uniq -c | sed 's/^ *//' | paste -sd'|' | sed 's/|/, /g')"
    if grep -q -v "^\(no memory\|error Io\|.* by an assert\|assert .*\|stopped by the test\|passed\)\$" "$work/endings"; then
        echo "BAD: $1 $3"
        bad=1
    fi
    sed -n 's/^\([0-9]*\) passed$/\1/p' "$work/by_growth" | paste -sd' ' | sed -n 's/^\(.\{60\}\).*/\1 ../; s/^./    passed at growth &/p'
}

# The tests of a crate, as a check left them or built with no proof.
try_crate() {
    tests=$root/crates/$1/out/$1_tests
    if [ ! -x "$tests" ] || [ -n "$(find "$root"/crates/*/src -newer "$tests")" ]; then
        "$root/packaging/build_unproved.sh" "$root/crates/$1" "$work/$1_tests" --test
        tests=$work/$1_tests
    fi
    for test in $("$tests" --list | sed -n 's/: test$//p'); do
        try_test "$1" "$tests" "$test"
    done
}

# try_command WORDS: refuses each growth of a command of the program.
try_command() {
    refuse 0 "$work/faxtool" "$@" || { echo "words $*: FAILS with no growth refused"; bad=1; return; }
    growths=$(cat "$work/growths") none=0 writer=0 all=0
    cp "$work/said" "$work/whole"
    for growth in $(seq "$growths"); do
        status=0
        refuse "$growth" "$work/faxtool" "$@" || status=$?
        sed '$d' "$work/said" > "$work/front"
        head -c "$(wc -c < "$work/front")" "$work/whole" | cmp -s - "$work/front" || status=other
        case "$status $(tail -1 "$work/said")" in
        "1 fault 9") none=$((none + 1)) ;;
        "1 fault 8") writer=$((writer + 1)) ;;
        *)
            if [ $status = 0 ] && cmp -s "$work/said" "$work/whole"; then
                all=$((all + 1))
            else
                echo "BAD: words $1, growth $growth, status $status: $(head -1 "$work/said")"
                bad=1
            fi
            ;;
        esac
    done
    echo "words $1: $growths growths, refused in turn: $none fault 9, $writer fault 8, $all with no other end"
}

try_words() {
    "$root/packaging/build_unproved.sh" "$root/crates/faxtool" "$work/faxtool"
    examples=$root/docs/examples
    try_command show --code mh --width 315 "$examples/page.mh"
    try_command code --code mmr "$examples/page.pbm" "$work/made"
    try_command decode --salvage --code mmr --width 315 "$examples/page.mmr" "$work/made"
    try_command frames --data 8 "$examples/line.bits"
}

# shellcheck disable=SC2048 # what is named without a word is a list
for name in ${*:-$(sed -n 's/^\([a-z_]*_tests\):.*/\1/p' "$root/crates.txt") words}; do
    if [ "$name" = words ]; then
        try_words
    elif [ -d "$root/crates/$name/src" ]; then
        try_crate "$name"
    else
        echo "bench/memory/refuse_growths.sh: no crate $name" >&2
        exit 2
    fi
done
exit $bad
