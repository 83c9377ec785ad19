#!/bin/sh
# Runs each command of the built program on real files, and compares octets, texts and exit statuses:
#
#     .ci/end_to_end.sh [--share files|pages|calls|stations] [PROGRAM..]
#
# With --share a part of the cases is run, which can run beside the others. With no program these are the programs of crates/faxtool/out
# that `rt ci` leaves, by each compiler. The programs of crates/stream_tool/out, or the one that STREAM names, are tried likewise, with the
# files; if there is none, one is built without proof. The cases are in .ci/end_to_end, a file for each command; what is compared with is in
# .ci/data, the calls in .ci/calls. Ends with status 1 at the first difference.
# Python 3 writes the large pages and frames.
set -e
top=$(cd "$(dirname "$0")/.." && pwd)
PATH="$PATH:${KIT:-/opt/rattle}/bin"
data=$top/.ci/data
work=$(mktemp -d)
trap 'rm -rf "$work"' EXIT
# An image of one white row of 1,728 pixels.
white="50 34 0A 31 37 32 38 20 31 0A$(seq 216 | sed 's/.*/ 00/' | tr -d '\n')"
count=0
# How many runs of the program there are at least, so that cases that go missing are seen; and the cases, in four shares.
fewest=2900
of_files="try_small try_page try_frames try_gaps try_signal_words try_records try_identify try_each try_several try_judge try_made
    try_images try_data try_standard"
of_pages="try_apart try_told try_told_records try_codes try_large_pages try_little_memory try_cut_pages try_kept try_safe try_salvage
    try_repair try_pages try_explained try_terminal try_completion try_man try_most_rows try_large_frames try_captured
    try_lost_page try_used_number try_words try_helps try_version try_environment try_memory try_endless try_no_image try_rtc
    try_strips try_outputs try_closed"
of_calls="try_calls_fail try_taken try_limits try_scripts try_calls try_call_memory try_counts try_drives try_bits try_diagrams
    try_joins try_first try_reference try_readme try_recipes try_archive"
of_stations="try_stations try_bench try_drivers"
all_cases="$of_files $of_pages $of_calls $of_stations" all_streams=1
if [ "${1-}" = --share ]; then
    [ "$2" = files ] || all_streams=
    case $2 in
    files) all_cases=$of_files ;;
    pages) all_cases=$of_pages ;;
    calls) all_cases=$of_calls ;;
    stations) all_cases=$of_stations ;;
    *) echo "end_to_end.sh: no share has the name $2" >&2; exit 2 ;;
    esac
    fewest=900
    shift 2
fi
for part in common code decode frames identify judge each made call drive bits diagram words man files reference station bench try readme; do
    . "$top/.ci/end_to_end/$part.sh"
done

if [ $# = 0 ]; then
    out=$top/crates/faxtool/out
    [ -x "$out/faxtool" ] || { echo "end_to_end.sh: $out has no program: name one, such as build/faxtool by make try" >&2; exit 1; }
    set -- "$out/faxtool"
    [ ! -x "$out/faxtool.by-rattle" ] || set -- "$@" "$out/faxtool.by-rattle"
fi
python3 -B "$data/make_large.py" "$work"
: > "$work/nothing"
[ -z "$all_streams" ] || try_streams "$(cd "$(dirname "$1")" && pwd)/${1##*/}"
for program in "$@"; do
    program=$(cd "$(dirname "$program")" && pwd)/${program##*/}
    count=0
    for one_case in $all_cases; do
        $one_case
    done
    [ "$count" -ge "$fewest" ] || fails "$count runs, and not $fewest at least"
    echo "end to end: ${program##*/} passed $count runs"
done
