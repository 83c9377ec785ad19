# A station that misbehaves, by docs/examples/misbehave.py and bench.py: what each does by its script, and how our stations end.

# misbehaves WORDS: plays a call of one row; what is printed is in $work/output.
misbehaves() {
    rm -rf "$work/stored"
    mkdir "$work/stored"
    timeout 120 python3 -B "$top/docs/examples/misbehave.py" --faxtool "$program" "$@" "$top/docs/examples/row.pbm" "$work/stored" \
        > "$work/output" 2> "$work/error" || fails "misbehave.py $* ended with status $?"
    count=$((count + 1))
}

# contents_are LINE..: the log has these frames, in this order, at times that don't run back; the data of an FCD aren't compared.
contents_are() {
    grep -v '^#' "$work/output" | cut -d ' ' -f 1 | sort -nc || fails "times of a log run back"
    printf '%s\n' "$@" > "$work/wanted"
    grep -v '^#' "$work/output" | cut -d ' ' -f 2- | sed 's/\(FF0306..\).*/\1/' > "$work/bench-found"
    is_same "$work/bench-found" "$work/wanted" "the frames of a log"
}

# The frames of a call by T.30's tables: whole; with an MCF that isn't said, a PPR for all, an NSF, a DIS without error correction, wrong
# counters. A tap hears what was said, and no frame that a station didn't say.
try_logs() {
    dis="answerer FF1380006EFA44" dcs="caller FF13830022F844" cfr="answerer FF1384" fcd="caller FF030600" rcp="caller FF0386"
    pps="caller FF13BF2F000000" mcf="answerer FF138C" dcn="caller FF13FB"
    misbehaves
    contents_are "$dis" "$dcs" "$cfr" "$fcd" "$rcp" "$rcp" "$rcp" "$pps" "$mcf" "$dcn"
    misbehaves --do no-mcf
    contents_are "$dis" "$dcs" "$cfr" "$fcd" "$rcp" "$rcp" "$rcp" "$pps" "$pps" "$mcf" "$dcn"
    misbehaves --do ppr-all
    contents_are "$dis" "$dcs" "$cfr" "$fcd" "$rcp" "$rcp" "$rcp" "$pps" "answerer FF13BC$(printf 'F%.0s' $(seq 64))" \
        "$fcd" "$rcp" "$rcp" "$rcp" "$pps" "$mcf" "$dcn"
    misbehaves --do "nsf 300"
    contents_are "answerer FF0320$(printf '55%.0s' $(seq 297))" "$dis" "$dcs" "$cfr" "$fcd" "$rcp" "$rcp" "$rcp" "$pps" "$mcf" "$dcn"
    misbehaves --do no-ecm
    contents_are "answerer FF1380006EFA40" "$dcn"
    misbehaves --do "lose-said 2" --do "spoil-heard 1"
    contents_are "$dis" "$dcs" "$dcs" "$dcs" "$cfr" "$fcd" "$rcp" "$rcp" "$rcp" "$pps" "$mcf" "$dcn"
    misbehaves --do "spoil-said 2"
    contents_are "$dis" "$dcs" "$dcs" "$cfr" "$fcd" "$rcp" "$rcp" "$rcp" "$pps" "$mcf" "$dcn"
    misbehaves --test answerer --do wrong-page --do "after 2" --do "repeat-said 1" --do rr
    contents_are "$dis" "$dcs" "$cfr" "$fcd" "$rcp" "$rcp" "$rcp" "$rcp" "caller FF13BF2F010000" "$mcf" "$dcn"
    misbehaves --test answerer --do "after 5" --do rr --do wrong-last
    contents_are "$dis" "$dcs" "$cfr" "$fcd" "$rcp" "$rcp" "$rcp" "caller FF136F" "caller FF13BF2F000001" \
        "answerer FF13BCFE$(printf 'F%.0s' $(seq 62))" "$rcp" "$rcp" "$rcp" "$pps" "answerer FF13BCFE$(printf 'F%.0s' $(seq 62))" \
        "$rcp" "$rcp" "$rcp" "$pps" "answerer FF13BCFE$(printf 'F%.0s' $(seq 62))" \
        "$rcp" "$rcp" "$rcp" "$pps" "answerer FF13BCFE$(printf 'F%.0s' $(seq 62))" "$dcn"
}

# converts FILE: what the converter makes of a kept log of another program.
converts() {
    python3 -B "$top/docs/examples/${1%.*}2log.py" < "$data/$1" > "$work/output" 2> "$work/error" || fails "${1%.*}2log.py"
    count=$((count + 1))
}

# Logs of libspandsp and of HylaFAX, and a capture of T.38, have the frames that T.30's tables give; without a DIS and a DCS nobody knows who calls.
try_converted() {
    dis="answerer FF1380006EFA44" dcs="caller FF13830022F844" cfr="answerer FF1384" fcd="caller FF030600" rcp="caller FF0386"
    converts spandsp.log
    contents_are "$dis" "$dcs" "$cfr" "$fcd" "$rcp" "$rcp" "$rcp" "caller FF13BF2F000000" "answerer FF138C" "caller FF13FB"
    # without the DIS the DCS says who calls
    sed '/ ff 13 80 /d' "$data/spandsp.log" | python3 -B "$top/docs/examples/spandsp2log.py" > "$work/output" || fails "spandsp2log.py without a DIS"
    contents_are "$dcs" "$cfr" "$fcd" "$rcp" "$rcp" "$rcp" "caller FF13BF2F000000" "answerer FF138C" "caller FF13FB"
    converts hylafax.log
    spaces=$(printf '20%.0s' $(seq 20))
    contents_are "answerer FF034030${spaces#20}" "$dis" "caller FF0343$spaces" "$dcs" "$cfr" "$fcd" "$rcp" "$rcp" "$rcp" \
        "caller FF13BF2F000000" "answerer FF138C" "caller FF13FB"
    grep -q "^67208850 answerer " "$work/output" || fails "the time of a frame in a log of HylaFAX"
    converts t38.json
    contents_are "answerer FF034030${spaces#20}" "$dis" "$dcs" "$cfr" "$fcd" "$rcp" "$rcp" "$rcp" "caller FF13BF2F000001" \
        "answerer FF138C" "caller FF13FB"
    for name in spandsp hylafax t38; do
        ! echo '[]' | python3 -B "$top/docs/examples/${name}2log.py" > "$work/output" 2>&1 || fails "${name}2log.py of nothing ends well"
    done
}

# The same seed gives the same call, another one another; a line that is none is named.
try_seeds() {
    for seed in 3 3 4; do
        misbehaves --do "any 20" --do "some-lost 10" --seed "$seed"
        sed 1d "$work/output" > "$work/bench-found"
        [ ! -f "$work/seeded" ] || [ $seed != 3 ] || is_same "$work/bench-found" "$work/seeded" "a call of the same seed"
        [ $seed = 3 ] || ! cmp -s "$work/bench-found" "$work/seeded" || fails "two seeds give the same call"
        cp "$work/bench-found" "$work/seeded"
    done
    rm "$work/seeded"
    for line in "rnr 0" "rnr x" "lose" "no-mcf  2"; do
        status=0
        printf '# a comment\n\n%s\n' "$line" > "$work/script"
        python3 -B "$top/docs/examples/misbehave.py" --script "$work/script" "$top/docs/examples/row.pbm" "$work" > "$work/output" 2> "$work/error" || status=$?
        [ "$status $(cut -d ';' -f 1 "$work/error")" = "1 misbehave.py: line 3 of the script is none: '$line'" ] || fails "a script with the line $line"
    done
    # what a caller does without an answerer says nothing of it
    status=0
    python3 -B "$top/docs/examples/misbehave.py" --faxtool "$program" "$top/docs/examples/row.pbm" "$work/none" > "$work/output" 2> "$work/error" || status=$?
    [ "$status $(cat "$work/error")" = "1 misbehave.py: the station that misbehaves failed: fault 8; $work/none: no such file or folder" ] ||
        fails "misbehave.py without a folder for its answerer ended with status $status"
}

# benches STATUS WORDS: bench.py over the calls of a list.
benches() {
    end=$1 status=0
    shift
    rm -rf "$work/bench"
    mkdir "$work/bench"
    timeout 600 python3 -B "$top/docs/examples/bench.py" --faxtool "$program" "$@" "$work/bench" > "$work/output" 2> "$work/error" || status=$?
    is_status "$end" "bench.py $*"
    rows=$(grep -c '^| [ca]' "$work/output") || fails "bench.py $* played no call"
    count=$((count + rows))
}

# libspandsp's T.30 as a station, where it is installed: calls without a deviation, and one over a frame that is lost.
try_spandsp() {
    cc=${CC:-cc}
    printf '#include <spandsp.h>\n#include <tiffio.h>\n' | "$cc" -E - > /dev/null 2>&1 || {
        echo "end to end: spandsp_station.c isn't run: libspandsp-dev is not installed"
        return
    }
    "$cc" -O2 -Wall -Wextra -Werror -o "$work/spandsp_station" "$top/docs/examples/spandsp_station.c" -lspandsp -ltiff ||
        fails "spandsp_station.c isn't compiled"
    for only in nothing lose-heard no-fcd; do
        benches 0 --rules --only "$only" --caller-command "$work/spandsp_station --call" --answerer-command "$work/spandsp_station --answer"
        # after PPR its PPS counts what is sent again
        [ "$only" != lose-heard ] || grep -q '^| caller | lose-heard 3 | OK | 2 | wrong-count |$' "$work/output" ||
            fails "bench.py --rules of libspandsp: $(cat "$work/output")"
    done
}

# ITU's test calls of error correction, those that need no CTC and no EOR.
try_tsb85() {
    timeout 600 python3 -B "$data/try_tsb85.py" "$program" "$work" > "$work/output" 2> "$work/error" || fails "ITU's test calls"
    echo "end to end: $(head -n 1 "$work/output")"
    count=$((count + $(tail -n 1 "$work/output")))
    rm -r "$work/tsb85"
}

# tap.py at both ends of a call: without losses it logs the same at both, and with losses the caller's log has no broken rule.
try_tap() {
    tap=$top/docs/examples/tap.py
    for lost in 0 10%; do
        rm -rf "$work/stored"
        mkdir "$work/stored"
        timeout 300 python3 -B "$top/docs/examples/join.py" --lose-frames $lost --caller-command "python3 -B $tap $work/caller.log $program station --call" \
            --answerer-command "python3 -B $tap $work/answerer.log $program station --answer" "$top/docs/examples/row.pbm" "$work/stored" > "$work/output" ||
            fails "tap.py at both ends: $(cat "$work/output")"
        gives 0 judge "$work/caller.log"
        grep -q 'broken 0 readings 0 unread 0$' "$work/output" || fails "tap.py of a caller: $(cat "$work/output")"
        for side in caller answerer; do
            sed 's/^[0-9]* //' "$work/$side.log" > "$work/$side.said"
        done
        [ $lost != 0 ] || is_same "$work/caller.said" "$work/answerer.said" "what both ends log"
        count=$((count + 1))
    done
}

# Of the calls of bench.py with our stations, the first frame that breaks a rule is the one that bench/judge.py names, and none in the others:
# the station that misbehaves says it.
try_deviations_judged() {
    number=0
    grep -v '^#' "$top/docs/examples/deviations" | while IFS='|' read -r tested script _wanted; do
        number=$((number + 1))
        rule=$("$program" judge --json "$work/bench/call-$number/log" | sed -n '/"reading":false/{s/.*"by":"\([a-z]*\)".*"rule":"\([a-z-]*\)".*/\1 \2/p;q;}')
        [ -z "$rule" ] || echo "$tested|$script| $rule"
    done > "$work/judged"
    is_same "$work/judged" "$data/judged_deviations.txt" "the first rule that is broken in each call of bench.py"
    count=$((count + 1))
}

# Both stations end each call as their tables say, also where an MCF comes twice in one burst. A row that ends otherwise is seen.
try_bench() {
    try_logs
    try_converted
    try_seeds
    try_tap
    benches 0 --rules
    ! grep '\*' "$work/output" || fails "a call ends otherwise than the list says"
    grep -q '^| caller | repeat-said 3 | normal | 2 | - |$' "$work/output" || fails "bench.py repeats no MCF"
    ! grep '^| [ca].*[^-] |$' "$work/output" || fails "a station of ours is the first one to break a rule"
    try_deviations_judged
    [ "$(grep -c '^| [ca]' "$work/output")" -ge 70 ] || fails "bench.py played few calls"
    benches 0 --only "caller rnr 21" --judge "grep 'answerer FF13EC'"
    grep -q '^| caller | rnr 21 | normal | 2 | 21 |$' "$work/output" || fails "bench.py with a judge: $(cat "$work/output")"
    printf '%s\n' "caller | dcn 2 | no-reply 0" "answerer | | normal 1" "answerer | dcn 2 | peer-left 0" > "$work/list"
    benches 1 --list "$work/list"
    printf '| %s |\n' "caller | dcn 2 | peer-left * | 0" "answerer | nothing | normal | 2 *" "answerer | dcn 2 | peer-left | 0" > "$work/wanted"
    sed '1,2d; /^$/,$d' "$work/output" > "$work/bench-found"
    is_same "$work/bench-found" "$work/wanted" "rows that end otherwise than the list says"
    try_spandsp
    try_tsb85
    rm -rf "$work/bench" "$work/stored"
}
