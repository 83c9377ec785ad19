# The command judge.

# log_is LINE..: $work/log has these lines.
log_is() {
    printf '%s\n' "$@" > "$work/log"
}

# judges STATUS LINE..: the log that $work/log has gives these lines and this status, by its name and on standard input.
judges() {
    end=$1
    shift
    printf '%s\n' "$@" > "$work/wanted"
    gives "$end" judge "$work/log"
    is_same "$work/output" "$work/wanted" "judge"
    [ ! -s "$work/error" ] || fails "judge wrote to standard error"
    ends "$end" judge - < "$work/log"
    is_same "$work/output" "$work/wanted" "judge -"
    count=$((count + 1))
}

# readings LINE..: the words of a rule that can be read otherwise, after the number, the time and the PPS of each line.
readings() {
    for pps in "$@"; do
        echo "$pps: it doesn't count a frame of the block that was sent [wrong-count, a reading]"
    done
}

# Two calls of libspandsp's T.30 with itself over a line with noise. The frames are those that another reading of the rules names.
try_tapped() {
    works judge "$top/docs/examples/tap.log"
    { readings "30 18160 caller PPS MPS page 0 block 0 last 1" "36 22440 caller PPS MPS page 0 block 0 last 0" \
        "61 33040 caller PPS EOP page 1 block 0 last 0"; echo "frames 63 broken 0 readings 3 unread 0"; } > "$work/wanted"
    is_same "$work/output" "$work/wanted" "judge of a tapped call"
    works judge "$data/tap-v17.log"
    { readings "51 27860 caller PPS EOP page 1 block 0 last 2" "59 32320 caller PPS EOP page 1 block 0 last 2" \
        "66 36580 caller PPS EOP page 1 block 0 last 1" "75 44500 caller PPS EOP page 1 block 0 last 1"
    echo "frames 77 broken 0 readings 4 unread 0"; } > "$work/wanted"
    is_same "$work/output" "$work/wanted" "judge of a tapped call by V.17"
    # a reading counts where that is asked for
    gives 1 judge --strict "$data/tap-v17.log"
    is_same "$work/output" "$work/wanted" "judge --strict"
    works judge --strict "$work/nothing"
}

# Twenty calls of libspandsp's T.30 with a station of ours, which says and hears too little: each frame breaks the rule that a second reading
# names, by the number of the frame, its station and the rule.
try_spandsp_calls() {
    mkdir "$work/calls"
    awk -v folder="$work/calls" '/^## /{n++} {print > folder "/" n}' "$data/spandsp_calls.log"
    for number in $(seq 20); do
        status=0
        "$program" judge "$work/calls/$number" > "$work/output" 2> "$work/error" || status=$?
        head -n 1 "$work/calls/$number"
        sed -n 's/^\([0-9]*\) [^ ]* \([a-z]*\) .*\[\([a-z-]*\).*\]$/\1 \2 \3/p' "$work/output"
        [ "$status" -le 1 ] && [ ! -s "$work/error" ] || fails "judge of call $number of libspandsp ended with status $status"
        count=$((count + 1))
    done > "$work/judged"
    is_same "$work/judged" "$data/spandsp_calls.txt" "judge of libspandsp's calls"
    rm -r "$work/calls"
}

# A call of ours by a script, and one over a line that loses: no rule is broken.
try_call_logs() {
    for words in "--script $top/docs/examples/one_page.script" "--lose 20% --busy 20% --seed 7"; do
        # the words are several
        # shellcheck disable=SC2086
        python3 -B "$top/docs/examples/call2log.py" --faxtool "$program" $words "$top/docs/examples/row.pbm" > "$work/log" || [ $? = 1 ] || fails "call2log.py $words"
        gives 0 judge "$work/log"
        grep -q '^frames [1-9][0-9]* broken 0 readings 0 unread 0$' "$work/output" || fails "judge of call2log.py $words: $(cat "$work/output")"
    done
}

# Calls of a few frames, worked by hand.
try_judged() {
    : > "$work/nothing"
    works judge "$work/nothing"
    echo "frames 0 broken 0 readings 0 unread 0" > "$work/wanted"
    is_same "$work/output" "$work/wanted" "judge of nothing"
    dis="answerer FF1380006EFA44" dcs="caller ff13830022f844" rcp="caller ff0386"
    set -- "# a call of ours" "1 $dis" "" "2 $dcs" "3.5 answerer FF1384" "4 caller ff03060000" "5 $rcp" "5 $rcp" "5 $rcp" \
        "6 caller ff13bf2f000000" "7 answerer ff138c" "now caller ff13fb"
    log_is "$@"
    judges 0 "frames 10 broken 0 readings 0 unread 0"
    # the log need not end with LF, nor begin with a call
    printf '%s\n%s' "# none" "1 answerer ff1384" > "$work/log"
    judges 1 "1 1 answerer CFR: the caller's last frame before it is no DCS [not-trained]" "frames 1 broken 1 readings 0 unread 0"
    # one bit turned: the number of the PPS's block
    log_is "$@"
    sed 's/^6 .*/6 caller ff13bf2f000100/' "$work/log" > "$work/turned"
    mv "$work/turned" "$work/log"
    judges 1 "8 6 caller PPS EOP page 0 block 1 last 0: its page and block aren't those that come now [wrong-counts]" \
        "frames 10 broken 1 readings 0 unread 0"
    # contents that are no signal, and one that T.30 knows: the first ones aren't judged, and have numbers
    log_is "1 caller ff13" "2 caller 00" "3 answerer ff0340" "4 caller ff138c" "5 answerer ff13fb" "6 answerer ff0340"
    judges 1 "4 4 caller MCF: it is a signal of the other station [wrong-side]" \
        "6 6 answerer other 40 CSI: its station has said DCN before [ended]" "frames 6 broken 2 readings 0 unread 2"
    gives 1 judge --explain "$work/log"
    sed -n 2p "$work/output" > "$work/judge-found"
    echo "    T.30, 5.3.6.1: DIS, CFR, FTT, MCF, PPR and RNR are the answerer's; DCS, FCD, RCP, PPS and RR are the caller's" > "$work/wanted"
    is_same "$work/judge-found" "$work/wanted" "judge --explain"
    [ "$(wc -l < "$work/output")" = 5 ] || fails "judge --explain has other lines"
    gives 1 judge --json "$work/log"
    printf '%s\n' '{"at":"4","by":"caller","frame":4,"reading":false,"rule":"wrong-side","said":{"signal":"MCF"}}' \
        '{"at":"6","by":"answerer","frame":6,"reading":false,"rule":"ended","said":{"control_field":"40","name":"CSI","signal":"other"}}' \
        '{"broken":2,"frames":6,"readings":0,"unread":2}' > "$work/wanted"
    is_same "$work/output" "$work/wanted" "judge --json"
}

# Lines that are none of a log: the first one is named, and nothing is printed.
try_no_log_line() {
    for line in x "1 caller" "1 caller " "1 callers ff13" "1 Caller ff13" "1 caller ff1" "1 caller fg" "1 caller ff13 " "1  caller ff13" \
        " caller ff13" "1 caller  ff13" "1 caller ff13 ff" " " " # x" "$(printf '1 caller ff13\r')" "$(printf '1\tcaller ff13')" \
        "$(printf '\033 caller ff13')" "$(printf '\303\251 caller ff13')" "$(printf '\377 caller ff13')" "$(printf '\177 caller ff13')"; do
        log_is "1 caller ff138c" "" "$line" y
        explains "fault 31 at line 3" \
            "$work/log: line 3: a time, caller or answerer, and the octets of a frame in hex are expected here, with one space between each two" \
            judge "$work/log"
    done
    gives 1 judge --json "$work/log"
    printf '%s\n' "{\"fault\":31,\"line\":3,\"words\":\"$work/log: line 3: a time, caller or answerer, and the octets of a frame in hex are expected here, with one space between each two\"}" > "$work/wanted"
    is_same "$work/error" "$work/wanted" "judge --json of a line that is none"
    faults "fault 8" judge "$work/not-there"
    refuses judge
    refuses judge "$work/log" "$work/log"
}

# A log of 16,777,216 octets is read, one of an octet more isn't.
try_long_log() {
    { printf '# '; head -c 16777213 /dev/zero | tr '\0' x; echo; } > "$work/log"
    works judge "$work/log"
    echo "frames 0 broken 0 readings 0 unread 0" > "$work/wanted"
    is_same "$work/output" "$work/wanted" "judge of the longest log"
    echo >> "$work/log"
    faults "fault 32" judge "$work/log"
    rm "$work/log"
}

# 300 random logs of a fixed seed: of each frame bench/judge.py, a second reading of the rules, says the same, and each rule is broken.
try_judge_alike() {
    FAXTOOL=$program timeout 600 python3 -B "$top/bench/judge_alike.py" --logs 300 > "$work/output" || fails "judge_alike.py: $(cat "$work/output")"
    ! grep -q ' 0 [a-z]' "$work/output" || fails "judge_alike.py: no frame breaks a rule: $(cat "$work/output")"
    count=$((count + 300))
}

# The command judge.
try_judge() {
    try_judged
    try_tapped
    try_spandsp_calls
    try_call_logs
    try_no_log_line
    try_long_log
    try_judge_alike
    for output in "> /dev/full" ">&-"; do
        status=0
        eval "\"\$program\" judge \"\$data/tap-v17.log\" $output 2> \"\$work/error\"" || status=$?
        [ "$status $(cat "$work/error")" = "1 fault 8" ] || fails "judge with an output that is $output ended with status $status"
        count=$((count + 1))
    done
}
