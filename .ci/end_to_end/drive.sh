# The command call over a bad line.

# drives WORDS: a call over a bad line ends well, and what it printed is in $work/output.
drives() {
    works call "$@" "$input"
}

# A call of one white page worked by hand. Of the first words that the generator gives for seed 7 the sixth and the ninth are below a fifth of
# 2^32, and no other of the first twelve: so the first of three RCPs is lost, and the PPS, which is sent again.
worked_drive() {
    cat << 'LINES'
1 to-caller DIS DCS
2 to-answerer DCS -
3 to-answerer TRAINING CFR
4 to-caller CFR BURST:1
5 to-answerer FCD:0 -
6 lose-to-answerer RCP -
7 to-answerer RCP -
8 to-answerer RCP -
9 lose-to-answerer PPS -
10 caller-timeout - PPS
11 to-answerer PPS MCF
12 to-caller MCF DCN
13 to-answerer DCN -
caller normal confirmed 1
answerer normal pages 1
LINES
}

# Words that are no call over a bad line: status 2, and a line that says why.
try_drive_words() {
    rate="error: a rate is a percentage, as 5%, or a fraction, as 1/20, and 1 at most"
    while read -r words; do
        refuses call $words "$input"
        [ "$(head -1 "$work/error")" = "$rate" ] || fails "call $words: other words: $(head -1 "$work/error")"
    done << 'CASES'
--lose 101% --seed 1
--lose 2/1 --seed 1
--lose 1/0 --seed 1
--lose 0/0 --seed 1
--lose 5 --seed 1
--lose % --seed 1
--lose / --seed 1
--lose 1/ --seed 1
--lose /2 --seed 1
--lose +5% --seed 1
--lose=-5% --seed 1
--lose 5%% --seed 1
--lose 1/20% --seed 1
--lose 1/2/3 --seed 1
--lose 2.5% --seed 1
--lose 0x5% --seed 1
--lose 0000000005% --seed 1
--lose 1/1000000000 --seed 1
--lose 5% --spoil 101% --seed 1
--lose 5% --spoil five --seed 1
--lose 5% --busy 101% --seed 1
--lose 5% --busy always --seed 1
CASES
    refuses call --lose "5 %" --seed 1 "$input"
    refuses call --lose "" --seed 1 "$input"
    while IFS='|' read -r words why; do
        refuses call $words "$input"
        [ "$(head -1 "$work/error")" = "error: $why" ] || fails "call $words: other words: $(head -1 "$work/error")"
    done << 'CASES'
--code mmr|--script or --lose is missing
--seed 1|--script or --lose is missing
--lose 5%|--lose needs --seed
--lose 60% --spoil 41% --seed 1|--lose and --spoil are more than 100% together
--lose 5% --script missing --seed 1|--script and --lose can't be used together
--spoil 5% --script missing|--spoil, --busy, --seed, --calls and --times are for a call with --lose
--busy 5% --script missing|--spoil, --busy, --seed, --calls and --times are for a call with --lose
--seed 5 --script missing|--spoil, --busy, --seed, --calls and --times are for a call with --lose
--calls 5 --script missing|--spoil, --busy, --seed, --calls and --times are for a call with --lose
--times 5 --script missing|--spoil, --busy, --seed, --calls and --times are for a call with --lose
--times 5|--script or --lose is missing
--lose 5% --seed 1 --times 5 --out pages|--times keeps no pages, and can't be used with --out
--lose 5% --seed 1 --times 5 --bits sent|--times keeps no octets, and can't be used with --bits
CASES
    for words in "--seed 4294967296" "--seed -1" "--seed x" "--seed 1 --calls 0" "--seed 1 --calls 1000001" "--seed 1 --seed 2" \
        "--seed 1 --times 0" "--seed 1 --times -1" "--seed 1 --times x" "--seed 1 --times 4294967296" "--seed 1 --times 2 --times 3"; do
        refuses call --lose 5% $words "$input"
    done
    refuses call --lose 5% --lose 5% --seed 1 "$input"
    refuses call --lose 5% --seed 1
}

# Calls over a bad line, the worked one and the ends of the rates; their pages; failing files and outputs.
try_drives() {
    input=$(octets "$white")
    worked_drive > "$work/wanted"
    rm -f "$work/pages"
    for rate in 20% 1/5 020% 000000002/10; do
        drives --lose "$rate" --seed 7 --out "$work/pages"
        is_same "$work/output" "$work/wanted" "a call that loses $rate"
        is_same "$work/pages" "$input" "the pages of a call that loses $rate"
    done
    drives --lose 20% --seed 7 --spoil 0% --calls 3
    is_same "$work/output" "$work/wanted" "a call that spoils nothing"
    printf 'polite 11\n' > "$work/script"
    works call --script "$work/script" "$input"
    cp "$work/output" "$work/wanted"
    drives --lose 0% --seed 0
    is_same "$work/output" "$work/wanted" "a call that loses nothing"
    rm "$work/pages"
    drives --lose 100% --seed 4294967295 --calls 2 --out "$work/pages"
    printf '%s\n' "1 lose-to-caller DIS -" "2 answerer-t2 - DIS" "3 lose-to-caller DIS -" "4 caller-timeout - DCN" \
        "5 lose-to-answerer DCN -" "6 answerer-t1 - -" "caller no-answer confirmed 0" "answerer no-answer pages 0" > "$work/wanted"
    is_same "$work/output" "$work/wanted" "a call that loses all"
    [ ! -e "$work/pages" ] || fails "a call that loses all made a file of no pages"
    drives --lose 0% --spoil 100% --seed 1
    is_spoiled=$(tail -2 "$work/output" | head -1)
    [ "$is_spoiled" = "caller no-answer confirmed 0" ] || fails "a call that spoils all ends with $is_spoiled"
    drives --lose 0% --busy 100% --seed 1
    asked=$(grep -c " to-caller RNR RR$" "$work/output")
    is_busy=$(tail -2 "$work/output" | head -1)
    [ "$asked $is_busy" = "20 caller still-busy confirmed 0" ] || fails "a call to a busy answerer hears $asked RNRs and ends with $is_busy"
    try_drive_words
    faults "fault 8" call --lose 5% --seed 1 "$work/missing"
    faults "fault 7" call --lose 5% --seed 1 "$(: > "$work/nothing"; echo "$work/nothing")"
    faults "fault 26" call --lose 5% --seed 1 "$(octets "50 34 0A 38 20 31 0A 30")"
    try_many
    "$program" call --lose 20% --seed 7 - < "$input" > "$work/output" || fails "call --lose of standard input ended with status $?"
    worked_drive > "$work/wanted"
    is_same "$work/output" "$work/wanted" "a call over a bad line of standard input"
    count=$((count + 1))
    try_drive_outputs
}

# Many calls: the first is the worked one; the table; faults before and after the first line.
try_many() {
    drives --lose 20% --seed 7 --times 1
    printf '%s\n' "call 0 caller normal confirmed 1 answerer normal pages 1 deliveries 10 lost 2 spoiled 0 again 0" "calls 1" \
        "caller normal 1" "at-most-two-bad 1 normal 1" "few-bad-tries 1 normal 1" "deliveries 10" "again 0" \
        "seconds median 14 95% 14 greatest 14" > "$work/wanted"
    is_same "$work/output" "$work/wanted" "one call of many"
    drives --lose 100% --seed 1 --times 3 --calls 1
    tail -n 7 "$work/output" > "$work/table"
    printf '%s\n' "calls 3" "caller no-answer 3" "at-most-two-bad 3 normal 0" "few-bad-tries 0 normal 0" "deliveries 0" "again 0" \
        "seconds median 72 95% 72 greatest 72" > "$work/wanted"
    is_same "$work/table" "$work/wanted" "the table of calls that lose all"
    faults "fault 8" call --lose 5% --seed 1 --times 2 "$work/missing"
    faults "fault 26" call --lose 5% --seed 1 --times 2 "$(octets "50 34 0A 38 20 31 0A 30")"
    [ -c /dev/full ] || return 0
    status=0
    "$program" call --lose 20% --seed 7 --times 3 "$input" > /dev/full 2> "$work/error" || status=$?
    [ "$status $(cat "$work/error")" = "1 fault 8" ] || fails "call --times to a full device ended with status $status"
    count=$((count + 1))
}

# A closed or full output: fault 8, and no file of --out.
try_drive_outputs() {
    rm -f "$work/pages"
    status=0
    "$program" call --lose 20% --seed 7 --out "$work/pages" "$input" >&- 2> "$work/error" || status=$?
    [ "$status $(cat "$work/error")" = "1 fault 8" ] || fails "call --lose to a closed output ended with status $status"
    [ ! -e "$work/pages" ] || fails "call --lose to a closed output wrote the file of --out"
    count=$((count + 1))
    [ -c /dev/full ] || return 0
    status=0
    "$program" call --lose 20% --seed 7 --out "$work/pages" "$input" > /dev/full 2> "$work/error" || status=$?
    [ "$status $(cat "$work/error")" = "1 fault 8" ] || fails "call --lose to a full device ended with status $status"
    [ ! -e "$work/pages" ] || fails "call --lose to a full device wrote the file of --out"
    count=$((count + 1))
}
