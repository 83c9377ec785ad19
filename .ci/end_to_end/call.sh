# The command call.

# try_call FILE: a call by a script.
try_call() {
    case=${1%.script} input=$work/in.pbm
    if [ -f "$case.rows" ]; then
        printf 'P4\n2432 %s\n' "$(cat "$case.rows")" > "$input"
        head -c $(($(cat "$case.rows") * 304)) /dev/zero | tr '\0' U >> "$input"
    elif [ -f "$case.copies" ]; then
        for copy in $(seq "$(cat "$case.copies")"); do cat "$case.pbm"; done > "$input"
    else
        cp "$case.pbm" "$input"
    fi
    if [ -f "$case.status" ]; then wanted=$(cat "$case.status"); elif [ -f "$case.fault" ]; then wanted=1; else wanted=0; fi
    rm -f "$work/pages"
    # shellcheck disable=SC2046 # its options are words
    gives "$wanted" call --script "$1" $(cat "$case.options" 2> /dev/null) --out "$work/pages" "$input"
    if [ -f "$case.fault" ]; then
        is_same "$work/error" "$case.fault" "the fault of call ${case##*/}"
        [ ! -s "$work/output" ] && [ ! -e "$work/pages" ] || fails "call ${case##*/} left something after a fault"
        return
    fi
    if [ -f "$case.tail" ]; then
        tail -n "$(wc -l < "$case.tail")" "$work/output" > "$work/last"
        is_same "$work/last" "$case.tail" "the last lines of call ${case##*/}"
    else
        is_same "$work/output" "$case.expected" "call ${case##*/}"
    fi
    if [ -e "$work/pages" ]; then
        stored=$(tail -1 "$work/output" | sed 's/.* //')
        python3 -B "$data/first_images.py" "$stored" < "$input" > "$work/first" || fails "call ${case##*/} stored more pages than there are"
        is_same "$work/pages" "$work/first" "the pages of call ${case##*/}"
    fi
    ! tail -1 "$work/output" | grep -q ' pages 0$' || [ ! -e "$work/pages" ] || fails "call ${case##*/} made a file of no pages"
    tail -1 "$work/output" | grep -q ' pages 0$' || [ -e "$work/pages" ] || fails "call ${case##*/} made no file of its pages"
}

# Scripts that are refused, each at its line: the line, and the script as printf writes it.
try_scripts() {
    input=$(octets "$white")
    while read -r line script; do
        printf "$script" > "$work/script"
        faults "fault 30 at line $line" call --script "$work/script" "$input"
    done << 'CASES'
1 spoil 0
1 polite
3 # x\n\nto-caller  2\n
1 to-caller\r\n
2 busy\nspoil +1\n
1 spoil 1000001
1 spoil 00000001
1 spoil\040
1 spoil 1\040
1 \040spoil
1 \040
1 spoil\t1
1 spoil 1x
1 Spoil
1 deliver
1 # \377
3 busy\n\n\303\050\nready\n
3 ready\nbusy\npolite -1
CASES
}

# The calls, of which there are 34 at least.
try_calls() {
    calls=0
    for script in "$top"/.ci/calls/*.script; do
        [ ! -f "$script" ] || try_call "$script"
        calls=$((calls + 1))
    done
    [ "$calls" -ge 34 ] || fails "there are only $calls calls in .ci/calls"
    input=$(octets "$white")
    printf 'polite 11' > "$work/script"
    faults "fault 8" call --script "$work/missing" "$input"
    faults "fault 8" call --script "$work/script" "$work/missing"
    echo "as it was" > "$work/kept"
    cp "$work/kept" "$work/pages"
    : > "$work/nothing"
    works call --script "$work/nothing" --out "$work/pages" "$input"
    is_same "$work/pages" "$work/kept" "the file of --out with no page"
    echo "spoil 0" > "$work/wrong"
    faults "fault 30 at line 1" call --script "$work/wrong" --out "$work/pages" "$input"
    faults "fault 7" call --script "$work/script" --out "$work/pages" "$work/nothing"
    is_same "$work/pages" "$work/kept" "the file of --out after a fault"
    works call --script "$work/script" --out "$work/pages" "$input"
    is_same "$work/pages" "$input" "the file of --out"
    refuses call --script "$work/script"
    refuses call "$input"
    refuses call --script "$work/script" --frame 128 "$input"
    try_expected
    try_said
    try_call_records
}

# says_so WORDS: --explain adds lines that say what signals say, and no others; each is what `frames --explain` says of what is
# sent, without the bits that aren't read.
says_so() {
    works call "$@"
    mv "$work/output" "$work/plain"
    rm -rf "$work/sent" && mkdir "$work/sent"
    works call "$@" --bits "$work/sent" --explain
    mv "$work/output" "$work/explained"
    grep -v '^    ' "$work/explained" > "$work/without"
    is_same "$work/without" "$work/plain" "the lines of call $* without their words"
    for way in to-answerer to-caller; do
        works frames --explain "$work/sent/$way.bits"
        sed -n '/^    /s/; other bits .*//; /^    /p' "$work/output" > "$work/wanted"
        [ -s "$work/wanted" ] || fails "frames --explain of call $* says nothing"
        awk -v way="$way" '!/^    / { its = $2 ~ way "$" } /^    / && its' "$work/explained" > "$work/said"
        is_same "$work/said" "$work/wanted" "the words of call $*, $way"
    done
}

# What signals say in words: of each DIS, DCS, PPS and PPR, the lost ones too.
try_said() {
    says_so --script "$work/script" "$input"
    says_so --script "$work/script" --code mh --frame 64 --modems v27 --fine "$input"
    printf 'polite 4\nlose-to-answerer\npolite 40\n' > "$work/again"
    says_so --script "$work/again" "$input"
    [ "$(grep '^    again: ' "$work/explained")" = '    again: frames 0 to 255' ] || fails "call --explain doesn't say what a PPR asks for"
    says_so --lose 0% --seed 1 "$input"
}

# records_say_so WORDS: of the objects of --json the lines can be put together again; and what they say of signals is what `frames --json`
# says of what is sent.
records_say_so() {
    works call "$@"
    mv "$work/output" "$work/plain"
    rm -rf "$work/sent" && mkdir "$work/sent"
    works call "$@" --bits "$work/sent" --json --explain
    mv "$work/output" "$work/call_records"
    jq -r 'if .station then "\(.station) \(.end) " + (if .confirmed then "confirmed \(.confirmed)" else "pages \(.pages)" end)
        else "\(.number) \(.event) \(.item // "-") \(.sends // "-")" + (if .refused then " !" else "" end) end' \
        "$work/call_records" > "$work/without"
    is_same "$work/without" "$work/plain" "the lines of call $* --json"
    for way in to-answerer to-caller; do
        works frames --json "$work/sent/$way.bits"
        jq -c '.says | select(.) | select(.signal | IN("DIS", "DCS", "PPS", "PPR"))' "$work/output" > "$work/wanted"
        [ -s "$work/wanted" ] || fails "frames --json of call $* says nothing"
        jq -c --arg way "$way" 'select(.event) | select(.event | endswith($way)) | .says | select(.)' "$work/call_records" > "$work/said"
        is_same "$work/said" "$work/wanted" "what the records of call $* say, $way"
    done
}

# Records of calls: with frames asked for again, with an event of no item and one that nothing is sent at, and of an answerer that is busy.
try_call_records() {
    records_say_so --script "$work/script" "$input"
    records_say_so --script "$work/again" --code mh --frame 64 --modems v27 --fine "$input"
    printf 'polite 10\nbusy\npolite 2\ncaller-t5\nready\nto-caller 9\npolite 100\n' > "$work/waits"
    records_say_so --script "$work/waits" "$input"
    records_say_so --lose 20% --seed 7 "$input"
    # a call that is not over: each station goes on
    works call --json --script "$work/nothing" "$input"
    printf '%s\n' '{"confirmed":0,"end":"running","station":"caller"}' '{"end":"running","pages":0,"station":"answerer"}' > "$work/wanted"
    is_same "$work/output" "$work/wanted" "the records of no event"
    refuses call --lose 0% --seed 7 --times 2 --json "$input"
    [ "$(head -1 "$work/error")" = "error: --times prints a table, and can't be used with --json" ] \
        || fails "call --times --json: other words: $(head -1 "$work/error")"
    gives 1 call --json --script "$work/wrong" "$input"
    [ "$(jq -c 'del(.words)' "$work/error")" = '{"fault":30,"line":1}' ] || fails "call --json has another fault: $(cat "$work/error")"
}

# --expect normal: the same lines and files, and status 1 unless both stations say normal.
try_expected() {
    works call --script "$work/script" "$input"
    mv "$work/output" "$work/wanted"
    rm -f "$work/pages"
    works call --expect normal --script "$work/script" --out "$work/pages" "$input"
    is_same "$work/output" "$work/wanted" "a call that is to end normally"
    is_same "$work/pages" "$input" "the pages of a call that is to end normally"
    # the DCN is missing: normal for the caller alone
    echo 'polite 10' > "$work/undone"
    gives 1 call --expect normal --script "$work/undone" "$input"
    [ ! -s "$work/error" ] || fails "a call that didn't end normally wrote to standard error"
    [ "$(tail -n 2 "$work/output" | cut -d ' ' -f 2 | tr '\n' ' ')" = "normal running " ] || fails "polite 10 leaves another end"
    mv "$work/output" "$work/wanted"
    works call --script "$work/undone" "$input"
    is_same "$work/output" "$work/wanted" "a call that didn't end"
    # it ends for the answerer alone, which waits for T1
    echo 'answerer-t1' > "$work/undone"
    gives 1 call --expect normal --script "$work/undone" "$input"
    # nothing is wrong with the pages of one that ends for neither
    gives 1 call --expect normal --script "$work/nothing" "$input"
    works call --lose 0% --seed 7 --expect normal "$input"
    gives 1 call --lose 100% --seed 7 --expect normal "$input"
    refuses call --expect no-reply --script "$work/script" "$input"
    refuses call --lose 0% --seed 7 --times 2 --expect normal "$input"
    [ "$(head -1 "$work/error")" = "error: --times counts the ends of many calls, and can't be used with --expect" ] \
        || fails "call --times --expect: other words: $(head -1 "$work/error")"
    faults "fault 30 at line 1" call --expect normal --script "$work/wrong" "$input"
}

# few LINES: a call by the script of counts under little memory, which ends well and prints so many lines.
few() {
    lines=$1 status=0
    (ulimit -v 8000; exec timeout 60 "$program" call --script "$work/counts.script" "$input") > "$work/output" 2> "$work/error" || status=$?
    [ "$status" = 0 ] || fails "call of $lines lines under little memory ended with status $status"
    [ "$(wc -l < "$work/output")" = "$lines" ] || fails "call under little memory printed other than $lines lines"
    count=$((count + 1))
}

# The memory of a call doesn't grow with the counts of its script: under little of it each event has its line, with no mark.
try_counts() {
    input=$(octets "$white")
    echo 'polite 11' > "$work/script"
    works call --script "$work/script" "$input"
    { seq 100000 | sed 's/$/ busy - -/'; echo "100001 ready - -"; awk 'NR <= 11 { $1 += 100001 } 1' "$work/output"; } > "$work/wanted"
    printf 'busy 100000\nready\npolite 1000\n' > "$work/counts.script"
    few 100014
    is_same "$work/output" "$work/wanted" "a call of 100,000 events under little memory"
    yes 'busy 100000' | head -n 30 > "$work/counts.script"
    few 3000002
    [ "$(sed -n 3000000p "$work/output")" = "3000000 busy - -" ] || fails "the last event of a call under little memory has another line"
    [ -c /dev/full ] || return 0
    status=0
    rm -f "$work/pages"
    "$program" call --script "$work/script" --out "$work/pages" "$input" > /dev/full 2> "$work/error" || status=$?
    [ "$status $(cat "$work/error")" = "1 fault 8" ] || fails "call to a full device ended with status $status"
    [ ! -e "$work/pages" ] || fails "call to a full device wrote the file of --out"
    count=$((count + 1))
}

# The memory of a call: each page once for both stations, and not once more for its file or for the document's; and a script's text once. Of
# a page 450 KB at most, where its rows have 432, and 6 MB for the rest; of many calls the codes of the pages too.
try_call_memory() {
    rows='[bytes(row) for row in ((number * 2654435761 % 2**32).to_bytes(4, "big") + bytes(212) for number in range(2000))]'
    python3 -B -c "import sys; sys.stdout.buffer.write((b'P4\n1728 2000\n' + b''.join($rows)) * 40)" > "$work/many.pbm"
    echo 'polite 1000000' > "$work/script"
    takes_at_most 24000 call --script "$work/script" --out "$work/pages" "$work/many.pbm"
    is_same "$work/pages" "$work/many.pbm" "the pages of a call of 40"
    takes_at_most 24000 call --lose 1% --seed 1 --out "$work/pages" "$work/many.pbm"
    takes_at_most 26000 call --lose 1% --seed 1 --times 2 "$work/many.pbm"
    yes 'caller-t5 1' | head -n 1000000 > "$work/script"
    takes_at_most 20000 call --script "$work/script" "$input"
    rm "$work/many.pbm" "$work/pages"
}
