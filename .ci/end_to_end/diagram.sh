# The option `--diagram` of a call, and of `frames`.

# draws WORDS: the picture of a call is that of what is printed of the call, and the same is printed without it.
draws() {
    works call "$@" --diagram "$work/call.svg"
    mv "$work/output" "$work/transcript"
    works call "$@"
    is_same "$work/output" "$work/transcript" "what is printed of a call that is drawn"
    works call "$@" --explain
    python3 -B "$data/try_diagram.py" "$work/transcript" "$work/call.svg" "$work/output" 2> "$work/error" || fails "the picture of call $*"
}

# draws_captures WANTED: the picture of what both stations sent is that of the lines in a file, with the words of explained.
draws_captures() {
    works frames --diagram "$work/frames.svg" --caller "$work/sent/to-answerer.bits" --answerer "$work/sent/to-caller.bits"
    [ ! -s "$work/output" ] && [ ! -s "$work/error" ] || fails "frames --diagram says something"
    python3 -B "$data/try_diagram.py" "$1" "$work/frames.svg" "$work/explained" 2> "$work/error" || fails "the picture of two captures"
}

# captures WORDS: a call's two directions are drawn as what comes in it, with no training checks; where not all comes what is lost is drawn
# too, each answer after the first frame that it can answer.
captures() {
    rm -f "$work/sent"/*
    works call "$@" --bits "$work/sent"
    awk '$2 ~ /^to-/ && $3 != "TRAINING" && $3 != "-" { print ++n, $2, $3, "-" }' "$work/output" > "$work/come"
    for to in answerer caller; do
        works frames --explain "$work/sent/to-$to.bits"
        mv "$work/output" "$work/listed-$to"
    done
    python3 -B "$data/order_captures.py" "$work/listed-answerer" "$work/listed-caller" "$work/explained" > "$work/ordered"
    draws_captures "$work/ordered"
    [ "$(wc -l < "$work/come")" != "$(wc -l < "$work/ordered")" ] || draws_captures "$work/come"
}

# Words that are no picture of two captures, files that can't be read, what was there, which stays, and frames that aren't drawn.
try_captures_refused() {
    set -- --diagram "$work/frames.svg" --caller "$work/sent/to-answerer.bits"
    for words in '' "--caller $work/ordered" "--diagram $work/frames.svg" "$*" "$* --answerer" "$* --answerer $work/ordered $work/ordered" \
        "$* --answerer $work/ordered --data 3" "$* --answerer $work/ordered --pages $work/sent" \
        "--diagram $work/frames.svg --caller - --answerer -"; do
        refuses frames $words
    done
    [ "$(head -1 "$work/error")" = "error: --caller and --answerer can't both be standard input" ] \
        || fails "frames --diagram: other words: $(head -1 "$work/error")"
    echo kept > "$work/frames.svg"
    gives 1 frames "$@" --answerer "$work/missing" --explain
    printf 'fault 8\n%s: no such file or folder\n' "$work/missing" > "$work/wanted"
    is_same "$work/error" "$work/wanted" "the words of a capture that isn't there"
    gives 1 frames --diagram "$work/frames.svg" --caller "$work/wrong" --answerer /dev/null
    [ "$(cat "$work/error")" = "no good frame: nothing is drawn" ] || fails "frames --diagram of no frames: $(cat "$work/error")"
    [ "$(cat "$work/frames.svg")" = kept ] || fails "frames --diagram wrote its file after a fault or with no frame"
    gives 0 frames --diagram "$work/frames.svg" --caller "$data/line.bits" --answerer /dev/null
    known=$(python3 -B "$data/order_captures.py" "$work/listed-line" /dev/null | wc -l)
    others=$(($(sed -n 's/^good \([0-9]*\) .*/\1/p' "$work/listed-line") - known))
    [ "$others" -gt 0 ] || fails "line.bits has no frame of another signal"
    [ "$(cat "$work/error")" = "frames of the caller that aren't drawn, since their signal isn't known: $others" ] \
        || fails "frames --diagram: $(cat "$work/error")"
}

# Both directions of calls as captures: worked ones, some over a bad line, and a page whose blocks are drawn once.
try_captures() {
    mkdir -p "$work/sent"
    for script in "$top"/.ci/calls/*.script; do
        case=${script%.script}
        [ -f "$case.expected" ] && [ -f "$case.pbm" ] || continue
        # shellcheck disable=SC2046 # its options are words
        captures --script "$script" $(cat "$case.options" 2> /dev/null) "$case.pbm"
    done
    for seed in 1 2 3 4; do
        captures --lose 20% --spoil 30% --busy 40% --seed $seed "$input"
    done
    captures --code mh --frame 64 --lose 0% --seed 1 "$work/comb"
    grep -q '>1[0-9][0-9] rounds like this<' "$work/frames.svg" || fails "the blocks of a captured page aren't drawn once"
    works frames --explain "$data/line.bits"
    mv "$work/output" "$work/listed-line"
    try_captures_refused
}

# Words that are no call with a picture, files that can't be written, and what was there, which stays after a fault.
try_diagram_refused() {
    refuses call --lose 5% --seed 1 --times 2 --diagram "$work/call.svg" "$input"
    [ "$(head -1 "$work/error")" = "error: --times draws no call, and can't be used with --diagram" ] \
        || fails "call --times --diagram: other words: $(head -1 "$work/error")"
    refuses call --script "$work/script" --diagram "$work/call.svg" --diagram "$work/call.svg" "$input"
    refuses frames --diagram "$work/call.svg" "$input"
    gives 1 call --script "$work/script" --diagram "$work/missing/call.svg" "$input" --explain
    printf 'fault 8\n%s: no such file or folder\n' "$work/missing/call.svg" > "$work/wanted"
    is_same "$work/error" "$work/wanted" "the words of a picture in no folder"
    echo kept > "$work/call.svg"
    faults "fault 26" call --lose 5% --seed 1 --diagram "$work/call.svg" "$(octets "50 34 0A 38 20 31 0A 30")"
    faults "fault 30 at line 1" call --script "$work/wrong" --diagram "$work/call.svg" "$input"
    [ "$(cat "$work/call.svg")" = kept ] || fails "call --diagram wrote its file after a fault"
    works call --script "$work/script" "$input"
    cp "$work/output" "$work/wanted"
    works call --script "$work/script" --diagram "$work/call.svg" "$input"
    is_same "$work/output" "$work/wanted" "what is printed of a call that is drawn"
}

# The worked calls, calls over a bad line, and one whose blocks are drawn once.
try_diagrams() {
    for script in "$top"/.ci/calls/*.script; do
        case=${script%.script}
        [ -f "$case.expected" ] && [ -f "$case.pbm" ] || continue
        # shellcheck disable=SC2046 # its options are words
        draws --script "$script" $(cat "$case.options" 2> /dev/null) "$case.pbm"
    done
    input=$(octets "$white")
    echo 'polite 11' > "$work/script"
    echo 'spoil 0' > "$work/wrong"
    for seed in 1 2 3 4 5 6 7 8; do
        draws --lose 20% --spoil 30% --busy 40% --seed $seed "$input"
    done
    printf 'busy 1000000\nready\n' > "$work/script"
    draws --script "$work/script" "$input"
    printf 'P4\n1728 3000\n' > "$work/comb"
    head -c 648000 /dev/zero | tr '\0' U >> "$work/comb"
    draws --code mh --frame 64 --lose 0% --seed 1 "$work/comb"
    grep -q '>1[0-9][0-9] rounds like this<' "$work/call.svg" || fails "the blocks of a page aren't drawn once"
    [ "$(wc -c < "$work/call.svg")" -lt 8000 ] || fails "the picture of a page of equal blocks is long"
    draws --code mh --frame 64 --lose 1/1000 --seed 1 "$work/comb"
    echo 'polite 11' > "$work/script"
    try_diagram_refused
    try_captures
}
