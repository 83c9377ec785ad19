# The option `--bits` of a call.

# Words that are no call with bits, and folders that are none.
try_bits_refused() {
    refuses call --script "$work/script" --bits "$work/sent" --bits "$work/sent" "$input"
    refuses call --script "$work/script" --bits
    refuses frames --bits "$work/sent" "$input"
    faults "fault 8" call --script "$work/script" --bits "$work/missing" "$input"
    faults "fault 8" call --lose 5% --seed 1 --bits "$input" "$input"
    explains "fault 8" "$work/missing: no such file or folder" call --script "$work/script" --bits "$work/missing" "$input"
}

# What was there stays where a call fails, and no other file is left.
try_bits_kept() {
    echo kept > "$work/sent/to-answerer.bits"
    rm -f "$work/sent/to-caller.bits"
    status=0
    "$program" call --script "$work/script" --bits "$work/sent" "$input" >&- 2> "$work/error" || status=$?
    [ "$status $(cat "$work/error")" = "1 fault 8" ] || fails "call --bits to a closed output ended with status $status"
    faults "fault 26" call --lose 5% --seed 1 --bits "$work/sent" "$(octets "50 34 0A 38 20 31 0A 30")"
    [ "$(cat "$work/sent/to-answerer.bits") $(ls "$work/sent")" = "kept to-answerer.bits" ] || fails "call --bits left something else"
    count=$((count + 1))
}

# The files are new: what is there under their names, a link also if it leads nowhere, stays, and no call is run for nothing.
try_bits_new() {
    for name in to-answerer to-caller; do
        rm -f "$work/sent"/*
        ln -s ../victim "$work/sent/$name.bits"
        rm -f "$work/victim"
        for kept in none kept; do
            [ "$kept" = none ] || echo kept > "$work/victim"
            faults "fault 8" call --script "$work/script" --bits "$work/sent" "$input"
            [ "$(ls "$work/sent")" = "$name.bits" ] && [ "$(readlink "$work/sent/$name.bits")" = ../victim ] || fails "call --bits replaced a link"
            [ "$(cat "$work/victim" 2> /dev/null)" = "${kept#none}" ] || fails "call --bits wrote through a link"
        done
    done
    rm -f "$work/sent"/* "$work/victim"
}

# Memory is refused at any place: no file of the call is left, whole or not, unless it ended well.
try_bits_memory() {
    refused=0
    finds_least
    for size in 1 20000 40000 60000 80000 100000 120000; do
        { printf 'polite 11\n#'; head -c "$size" /dev/zero | tr '\0' x; echo; } > "$work/long.script"
        rm -f "$work/sent"/*
        for most in $(seq "$least" 60 12000); do
            within "$most" call --script "$work/long.script" --bits "$work/sent" "$input"
            [ "$status" != 0 ] || break
            is_status 1 "call --bits with $most KB of memory"
            [ -z "$(ls "$work/sent")" ] || fails "call --bits with $most KB of memory left $(ls "$work/sent")"
            [ "$(head -n 1 "$work/error")" != "fault 9" ] || refused=$((refused + 1))
            count=$((count + 1))
        done
        [ "$status" = 0 ] || fails "call --bits was refused memory each time"
    done
    [ "$refused" -gt 0 ] || fails "call --bits was never refused memory"
    rm -f "$work/sent"/*
}

# The worked calls, and their frames: what is sent once and what is sent again, a burst after a bad training check, and the page of a
# call that loses items.
try_bits() {
    input=$(octets "$white")
    rm -rf "$work/sent" "$work/found"
    mkdir "$work/sent" "$work/found"
    printf 'polite 2\nspoil\nto-answerer\npolite 100\n' > "$work/script"
    works call --script "$work/script" --bits "$work/sent" "$input"
    works frames "$work/sent/to-answerer.bits"
    cut -d " " -f 3- "$work/output" > "$work/listed"
    printf '%s\n' "DCS v17-14400 standard 1728 t6 256" "DCS v17-12000 standard 1728 t6 256" "FCD 0 256" RCP RCP RCP \
        "PPS EOP page 0 block 0 last 0" DCN "aborted 0 ragged 2 short 0 long 0 damaged 0" > "$work/wanted"
    sed -i 's/^8 aborted/aborted/' "$work/listed"
    is_same "$work/listed" "$work/wanted" "the frames to the answerer"
    works frames "$work/sent/to-caller.bits"
    printf '%s\n' "1 ff1380006efa44 DIS receiver v17 fine 2432 t6 ecm" "2 ff1344 FTT" "3 ff1384 CFR" "4 ff138c MCF" \
        "good 4 aborted 0 ragged 0 short 0 long 0 damaged 0" > "$work/wanted"
    is_same "$work/output" "$work/wanted" "the frames to the caller"
    cp "$work/sent/to-answerer.bits" "$work/first.bits"
    explains "fault 8" "$work/sent/to-answerer.bits: there is a file of this name already" call --lose 20% --seed 7 --bits "$work/sent" "$input"
    is_same "$work/sent/to-answerer.bits" "$work/first.bits" "the octets of the call before"
    rm "$work/sent"/*
    works call --lose 20% --seed 7 --bits "$work/sent" "$input"
    works frames --pages "$work/found" "$work/sent/to-answerer.bits"
    is_same "$work/found/page-1.pbm" "$input" "the page in the frames of a call"
    [ "$(grep -c ' PPS ' "$work/output") $(grep -c ' RCP$' "$work/output")" = "2 3" ] || fails "what is sent again or lost isn't there"
    try_bits_refused
    try_bits_kept
    try_bits_new
    try_bits_memory
}
