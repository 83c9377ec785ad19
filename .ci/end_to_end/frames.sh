# The command frames.

# Frames in bits.
try_frames() {
    works frames "$data/line.bits"
    is_same "$work/output" "$data/line.txt" "frames of a line"
    works frames "$(octets "7E DF 47 30 8A C6 FB 01 7E DF 47 30 8A C6 FB 01")"
    printf '1 ff138c MCF\n2 ff138c MCF\ngood 2 aborted 0 ragged 0 short 0 long 0 damaged 0\n' > "$work/wanted"
    is_same "$work/output" "$work/wanted" "frames of two MCF"
    works frames "$(octets "7E DF 47 31 8A C6 FB 01")"
    echo "good 0 aborted 0 ragged 0 short 0 long 0 damaged 1" > "$work/wanted"
    is_same "$work/output" "$work/wanted" "frames of a damaged MCF"
    : > "$work/nothing"
    works frames "$work/nothing"
    echo "good 0 aborted 0 ragged 0 short 0 long 0 damaged 0" > "$work/wanted"
    is_same "$work/output" "$work/wanted" "frames of nothing"
}

# A part of each content, and lines that come as their frames do.
try_data() {
    frames=$(octets "7E DF 47 30 8A C6 FB 01")
    for shown in "0 .." "2 ff13.." "3 ff138c" "300 ff138c"; do
        works frames --data "${shown% *}" "$frames"
        printf '1 %s MCF\ngood 1 aborted 0 ragged 0 short 0 long 0 damaged 0\n' "${shown#* }" > "$work/wanted"
        is_same "$work/output" "$work/wanted" "frames --data ${shown% *}"
    done
    mkfifo "$work/bits"
    "$program" frames - < "$work/bits" > "$work/output" &
    lists=$!
    exec 3> "$work/bits"
    cat "$frames" >&3
    for _wait in $(seq 100); do [ -s "$work/output" ] || sleep 0.05; done
    [ "$(cat "$work/output")" = "1 ff138c MCF" ] || fails "frames doesn't list a frame as soon as it has come"
    exec 3>&-
    wait "$lists" || fails "frames of bits that come one after the other ended with status $?"
    rm "$work/bits"
}

# Bits with one gap of each class that is no good frame, and what there is counted.
try_gaps() {
    while read -r hex counts; do
        # the long gap has more than 64 octets, so that the other order is named
        gives 0 frames "$(octets "$(echo "$hex" | sed 's/../& /g')")"
        echo "good 0 $counts" > "$work/wanted"
        is_same "$work/output" "$work/wanted" "frames of a gap"
    done << CASES
7EFF7E aborted 1 ragged 0 short 0 long 0 damaged 0
7E00FC00 aborted 0 ragged 1 short 0 long 0 damaged 0
7E007E aborted 0 ragged 0 short 1 long 0 damaged 0
7E$(printf '%0606d' 0)7E aborted 0 ragged 0 short 0 long 1 damaged 0
CASES
}

# What signals say in words, and bits in the other order.
try_signal_words() {
    python3 -B "$data/try_words.py" "$program" "$work" || fails "frames --explain or --order"
    count=$((count + 9))
    refuses frames --order first "$data/line.bits"
    works frames --order lsb "$data/line.bits"
    is_same "$work/output" "$data/line.txt" "frames of a line in the order that is said"
    python3 -c 'import sys
sys.stdout.buffer.write(bytes(int(f"{octet:08b}"[::-1], 2) for octet in open(sys.argv[1], "rb").read()))' "$top/docs/examples/line.bits" > "$work/turned"
    mkdir -p "$work/turned_pages"
    gives 1 frames --order msb --pages "$work/turned_pages" "$work/turned"
    is_same "$work/turned_pages/page-1.pbm" "$top/docs/examples/row.pbm" "the page in the bits of docs/examples/line.bits in the other order"
}

# Records of frames, of pages and of what is missing say what the lines say.
try_records() {
    mkdir -p "$work/recorded"
    for records in "$data/line.bits" "$top/docs/examples/line.bits"; do
        python3 -B "$data/try_json.py" "$program" "$records" "$work/recorded" || fails "frames --json of $records"
        count=$((count + 13))
    done
}

# A mebibyte of frames.
try_large_frames() {
    works frames "$work/frames.bits"
    is_same "$work/output" "$work/frames.txt" "frames of a mebibyte"
}

# The pages in the frames of calls, whole ones and incomplete ones; and of a folder that is missing.
try_captured() {
    python3 -B "$data/try_captured.py" "$program" "$work" || fails "frames --pages"
    python3 -B "$top/bench/fuzz/fuzz_captures.py" --dry > "$work/output" || fails "fuzz_captures.py doesn't read its worked captures: $(cat "$work/output")"
    FAXTOOL=$program timeout 600 python3 -B "$top/bench/fuzz/fuzz_captures.py" --times 100 > "$work/output" ||
        fails "frames --pages of random captures: $(cat "$work/output")"
    count=$((count + 220))
    refuses frames --salvage "$top/docs/examples/line.bits"
    grep -qF -e "--salvage needs --pages" "$work/error" || fails "frames --salvage with no folder doesn't say what is wrong"
    while IFS='|' read -r words why; do
        refuses frames $words
        [ "$(head -1 "$work/error")" = "error: $why" ] || fails "frames $words: other words: $(head -1 "$work/error")"
    done << 'CASES'
|FILE is missing, or --diagram with --caller and --answerer
--data 2|FILE is missing, or --diagram with --caller and --answerer
--salvage|FILE is missing, or --diagram with --caller and --answerer
--caller a --answerer b|--caller and --answerer are for a picture, with --diagram
--diagram a --caller b|--diagram needs --caller and --answerer, the files of what both stations sent
--diagram a --answerer b|--diagram needs --caller and --answerer, the files of what both stations sent
--diagram a --caller - --answerer -|--caller and --answerer can't both be standard input
--diagram a --caller b --answerer c d|--diagram draws two captures, and can't be used with FILE, --data, --pages or --salvage
--diagram a b|--diagram draws two captures, and can't be used with FILE, --data, --pages or --salvage
--caller a --data 2|--diagram draws two captures, and can't be used with FILE, --data, --pages or --salvage
CASES
    mkdir -p "$work/captured"
    gives 1 frames --pages "$work/captured" "$top/docs/examples/line.bits"
    is_same "$work/captured/page-1.pbm" "$top/docs/examples/row.pbm" "the page in docs/examples/line.bits"
    [ "$(head -1 "$work/error")" = "page 2 block 2: the blocks before it are missing" ] || fails "frames --pages named other blocks"
    gives 0 frames --data 2 "$top/docs/examples/line.bits"
    cp "$work/output" "$work/wanted"
    rm "$work/captured"/*
    gives 1 frames --data 2 --pages "$work/captured" "$top/docs/examples/line.bits"
    sed -i '9a page 1: page-1.pbm, 1728 x 1 pixels, standard lines' "$work/wanted"
    is_same "$work/output" "$work/wanted" "what frames --data 2 --pages lists"
    gives 1 frames --pages "$work/missing" "$top/docs/examples/line.bits"
    [ "$(cat "$work/error")" = "fault 8" ] || fails "frames --pages into a missing folder"
    gives 1 frames --pages "$work/captured" "$(octets "7E DF 47 30 8A C6 FB 01")"
    [ "$(cat "$work/error")" = "no error correction: no pages" ] || fails "frames --pages doesn't tell that there is no error correction"
    for none in /dev/null "$(octets "00 FF 7E")"; do
        for salvage in "" --salvage; do
            gives 1 frames --pages "$work/captured" $salvage "$none"
            [ "$(cat "$work/error")" = "no frame: no pages" ] || fails "frames --pages doesn't tell that there is no frame in $none"
        done
        gives 1 frames --json --pages "$work/captured" "$none"
        [ "$(cat "$work/error")" = '{"notice":"no frame: no pages"}' ] || fails "frames --json --pages of $none"
    done
}

# A capture of three pages whose last one was lost after PPS-MPS: two pages are written, and the third one is named.
try_lost_page() {
    lost=$data/last_page_lost.bits
    mkdir -p "$work/two_pages"
    for salvage in "" --salvage; do
        rm -f "$work/two_pages"/*
        gives 1 frames --pages "$work/two_pages" $salvage "$lost"
        [ "$(cd "$work/two_pages" && echo *)" = "page-1.pbm page-2.pbm" ] || fails "frames --pages $salvage doesn't write two pages of three"
        [ "$(cat "$work/error")" = "page 3 is missing: the page before it ended with MPS" ] ||
            fails "frames --pages $salvage doesn't name a last page that is missing"
    done
    rm -f "$work/two_pages"/*
    gives 1 frames --json --pages "$work/two_pages" "$lost"
    [ "$(cat "$work/error")" = '{"after":"MPS","missing":"page","page":3}' ] || fails "frames --json --pages: another record of a last page that is missing"
    rm -f "$work/two_pages"/*
    python3 -B "$data/try_json.py" "$program" "$lost" "$work/two_pages" || fails "frames --json of $lost"
}

# A capture of three pages whose PPSs all have page number 0: all three are written, and the numbers that were used already are named.
try_used_number() {
    used=$data/page_number_stays.bits
    mkdir -p "$work/three_pages"
    gives 1 frames --pages "$work/three_pages" "$used"
    printf 'page 1: page-%d.pbm, 1728 x %d pixels, fine lines\n' 1 400 2 400 3 300 > "$work/wanted"
    grep "^page" "$work/output" > "$work/numbered"
    is_same "$work/numbered" "$work/wanted" "the pages whose PPSs have one number"
    [ "$(sha256sum "$work/three_pages"/page-?.pbm | cut -c1-64 | sort -u | wc -l)" = 3 ] || fails "frames --pages: a page is written twice"
    words="page 1 block 0: its number was used already, so it counts as what follows MPS"
    [ "$(cat "$work/error")" = "$(printf '%s\n' "$words" "$words")" ] || fails "frames --pages doesn't name a number that was used already"
    rm -f "$work/three_pages"/*
    gives 1 frames --json --pages "$work/three_pages" "$used"
    [ "$(tail -1 "$work/error")" = '{"after":"MPS","block":0,"missing":"new number","page":1}' ] ||
        fails "frames --json --pages: another record of a number that was used already"
    rm -f "$work/three_pages"/*
    python3 -B "$data/try_json.py" "$program" "$used" "$work/three_pages" || fails "frames --json of $used"
}
