# The command code, and the round trip through show and decode.

# codes CODE ORDER IMAGE OCTETS WIDTH: the image, in hex, has that code, and is shown and decoded again.
codes() {
    from=$(octets "$3") into=$(octets "$4")
    works code --code "$1" --order "$2" "$from" "$work/made"
    is_same "$work/made" "$into" "code --code $1 --order $2 of $3"
    works show --code "$1" --order "$2" --width "$5" "$into"
    cp "$work/output" "$work/shown_$1_$2"
    works decode --code "$1" --order "$2" --width "$5" "$into" "$work/decoded"
    is_same "$work/decoded" "$from" "decode --code $1 --order $2 of $4"
}

# Small images and their codes, as the standards' tables give them.
try_small() {
    image="50 34 0A 38 20 31 0A 30"
    codes mh msb "$image" "00 17 EC 00 40 04 00 40 04 00 40 04" 8
    printf '..##....\n' > "$work/wanted"
    is_same "$work/shown_mh_msb" "$work/wanted" "show of one row"
    works code --code mh "$(octets "$image")" "$work/made"
    is_same "$work/made" "$(octets "00 17 EC 00 40 04 00 40 04 00 40 04")" "code with no order"
    codes mmr msb "50 34 0A 38 20 33 0A 30 30 00" "2F F8 C0 04 00 40" 8
    printf '..##....\n..##....\n........\n' > "$work/wanted"
    is_same "$work/shown_mmr_msb" "$work/wanted" "show of three rows"
    works code "$(octets "$image")" --order=msb "$work/made" --code=mh
    is_same "$work/made" "$(octets "00 17 EC 00 40 04 00 40 04 00 40 04")" "code with its options after IN"
    for width in +8 008; do
        works show --code mh --width $width "$work/made"
        is_same "$work/output" "$work/shown_mh_msb" "show --width $width"
    done
    codes mh msb "50 34 0A 31 20 31 0A 00" "00 11 C0 04 00 40 04 00 40 04 00 40" 1
    codes mmr lsb "$white" "01 10 00 01" 1728
    codes mmr msb "$white" "80 08 00 80" 1728
    codes mh msb "$white" "00 14 D9 A8 00 80 08 00 80 08 00 80 08" 1728
    codes mh lsb "$white" "00 28 9B 15 00 01 10 00 01 10 00 01 10" 1728
}

# The codes as the texts of frames name them.
try_other_names() {
    while read -r code name; do
        works code --code "$name" "$data/page.pbm" "$work/made"
        is_same "$work/made" "$data/page.$code.msb" "code --code $name"
        works decode --code "$name" --width 315 "$work/made" "$work/decoded"
        is_same "$work/decoded" "$data/page.pbm" "decode --code $name"
        works call --json --lose 0% --seed 1 --code "$code" "$(octets "$white")"
        cp "$work/output" "$work/wanted"
        for printed in $(grep -o '"code":"[a-z0-9]*"' "$work/wanted" | cut -d '"' -f 4 | sort -u); do
            works code --code "$printed" "$data/page.pbm" "$work/made"
        done
        works call --json --lose 0% --seed 1 --code "$name" "$(octets "$white")"
        is_same "$work/output" "$work/wanted" "call --code $name"
    done << 'CASES'
mh t4
mmr t6
CASES
}

# A page of text and its codes, as other software writes them.
try_page() {
    try_other_names
    for code in mh mmr; do
        for order in msb lsb; do
            works code --code $code --order $order "$data/page.pbm" "$work/made"
            is_same "$work/made" "$data/page.$code.$order" "code --code $code --order $order of a page"
            works show --code $code --order $order --width 315 "$data/page.$code.$order"
            is_same "$work/output" "$data/page.txt" "show --code $code --order $order of a page"
            works decode --code $code --order $order --width 315 --fine "$data/page.$code.$order" "$work/decoded"
            is_same "$work/decoded" "$data/page.pbm" "decode --code $code --order $order of a page"
        done
    done
}

# Refused images: OUT is left as it was, and isn't made.
try_images() {
    echo "as it was" > "$work/kept"
    cp "$work/kept" "$work/made"
    : > "$work/nothing"
    two="50 34 0A 38 20 31 0A 30 50 34 0A 38 20 31 0A 30"
    for code in mh mmr; do
        faults "fault 27" code --code $code "$(octets "$two")" "$work/made"
        faults "fault 7" code --code $code "$work/nothing" "$work/made"
        faults "fault 1" code --code $code "$(octets "50 34 0A 32 34 33 33 20 31 0A 30")" "$work/made"
        faults "fault 3" code --code $code "$(octets "50 34 0A 38 20 32 30 30 30 31 0A")" "$work/made"
        faults "fault 4" code --code $code "$(octets "50 34 0A 38 20 30 0A")" "$work/made"
        faults "fault 5" code --code $code "$(octets "50 35")" "$work/made"
        faults "fault 6" code --code $code "$(octets "50 34 0A 38 20 31 0A")" "$work/made"
        faults "fault 8" code --code $code "$work/missing" "$work/made"
        faults "fault 8" code --code $code "$work" "$work/made"
        is_same "$work/made" "$work/kept" "OUT after a fault"
        faults "fault 6" code --code $code "$(octets "50 34 0A 38 20 31 0A")" "$work/not_made"
        [ ! -e "$work/not_made" ] || fails "code made OUT after a fault"
        faults "fault 8" code --code $code "$data/page.pbm" "$work/missing/made"
        faults "fault 8" code --code $code "$data/page.pbm" "$work"
    done
}

# A page of 300 rows of all kinds and one of 20,000 rows, 2,432 pixels wide, and their codes, as other software writes them.
# Of each code the last one stays, the most significant bit first.
try_large_pages() {
    while read -r page code order sums; do
        works code --code "$code" --order "$order" "$work/$page.pbm" "$work/$page.$code"
        [ "$(cksum < "$work/$page.$code")" = "$sums" ] || fails "code --code $code --order $order of the $page page: other octets"
        works show --code "$code" --order "$order" --width 2432 "$work/$page.$code"
        is_same "$work/output" "$work/$page.txt" "show --code $code --order $order of the $page page"
        works decode --code "$code" --order "$order" --width 2432 "$work/$page.$code" "$work/decoded"
        is_same "$work/decoded" "$work/$page.pbm" "decode --code $code --order $order of the $page page"
    done < "$data/large.sums"
}

# A comb of 20,000 rows, whose code in T.4, 26,748 KB, is about the longest that a page has: a command holds the page, 6,900 KB, and a code
# once or not at all, in both orders of bits. The program itself takes 2,000 KB; how many of its own are resident isn't the same in each run.
try_little_memory() {
    { printf 'P4\n2432 20000\n'; head -c 6080000 /dev/zero | tr '\0' 'U'; } > "$work/comb.pbm"
    for code in mh mmr; do
        for order in lsb msb; do
            takes_at_most 16384 code --code $code --order $order "$work/comb.pbm" "$work/comb.code"
            takes_at_most 38912 decode --code $code --order $order --width 2432 "$work/comb.code" "$work/decoded"
            is_same "$work/decoded" "$work/comb.pbm" "decode of a comb in $code, $order"
        done
    done
    rm "$work/comb.pbm" "$work/comb.code"
}

# What can't be an image is refused by its first octets, however long it is, and also where they come one by one.
try_no_image() {
    truncate -s 4G "$work/sparse"
    for name in /dev/zero "$work/sparse"; do
        for words in "code --code mh $name $work/made" "call --script $top/docs/examples/one_page.script $name"; do
            status=0
            (ulimit -v 8000; exec timeout 120 "$program" $words > "$work/output" 2> "$work/error") || status=$?
            [ "$status $(cat "$work/error")" = "1 fault 5" ] || fails "$words ended with status $status"
            count=$((count + 1))
        done
    done
    rm "$work/sparse"
    { printf P; sleep 0.2; printf 4; sleep 0.2; tail -c +3 "$data/page.pbm"; } | "$program" code --code mh - "$work/made"
    is_same "$work/made" "$data/page.mh.msb" "code of an image whose first octets come one by one"
    status=0
    { printf P; sleep 0.2; cat /dev/zero; } 2> /dev/null | timeout 120 "$program" code --code mh - "$work/made" 2> "$work/error" || status=$?
    [ "$status $(cat "$work/error")" = "1 fault 5" ] || fails "code of P and zeros ended with status $status"
    count=$((count + 2))
}
