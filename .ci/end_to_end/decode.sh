# The commands show and decode: refused, cut and broken pages.

# What is told of a page that is decoded: rows, and bits, of which EOL has 12, its row 10 and the six EOLs 72.
try_told() {
    code=$(octets "00 17 EC 00 40 04 00 40 04 00 40 04")
    gives 0 decode --code mh --width 8 --verbose "$code" "$work/decoded"
    [ "$(cat "$work/error")" = "rows 1 bits 94" ] || fails "decode --verbose didn't tell 1 row of 94 bits"
    [ ! -s "$work/output" ] || fails "decode --verbose printed something"
    faults "fault 8" decode --code mh --width 8 "$work/missing" "$work/decoded"
    faults "fault 8" decode --code mh --width 8 "$code" "$work/missing/decoded"
    [ ! -c /dev/full ] || faults "fault 8" decode --code mh --width 8 "$code" /dev/full
}

# lines_of_records: the records on standard input, as the lines that are written without --json.
lines_of_records() {
    jq -r 'if has("notice") then .notice
        elif has("fault") then "fault \(.fault)" + (if has("bit") then " at bit \(.bit)" else "" end)
        elif has("octets_after") then "octets after the page \(.octets_after)"
        elif has("page") then "page \(.page) begins at octet \(.begins_at_octet)"
        elif has("bits") then "rows \(.rows) bits \(.bits)"
        else "rows \(.rows)" end'
}

# same_told STATUS WORDS: with --json the same is told, as objects.
same_told() {
    end=$1
    shift
    gives "$end" decode "$@"
    cp "$work/error" "$work/wanted"
    gives "$end" decode --json "$@"
    [ ! -s "$work/wanted" ] || [ "$(grep -vc '^{.*}$' "$work/error")" = 0 ] || fails "decode --json $* told something that is no object"
    lines_of_records < "$work/error" > "$work/read_back" || fails "decode --json $* told something that jq doesn't read"
    is_same "$work/read_back" "$work/wanted" "what decode --json $* tells"
}

# What decode tells as objects: with and without --verbose, of whole, repaired, open and later pages, and of faults.
try_told_records() {
    eol=000000000001 row="0111 11 1011" bad=10100
    rtc="$eol $eol $eol $eol $eol $eol"
    for flag in "" --verbose; do
        same_told 0 $flag --code mh --width 8 "$(bits "$eol $row $rtc")" "$work/decoded"
        same_told 0 $flag --code mh --width 8 "$(bits "$eol $row $rtc $eol $row $eol $row $rtc")" "$work/decoded"
        same_told 0 $flag --code mh --width 8 --page 2 "$(bits "$eol $row $rtc $eol $row $eol $row $rtc 00000000")" "$work/decoded"
        same_told 1 $flag --code mh --width 8 --page 3 "$(bits "$eol $row $rtc $eol $row $eol $row $rtc")" "$work/decoded"
        same_told 1 $flag --code mh --width 8 --page 2 "$(bits "$eol $bad $rtc $eol $row $rtc")" "$work/decoded"
        same_told 0 $flag --code mh --width 8 "$(bits "$eol $row $eol $row")" "$work/decoded"
        same_told 1 $flag --whole --code mh --width 8 "$(bits "$eol $row $eol $row")" "$work/decoded"
        same_told 0 $flag --repair --code mh --width 8 "$(bits "$eol $row $eol $bad $eol $row $eol $bad $rtc")" "$work/decoded"
        same_told 0 $flag --repair --code mmr --width 8 "$(bits "001 0111 11 1 1 1 1")" "$work/decoded"
        same_told 1 $flag --salvage --code mh --width 8 "$(bits "$eol $row $eol $bad $rtc")" "$work/decoded"
        same_told 1 $flag --code mh --width 8 "$work/missing" "$work/decoded"
    done
    gives 0 decode --json --verbose --code mh --width 8 "$(bits "$eol $row $rtc 00000000")" "$work/decoded"
    printf '{"bits":94,"rows":1}\n{"octets_after":1}\n' > "$work/wanted"
    is_same "$work/error" "$work/wanted" "the objects of decode --json --verbose"
}

# Refused pages: the fault and the bit, and OUT is left as it was.
try_codes() {
    echo "as it was" > "$work/kept"
    cp "$work/kept" "$work/decoded"
    while read -r code fault bit hex; do
        faults "fault $fault at bit $bit" show --code "$code" --width 8 "$(octets "$hex")"
        faults "fault $fault at bit $bit" decode --code "$code" --width 8 "$(octets "$hex")" "$work/decoded"
        is_same "$work/decoded" "$work/kept" "OUT after a refused page"
    done << CASES
mmr 16 0 02
mmr 17 1 80
mmr 11 1 80 08 00
mmr 11 3 20
mmr 14 0 60
mmr 13 15 26 AA 80
mmr 15 11 26 A1 B8
mmr 4 0 00 10 01
mh 10 12 00 10 08
mh 12 12 00 1A 00
mh 4 12 00 10 00
mh 12 0 17 EC
CASES
    faults "fault 17 at bit 0" show --code mmr --width 8 "$work/nothing"
    faults "fault 4 at bit 0" show --code mh --width 8 "$work/nothing"
    for words in "show --code mh --width 8" "show --code mmr --width 8" frames; do
        faults "fault 8" $words "$work/missing"
        faults "fault 8" $words "$work"
    done
}

# What there is of pages that can't be read: whole rows, with the fault as ever, and nothing where no row is whole.
try_salvage() {
    while read -r code fault bit rows hex; do
        rm -f "$work/salvaged"
        faults "fault $fault at bit $bit" decode --salvage --code "$code" --width 8 "$(octets "$hex")" "$work/salvaged"
        if [ "$rows" = none ]; then
            [ ! -e "$work/salvaged" ] || fails "decode --salvage made OUT of no row"
        else
            is_same "$work/salvaged" "$(octets "50 34 0A 38 20 $rows")" "decode --salvage of $code $hex"
        fi
    done << CASES
mmr 16 0 none 02
mmr 10 11 31_0A_30 2F E0 00
mmr 10 12 31_0A_30 2F F0 00
mmr 16 13 32_0A_30_30 2F F8 10
mh 12 12 none 00 1A 00
mh 12 34 31_0A_30 00 17 EC 00 68 00
CASES
    code=$(octets "00 17 EC 00 40 04 00 40 04 00 40 04")
    works decode --salvage --code mh --width 8 "$code" "$work/salvaged"
    is_same "$work/salvaged" "$(octets "50 34 0A 38 20 31 0A 30")" "decode --salvage of a whole page"
    gives 0 decode --salvage --verbose --code mh --width 8 "$code" "$work/salvaged"
    [ "$(cat "$work/error")" = "rows 1 bits 94" ] || fails "decode --salvage --verbose didn't tell 1 row of 94 bits"
    faults "fault 8" decode --salvage --code mh --width 8 "$work/missing" "$work/salvaged"
    for order in msb lsb; do
        for code in mh mmr; do
            works decode --salvage --code $code --order $order --width 315 --fine "$data/page.$code.$order" "$work/salvaged"
            is_same "$work/salvaged" "$data/page.pbm" "decode --salvage --code $code --order $order"
        done
        works decode --repair --code mh --order $order --width 315 --fine "$data/page.mh.$order" "$work/repaired"
        is_same "$work/repaired" "$data/page.pbm" "decode --repair --order $order"
    done
    python3 -B "$data/try_salvage.py" "$program" "$work" || fails "decode --salvage of cut pages"
}

# Pages with rows that can't be read: each is given as the one before it, and named; where no row can be read, that is a fault.
try_repair() {
    eol=000000000001 row="0111 11 1011" bad=10100
    rtc="$eol $eol $eol $eol $eol $eol"
    works decode --repair --code mh --width 8 "$(bits "$eol $row $rtc")" "$work/repaired"
    is_same "$work/repaired" "$(octets "50 34 0A 38 20 31 0A 30")" "decode --repair of a whole page"
    gives 0 decode --repair --code mh --width 8 "$(bits "$eol $row $eol $bad $eol $row $rtc")" "$work/repaired"
    is_same "$work/repaired" "$(octets "50 34 0A 38 20 33 0A 30 30 30")" "decode --repair of a page with a bad row"
    printf 'row 2 repaired at bit 34\nrepaired rows: 1\n' > "$work/wanted"
    is_same "$work/error" "$work/wanted" "what decode --repair tells"
    [ ! -s "$work/output" ] || fails "decode --repair printed something"
    # an RTC of five EOLs, or none, is no end
    for short in "$eol $eol $eol $eol $eol" "$eol" ""; do
        gives 0 decode --repair --code mh --width 8 "$(bits "$eol $row $eol $bad $eol $row $short")" "$work/repaired"
        printf 'row 2 repaired at bit 34\nrepaired rows: 1\nthe page ends without its RTC after 3 rows\n' > "$work/wanted"
        is_same "$work/error" "$work/wanted" "what decode --repair tells of a page that ends with: $short"
        gives 1 decode --repair --whole --code mh --width 8 "$(bits "$eol $row $eol $row $short")" "$work/repaired"
    done
    works decode --repair --whole --code mh --width 8 "$(bits "$eol $row $eol $row $rtc $eol")" "$work/repaired"
    gives 0 decode --repair --explain --verbose --code mh --width 8 "$(bits "$eol $bad $eol $row $rtc")" "$work/repaired"
    is_same "$work/repaired" "$(octets "50 34 0A 38 20 32 0A 00 30")" "decode --repair of a page with a bad first row"
    printf 'row 1 repaired at bit 12\nrepaired rows: 1\nrows 2\n' > "$work/wanted"
    is_same "$work/error" "$work/wanted" "what decode --repair --verbose tells"
    rm -f "$work/repaired"
    cp "$(bits "$eol $bad $rtc")" "$work/bad_page"
    explains "fault 12 at bit 12" "$work/bad_page: row 1: this run goes past the row's width: is --width right? (try --order lsb, or --code mmr)" \
        decode --repair --code mh --width 8 "$work/bad_page" "$work/repaired"
    faults "fault 8" decode --repair --code mh --width 8 "$work/missing" "$work/repaired"
    [ ! -e "$work/repaired" ] || fails "decode --repair made OUT after a fault"
    for words in "--repair --salvage --code mh" "--repair --salvage --code mmr"; do
        refuses decode $words --width 8 "$work/bad_page" "$work/repaired"
        grep -qF -e "--repair and --salvage can be used together only with --each" "$work/error" || fails "decode $words doesn't say what is wrong"
    done
    refuses decode --repair --repair --code mh --width 8 "$work/bad_page" "$work/repaired"
    refuses show --repair --code mh --width 8 "$work/bad_page"
    python3 -B "$data/try_repair.py" "$program" "$work" || fails "decode --repair of pages with a flipped bit"
    try_others_pages
    try_no_eofb
}

# Pages of other programs: mgetty's pbm2g3 writes a white run of 0 pixels after a row that ends in black, and ghostscript's faxg4 no EOFB.
try_others_pages() {
    code=$(octets "00 1E CD 40 05 FB 00 10 01 00 10 01 00 10 01 00 10")
    works decode --repair --code mh --width 8 "$code" "$work/repaired"
    is_same "$work/repaired" "$(octets "50 34 0A 38 20 32 0A 03 30")" "decode --repair of a page of pbm2g3"
    code=$(octets "F2 6A 1A 08 83 FF F8 C0")
    faults "fault 17 at bit 58" decode --code mmr --width 64 "$code" "$work/missing"
    gives 0 decode --repair --code mmr --width 64 "$code" "$work/repaired"
    rows=$(for row in 1 2 3 4; do echo "00 00 00 00 00 00 00 00"; done; echo "FF FF F0 00 00 00 00 00")
    rows=$(echo "$rows" | sed "5d"; for row in 5 6 7; do echo "FF FF F0 00 00 F8 00 00"; done; echo "FF FF F0 00 00 00 00 00")
    is_same "$work/repaired" "$(octets "50 34 0A 36 34 20 38 0A $rows")" "decode --repair of a page of faxg4"
    echo "the page ends without its EOFB after 8 rows, at bit 58" > "$work/wanted"
    is_same "$work/error" "$work/wanted" "what decode --repair tells of a page of faxg4"
    gives 1 decode --repair --whole --code mmr --width 64 "$code" "$work/repaired"
}

# page_is CODE NUMBER ROWS FILE WORDS: the page of the file has these rows of 8 pixels, in hex.
page_is() {
    works decode --code "$1" --page "$2" --width 8 "$4" "$work/page"
    is_same "$work/page" "$(octets "50 34 0A 38 20 $(printf %02X $((48 + $(echo $3 | wc -w)))) 0A $3")" "decode --code $1 --page $2 of $5"
}

# tells_no_page LINES WORDS: the words end with status 1, these lines on standard error and no page.
tells_no_page() {
    rm -f "$work/page"
    printf "$1" > "$work/wanted"
    shift
    gives 1 decode "$@" "$work/page"
    is_same "$work/error" "$work/wanted" "what decode $* tells"
    [ ! -e "$work/page" ] || fails "decode $* made OUT"
}

# Pages one after another: of T.4 at the next bit, in the next octet, after fill, and after a seventh EOL, as pbmtog3 writes it; of T.6 in
# the next octet, and after octets of 0.
try_pages() {
    eol=000000000001 row="0111 11 1011" blank=10011 black="00110101 000101"
    rtc="$eol $eol $eol $eol $eol $eol"
    for between in "" 0 0000 000000000000000 "$eol" "0000$eol" "$eol 0000 $eol"; do
        code=$(bits "$eol $row $rtc $between $eol $blank $eol $row $rtc $between $eol $black $rtc")
        page_is mh 1 30 "$code" "pages with $between between them"
        page_is mh 2 "00 30" "$code" "pages with $between between them"
        page_is mh 3 FF "$code" "pages with $between between them"
        tells_no_page "pages in the file: 3\nfault 28\n" --code mh --page 4 --width 8 "$code"
    done
    code=$(bits "$row $rtc 000000 $blank $eol $row $rtc")
    page_is mh 2 "00 30" "$code" "pages of which the second has no EOL before its first row"
    tells_no_page "pages in the file: 1\nfault 28\n" --code mh --page 2 --width 8 "$(bits "$row $rtc $eol 0000")"
    tells_no_page "page 1 begins at octet 0 and can't be read to its end\nfault 10 at bit 48\n" --code mh --page 2 --width 8 \
        "$(bits "$eol $row $eol 00110101 000101 1011 $rtc")"
    eofb="000000000001 000000000001" first="001 0111 11 1 1 1 1"
    for between in 000 "000 00000000" "000 00000000 00000000 00000000"; do
        code=$(bits "$first $eofb $between 1 $eofb 0000000 $between 00000 $first $eofb")
        page_is mmr 1 "30 30" "$code" "pages of T.6"
        page_is mmr 2 00 "$code" "pages of T.6"
        page_is mmr 3 "30 30" "$code" "pages of T.6"
        tells_no_page "pages in the file: 3\nfault 28\n" --salvage --code mmr --page 9 --width 8 "$code"
    done
    for code in mh mmr; do
        for order in msb lsb; do
            cat "$data/page.$code.$order" "$data/page.$code.$order" "$data/page.$code.$order" > "$work/pages"
            gives 0 decode --code $code --order $order --page 3 --width 315 --fine --verbose "$work/pages" "$work/page"
            is_same "$work/page" "$data/page.pbm" "decode --code $code --order $order --page 3"
            at=$((2 * $(wc -c < "$data/page.$code.$order")))
            [ "$(head -n 1 "$work/error")" = "page 3 begins at octet $at" ] || fails "decode --page --verbose told $(head -n 1 "$work/error")"
        done
    done
    refuses decode --page 0 --code mh --width 8 "$work/pages" "$work/page"
}

# A page of T.6 without its EOFB, with a part of it, and with a row that can't be read.
try_no_eofb() {
    for end in "" 00 0000000 00000000 000000000001 "000000000001 1" "000000000001 000000001001"; do
        gives 0 decode --repair --verbose --code mmr --width 8 "$(bits "001 0111 11 1 1 1 1 $end")" "$work/repaired"
        is_same "$work/repaired" "$(octets "50 34 0A 38 20 32 0A 30 30")" "decode --repair of a page that ends with $end"
        printf 'the page ends without its EOFB after 2 rows, at bit 13\nrows 2\n' > "$work/wanted"
        is_same "$work/error" "$work/wanted" "what decode --repair tells of a page that ends with $end"
    done
    works decode --repair --code mmr --width 8 "$(bits "001 0111 11 1 1 1 1 000000000001 000000000001")" "$work/repaired"
    while IFS=: read -r line row; do
        faults "$line" decode --repair --code mmr --width 8 "$(bits "001 0111 11 1 1 1 1 $row")" "$work/repaired"
        is_same "$work/repaired" "$(octets "50 34 0A 38 20 32 0A 30 30")" "decode --repair of a page that breaks off at $row"
    done <<ROWS
fault 16 at bit 13:0000001 1111111
fault 10 at bit 20:001 0111 000000000001 000000000001
fault 10 at bit 17:0001 000000001 1111111
ROWS
    for order in msb lsb; do
        head -c -3 "$data/page.mmr.$order" > "$work/open"
        gives 0 decode --repair --code mmr --order $order --width 315 --fine "$work/open" "$work/repaired"
        is_same "$work/repaired" "$data/page.pbm" "decode --repair of a page whose last three octets are missing"
        grep -q "^the page ends without its EOFB after [0-9]* rows, at bit [0-9]*$" "$work/error" || fails "decode --repair of $order told nothing of EOFB"
    done
    rm -f "$work/repaired"
    faults "fault 4 at bit 0" decode --repair --code mmr --width 8 "$(bits "000000000001 000000000001")" "$work/repaired"
    [ ! -e "$work/repaired" ] || fails "decode --repair made OUT of a page without a row"
}

# The large page without the last octets of its code, which has so many bits. What is left ends inside a code word of the last
# row, in or before EOFB, or in 0 bits of an EOL, which end a T.4 page; the fault's bit is counted from the end of the whole code.
try_cut_pages() {
    while read -r code bits dropped fault back; do
        head -c $(((bits + 7) / 8 - dropped)) "$work/large.$code" > "$work/cut"
        faults "fault $fault at bit $((bits - back))" show --code "$code" --width 2432 "$work/cut"
    done << CASES
mmr 352065 1 11 24
mmr 352065 3 17 24
mmr 352065 4 11 25
mmr 352065 5 11 37
mmr 352065 6 11 50
mmr 352065 8 11 58
mmr 352065 9 11 67
mmr 352065 10 17 73
mh 307774 10 11 80
mh 307774 11 11 88
mh 307774 12 11 100
mh 307774 14 11 113
mh 307774 15 11 121
mh 307774 16 11 130
CASES
    for rows in "300 9" "299 17"; do
        head -c $((38472 - ${rows#* })) "$work/large.mh" > "$work/cut"
        head -n "${rows% *}" "$work/large.txt" > "$work/wanted"
        works show --code mh --width 2432 "$work/cut"
        is_same "$work/output" "$work/wanted" "show of the first ${rows% *} rows"
    done
}

# White rows in the code of T.6, a bit each: 20,000 and EOFB are a page, and one row more is refused where it begins.
try_most_rows() {
    head -c 2500 /dev/zero | tr '\0' '\377' > "$work/ones"
    cat "$work/ones" "$(octets "00 10 01")" > "$work/most"
    works show --code mmr --width 8 "$work/most"
    [ "$(sort -u "$work/output") $(wc -l < "$work/output")" = "........ 20000" ] || fails "20,000 white rows are shown as something else"
    cat "$work/ones" "$(octets "80 08 00 80")" > "$work/more"
    faults "fault 18 at bit 20000" show --code mmr --width 8 "$work/more"
}

# A page of T.4 that ends without its RTC is told, and --whole makes it status 1; so are the octets after a page.
try_rtc() {
    cd "$work"
    works decode --whole --code mh --width 315 "$data/page.mh.msb" made
    works decode --whole --code mh --order lsb --width 315 "$data/page.mh.lsb" made
    works decode --whole --code mmr --width 315 "$data/page.mmr.msb" made
    size=$(wc -c < "$data/page.mh.msb")
    cut=0
    for kept in $(seq 1 "$((size - 1))"); do
        head -c "$kept" "$data/page.mh.msb" > page
        status=0
        "$program" decode --code mh --width 315 page made 2> error || status=$?
        [ "$status" != 1 ] || continue
        is_status 0 "decode of $kept octets of a page"
        rows=$(head -c 20 made | sed -n '2s/.* //p')
        [ "$(cat error)" = "the page ends without its RTC after $rows rows" ] || fails "decode of $kept octets of a page didn't tell that its RTC is missing"
        gives 1 decode --whole --code mh --width 315 page made
        cut=$((cut + 1))
    done
    [ "$cut" -gt 0 ] || fails "no beginning of a page was a page"
    printf '123456789' | cat "$data/page.mh.msb" - > page
    gives 0 decode --verbose --code mh --width 315 page made
    tail -1 error | grep -q '^octets after the page 9$' || fails "decode --verbose doesn't tell the octets after a page"
    gives 0 decode --verbose --code mmr --width 315 "$data/page.mmr.msb" made
    ! grep -q after error || fails "decode --verbose tells octets after a page that ends the file"
    cd "$top"
}

# Each strip of a TIFF is handed over as it stands by docs/examples/strips.py, and the commands that it prints decode it: of a file of either
# order of octets, with a page of T.4, one of T.6 in two strips with the least significant bit first, and one in two dimensions.
try_strips() {
    rm -rf "$work/strips" && mkdir "$work/strips" && cd "$work/strips"
    for order in II MM; do
        python3 -B - "$data" "$order" > "$order.tif" << 'MAKES'
import struct, sys
data, order = sys.argv[1:]
end = {"II": "<", "MM": ">"}[order]
strips = [open(f"{data}/page.{name}", "rb").read() for name in ("mh.msb", "mmr.lsb")]
# the tags of each page: compression, options of T.4, order of bits, and its strips
pages = [(3, 4, 1, strips[:1]), (4, 0, 2, [strips[1]] * 2), (3, 1, 1, strips[:1])]
made = bytearray(struct.pack(f"{end}2sHI", order.encode(), 42, 8))
def long(tag, *values):
    return tag, 4, values
for number, (compression, options, bits, coded) in enumerate(pages):
    at = len(made)
    after = at + 2 + 12 * 7 + 4
    far = after + 16
    places = [far + sum(map(len, coded[:k])) for k in range(len(coded))]
    tags = [(256, 3, (315,)), (257, 3, (30 * len(coded),)), (259, 3, (compression,)), (266, 3, (bits,)),
            long(273, *places), long(279, *map(len, coded)), long(292, options)]
    made += struct.pack(f"{end}H", len(tags))
    for tag, kind, values in tags:
        made += struct.pack(f"{end}HHI", tag, kind, len(values))
        if len(values) == 2:
            made += struct.pack(f"{end}I", after + 8 * (tag == 279))
        else:
            made += struct.pack(f"{end}{'HI'[kind - 3]}", *values).ljust(4, b"\0")
    follows = far + sum(map(len, coded)) if number + 1 < len(pages) else 0
    made += struct.pack(f"{end}I", follows)
    lists = [struct.pack(f"{end}{len(coded)}I", *values).ljust(8, b"\0") for values in (places, map(len, coded))]
    made += b"".join(lists) + b"".join(coded)
sys.stdout.buffer.write(made)
MAKES
        status=0
        "$top/docs/examples/strips.py" "$order.tif" . > commands 2> "$work/error" || status=$?
        [ "$status" = 1 ] || fails "strips.py ended with status $status for a page in two dimensions"
        [ "$(cat "$work/error")" = "page 3 is in a code that faxtool doesn't read: mr" ] || fails "strips.py doesn't name the page in two dimensions"
        is_same "$order-1-1.mh" "$data/page.mh.msb" "the strip of a TIFF"
        is_same "$order-2-2.mmr" "$data/page.mmr.lsb" "the second strip of a TIFF"
        (faxtool() { "$program" "$@" || fails "a strip of a TIFF: faxtool $* ended with status $?"; } && . ./commands) || exit 1
        for made in "$order-1-1.mh" "$order-2-1.mmr" "$order-2-2.mmr"; do
            is_same "$made.pbm" "$data/page.pbm" "the image of a strip"
        done
        count=$((count + 3))
    done
    try_wrong_strips
    cd "$top"
}

# strips_say STATUS TEXT WORDS: strips.py ends with the status and one line on standard error that has the text, and in a second or two.
strips_say() {
    end=$1 text=$2 status=0
    shift 2
    (ulimit -f 10000; exec timeout 10 "$top/docs/examples/strips.py" "$@") > printed 2> "$work/error" || status=$?
    [ "$status $(wc -l < "$work/error")" = "$end 1" ] && grep -qF -e "$text" "$work/error" ||
        fails "strips.py $* ended with status $status, and not $end with: $text"
    count=$((count + 1))
}

# A damaged TIFF, and files that can't be read or written, are refused with words; what was there stays; and the pages before are written.
try_wrong_strips() {
    mkdir new taken full
    python3 -B - << 'MAKES'
import struct
whole = open("II.tif", "rb").read()
second = struct.unpack_from("<I", whole, 8 + 2 + 12 * 7)[0]
def changed(name, at, value):
    with open(name, "wb") as file:
        file.write(whole[:at] + struct.pack("<I", value) + whole[at + 4:])
# the entries of a page: 12 octets each after the first two; the last four octets of an entry are its value, or the place of it
changed("self.tif", 8 + 2 + 12 * 7, 8)
changed("back.tif", second + 2 + 12 * 7, 8)
changed("away.tif", 8 + 2 + 12 * 7, 1 << 31)
changed("outside.tif", 8 + 2 + 12 * 4 + 8, len(whole))
changed("long.tif", 8 + 2 + 12 * 5 + 8, 1 << 31)
changed("many.tif", second + 2 + 12 * 4 + 4, 1 << 31)
changed("none.tif", 8 + 2 + 12 * 4 + 4, 0)
changed("no_width.tif", 8 + 2, 0)
changed("overlap.tif", 8 + 2 + 12 * 5 + 8, len(whole) - struct.unpack_from("<I", whole, 8 + 2 + 12 * 4 + 8)[0])
for length in (3, 6, 9, 60, second, second + 50):
    with open(f"cut{length if length < second else 'page' if length == second else 'second'}.tif", "wb") as file:
        file.write(whole[:length])
MAKES
    for name in self back; do
        strips_say 1 "$name.tif: its pages lead back to an earlier one" "$name.tif" new
    done
    [ "$(ls new | tr '\n' ' ')" = "back-1-1.mh back-2-1.mmr back-2-2.mmr self-1-1.mh " ] || fails "strips.py wrote $(ls new | wc -l) files of circles"
    is_same new/self-1-1.mh "$data/page.mh.msb" "the strip before a circle"
    rm new/*
    for name in away cut6 cut9 cut60 cutpage cutsecond many; do
        strips_say 1 "$name.tif: it is cut short" "$name.tif" new
    done
    is_same new/cutsecond-1-1.mh "$data/page.mh.msb" "the strip before the end of a TIFF"
    strips_say 1 "cut3.tif: it is no TIFF" cut3.tif new
    { printf 'II*\0\0\0\0\0'; cat "$data/page.mh.msb"; } > unended.tif
    strips_say 1 "unended.tif: it has no page: what wrote it didn't end" unended.tif new
    strips_say 1 "outside.tif: a strip is empty, or lies outside the file" outside.tif new
    strips_say 1 "long.tif: a strip is empty, or lies outside the file" long.tif new
    strips_say 1 "overlap.tif: its parts overlap" overlap.tif new
    strips_say 1 "none.tif: tag 273 is missing or wrong" none.tif new
    strips_say 1 "no_width.tif: tag 256 is missing or wrong" no_width.tif new
    echo mine > taken/II-1-1.mh
    ln -s ../victim taken/MM-1-1.mh
    strips_say 1 "taken/II-1-1.mh: File exists" II.tif taken
    strips_say 1 "taken/MM-1-1.mh: File exists" MM.tif taken
    [ "$(cat taken/II-1-1.mh)" = mine ] && [ ! -e victim ] && [ "$(ls taken | wc -l)" = 2 ] || fails "strips.py wrote into a file that was there"
    strips_say 1 "missing.tif: No such file or directory" missing.tif new
    strips_say 1 "missing/II-1-1.mh: No such file or directory" II.tif missing
    strips_say 1 "/proc/II-1-1.mh: " II.tif /proc
    strips_say 1 "/dev/zero: it is no TIFF" /dev/zero new
    strips_say 2 "usage: strips.py page.tif FOLDER"
    strips_say 2 "usage: strips.py page.tif FOLDER" II.tif
    for output in "> /dev/full" ">&-"; do
        status=0
        eval '"$top/docs/examples/strips.py" II.tif full' "$output" 2> "$work/error" || status=$?
        [ "$status $(wc -l < "$work/error")" = "1 1" ] || fails "strips.py $output ended with status $status"
        count=$((count + 1))
    done
}
