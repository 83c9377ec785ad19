# `identify`: as which format a file begins, and in which ways it reads as a page.

# identifies LINES FILE: the file is identified, by these lines, as a file and as standard input.
identifies() {
    printf "$1" > "$work/wanted"
    works identify "$2"
    is_same "$work/output" "$work/wanted" "identify ${2##*/}"
    "$program" identify - < "$2" > "$work/output" 2> "$work/error" || fails "identify - of ${2##*/} ended with status $?"
    is_same "$work/output" "$work/wanted" "identify - of ${2##*/}"
    [ ! -s "$work/error" ] || fails "identify - of ${2##*/} wrote to standard error"
    count=$((count + 1))
}

# is_open LINES FILE: the file reads in several ways, by these lines, and its width isn't known.
is_open() {
    printf "%b%s\n" "$1" "the width is not known" > "$work/wanted"
    gives 1 identify "$2"
    is_same "$work/output" "$work/wanted" "identify ${2##*/}"
    [ ! -s "$work/error" ] || fails "identify ${2##*/} wrote to standard error"
}

# is_none LINE FILE: the file is no page that can be read, by this first line.
is_none() {
    printf "$1" > "$work/wanted"
    gives 1 identify "$2"
    head -n 1 "$work/output" > "$work/first"
    is_same "$work/first" "$work/wanted" "identify ${2##*/}"
    [ "$(cat "$work/error")" = "fault 29" ] || fails "identify ${2##*/} wrote $(cat "$work/error")"
}

# in_widths WORDS: the lines of a page of T.6 that reads in each width.
in_widths() {
    for width in 1728 2048 2432 1216 864 1700 1654; do
        printf "$1\\\\n" "$width"
    done
}

# is_far FILE: no page is named of the file; each way in which it begins with a row has a line, and no other one has. The rows are those of
# the second reading, the faults those of `decode`.
is_far() {
    gives 1 identify "$1"
    [ "$(cat "$work/error")" = "fault 29" ] || fails "identify ${1##*/} wrote $(cat "$work/error")"
    cp "$work/output" "$work/far"
    python3 "$data/how_far.py" "$1" > "$work/reading" || fails "the second reading of ${1##*/}"
    : > "$work/wanted"
    while read -r code order width rows; do
        rm -f "$work/rows"
        gives 1 decode --code "$code" --order "$order" --width "$width" "$1" "$work/rows"
        echo "$code $order $width $(cat "$work/error") $rows" >> "$work/wanted"
    done < "$work/reading"
    sed 's/^T.6/mmr/; s/^T.4/mh/; s/, most significant bit first/ msb/; s/, least significant bit first/ lsb/; s/, width / /; s/: / /
        s/ after \([0-9]*\) rows$/ \1/' "$work/far" > "$work/output"
    is_same "$work/output" "$work/wanted" "how far ${1##*/} is read"
}

# Pages of netpbm, libtiff and ghostscript: in either code and order; with a seventh EOL, and without EOFB.
try_identified_pages() {
    msb="most significant bit first" lsb="least significant bit first"
    identifies "T.4, $msb, width 1728, 28 rows, 1 octets after it\n" "$data/wide.mh.msb"
    identifies "T.4, $lsb, width 1728, 28 rows, 1 octets after it\n" "$data/wide.mh.lsb"
    identifies "T.6, $msb, width 1728, 28 rows\n" "$data/wide.mmr.msb"
    identifies "T.6, $lsb, width 1728, 28 rows\n" "$data/wide.mmr.lsb"
    identifies "T.4, $msb, width 1728, 40 rows\n" "$data/wide.faxg3"
    identifies "T.6, $msb, width 1728, 40 rows, without EOFB\n" "$data/wide.faxg4"
    (cat "$data/wide.mmr.msb" && printf abc) > "$work/longer"
    identifies "T.6, $msb, width 1728, 28 rows, 3 octets after it\n" "$work/longer"
    (cat "$data/wide.faxg4" && printf '\0\0\0') > "$work/longer"
    identifies "T.6, $msb, width 1728, 40 rows, without EOFB\n" "$work/longer"
    is_open "$(in_widths "T.6, $msb, width %s, 10 rows")" "$(bits "1111111111 000000000001 000000000001")"
    identifies "T.4, $msb, width 315, 30 rows\n" "$data/page.mh.msb"
    head -c 200 "$data/wide.mmr.lsb" > "$work/shorter"
    is_far "$work/shorter"
}

# Pages of T.4 of widths that no list has: they say their own. A row of 2,000 + 480 pixels is no page's. As mgetty writes a row that ends in
# black, with a white run of 0 before its EOL, only `decode --repair` reads it. In two dimensions a 1 after the EOL says that the next row is
# in one. Without EOLs each row begins with an octet.
try_own_widths() {
    eol="000000000001" line="010011011 00110101" broad="000000010010 101010 000000110101 000001101010"
    for width in 1 7 9 1000 1734 2431; do
        python3 -c "import sys; w = $width; sys.stdout.buffer.write(b'P4 %d 3 ' % w + b'\x55' * (3 * ((w + 7) // 8)))" > "$work/own.pbm"
        works code --code mh "$work/own.pbm" "$work/own.mh"
        identifies "T.4, $msb, width $width, 3 rows\n" "$work/own.mh"
        works code --code mh --order lsb "$work/own.pbm" "$work/own.mh"
        identifies "T.4, $lsb, width $width, 3 rows\n" "$work/own.mh"
    done
    is_none "T.4, $msb, width 2480: wider than 2432\n" "$(bits "$eol $broad $eol $broad $eol")"
    identifies "T.4, $msb, width 1728, 2 rows, by decode --repair\n" "$(bits "$eol 011000 00110010 10 00110101 $eol $line $eol $eol")"
    is_none "T.4 in two dimensions (MR), $msb, width 1728: not read\n" "$(bits "$eol 1 $line $eol 0 1 $eol 1 $line")"
    is_none "T.4 without EOLs (TIFF compression 2), $msb, width 1728, 2 rows: not read; try tiffcp -c g4 on its TIFF\n" \
        "$(bits "$line 0000000 $line")"
}

# A bit turned in the first row of a page of netpbm hides its width, which is 1728; its other 27 rows are as they were. `identify` names the
# width, and `decode --each --repair` gives all rows: a white one, and then the other ones.
try_damaged_first_row() {
    works decode --code mh --width 1728 "$data/wide.mh.msb" "$work/right.pbm"
    for bit in 13 17 24 29 33 40; do
        try_turned_bit msb "most" $bit
        try_turned_bit lsb "least" $bit
    done
}

# try_turned_bit ORDER WORD BIT: this bit of the page in this order of bits is turned.
try_turned_bit() {
    rm -rf "$work/turned_bit" "$work/mended_bit"
    mkdir "$work/turned_bit" "$work/mended_bit"
    python3 -B - "$data/wide.mh.$1" "$work/turned_bit/page" "$1" "$3" <<'TURNED'
import sys
octets, order, bit = bytearray(open(sys.argv[1], "rb").read()), sys.argv[3], int(sys.argv[4])
octets[bit // 8] ^= 1 << (7 - bit % 8 if order == "msb" else bit % 8)
open(sys.argv[2], "wb").write(octets)
TURNED
    gives 1 decode --code mh --order "$1" --width 1728 "$work/turned_bit/page" "$work/none.pbm"
    is_none "T.4, $2 significant bit first, width 1728: $(cat "$work/error") after 0 rows\n" "$work/turned_bit/page"
    (cd "$work/turned_bit" && gives 0 decode --each "$work/mended_bit" --repair page) || exit 1
    head -n 1 "$work/output" > "$work/said"
    printf 'page: repaired 1 rows of page 1\n' > "$work/wanted"
    is_same "$work/said" "$work/wanted" "decode --each of a damaged first row"
    cp "$work/mended_bit/page-0001.pbm" "$work/image"
    tail -c $((27 * 216)) "$work/image" > "$work/rows"
    tail -c $((27 * 216)) "$work/right.pbm" > "$work/wanted"
    is_same "$work/rows" "$work/wanted" "the rows after a damaged first one"
    [ "$(wc -c < "$work/image")" = "$(wc -c < "$work/right.pbm")" ] || fails "a page with a damaged first row has other rows"
}

# T.4 of more than 1 MiB without an EOL before its first row says no width, and is read to its end all the same. Each row has 432 runs of 4.
try_much_without_eol() {
    python3 -B - "$work/much.mh" <<'MUCH'
import sys
eol = "000000000001"
bits = eol.join([("1011" + "011") * 216] * 6000) + eol * 6
bits += "0" * (-len(bits) % 8)
open(sys.argv[1], "wb").write(int(bits, 2).to_bytes(len(bits) // 8, "big"))
MUCH
    identifies "T.4, $msb, width 1728, 6000 rows\n" "$work/much.mh"
    rm "$work/much.mh"
}

# Formats by their first octets, a page that begins as one, and files that are none.
try_identify() {
    while read -r hex name; do
        identifies "$name, by its first octets\n" "$(octets "$hex")"
    done <<FORMATS
49_49_2A_00 TIFF
4D_4D_00_2A TIFF
49_49_2B_00_08_00 BigTIFF
25_50_44_46_2D_31_2E_37_0A PDF
89_50_4E_47_0D_0A_1A_0A_00 PNG
50_34_0A PBM
50_31_0A plain PBM
00_00_01_00_00_00_06_C0 JBIG
7E_7E_7E bits of a line (HDLC flags)
3F_3F_3F bits of a line (HDLC flags)
9F_9F_9F bits of a line (HDLC flags)
CF_CF_CF bits of a line (HDLC flags)
E7_E7_E7 bits of a line (HDLC flags)
F3_F3_F3 bits of a line (HDLC flags)
F9_F9_F9 bits of a line (HDLC flags)
FC_FC_FC bits of a line (HDLC flags)
FORMATS
    identifies "PBM, by its first octets\n" "$data/page.pbm"
    # rows that end in 2, 3 and 3 black pixels by VL2 V0, VL1 H(3, 0) and V0 V0, then EOFB: the first two octets are P1
    code=$(octets "50 31 D6 01 10 00 01")
    identifies "plain PBM, by its first octets\n$(in_widths "T.6, least significant bit first, width %s, 3 rows")" "$code"
    try_identified_pages
    try_own_widths
    try_damaged_first_row
    try_much_without_eol
    : > "$work/empty"
    explains "fault 7" "$work/empty: there is no image: it has no octet" identify "$work/empty"
    printf '\0\0\0\0' > "$work/zeros"
    explains "fault 29" "$work/zeros: it reads as no page in any way that is tried, and begins as no known format" identify "$work/zeros"
    head -c 4 "$data/page.txt" > "$work/dots"
    is_far "$work/dots"
    explains "fault 8" "$work/no_such_file: no such file or folder" identify "$work/no_such_file"
    refuses identify
    refuses identify --code mh "$data/page.mh.msb"
}
