# What is said of pages that other programs make, the table of docs/USING.md. A program that isn't installed is left out, and that is said.

# made_by PROGRAM FILE WORDS: the words make the file, if the program is installed.
made_by() {
    if ! command -v "$1" > /dev/null; then
        echo "end to end: no $1, so its row of the table in docs/USING.md wasn't tried"
        return 1
    fi
    sh -c "$3" > "$2" 2> "$work/error" || fails "$1: $3"
}

# is_said CODE IDENTIFIED DECODED REPAIRED FILE: what the first line of identify has, and decode and decode --repair end with.
is_said() {
    status=0
    "$program" identify "$5" > "$work/output" 2> /dev/null || status=$?
    [ "$status" -le 1 ] || fails "identify of ${5##*/} ended with status $status"
    grep -qF "$2" "$work/output" || fails "identify of ${5##*/} says $(cat "$work/output")"
    status=0
    "$program" decode --code "$1" --width 1728 "$5" "$work/made.pbm" > /dev/null 2> "$work/error" || status=$?
    [ "$status $(sed -n 's/^fault \([0-9]*\).*/\1/p' "$work/error")" = "$3" ] || fails "decode of ${5##*/}: $status $(cat "$work/error")"
    status=0
    "$program" decode --repair --code "$1" --width 1728 "$5" "$work/made.pbm" > /dev/null 2> "$work/error" || status=$?
    [ $status = "$4" ] || fails "decode --repair of ${5##*/} ended with status $status"
    count=$((count + 3))
}

# Two rows in three end in white, one in black.
try_made() {
    msb="most significant bit first"
    python3 -B -c "import sys
rows = [bytes((column * 37 + row * 11) % 256 if 9 < column % 40 < 30 else 0 for column in range(215)) + bytes([row % 3 // 2]) for row in range(40)]
sys.stdout.buffer.write(b'P4 1728 40 ' + b''.join(rows))" > "$work/drawn.pbm"
    printf '%%!PS\n<</PageSize [610 30]>> setpagedevice 3 setlinewidth 20 9 moveto 300 20 lineto stroke 99 3 moveto 500 25 lineto stroke showpage\n' \
        > "$work/drawn.ps"
    gs="gs -q -dNOPAUSE -dBATCH -dSAFER -r204x196 -sOutputFile=-"
    made_by pbmtog3 "$work/pbmtog3" "pbmtog3 '$work/drawn.pbm'" && is_said mh "T.4, $msb, width 1728, 40 rows" "0 " 0 "$work/pbmtog3"
    made_by pbm2g3 "$work/pbm2g3" "pbm2g3 < '$work/drawn.pbm'" && is_said mh "40 rows, by decode --repair" "1 10" 0 "$work/pbm2g3"
    made_by g3cat "$work/g3cat" "g3cat '$work/pbm2g3'" && is_said mh "40 rows, by decode --repair" "1 10" 0 "$work/g3cat"
    made_by gs "$work/faxg3" "$gs -sDEVICE=faxg3 '$work/drawn.ps'" && is_said mh "T.4, $msb, width 1728" "0 " 0 "$work/faxg3"
    made_by gs "$work/faxg32d" "$gs -sDEVICE=faxg32d '$work/drawn.ps'" && is_said mh "(MR), $msb, width 1728: not read" "1 10" 1 "$work/faxg32d"
    made_by gs "$work/faxg4" "$gs -sDEVICE=faxg4 '$work/drawn.ps'" && is_said mmr "width 1728, 82 rows, without EOFB" "1 17" 0 "$work/faxg4"
    made_by convert-im6.q16 "$work/fax" "convert-im6.q16 '$work/drawn.pbm' fax:-" && is_said mh "T.4, $msb, width 1728, 40 rows" "0 " 0 "$work/fax"
    if made_by pamtotiff "$work/drawn.tif" "pamtotiff -g4 '$work/drawn.pbm'" && made_by tiffcp "$work/tiffcp" "tiffcp -c g3 '$work/drawn.tif' '$work/other.tif'"; then
        identifies "TIFF, by its first octets\n" "$work/other.tif"
    fi
}
