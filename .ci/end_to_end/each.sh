# Many files in one run: `decode --each`, `identify` of several files, and what is said of files of other programs.

# tells_each STATUS LINES WORDS: the command prints these lines and nothing else.
tells_each() {
    printf '%b' "$2" > "$work/wanted"
    end=$1
    shift 2
    gives "$end" "$@"
    is_same "$work/output" "$work/wanted" "what $* says"
    [ ! -s "$work/error" ] || fails "$* wrote to standard error"
}

# Each file is decoded as it is identified, or as the words say; a file that fails stops no other one.
try_each() {
    cd "$work"
    rm -rf each
    mkdir -p each/out each/other
    cp "$data/page.mh.msb" each/mh
    cat "$data/wide.mmr.lsb" "$data/wide.mmr.lsb" > each/two
    cp "$data/wide.faxg4" each/open
    head -c 200 "$data/page.mh.msb" > each/cut
    cp "$data/page.pbm" each/image
    printf 'II*\0' > each/tiff
    unsought="a page after it is not looked for"
    printf '\0\0' > each/zeros
    head -c 200 "$data/wide.mmr.lsb" > each/short
    tells_each 1 "each/mh: whole 1 pages\neach/two: whole 2 pages\neach/open: cut at row 41 of page 1: fault 17 at bit $(g4_end); $unsought\n\
each/image: no fax: PBM\neach/tiff: no fax: TIFF\neach/zeros: not read: identify may tell what it is\neach/none: fault 8\n" \
        decode --each each/out each/mh each/two each/open each/image each/tiff each/zeros each/none
    [ "$(ls each/out/each | tr '\n' ' ')" = "mh-0001.pbm two-0001.pbm two-0002.pbm " ] || fails "decode --each wrote $(ls -R each/out)"
    is_same each/out/each/mh-0001.pbm "$data/page.pbm" "decode --each of T.4"
    works decode --code mmr --order lsb --width 1728 each/two each/one.pbm
    is_same each/out/each/two-0001.pbm each/one.pbm "the first page of decode --each"
    is_same each/out/each/two-0002.pbm each/one.pbm "the second page of decode --each"
    rm -r each/out/*
    open="each/open: 1 pages, and one or more has no end\n    page 1: the page ends without its EOFB after 40 rows, at bit $(g4_end)\n"
    tells_each 0 "${open}each/mh: whole 1 pages\n" decode --each each/out --repair each/open each/mh
    rm -r each/out/*
    tells_each 1 "$open" decode --each each/out --repair --whole each/open
    tells_each 1 "{\"file\":\"each/image\",\"is\":\"no fax: PBM\",\"left_out\":[],\"not_read\":\"PBM\",\"pages\":[],\"whole\":false}\n\
{\"file\":\"each/mh\",\"is\":\"whole 1 pages\",\"left_out\":[],\"not_read\":null,\"pages\":[$(page_record 7689 mh null false msb each/mh 0 30 false 315)],\"whole\":true}\n" \
        decode --each each/out --json each/image each/mh
    rm -r each/out/*
    gives 1 decode --each each/out --salvage --code mh --width 315 each/cut each/mh
    grep -q "^each/cut: cut at row [0-9]* of page 1: fault 1[0-9] at bit [0-9]*; $unsought$" "$work/output" || fails "decode --each of a cut page said otherwise"
    works decode --code mh --width 315 each/mh each/one.pbm
    is_same each/out/each/mh-0001.pbm each/one.pbm "decode --each after a cut page"
    gives 1 decode --salvage --code mh --width 315 each/cut each/one.pbm
    is_same each/out/each/cut-0001.pbm each/one.pbm "the salvaged rows of decode --each"
    faults "fault 8" decode --each each/none each/mh
    for words in "--each each/out --code mh each/mh" "--each each/out --null --from - - each/mh" "--each each/out --from - each/mh -" "--each each/out --page 1 each/mh" \
        "--each each/out --verbose each/mh" "--each each/out" "--code mh --width 8 each/mh a b" "--code mh --width 8 --salvage --repair each/mh a" \
        "--code mh --width 8 --from each/mh a b" "--code mh --width 8 --resume each/mh a" "--code mh --width 8"; do
        refuses decode $words
    done
    try_each_whole
    try_each_mended
    try_each_words
    try_each_names
    try_each_early
    try_ascii_names
    try_each_new
    try_one_found
    try_likely
    cd "$top"
    FAXTOOL=$program timeout 600 python3 -B "$top/bench/fuzz/fuzz_each.py" --times 100 > "$work/output" || fails "fuzz_each.py: $(cat "$work/output")"
    count=$((count + 100))
}

# Whole is what has all its rows and its end: of each page `decode --each` says what `decode` says of it alone.
try_each_whole() {
    no_rtc="the page ends without its RTC after 23 rows"
    head -c 395 "$data/page.mh.msb" > each/early
    cat "$data/page.mh.msb" each/early > each/second
    rm -rf each/out/*
    gives 0 decode --code mh --width 315 each/early each/one.pbm
    [ "$(cat "$work/error")" = "$no_rtc" ] || fails "decode of a page without its RTC says otherwise"
    tells_each 0 "each/early: 1 pages, and one or more has no end\n    page 1: $no_rtc\neach/mh: whole 1 pages\n" \
        decode --each each/out --code mh --width 315 each/early each/mh
    is_same each/out/each/early-0001.pbm each/one.pbm "the rows of a page without its RTC by decode --each"
    rm -r each/out/*
    tells_each 1 "each/second: 2 pages, and one or more has no end\n    page 2: $no_rtc\n" \
        decode --each each/out --whole --code mh --width 315 each/second
    rm -r each/out/*
    is="1 pages, and one or more has no end"
    tells_each 0 "{\"file\":\"each/early\",\"is\":\"$is\",\"left_out\":[],\"not_read\":null,\"pages\":[$(page_record 3160 mh null true msb each/early 0 23 false 315)],\"says\":\"page 1: $no_rtc\\\\n\",\"whole\":false}\n" \
        decode --each each/out --json each/early
    # read line by line, the page is as much without its RTC
    gives 0 decode --repair --code mh --width 315 each/early each/one.pbm
    [ "$(cat "$work/error")" = "$no_rtc" ] || fails "decode --repair of a page without its RTC doesn't say so"
    gives 1 decode --repair --whole --code mh --width 315 each/early each/one.pbm
    works decode --repair --whole --code mh --width 315 each/mh each/one.pbm
    # a row that can't be read, in a page with its RTC and in one without
    { head -c 100 each/mh; printf '\377\377'; tail -c +103 each/mh; } > each/broken
    head -c 395 each/broken > each/both
    for file in broken both; do
        rm -rf each/out/*
        # the page that has its RTC is known to be the last
        after=
        [ "$file" = broken ] || after="; $unsought"
        gives 0 decode --repair --code mh --width 315 "each/$file" each/one.pbm
        cp "$work/error" each/said
        rows=$(sed -n 's/^repaired rows: //p' each/said)
        { echo "each/$file: repaired $rows rows of page 1$after"; sed 's/^/    page 1: /' each/said; } > each/wanted
        gives 0 decode --each each/out --repair --code mh --width 315 "each/$file"
        is_same "$work/output" each/wanted "what decode --each --repair says of each/$file"
        is_same "each/out/each/$file-0001.pbm" each/one.pbm "the repaired rows of each/$file"
        rm -r each/out/*
        gives 0 decode --each each/out --json --repair --code mh --width 315 "each/$file"
        grep -q '"whole":false}$' "$work/output" || fails "a repaired page is whole"
    done
    grep -q "^$no_rtc" each/said || fails "decode --repair doesn't say that RTC is missing"
    rm -rf each/out/*
}

# mended SAYS FILE WAY WORDS: --each with these words says this of a file of two pages of this way; the second is the page of each/second.pbm,
# also by --page.
mended() {
    says=$1
    file=$2
    way=$3
    words=$4
    rm -rf each/out/*
    gives "$5" decode --each each/out $words $way "each/$file"
    cp "$work/output" each/said
    [ "$(head -n 1 each/said)" = "each/$file: $says" ] || fails "decode --each $words of $file: $(cat each/said)"
    is_same "each/out/each/$file-0002.pbm" each/second.pbm "the page after a damaged one by --each $words of $file"
    works decode $words $way --page 2 "each/$file" each/one.pbm
    is_same each/one.pbm each/second.pbm "the page after a damaged one by --page, $words of $file"
}

# unsought WORDS: the page after the damaged one of each/later isn't looked for, nor by --page.
unsought() {
    rm -rf each/out/*
    gives "$1" decode --each each/out $2 $3 each/later
    grep -q "^each/later: .*; $unsought$" "$work/output" || fails "decode --each $2 looked for a page: $(cat "$work/output")"
    [ ! -e each/out/each/later-0002.pbm ] || fails "decode --each $2 wrote a page that it didn't look for"
    rm -f each/one.pbm
    gives 1 decode $2 $3 --page 2 each/later each/one.pbm
    [ "$(head -n 1 "$work/error")" = "page 1 begins at octet 0 and can't be read to its end" ] && [ ! -e each/one.pbm ] ||
        fails "decode --page $2: $(cat "$work/error")"
}

# After a damaged page the next one is looked for, if damaged ones are asked for, by the mark of its end: RTC or EOFB. A mark that is itself
# damaged isn't passed over.
try_each_mended() {
    for order in msb lsb; do
        way="--code mh --width 315 --order $order"
        cp "$data/page.mh.$order" each/end
        { head -c 100 each/end; printf '\377\377'; tail -c +103 each/end; } > each/bad
        cp "$data/page.pbm" each/second.pbm
        cat each/bad each/end > each/later
        mended "2 pages, and one or more is damaged" later "$way" --repair 0
        grep -q '^    page 1: repaired rows: ' each/said || fails "--each doesn't say which page is repaired: $(cat each/said)"
        gives 0 decode --repair $way each/bad each/one.pbm
        is_same each/out/each/later-0001.pbm each/one.pbm "the repaired page before another one"
        mended "2 pages, and one or more is damaged" later "$way" --salvage 1
        grep -q '^    page 1: cut at row [0-9]*: fault 1[0-9] at bit [0-9]*$' each/said || fails "--each doesn't say which page is cut: $(cat each/said)"
        gives 1 decode --salvage $way each/bad each/one.pbm
        is_same each/out/each/later-0001.pbm each/one.pbm "the salvaged rows before another page"
        unsought 1 "" "$way"
        # RTC has five EOLs and a half, or none: the RTC after it is the second page's
        size=$(wc -c < each/bad)
        { head -c $((size - 3)) each/bad; printf '\377\377\377'; cat each/end; } > each/later
        unsought 0 --repair "$way"
        unsought 1 --salvage "$way"
        # nothing follows, which is said by saying nothing of it
        rm -rf each/out/*
        gives 1 decode --each each/out --salvage $way each/bad
        grep -q "^each/bad: cut at row [0-9]* of page 1: fault 1[0-9] at bit [0-9]*$" "$work/output" || fails "decode --each of a last page: $(cat "$work/output")"
    done
    way="--code mmr --order lsb --width 1728"
    { head -c 200 "$data/wide.mmr.lsb"; printf '\377'; tail -c +202 "$data/wide.mmr.lsb"; } > each/bad
    works decode $way "$data/wide.mmr.lsb" each/second.pbm
    cat each/bad "$data/wide.mmr.lsb" > each/later
    for words in --salvage --repair "--repair --salvage"; do
        if [ "$words" = "--repair --salvage" ]; then
            rm -rf each/out/*
            gives 1 decode --each each/out $words $way each/later
            is_same each/out/each/later-0002.pbm each/second.pbm "the page after a damaged one by --each $words"
        else
            mended "2 pages, and one or more is damaged" later "$way" "$words" 1
        fi
    done
    unsought 1 "" "$way"
    size=$(wc -c < each/bad)
    { head -c $((size - 1)) each/bad; printf '\377'; cat "$data/wide.mmr.lsb"; } > each/later
    unsought 1 --salvage "$way"
    rm -rf each/out/*
    # text is no fax, though its first octets are some rows of T.6
    cp "$top/README.md" each/text
    tells_each 1 "each/text: not read: identify may tell what it is\n" decode --each each/out --repair --salvage each/text
}

# turned BIT: the octets of standard input, with this bit turned.
turned() {
    python3 -B -c 'import sys
octets, bit = bytearray(sys.stdin.buffer.read()), int(sys.argv[1])
octets[bit // 8] ^= 0x80 >> bit % 8
sys.stdout.buffer.write(octets)' "$1"
}

# try_each_early: damage in the first row of T.4 hides its width, and so does damage in the second if the width is no usual one. So all rows
# are given only if it is said, as docs/ARCHIVE.md has it. In a usual width the first row is enough, whatever bit of the second is turned.
try_each_early() {
    python3 -B -c 'import sys
rows = [bytes(216), b"\xf0" + bytes(215), b"\x0f\xf0" + bytes(214), b"\xff" * 216]
for name, some in (("sent", rows), ("copied", [rows[0], *rows[:1], *rows[2:]])):
    with open(f"each/{name}.pbm", "wb") as file:
        file.write(b"P4\n1728 4\n" + b"".join(some))'
    works code --code mh each/sent.pbm each/sent.mh
    for bit in $(seq 41 61); do
        turned "$bit" < each/sent.mh > each/turned
        gives 0 decode --repair --salvage --each each/out each/turned
        [ "$(head -n 1 "$work/output")" = "each/turned: repaired 1 rows of page 1" ] || fails "bit $bit of the second row: $(cat "$work/output")"
        is_same each/out/each/turned-0001.pbm each/copied.pbm "the rows of a page with bit $bit turned"
        rm -rf each/out/*
    done
    for bit in 15 17 42 44; do
        turned "$bit" < "$data/page.mh.msb" > each/hidden
        tells_each 1 "each/hidden: not read: identify may tell what it is\n" decode --repair --salvage --each each/out each/hidden
        gives 0 decode --repair --code mh --width 315 --each each/out each/hidden
        [ "$(head -n 1 "$work/output")" = "each/hidden: repaired 1 rows of page 1" ] && [ "$(wc -c < each/out/each/hidden-0001.pbm)" = "$(wc -c < "$data/page.pbm")" ] ||
            fails "decode --each --code mh of a page with bit $bit turned: $(cat "$work/output")"
        rm -rf each/out/*
    done
}

# as_alone WORDS: a command of one file says a fault with these words and --explain; the line under the last file of a list is the same.
as_alone() {
    gives 1 "$@" --explain
    tail -n 1 "$work/error" | sed 's/^/    /' > each/wanted
}

# A file's fault is told in a list as it is told of the file alone.
try_each_words() {
    mkdir -p each/folder
    for name in each/none each/folder each/mh/none; do
        as_alone identify "$name"
        gives 1 identify --explain each/mh "$name"
        tail -n 1 "$work/output" > each/found
        is_same each/found each/wanted "the words of $name in a list"
        gives 1 identify each/mh "$name"
        [ "$(wc -l < "$work/output")" = 2 ] || fails "identify of a list explains unasked"
        rm -rf each/out/*
        gives 1 decode --explain --each each/out "$name" each/mh
        sed -n 2p "$work/output" > each/found
        is_same each/found each/wanted "the words of $name by decode --each"
        words=$(sed 's/^ *//' each/wanted)
        rm -rf each/out/*
        gives 1 decode --json --each each/out "$name"
        [ "$(cat "$work/output")" = "{\"fault\":8,\"file\":\"$name\",\"is\":\"fault 8\",\"left_out\":[],\"not_read\":null,\"pages\":[],\"whole\":false,\"words\":\"$words\"}" ] ||
            fails "the record of $name has no fault or no words: $(cat "$work/output")"
        gives 1 identify --json each/mh "$name"
        [ "$(tail -n 1 "$work/output")" = \
            "{\"bits\":null,\"code\":null,\"fault\":8,\"file\":\"$name\",\"is\":\"fault 8\",\"known\":false,\"not_read\":null,\"order\":null,\"rows\":null,\"width\":null,\"words\":\"$words\"}" ] ||
            fails "the record of $name has no fault or no words: $(cat "$work/output")"
    done
    for file in open cut; do
        coding="--code mh --width 315"
        [ "$file" = cut ] || coding="--code mmr --width 1728"
        as_alone decode $coding "each/$file" each/one.pbm
        gives 1 decode --explain $coding --each each/out each/none "each/$file"
        tail -n 1 "$work/output" > each/found
        is_same each/found each/wanted "the words of each/$file by decode --each"
    done
    # nothing of the file before is in the words of the next one
    gives 1 decode --explain --code mmr --width 1728 --each each/out each/open each/none
    [ "$(tail -n 1 "$work/output")" = "    each/none: no such file or folder" ] || fails "a file's words have those of the one before"
    rm -rf each/out/*
}

# `decode` of one page without --code does what --each does: the same image, the same lines, the same status.
try_one_found() {
    rm -rf each/out/* each/new.pbm
    works decode each/mh each/one.pbm
    is_same each/one.pbm "$data/page.pbm" "decode without --code of T.4"
    works decode --code mmr --order lsb --width 1728 --fine each/two each/one.pbm
    for words in "" "--page 2" "--fine"; do
        works decode $words each/two each/new.pbm
        is_same each/new.pbm each/one.pbm "decode $words without --code of T.6"
    done
    rm each/new.pbm
    for file in image tiff zeros short; do
        rm -rf each/out/*
        for json in "" --json; do
            gives 1 decode $json --each each/out "each/$file"
            cp "$work/output" each/wanted
            gives 1 decode $json "each/$file" each/new.pbm
            is_same "$work/error" each/wanted "what decode $json says of each/$file"
            [ ! -s "$work/output" ] && [ ! -e each/new.pbm ] || fails "decode $json of each/$file wrote something"
        done
    done
    # a page that is decoded, but not to its end: the same as with the code that identify says
    for words in "open --code mmr --width 1728" "cut --code mh --width 315"; do
        file=each/${words%% *}
        for option in "" --salvage --repair --explain "--salvage --explain" --whole "--verbose --repair" "--json --explain"; do
            rm -f each/one.pbm each/new.pbm
            status=0
            "$program" decode $option ${words#* } "$file" each/one.pbm 2> each/wanted || status=$?
            gives "$status" decode $option "$file" each/new.pbm
            is_same "$work/error" each/wanted "what decode $option says of $file"
            [ ! -e each/one.pbm ] || is_same each/new.pbm each/one.pbm "the rows of decode $option of $file"
        done
    done
    refuses decode --code mh each/mh each/new.pbm
    rm -rf each/out/*
}

# likely_page WIDTH FILE: T.6 of 300 rows without EOFB, with letters at the left alone, so that it reads in each width above 700.
likely_page() {
    python3 -B - "$1" > each/likely.pbm << 'END'
import sys
width, rows = int(sys.argv[1]), 300
out = bytearray()
for row in range(rows):
    line = bytearray((width + 7) // 8)
    if row % 12 > 5:
        for pixel in range(60, 700):
            if (pixel * 7 + row // 12 * 5) % 11 < 4:
                line[pixel // 8] |= 0x80 >> pixel % 8
    out += line
sys.stdout.buffer.write(b"P4\n%d %d\n" % (width, rows) + out)
END
    works code --code mmr each/likely.pbm each/coded
    cp each/coded "$2"
}

# Without --code, --width is the width that is likely: of files that several widths read it decides, and others are decoded as they are
# identified. By --each it does what it does for one file.
try_likely() {
    several="the width is not known: identify names several; give one of them by --width"
    rm -rf each/out/* each/one.pbm each/new.pbm
    for width in 2048 1728 1715; do
        likely_page "$width" each/open
        tells_each 1 "each/open: $several\n" decode --each each/out each/open
        works decode --width "$width" each/open each/new.pbm
        is_same each/new.pbm each/likely.pbm "decode --width $width of a page that several widths read"
        tells_each 0 "each/mh: whole 1 pages\neach/open: whole 1 pages\n" decode --each each/out --width "$width" each/mh each/open
        is_same each/out/each/open-0001.pbm each/likely.pbm "decode --each --width $width"
        is_same each/out/each/mh-0001.pbm "$data/page.pbm" "decode --each --width $width of a file that says another width"
        rm -r each/out/*
    done
    # no way of that width reads it
    gives 1 decode --width 600 each/open each/none.pbm
    [ "$(cat "$work/error")" = "each/open: $several" ] && [ ! -e each/none.pbm ] || fails "decode --width 600 said: $(cat "$work/error")"
    # cut in the middle of a row, it reads equally far in several widths
    likely_page 2048 each/cut
    head -c 1500 each/coded > each/cut
    gives 1 decode --salvage --width 2048 each/cut each/new.pbm
    [ "$(sed -n 2p each/new.pbm | cut -d' ' -f1)" = 2048 ] || fails "decode --salvage --width 2048 took another width"
    # a width that isn't tried otherwise
    works code --code mmr "$data/page.pbm" each/coded
    works decode --width 315 each/coded each/new.pbm
    is_same each/new.pbm "$data/page.pbm" "decode --width 315 of T.6"
    # the list is standard input, and a name in it stands for standard input: only that file fails
    cp "$data/page.mh.msb" each/mh
    printf '%s\n' each/mh - ./each/mh each/none > each/list
    end=0
    "$program" decode --explain --each each/out --from - < each/list > "$work/output" || end=$?
    printf '%s\n' "each/mh: whole 1 pages" "-: fault 8" "    standard input: the list of names is read from it" \
        "./each/mh: page 1 is not written: fault 8" "    each/out/each/mh-0001.pbm: there is a file of this name already" \
        "each/none: fault 8" "    each/none: no such file or folder" > each/wanted
    [ "$end" = 1 ] || fails "decode --each --from - with a name - ended with status $end"
    is_same "$work/output" each/wanted "decode --each --from - with a name -"
    count=$((count + 1))
    rm -rf each/out/*
}

# A name is on one line, whatever octets it has, and one that isn't UTF-8 costs that file alone.
try_each_names() {
    for name in 'two\nlines' 'esc\033[2J' 'back\\slash' 'high\302\233c'; do
        file=$(printf "each/$name")
        shown=$(printf %s "$file" | python3 -c 'import sys
for octet in (name := sys.stdin.buffer.read()):
    print("\\\\" if octet == 92 else chr(octet) if 32 <= octet < 127 else f"\\x{octet:02x}", end="")')
        cp each/mh "$file"
        works identify "$file" each/mh
        [ "$(wc -l < "$work/output")" = 2 ] && [ "$(head -n 1 "$work/output" | cut -c "1-$((${#shown} + 6))")" = "$shown: T.4," ] ||
            fails "identify shows the name $shown otherwise: $(head -n 1 "$work/output")"
        works decode --each each/out "$file"
        [ "$(cat "$work/output")" = "$shown: whole 1 pages" ] || fails "decode --each shows the name $shown otherwise"
        rm -r each/out/*
        gives 1 identify --explain "$file.none" each/mh
        [ "$(sed -n 2p "$work/output")" = "    $shown.none: no such file or folder" ] || fails "the words show the name $shown otherwise"
        gives 1 decode --explain --code mh --width 315 "$file.none" each/one.pbm
        [ "$(tail -n 1 "$work/error")" = "$shown.none: no such file or folder" ] || fails "the words of one file show the name $shown otherwise"
        rm "$file"
    done
    none=$(printf 'each/no\377text\001')
    cp each/mh "$none"
    text='each/no\xfftext\x01'
    gives 1 identify "$none" each/mh
    cp "$work/output" each/listed
    works identify each/mh
    { printf "%s: its name isn't UTF-8\n" "$text"; sed 's|^|each/mh: |' "$work/output"; } > each/wanted
    is_same each/listed each/wanted "identify of a list with a name that isn't UTF-8"
    gives 1 decode --each each/out each/mh "$none" each/early
    [ "$(sed -n 2p "$work/output")" = "$text: its name isn't UTF-8" ] && [ "$(ls each/out/each | tr '\n' ' ')" = "early-0001.pbm mh-0001.pbm " ] ||
        fails "decode --each with a name that isn't UTF-8: $(cat "$work/output")"
    rm -r each/out/*
    for words in "identify" "decode --code mh --width 315" "show --code mh --width 315"; do
        gives 1 $words "$none"
        [ "$(cat "$work/error")" = "fault 8" ] && [ ! -s "$work/output" ] || fails "$words takes a name that isn't UTF-8"
    done
    gives 1 decode --each "$none" each/mh
    [ "$(cat "$work/error")" = "fault 8" ] && [ ! -s "$work/output" ] || fails "decode --each takes a folder that isn't UTF-8"
    rm "$none"
}

# ascii_names STATUS: docs/examples/ascii_names.py gives the names of each/asked so, in each/named, and says each/renamed.
ascii_names() {
    status=0
    python3 -B "$top/docs/examples/ascii_names.py" each/links < each/asked > each/named 2> each/renamed || status=$?
    [ "$status" = "$1" ] || fails "ascii_names.py ended with status $status: $(cat each/renamed)"
    count=$((count + 1))
}

# A file whose name isn't UTF-8 is decoded by the link that docs/examples/ascii_names.py makes for it. Other names stay, and so does what is
# there under a link's name.
try_ascii_names() {
    folder=each/in/$(printf 'na\357ve %%')
    file=$(printf '%s/..\\\n\377' "$folder")
    link="each/links/each/in/na%efve %25/..\\%0a%ff"
    rm -rf each/out/* && mkdir -p "$folder"
    cp each/mh "$file"
    cp each/mh "$(printf 'each/in/h\303\251')"
    printf '%s\0' each/mh "$file" > each/asked
    printf 'each/in/h\303\251\0' >> each/asked
    printf '%s\0' each/mh "$link" > each/wanted
    printf 'each/in/h\303\251\0' >> each/wanted
    printf '%s: %s\n' 'each/in/na\xefve %/..\\\x0a\xff' "$(printf %s "$link" | sed 's/\\/&&/g')" > each/said
    for _ in first again; do
        ascii_names 0
        is_same each/named each/wanted "the names that ascii_names.py gives"
        is_same each/renamed each/said "what ascii_names.py says"
    done
    gives 0 decode --each each/out --null --from each/named
    [ "$(wc -l < "$work/output")" = 3 ] || fails "decode --each of these names: $(cat "$work/output")"
    for image in each/mh "$link" "$(printf 'each/in/h\303\251')"; do
        is_same "each/out/$image-0001.pbm" "$data/page.pbm" "the page of $image"
    done
    # the old name is read from the new one
    python3 -B -c 'import sys, urllib.parse
sys.stdout.buffer.write(urllib.parse.unquote_to_bytes(sys.argv[1]))' "${link#each/links/}" > each/found
    printf %s "$file" > each/wanted
    is_same each/found each/wanted "the old name in that of a link"
    # by the root, and by a folder above, it lies below the links too
    printf '%s\0' "$work/$file" "../${work##*/}/./$file" > each/asked
    ascii_names 0
    printf '%s\0' "each/links/${work#/}/${link#each/links/}" "each/links/%2e%2e/${work##*/}/${link#each/links/}" > each/wanted
    is_same each/named each/wanted "the names of links by the root and a folder above"
    rm -rf each/out/*
    gives 0 decode --each each/out --null --from each/named
    # what is there stays, and costs that file alone; a name that is too long does too
    long=$(printf 'each/%0200d\377' 0 | sed 's/0/\o377/g')
    printf '%s\0' "$file" each/mh "$long" > each/asked
    printf 'each/mh\0' > each/wanted
    for other in file elsewhere; do
        rm "$link"
        if [ $other = file ]; then echo mine > "$link"; else ln -s mine "$link"; fi
        ascii_names 1
        is_same each/named each/wanted "the names without a link"
        [ "$(sed 's/.*: no link: //' each/renamed | tr '\n' ' ')" = "File exists File name too long " ] || fails "ascii_names.py says: $(cat each/renamed)"
        [ "$(cat "$link" 2> /dev/null || readlink "$link")" = mine ] || fails "ascii_names.py replaced what was there"
    done
    # a folder that can't be made, or isn't UTF-8, and standard output that can't be written
    for links in each/mh/links "$(printf 'each/\377')"; do
        status=0
        python3 -B "$top/docs/examples/ascii_names.py" "$links" < each/asked > each/named 2> each/renamed || status=$?
        [ "$status $(wc -l < each/renamed)" = "1 1" ] && [ ! -s each/named ] || fails "ascii_names.py into a wrong folder: $status $(cat each/renamed)"
    done
    status=0
    python3 -B "$top/docs/examples/ascii_names.py" each/links < each/asked > /dev/full 2> each/renamed || status=$?
    [ "$status $(tail -n 1 each/renamed)" = "1 ascii_names.py: each/links: No space left on device" ] || fails "ascii_names.py to a full disk: $(cat each/renamed)"
    for words in "" "each/links each/out" --help; do
        status=0
        python3 -B "$top/docs/examples/ascii_names.py" $words < each/asked > each/named 2> each/renamed || status=$?
        [ "$status $(cat each/renamed)" = "2 usage: ascii_names.py LINKS < NAMES" ] || fails "ascii_names.py $words ended with status $status"
    done
    count=$((count + 6))
    rm -rf each/links each/in each/out/*
}

# A page's image is a new file: what is there under its name stays, and costs that file alone.
try_each_new() {
    cp each/mh each/other/mh
    tells_each 1 "each/mh: whole 1 pages\n./each/mh: page 1 is not written: fault 8\n    each/out/each/mh-0001.pbm: there is a file of this name already\n\
each/other/mh: whole 1 pages\neach/early: 1 pages, and one or more has no end\n    page 1: the page ends without its RTC after 23 rows\n" \
        decode --explain --each each/out each/mh ./each/mh each/other/mh each/early
    for name in mh other/mh; do
        is_same "each/out/each/$name-0001.pbm" "$data/page.pbm" "the page of each/$name"
    done
    # an input under the name of a page, a link, and one that leads nowhere
    cat each/mh each/mh each/mh > each/x
    cp each/mh each/x-0002.pbm
    gives 1 decode --code mh --width 315 --each . each/x each/x-0002.pbm
    is_same each/x-0002.pbm each/mh "an input under the name of a page of decode --each"
    [ "$(head -n 1 "$work/output")" = "each/x: page 2 is not written: fault 8" ] || fails "decode --each of an input: $(cat "$work/output")"
    [ "$(tail -n 1 "$work/output")" = "each/x-0002.pbm: whole 1 pages" ] || fails "decode --each after it: $(cat "$work/output")"
    echo kept > each/victim
    for to in ../../victim ../../nowhere; do
        rm -rf each/out/each/*
        ln -s "$to" each/out/each/mh-0001.pbm
        for words in "" "--resume"; do
            tells_each 1 "each/mh: page 1 is not written: fault 8\n" decode $words --each each/out each/mh
        done
        [ "$(cat each/victim) $(readlink each/out/each/mh-0001.pbm)" = "kept $to" ] && [ ! -e each/nowhere ] ||
            fails "decode --each wrote through a link"
    done
    # two runs at once: each page is stored by one of them
    rm -rf each/out/*
    "$program" decode --code mh --width 315 --each each/out each/x > each/first 2>&1 &
    status=0
    "$program" decode --code mh --width 315 --each each/out each/x > each/last 2>&1 || status=$?
    [ "$status" -le 1 ] || fails "the second of two runs at once ended with status $status"
    status=0
    wait $! || status=$?
    [ "$status" -le 1 ] || fails "the first of two runs at once ended with status $status"
    for page in 1 2 3; do
        [ ! -e "each/out/each/x-000$page.pbm" ] || is_same "each/out/each/x-000$page.pbm" "$data/page.pbm" "page $page of two runs at once"
    done
    [ "$(cat each/first each/last | grep -c 'whole 3 pages')" -le 1 ] || fails "two runs at once both stored the same pages"
    [ -z "$(find each/out -name '*part*')" ] || fails "decode --each left $(ls -R each/out)"
    count=$((count + 2))
    try_each_places
    try_each_resumed
    try_each_listed
    try_each_most
    try_each_tally
    works decode "$top/docs/examples/a4.mmr" each/new.pbm
    python3 -B "$top/.ci/end_to_end/archive_runs.py" "$program" "$top/docs/examples/a4.mmr" each/new.pbm > "$work/output" ||
        fails "long runs of decode --each: $(cat "$work/output")"
    rm each/new.pbm
    rm -rf each/out each/x-* each/x && mkdir each/out
}

# Pages lie under the folder at the file's own place; the root, `.` and `..` are left out, and a line says so of the root and of `..`.
try_each_places() {
    rm -rf each/out && mkdir each/out
    left="    the names of its images have no leading / and no ..\n"
    for name in "$work/each/mh" ../"${work##*/}"/each/mh each/.././each/other//mh; do
        tells_each 0 "$name: whole 1 pages\n$left" decode --each each/out "$name"
        tells_each 1 "$name: page 1 is not written: fault 8\n" decode --each each/out "$name"
    done
    tells_each 0 "./each/./mh: whole 1 pages\n" decode --each each/out ./each/./mh
    rm each/out/each/mh-0001.pbm
    # in a record: each such part in its order; none if no image is written
    while read -r name parts; do
        rm -rf each/out/*
        gives 0 decode --json --each each/out "$name"
        grep -q "\"left_out\":\[$parts\]," "$work/output" || fails "the record of $name: $(cat "$work/output")"
        gives 1 decode --json --each each/out "$name"
        grep -q '"left_out":\[\],' "$work/output" || fails "the record of $name without an image: $(cat "$work/output")"
    done <<PARTS
$work/each/mh "/"
../${work##*/}/each/mh ".."
/../$work/each/.././each/mh "/","..",".."
./each/./mh
PARTS
    rm -rf each/out/*
    for name in "$work/each/mh" ../"${work##*/}"/each/mh each/.././each/other//mh; do
        gives 0 decode --each each/out "$name"
    done
    "$program" decode --each each/out - < each/mh > "$work/output" || fails "decode --each of standard input ended with status $?"
    (cd each/out && find . -type f | sort) > each/found
    printf '%s\n' "./${work#/}/each/mh-0001.pbm" "./${work##*/}/each/mh-0001.pbm" ./each/each/other/mh-0001.pbm ./stdin-0001.pbm | sort > each/wanted
    is_same each/found each/wanted "the places of pages"
    # a folder that can't be made costs that file alone
    rm -rf each/out && mkdir each/out && echo > each/out/each && cp each/mh mh
    tells_each 1 "each/mh: page 1 is not written: fault 8\nmh: whole 1 pages\n" decode --each each/out each/mh mh
    rm -rf each/out mh && mkdir each/out
}

# With --resume a page that is there counts as written, and is not written again; another file under its name stays. Of more pages than are
# asked for the first are written.
try_each_resumed() {
    form="--code mh --width 315"
    tells_each 1 "each/x: 2 pages, and more follow that weren't asked for\n" decode $form --most-pages 2 --each each/out each/x
    [ "$(ls each/out/each | tr '\n' ' ')" = "x-0001.pbm x-0002.pbm " ] || fails "decode --each --most-pages wrote $(ls each/out/each)"
    ls -i each/out/each > each/before
    tells_each 0 "each/x: whole 3 pages\n" decode $form --resume --each each/out each/x
    ls -i each/out/each | head -n 2 > each/after
    is_same each/after each/before "the pages that were there"
    is_same each/out/each/x-0003.pbm "$data/page.pbm" "the page that wasn't there"
    tells_each 0 "each/x: whole 3 pages\n" decode $form --resume --most-pages 3 --each each/out each/x
    # several runs at once: each finds its pages there, whichever run made them
    for _ in 1 2 3 4 5; do
        rm -rf each/out/*
        for run in 1 2 3 4 5 6; do
            "$program" decode $form --resume --each each/out each/x > "each/said_$run" 2>&1 &
        done
        wait
        for run in 1 2 3 4 5 6; do
            [ "$(cat "each/said_$run")" = "each/x: whole 3 pages" ] || fails "a run with --resume beside others said: $(cat "each/said_$run")"
        done
        count=$((count + 6))
    done
    for other in other longer shorter empty; do
        case $other in
            other) sed 's/$/x/' "$data/page.pbm" ;;
            longer) cat "$data/page.pbm" && printf '\0' ;;
            shorter) head -c -1 "$data/page.pbm" ;;
            empty) : ;;
        esac > each/kept
        cp each/kept each/out/each/x-0002.pbm
        tells_each 1 "each/x: page 2 is not written: fault 8\n" decode $form --resume --each each/out each/x
        is_same each/out/each/x-0002.pbm each/kept "the $other file under the name of a page"
    done
    # both may be asked for: a page is repaired, and salvaged only if that can't be
    for words in "--code mmr --order lsb --width 1728 each/short" "$form each/broken"; do
        rm -rf each/out/*
        status=0
        "$program" decode --repair --json --each each/out $words > each/repaired || status=$?
        rm -rf each/out/*
        gives "$status" decode --repair --salvage --json --each each/out $words
        is_same "$work/output" each/repaired "decode --each --repair --salvage of $words"
    done
    rm -rf each/out/*
}

# A file with more octets than are asked for isn't decoded.
try_each_most() {
    size=$(wc -c < each/mh)
    rm -rf each/out/*
    tells_each 0 "each/mh: whole 1 pages\n" decode --most-octets "$size" --each each/out each/mh
    rm -rf each/out/*
    most=$((size - 1))
    tells_each 1 "each/mh: fault 32\n    each/mh: it has more octets than are read of such a file, $most\n" \
        decode --explain --most-octets $most --each each/out each/mh
    [ -z "$(ls each/out)" ] || fails "decode --most-octets wrote $(ls -R each/out)"
    for words in "--most-octets 0 --each each/out" "--most-octets 134217729 --each each/out" "--code mh --width 315 --most-octets $size each/mh"; do
        refuses decode $words each/mh
    done
}

# On a terminal a line says how far the run is, after two seconds, and is cleared before each line on the same terminal and at the end.
try_each_tally() {
    rm -rf each/out/*
    printf '%s\n' '#!/bin/sh' "(echo each/mh; sleep 2.3; echo each/none; sleep 1; echo each/two) | '$program' decode --each each/out --from - \"\$@\"" > each/slowly
    chmod +x each/slowly
    script -qec "each/slowly" /dev/null < /dev/null > each/shown || true
    printf 'each/mh: whole 1 pages\r\neach/none: fault 8\r\n    each/none: no such file or folder\r\n\r2 files, 1 pages, 1 bad, 1 files a second' > each/wanted
    printf '\r\033[Keach/two: whole 2 pages\r\n\r3 files, 3 pages, 1 bad, 1 files a second\r\033[K' >> each/wanted
    is_same each/shown each/wanted "how far a run is, beside its lines"
    rm -rf each/out/*
    script -qec "each/slowly > each/said" /dev/null < /dev/null > each/shown || true
    printf '\r2 files, 1 pages, 1 bad, 1 files a second\r3 files, 3 pages, 1 bad, 1 files a second\r\033[K' > each/wanted
    is_same each/shown each/wanted "how far a run is"
    rm -rf each/out/*
    script -qec "each/slowly 2> each/said" /dev/null < /dev/null > each/shown || true
    [ ! -s each/said ] || fails "decode --each tells a file how far it is: $(cat each/said)"
    count=$((count + 3))
    rm -rf each/out/*
}

# The names of files come from a list too, one a line or each with an octet of 0; an empty one is none.
try_each_listed() {
    name=$(printf 'each/two\nlines')
    cp each/mh "$name"
    printf 'each/mh\n\neach/none\neach/early' > each/list
    printf 'each/mh\0%s\0\0each/none\0' "$name" > each/nulls
    early="each/early: 1 pages, and one or more has no end\n    page 1: the page ends without its RTC after 23 rows\n"
    tells_each 1 "each/mh: whole 1 pages\neach/none: fault 8\n$early" decode --each each/out --from each/list
    rm -rf each/out/*
    tells_each 1 "each/mh: whole 1 pages\neach/two\\\\x0alines: whole 1 pages\neach/none: fault 8\n" decode --each each/out --null --from each/nulls
    rm -rf each/out/*
    # after the names that are given
    "$program" decode --each each/out --from - each/early < each/list > each/said && fails "decode --each of a list with a missing file ended with status 0"
    printf "${early}each/mh: whole 1 pages\neach/none: fault 8\neach/early: page 1 is not written: fault 8\n" > each/wanted
    is_same each/said each/wanted "decode --each of names and a list"
    faults "fault 8" decode --each each/out --from each/nowhere
    rm -rf each/out/*
    # an endless list and an endless name end
    head -c 500000 /dev/zero | tr '\0' x > each/long
    faults "fault 8" decode --each each/out --from each/long
    yes each/none | head -n 20000 > each/many
    gives 1 decode --each each/out --from each/many
    [ "$(grep -c '^each/none: fault 8$' "$work/output")" = 20000 ] || fails "a long list isn't read to its end"
    rm "$name"
}

# page_record BITS CODE FAULT MISSING_END ORDER FILE REPAIRED ROWS SALVAGED WIDTH: the record of a page 1 with an image.
page_record() {
    printf '{"bit":null,"bits":%s,"code":"%s","fault":%s,"lines":"standard","missing_end":%s,"order":"%s",' "$1" "$2" "$3" "$4" "$5"
    printf '"out":"each/out/%s-0001.pbm","repaired":%s,"rows":%s,"salvaged":%s,"width":%s}' "$6" "$7" "$8" "$9" "${10}"
}

# g4_end: the bit after the last row of the page of ghostscript.
g4_end() {
    gives 1 decode --code mmr --width 1728 "$data/wide.faxg4" "$work/none.pbm"
    sed 's/.* bit //' "$work/error"
}

# One line a file, and a record.
try_several() {
    cd "$work"
    msb="most significant bit first"
    tells_each 1 "each/mh: T.4, $msb, width 315, 30 rows\neach/tiff: TIFF, by its first octets\neach/none: fault 8\neach/zeros: no page and no known format\n" \
        identify each/mh each/tiff each/none each/zeros
    tells_each 0 "each/mh: T.4, $msb, width 315, 30 rows\neach/tiff: TIFF, by its first octets\n" identify each/mh each/tiff
    tells_each 0 "{\"bits\":7689,\"code\":\"mh\",\"file\":\"each/mh\",\"is\":\"T.4, $msb, width 315, 30 rows\",\"known\":true,\"not_read\":null,\
\"order\":\"msb\",\"rows\":30,\"width\":315}\n" identify --json each/mh
    # what it names is what decode takes
    eval "set -- $(sed 's/.*"code":"\([a-z0-9]*\)".*"order":"\([a-z]*\)".*"width":\([0-9]*\).*/--code \1 --order \2 --width \3/' "$work/output")"
    works decode "$@" each/mh each/one.pbm
    is_same each/one.pbm "$data/page.pbm" "the page as identify --json names its way"
    # T.4 in two dimensions is named, also where it is asked for damaged pages: no row of it is taken for another code's
    eol="000000000001" line="010011011 00110101"
    cp "$(bits "$eol 1 $line $eol 0 1 $eol 1 $line")" each/mr
    is="T.4 in two dimensions (MR), $msb, width 1728: not read"
    tells_each 1 "each/mr: $is\neach/mh: T.4, $msb, width 315, 30 rows\n" identify each/mr each/mh
    tells_each 1 "{\"bits\":null,\"code\":null,\"file\":\"each/mr\",\"is\":\"$is\",\"known\":false,\"not_read\":\"MR\",\"order\":null,\
\"rows\":null,\"width\":null}\n" identify --json each/mr
    for words in "" --repair --salvage; do
        tells_each 1 "{\"file\":\"each/mr\",\"is\":\"not read: T.4 in two dimensions (MR)\",\"left_out\":[],\"not_read\":\"MR\",\"pages\":[],\"whole\":false}\n" \
            decode --json $words --each each/out each/mr
    done
    # T.4 without EOLs is named in the same words by all that name a file
    cp "$(bits "$line 0000000 $line")" each/rle
    is="T.4 without EOLs (TIFF compression 2), $msb, width 1728, 2 rows: not read; try tiffcp -c g4 on its TIFF"
    tells_each 1 "each/rle: $is\neach/mh: T.4, $msb, width 315, 30 rows\n" identify each/rle each/mh
    tells_each 1 "{\"bits\":null,\"code\":null,\"file\":\"each/rle\",\"is\":\"$is\",\"known\":false,\"not_read\":\"T.4 without EOLs\",\"order\":null,\
\"rows\":null,\"width\":null}\n" identify --json each/rle
    for words in "" --repair --salvage; do
        tells_each 1 "each/rle: $is\n" decode $words --each each/out each/rle
        tells_each 1 "{\"file\":\"each/rle\",\"is\":\"$is\",\"left_out\":[],\"not_read\":\"T.4 without EOLs\",\"pages\":[],\"whole\":false}\n" \
            decode --json $words --each each/out each/rle
        gives 1 decode $words each/rle each/one.pbm
        [ "$(cat "$work/error")" = "each/rle: $is" ] || fails "decode of T.4 without EOLs: $(cat "$work/error")"
    done
    # a damaged page of T.4 has its own line, not one of MR, which it reads as in its first row
    head -c 300 each/mh > each/half
    gives 1 identify each/half each/mh
    grep -q "^each/half: T.4, $msb, width 315: fault 1[0-9] at bit [0-9]* after 1[0-9] rows$" "$work/output" || fails "identify of a damaged page: $(cat "$work/output")"
    gives 1 decode --each each/out each/half
    grep -q "^each/half: cut at row 1[0-9] of page 1: fault 1[0-9] at bit [0-9]*; $unsought$" "$work/output" || fails "decode --each of a damaged page: $(cat "$work/output")"
    [ ! -e each/out/each ] || fails "decode --each wrote a damaged page unasked"
    gives 1 decode --each each/out --salvage each/half
    gives 1 decode --salvage --code mh --width 315 each/half each/one.pbm
    is_same each/out/each/half-0001.pbm each/one.pbm "the rows of a damaged page by decode --each --salvage"
    cd "$top"
}
