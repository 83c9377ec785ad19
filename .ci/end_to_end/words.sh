# Words of the command line, words of faults, completion.

# What fault lines mean, in words: which file, where in it, and what is wrong there.
try_explained() {
    cd "$work"
    mkdir -p folder
    : > nothing
    printf 'nothing that' > text
    printf 'busy\nnothing that\n' > script
    try_explained_images
    try_explained_codes
    explains "fault 8" "missing: no such file or folder" code --code mh missing made
    explains "fault 8" "folder: it is a folder" frames folder
    explains "fault 8" "text/page: a part of its path is no folder" show --code mh --width 8 text/page
    explains "fault 8" "missing/made: no such file or folder" code --code mh "$data/page.pbm" missing/made
    explains "fault 8" "folder: it is a folder" code --code mh "$data/page.pbm" folder
    explains "fault 8" "missing: no such file or folder" call --script missing "$data/page.pbm"
    try_explained_names
    try_explained_lines
    if [ -c /dev/full ]; then
        explains "fault 8" "/dev/full: no space left on the device" code --code mh "$data/page.pbm" /dev/full
        status=0
        "$program" frames --explain "$data/line.bits" > /dev/full 2> error || status=$?
        printf 'fault 8\nstandard output: no space left on the device\n' > wanted
        [ $status = 1 ] || fails "frames --explain on a full disk ended with status $status"
        is_same error wanted "the words of frames on a full disk"
    fi
    works code --explain --code mh "$data/page.pbm" made
    works decode --explain --code mh --width 315 made decoded
    cd "$top"
}

# Names are shown with each octet of a control character as \xHH and a backslash as two, and others as they are; and a word that isn't UTF-8.
try_explained_names() {
    for octets in '001 \x01' '012 \x0a' '015 \x0d' '033 \x1b' '037 \x1f' '177 \x7f' '302\200 \xc2\x80' '302\205 \xc2\x85' \
        '302\233 \xc2\x9b' '302\237 \xc2\x9f'; do
        control=${octets% *}
        shown=${octets#* }
        name=$(printf "two\\${control}lines")
        explains "fault 8" "two${shown}lines: no such file or folder" frames "$name"
        explains "fault 8" "two${shown}lines: no such file or folder" call --script "$name" "$data/page.pbm"
        for words in "code --code mh a b" "code --code mh a --order" "show"; do
            refuses $words "$name"
            [ "$(head -1 "$work/error")" = "error: the words are not a command, and one of them has a control character" ] \
                || fails "$words and a name with the control character $control: shown as it is"
        done
    done
    explains "fault 8" 'a\\x0ab: no such file or folder' frames 'a\x0ab'
    for name in 'a b' 'a~b' "$(printf 'a\302\240b')" "$(printf 'a\303\200b')" "$(printf 'a\342\202\254b')" "$(printf 'a\303\237')"; do
        explains "fault 8" "$name: no such file or folder" frames "$name"
    done
    name=$(printf 'a\377')
    advice="isn't UTF-8: for a file of that name write - and give the file by < NAME"
    explains "fault 8" "word 2 of the command $advice" frames "$name"
    explains "fault 8" "word 4 of the command $advice" code --code mh "$name" made
    explains "fault 8" "word 5 of the command $advice" code --code mh made "$name"
}

# Lines of scripts: what is wrong with the word, the count, a blank or the text.
try_explained_lines() {
    while read -r wrong text; do
        case $wrong in
        word) wrong="no command of a script begins with this word" ;;
        count) wrong="the count is missing or isn't 1 to 1000000" ;;
        blank) wrong="a blank is wrong: a line is a word, or a word, one space and a count" ;;
        text) wrong="it isn't UTF-8" ;;
        esac
        printf "busy\n# a comment \n\n$text\nready\n" > script
        explains "fault 30 at line 4" "script: line 4: $wrong" call --script script "$data/page.pbm"
        printf "$text" > script
        explains "fault 30 at line 1" "script: line 1: $wrong" call --script script "$data/page.pbm"
        printf "$text\n" > script
        status=0
        "$program" call --explain --script - "$data/page.pbm" < script > output 2> error || status=$?
        printf 'fault 30 at line 1\nstandard input: line 1: %s\n' "$wrong" > wanted
        [ "$status" = 1 ] || fails "call --script - of $text ended with status $status"
        is_same error wanted "the words of a script on standard input: $text"
    done << 'CASES'
word nothing that
word nothing
word Spoil
word politely 1
word busy2
count spoil 0
count spoil 1000001
count spoil 00000001
count spoil +1
count spoil -1
count spoil 1x
count spoil once
count polite
blank spoil\040
blank spoil 1\040
blank \040spoil
blank \040
blank spoil \0402
blank nothing at all
blank spoil\t1
blank to-caller\r
text #\377
text \303\050
text spoil 1\302
CASES
}

# The same of images.
try_explained_images() {
    while read -r fault hex words; do
        cp "$(octets "$hex")" image
        explains "fault $fault" "image: $words" code --code mmr image made
    done << CASES
5 50_31_0A_38 a plain PBM (P1): faxtool reads raw ones (P4)
5 50_32_0A_38 a plain PGM (P2): faxtool reads raw PBM (P4)
5 50_33_0A_38 a plain PPM (P3): faxtool reads raw PBM (P4)
5 50_35_0A_38 a raw PGM (P5): faxtool reads raw PBM (P4)
5 50_36_0A_38 a raw PPM (P6): faxtool reads raw PBM (P4)
5 50_37_0A_38 a PAM (P7): faxtool reads raw PBM (P4)
5 49_49_2A_00 perhaps a TIFF: faxtool reads raw PBM (P4)
5 4D_4D_00_2A perhaps a TIFF: faxtool reads raw PBM (P4)
5 FF_D8 no raw PBM: it doesn't begin with P4
5 50_34_0A_78 a header is wrong: after P4 come the width and the height, and after an image the next P4 or the end
5 50_34_0A_38_20_31_0A_30_0A a header is wrong: after P4 come the width and the height, and after an image the next P4 or the end
27 50_34_0A_38_20_31_0A_30_50_34_0A_38_20_31_0A_30 several images: code takes one
1 50_34_0A_32_34_33_33_20_31_0A_30 the width isn't 1 to 2432 pixels
3 50_34_0A_38_20_32_30_30_30_31_0A the image has more than 20000 rows
4 50_34_0A_38_20_30_0A the image has no row
6 50_34_0A_38_20_31_0A the image is cut short: it has fewer octets than its width and height say
CASES
    explains "fault 7" "nothing: there is no image: it has no octet" code --code mmr nothing made
    explains "fault 26" "image: page 1 is 8 pixels wide, and a call carries 1728, 2048 or 2432" \
        call --script nothing "$(cp "$(octets "50 34 0A 38 20 31 0A 30")" image; echo image)"
    (cat "$(octets "$white")" && cat "$data/page.pbm") > image
    for words in "call --script nothing" "call --lose 5% --seed 1" "call --lose 5% --seed 1 --times 2" "station --call"; do
        explains "fault 26" "image: page 2 is 315 pixels wide, and a call carries 1728, 2048 or 2432" $words image
    done
    gives 1 call --json --script nothing image
    grep -qF '"words":"image: page 2 is 315 pixels wide, and a call carries 1728, 2048 or 2432"' "$work/error" || fails "call --json doesn't name the page"
}

# The same of coded pages, of a width of 8: the row, and what was expected there.
try_explained_codes() {
    while read -r code fault bit row hex words; do
        cp "$(octets "$hex")" page
        for command in "show page" "decode page made" "decode --salvage page made"; do
            explains "fault $fault at bit $bit" "page: row $row: $words" ${command%% *} --code "$code" --width 8 ${command#* }
        done
    done << CASES
mh 10 12 1 00_10_08 no code word of a white run begins here (try --order lsb, or --code mmr)
mh 10 16 1 00_17_00_80 no code word of a black run begins here (try --order lsb, or --code mmr)
mh 10 34 2 00_17_EC_00_40_20_00 no code word of a white run begins here
mh 12 12 1 00_1A_00 this run goes past the row's width: is --width right? (try --order lsb, or --code mmr)
mh 10 22 2 00_17_EC_80 an EOL is expected here, and no EOL begins here
mh 10 22 2 00_17_EC_40 an EOL is expected here, and no EOL begins here
mh 10 22 2 00_17_EC_01_00_10_01 an EOL is expected here, and no EOL begins here
mh 10 44 3 00_17_EC_00_5F_B4 an EOL is expected here, and no EOL begins here
mh 12 34 2 00_17_EC_00_68_00 this run goes past the row's width: is --width right?
mh 4 12 1 00_10_00 the page ends before its first row (try --order lsb, or --code mmr)
mmr 16 0 1 02 an extension code, as of uncompressed mode, which faxtool doesn't read (try --order lsb, or --code mh)
mmr 16 13 3 2F_F8_10 an extension code, as of uncompressed mode, which faxtool doesn't read
mmr 17 1 2 80 the page's end (EOFB) is missing: the file is cut short
mmr 11 3 1 20 the file ends inside a code or before the next one: it is cut short
mmr 14 0 1 60 this mode or run goes past the row's width: is --width right? (try --order lsb, or --code mh)
mmr 13 15 2 26_AA_80 this vertical mode doesn't move to the right
mmr 15 11 1 26_A1_B8 a horizontal mode of two runs of 0 pixels (try --order lsb, or --code mh)
CASES
    try_explained_others
    try_explained_widths
    works code --code mh "$data/page.pbm" page
    python3 -c 'import sys; octets = bytearray(open("page", "rb").read()); octets[400] ^= 8; sys.stdout.buffer.write(octets)' > flipped
    explains_standard flipped
}

# A page of T.4 that is read in another width than that of each of its rows: that width is named, and nothing else. Of a page whose rows
# have several widths, or that has one row, none is.
try_explained_widths() {
    for order in msb lsb; do
        for width in 314 316 320 1728; do
            gives 1 decode --explain --code mh --order $order --width $width "$data/page.mh.$order" made
            grep -q "^[^(]*; each row ends after 315 pixels: try --width 315$" "$work/error" || fails "decode --width $width doesn't name the width"
        done
    done
    eol=000000000001
    # a run of 0 before an EOL, as mgetty writes it; and pages of T.6 one after another, without EOFB, that end with an octet or not
    cp "$(bits "$eol 1011 011 00110101 $eol 10011 $eol $eol $eol $eol $eol $eol")" empty_run
    explains "fault 10 at bit 19" \
        "empty_run: row 2: an EOL is expected here, and no EOL begins here; runs of 0 pixels come before the row's EOL: decode --repair reads it" \
        decode --code mh --width 8 empty_run made
    cp "$(bits "11111111111111111111 0000 11111111111111111111")" pages
    explains "fault 14 at bit 20" "pages: row 21: this mode or run goes past the row's width: is --width right?; without EOFB nothing marks a\
 page's end: another page may begin at octet 3" decode --code mmr --width 8 pages made
    cat "$data/wide.faxg4" "$data/wide.faxg4" > pages
    gives 1 decode --explain --code mmr --width 1728 pages made
    grep -q "; the file doesn't end with EOFB: nothing marks a page's end then, and another page may begin before this bit$" "$work/error" ||
        fails "decode of two pages without EOFB doesn't say that nothing marks a page's end"
    gives 1 decode --explain --code mh --width 9 "$(bits "$eol 10011 $eol 10011 $eol $eol $eol $eol $eol $eol")" made
    grep -q "; each row ends after 8 pixels: try --width 8$" "$work/error" || fails "decode of two rows doesn't name the width"
    for rows in "10011 $eol 1000 $eol" "10011 $eol"; do
        gives 1 decode --explain --code mh --width 9 "$(bits "$eol $rows $eol $eol $eol $eol $eol")" made
        ! grep -q "try --width" "$work/error" || fails "decode of the rows $rows names a width"
    done
}

# A page that was read by another order of bits, or as another code: what to try is named, and nothing else is where a later row or
# the file's end is refused.
try_explained_others() {
    for made in mh.msb mh.lsb mmr.msb mmr.lsb; do
        for read in mh.msb mh.lsb mmr.msb mmr.lsb; do
            [ "$made" != "$read" ] || continue
            gives 1 show --explain --code ${read%.*} --order ${read#*.} --width 315 "$data/page.$made"
            case $read in
            mh.msb) words="(try --order lsb, or --code mmr)" ;;
            mh.lsb) words="(try --order msb, or --code mmr)" ;;
            mmr.msb) words="(try --order lsb, or --code mh)" ;;
            mmr.lsb) words="(try --order msb, or --code mh)" ;;
            esac
            grep -q "^$data/page.$made: row 1: .* $words\$" error || fails "show of $made as $read names nothing to try"
        done
    done
}

# explains_standard FILE: a page on standard input is explained as that in the file.
explains_standard() {
    gives 1 show --explain --code mh --width 315 "$1"
    sed "s/^$1: /standard input: /" "$work/error" > wanted
    grep -q '^standard input: row [0-9]*: ' wanted || fails "show --explain tells no row"
    status=0
    "$program" show --explain --code mh --width 315 - < "$1" > output 2> error || status=$?
    [ $status = 1 ] || fails "show --explain - ended with status $status"
    is_same error wanted "the words of a page on standard input"
    count=$((count + 1))
}

# On a terminal the words come unasked, and how far reading is where it takes long.
try_terminal() {
    if ! command -v script > /dev/null; then
        echo "end to end: no program script, so nothing was tried on a terminal"
        return
    fi
    cd "$work"
    cp "$(octets "00 10 08")" page
    status=0
    script -qec "'$program' decode --code mh --width 8 page made" /dev/null < /dev/null > output || status=$?
    printf 'fault 10 at bit 12\r\npage: row 1: no code word of a white run begins here (try --order lsb, or --code mmr)\r\n' > wanted
    [ $status = 1 ] || fails "decode on a terminal ended with status $status"
    is_same output wanted "the words on a terminal"
    status=0
    script -qec "'$program' decode --code mh --width 8 page made 2> error" /dev/null < /dev/null > output || status=$?
    is_status 1 "decode on a terminal, with standard error in a file"
    [ "$(cat error)$(cat output)" = "fault 10 at bit 12" ] || fails "decode wrote words where standard error is no terminal"
    script -qec "(head -c 500 '$data/page.pbm'; sleep 3.5; tail -c +501 '$data/page.pbm') | '$program' code --code mh - made" \
        /dev/null < /dev/null > output
    is_same made "$data/page.mh.msb" "code of a slow file on a terminal"
    grep -q '^.read [0-9][0-9]* octets in [0-9][0-9]* s' output || fails "code doesn't tell how far a slow file is read"
    script -qec "'$program' code --code mh '$data/page.pbm' made" /dev/null < /dev/null > output
    [ ! -s output ] || fails "code tells how far a quick file is read"
    cd "$top"
    count=$((count + 4))
}

# The completion for bash names each command and each option of the help, and no others.
try_completion() {
    if ! command -v bash > /dev/null; then
        echo "end to end: no bash, so the completion wasn't tried"
        return
    fi
    completes "code show decode frames call identify judge station version help --help" ""
    completes "code call" c
    gives 2 --help
    commands=$(sed -n 's/^  \([a-z][a-z]*\)  .*/\1/p' "$work/error")
    [ "$(echo $commands)" = "code show decode frames call identify judge station version help" ] || fails "--help has other commands: $commands"
    for command in code show decode frames call identify judge station version; do
        gives 2 "$command" --help
        options=$(sed -n 's/^  *\(-h, \)\{0,1\}\(--[a-z0-9-]*\).*/\2/p' "$work/error" | sort)
        [ -n "$options" ] || fails "$command --help has no options"
        [ "$(completed "$command" -- | sort)" = "$options" ] || fails "$command is completed by other options than its help has"
    done
    completes "mh mmr t4 t6" code --code ""
    completes "mh mmr t4 t6" code --code =
    completes "mmr" decode --code = mm
    completes "msb lsb" show --order ""
    completes "256 64" call --frame ""
    completes "v17 v27v29 v29 v27 fallback" call --modems ""
    completes "page.mh.lsb page.mh.msb" show page.mh
    completes "line.bits line.txt" call --script lin
}

# completed WORDS: what the last word of a command line of faxtool is completed to, a line each.
completed() {
    (cd "$data" && bash -c '. "$1" && shift && COMP_WORDS=(faxtool "$@") COMP_CWORD=$# && _faxtool && printf "%s\n" "${COMPREPLY[@]}"' \
        bash "$top/docs/completion/faxtool.bash" "$@")
}

# completes WANTED WORDS: the last word is completed to these, in any order.
completes() {
    wanted=$(printf '%s\n' $1 | sort)
    shift
    [ "$(completed "$@" | sort)" = "$wanted" ] || fails "faxtool $* is completed to: $(completed "$@" | tr '\n' ' ')"
}

# The version is that of the file at the top, and the kit that of docs/PROOF.md. `rt version` may call it by another name: what counts
# is the rules that it proves by. A program that was built without proof says so in place of both, as `make try`'s does; those that the gate
# has proved don't.
try_version() {
    works version
    case $program in
    "$top/crates/"*) unproved= ;;
    "$top/build/"*) unproved=yes ;;
    *) unproved=$(sed -n 's/^.*, built without proof$/yes/p' "$work/output") ;;
    esac
    sed "s/\$/${unproved:+, built without proof}/" "$top/VERSION" > "$work/wanted"
    is_same "$work/output" "$work/wanted" "version"
    for word in --version -V; do
        works $word
        is_same "$work/output" "$work/wanted" "$word"
    done
    refuses version --explain
    refuses version 1
    refuses version --proof --proof
    works version --proof
    if [ -n "$unproved" ]; then
        [ "$(cat "$work/output")" = "none: built without proof" ] || fails "version --proof of a build without proof: $(cat "$work/output")"
        return
    fi
    grep '^rattle-kit' "$top/docs/PROOF.md" > "$work/wanted"
    is_same "$work/output" "$work/wanted" "the kit of version --proof"
    rt version | sed 's/^[^ ]* //' > "$work/wanted"
    sed 's/^[^ ]* //' "$work/output" > "$work/rules"
    is_same "$work/rules" "$work/wanted" "the rules of version --proof"
}

# Each command's help lists its options, however it is asked for. What is wrong with a command's words ends in the help to try, that of
# the command, and a usage line in it is the command's; the program's own ends in the program's.
try_helps() {
    for command in code show decode frames call identify judge station version; do
        refuses "$command" --help
        cp "$work/error" "$work/wanted"
        grep -q "^Usage: [^ ]* $command " "$work/wanted" || fails "$command --help has no usage"
        grep -q '^ *-h, --help  *Print help$' "$work/wanted" || fails "$command --help has no options"
        refuses "$command" -h
        is_same "$work/error" "$work/wanted" "$command -h"
        refuses help "$command"
        is_same "$work/error" "$work/wanted" "help $command"
        tries "$command" "$command" --no-such-option
    done
    tries code code --code g3 a b
    tries call call --script a --modems v34 b
    tries decode decode --repair --salvage --code mh --width 8 a b
    tries call call a
    tries call call --lose 5% a
    tries frames frames --salvage a
    tries frames frames --diagram a b
    tries station station
    tries station station --answer
    refuses paint
    [ "$(tail -n 1 "$work/error")" = "For more information, try 'faxtool --help'." ] || fails "paint ends in: $(tail -n 1 "$work/error")"
}

# tries COMMAND WORDS: the words are refused, and the text ends in the help of the command; a usage line is the command's.
tries() {
    command=$1
    shift
    refuses "$@"
    [ "$(tail -n 1 "$work/error")" = "For more information, try 'faxtool $command --help'." ] || fails "$* ends in: $(tail -n 1 "$work/error")"
    usage=$(sed -n 's/^Usage: [^ ]* //p' "$work/error")
    case ${usage:-$command} in
    "$command" | "$command "*) ;;
    *) fails "$* shows the usage: $usage" ;;
    esac
}

# FAXTOOL_EXPLAIN=1 is --explain; another value isn't.
try_environment() {
    for value in 1 0 ""; do
        FAXTOOL_EXPLAIN=$value gives 1 code --code mh "$work/missing" "$work/made"
        lines=1
        [ "$value" != 1 ] || lines=2
        [ "$(wc -l < "$work/error")" = $lines ] || fails "FAXTOOL_EXPLAIN=$value told something else"
    done
    grep -q "^$work/missing: no such file or folder" "$work/error" && fails "FAXTOOL_EXPLAIN= told the words"
    gives 2 --help
    for number in 20 21 22; do
        grep -q "^  $number  " "$work/error" || fails "--help doesn't tell fault $number"
    done
    gives 2 code --help
    grep -q "FAXTOOL_EXPLAIN=1" "$work/error" || fails "--help doesn't tell FAXTOOL_EXPLAIN"
}

# Memory that is refused is fault 9, and its words name the file that was read; never fault 8.
try_memory() {
    "$program" code --code mh "$work/large.pbm" "$work/large.mh"
    named=0
    finds_least
    for most in $(seq "$least" 20 12000); do
        within "$most" decode --explain --code mh --width 2432 "$work/large.mh" "$work/made"
        [ "$status" != 0 ] || break
        is_status 1 "decode with $most KB of memory"
        [ "$(head -1 "$work/error")" = "fault 9" ] || fails "decode with $most KB of memory says something else"
        # with the least memory not even the command's words are read
        grep -q "^a word of the command: memory was refused\|^the command's words: memory was refused" "$work/error" && continue
        grep -q "^$work/large.mh: memory was refused" "$work/error" || fails "decode with $most KB of memory names no file"
        named=$((named + 1))
    done
    [ "$status" = 0 ] || fails "decode was refused memory each time"
    [ "$named" -gt 0 ] || fails "decode was never refused memory for its file"
    yes "busy 1" | head -c 3000000 > "$work/long.script"
    within "$most" call --explain --script "$work/long.script" "$data/page.pbm"
    [ "$status $(head -1 "$work/error")" = "1 fault 9" ] || fails "call with a long script and little memory ended with status $status"
    grep -q "^$work/long.script: memory was refused" "$work/error" || fails "call doesn't name its script where memory is refused"
    count=$((count + 3))
}

# ends_within KB STATUS LINE WORDS: of standard input that never ends the program ends, with the status and the line on standard error, in so
# much memory.
ends_within() {
    most=$1 wanted=$2 line=$3
    shift 3
    status=0
    (ulimit -v "$most"; exec timeout 60 "$program" "$@") > "$work/output" 2> "$work/error" || status=$?
    [ "$status" = "$wanted" ] || fails "$* of an endless input ended with status $status"
    [ "$(head -n 1 "$work/error")" = "$line" ] || fails "$* of an endless input didn't write: $line"
    count=$((count + 1))
}

# Input that never ends: one that makes no page, however it goes on, is read for a few megabytes. Nothing is read of a file of pages or of a
# script beyond a bound; that is fault 32, and OUT stays. What follows the first page is ignored if that one is wanted alone.
try_endless() {
    few=30000 many=400000
    ends_within $few 1 "fault 17 at bit 0" decode --code mmr --width 1728 - "$work/endless" < /dev/zero
    ends_within $few 1 "fault 4 at bit 0" decode --code mh --width 1728 - "$work/endless" < /dev/zero
    ends_within $few 1 "fault 29" identify - < /dev/zero
    ends_within $few 1 "fault 4 at bit 0" decode --explain --code mh --width 8 /dev/zero "$work/endless"
    yes | ends_within $few 1 "fault 29" identify -
    ends_within $many 1 "fault 32" decode --repair --code mh --width 8 - "$work/endless" < /dev/zero
    cat "$data/page.mmr.msb" /dev/zero | ends_within $many 1 "fault 32" decode --page 2 --code mmr --width 315 - "$work/endless"
    status=0
    cat "$data/page.mmr.msb" /dev/zero 2> /dev/null |
        (ulimit -v "$many"; exec timeout 60 "$program" decode --code mmr --width 315 - "$work/first.pbm") 2> "$work/error" || status=$?
    [ "$status" = 0 ] && cmp -s "$work/first.pbm" "$data/page.pbm" || fails "a page before what never ends isn't decoded"
    ends_within $many 1 "fault 32" call --script /dev/zero "$data/page.pbm"
    yes "to-caller 1" | ends_within $many 1 "fault 32" call --explain --script - "$data/page.pbm"
    [ "$(tail -n 1 "$work/error")" = "standard input: it has more octets than are read of such a file, 16777216" ] ||
        fails "the words of an endless script"
    [ ! -e "$work/endless" ] || fails "a file was made of an endless input"
}

# Standard input can't be both the script and the document: that is refused with words, and nothing is read.
try_twice_standard() {
    for words in "call --script - -" "call --script - --out - -" "call --explain --script - -" "call - --script -"; do
        refuses $words
        grep -qF -e "--script and <IN> can't both be standard input" "$work/error" || fails "$words doesn't say what is wrong"
        ! grep -q "^fault" "$work/error" || fails "$words has a fault line"
    done
    printf 'busy\nready\n' > "$work/script"
    status=0
    { "$program" call --script - - > "$work/output" 2> "$work/error" || status=$?; cat > "$work/left"; } < "$work/script"
    [ "$status" = 2 ] || fails "call --script - - ended with status $status"
    is_same "$work/left" "$work/script" "what call --script - - left of standard input"
    count=$((count + 1))
}

# Words that are not a command, and those that ask for help.
try_words() {
    refuses
    for words in --help help -h "--version a" "-V --version" "code --version" "code --help" "show --help" "frames --help" fax \
        "code a b" "code --code g3 a b" "code --code mh a" "code --code mh a b c" "code --code mh --code mh a b" \
        "code --code mh --order up a b" "show --code mh a" "show --width 8 a" "show --code mh --width 0 a" \
        "show --code mh --width 2433 a" "show --code mh --width x a" "frames" "frames a b" "frames --code mh a" \
        "help show" "call --help" paint "code --code mr a b" "code --code mh --order MSB a b" "show --code mh --width 8" \
        "frames --data x a" "frames --data 301 a" "frames --data -1 a" "frames --data 1 --data 1 a" "frames --pages a" "frames --pages a --pages b c" "decode --code mh --width 8 --salvage --salvage a b" "show --code mh --width 8.0 a" "show --code mh --width 4294967304 a" "show --code mh --width 18446744073709551624 a" \
        "call a" "call --script a" "call --script a --frame 128 b" "call --script a --modems v34 b" \
        "call --script a --fine --fine b" "decode --code mh --width 8 a" "decode --code mh a b" \
        "decode --code mh --width 8 --verbose --verbose a b" "decode --code mh --width 8 a b c" "decode --help"; do
        refuses $words
    done
    refuses show --code mh --width "" a
    try_twice_standard
    refuses show --help
    for text in "<FILE>  The file of the coded page" "--width <N>" "[default: msb] [possible values: msb, lsb]"; do
        grep -qF -e "$text" "$work/error" || fails "show --help doesn't say: $text"
    done
}
