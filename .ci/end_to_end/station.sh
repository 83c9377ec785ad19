# The command station: conversations that are kept as files, files that can't be written, and random conversations.

# The figures of a call that came to nothing, after its seconds; and the speeds of one that was at the highest one.
nothing="blocks 0, PPRs 0, frames sent again 0, failed checks 0, retries 0"
fast="v17-14400 to v17-14400"

# converse NAME: the program answers the lines of a kept conversation as it is kept, and stores its pages. NAME.words has the words after
# `station`, with IN for NAME.pbm and DIR for the folder of the pages.
converse() {
    kept=$top/.ci/conversations/$1 status=0
    rm -rf "$work/stored"
    mkdir "$work/stored"
    words=$(sed "s,IN,$kept.pbm,; s,DIR,$work/stored," "$kept.words")
    timeout 60 "$program" station $words < "$kept.lines" > "$work/output" 2> "$work/error" || status=$?
    is_same "$work/output" "$kept.expected" "the answers of conversation $1"
    # what happens has a line with its time, which is kept of those that have records; the line of the figures begins with a number too
    [ -f "$kept.records" ] || sed -i '/^[0-9][0-9]* [^s]/d; /^not compatible: /d' "$work/error"
    is_same "$work/error" "$kept.error" "what is told of conversation $1"
    wanted=1
    ! grep -q '^end normal ' "$kept.error" && [ ! -f "$kept.done" ] || wanted=0
    # a call with a gap in the numbers of its pages isn't whole
    [ ! -f "$kept.records" ] || ! grep -q '"gap":' "$kept.records" || wanted=1
    [ "$status" = "$wanted" ] || fails "conversation $1 ended with status $status, and not $wanted"
    cat "$work/stored"/* > "$work/pages" 2> /dev/null || :
    if [ -f "$kept.pages" ]; then
        is_same "$work/pages" "$kept.pages" "the pages of conversation $1"
    else
        [ ! -s "$work/pages" ] || fails "conversation $1 left a page"
    fi
    count=$((count + 1))
    [ -f "$kept.records" ] || return 0
    rm -f "$work/stored"/*
    ends "$wanted" station --json $words < "$kept.lines"
    is_same "$work/error" "$kept.records" "the records of conversation $1"
    count=$((count + 1))
}

# A page whose number is taken goes to the next one that is free, and what was there stays.
try_taken_numbers() {
    words="station --answer --out $work/stored"
    rm -rf "$work/stored"
    mkdir "$work/stored"
    echo mine > "$work/stored/page-1.pbm"
    kept=$top/.ci/conversations/worked_answerer
    "$program" $words < "$kept.lines" > "$work/output" 2> "$work/error" || fails "a taken number: status $?"
    is_same "$work/output" "$kept.expected" "the answers where a number is taken"
    is_same "$work/stored/page-2.pbm" "$kept.pages" "the page of the next number"
    sed 's/page-1/page-2/' "$kept.error" > "$work/wanted"
    is_same "$work/error" "$work/wanted" "what is told of a taken number"
    [ "$(cat "$work/stored/page-1.pbm")" = mine ] || fails "a station wrote into a file that was there"
    count=$((count + 1))
}

# A page that can't be written isn't confirmed: the station sends DCN where it would send MCF, and ends with fault 8. That is so whether or not
# the system's signal at the greatest size of a file, which ends a process, is ignored.
try_unwritten() {
    lines=$top/.ci/conversations/reference_page_of_many_rows
    for ignored in XFSZ ''; do
        rm -rf "$work/stored"
        mkdir "$work/stored"
        status=$(
            exec 4>&1
            {
                (
                    [ -z "$ignored" ] || trap '' $ignored
                    ulimit -f 1
                    exec "$program" station --answer --out "$work/stored" 4>&-
                ) < "$lines.lines" 2> "$work/error" ||
                    echo $? >&4
            } | cat > "$work/output"
        )
        [ "$status $(head -1 "$work/error")" = "1 fault 8" ] || fails "a page that can't be written: status $status"
        is_same "$work/output" "$lines.unwritten" "what is answered to a page that can't be written"
        [ -z "$(ls "$work/stored")" ] || fails "a part of a page stayed"
        count=$((count + 1))
    done
}

# The mode of a page's file: its owner's alone, less the umask, and with --mode that mode whatever the umask is. And those of
# `frames --pages` are as the umask leaves them.
try_modes() {
    kept=$top/.ci/conversations/worked_answerer
    while read -r umask mode wanted; do
        rm -rf "$work/stored"
        mkdir "$work/stored"
        (umask "$umask"; exec "$program" station --answer --out "$work/stored" $mode) < "$kept.lines" > "$work/output" 2> "$work/error" ||
            fails "station --answer $mode with umask $umask: status $?"
        [ "$(stat -c %a "$work/stored/page-1.pbm")" = "$wanted" ] || fails "umask $umask $mode: mode $(stat -c %a "$work/stored/page-1.pbm")"
        is_same "$work/output" "$kept.expected" "the answers with $mode"
        count=$((count + 1))
    done << 'CASES'
022 --json 600
000 --json 600
077 --mode=0640 640
777 --mode=751 751
022 --mode=0000 0
000 --mode=600 600
CASES
    status=0
    (umask 027; exec "$program" frames --pages "$work/stored" "$top/docs/examples/line.bits") > "$work/output" 2> "$work/error" || status=$?
    is_status 1 "frames --pages with umask 027"
    [ "$(stat -c %a "$work/stored/page-2.pbm")" = 640 ] || fails "frames --pages with umask 027: mode $(stat -c %a "$work/stored/page-2.pbm")"
    count=$((count + 1))
}

# answers_so NAME WANTED WORDS: the answerer of a kept conversation with more words, which ends with status 1, leaves as many pages, and
# says DCN last; its standard error is WANTED.
answers_so() {
    kept=$top/.ci/conversations/$1 wanted=$2 status=0
    shift 2
    rm -rf "$work/stored"
    mkdir "$work/stored"
    "$program" station --answer --out "$work/stored" "$@" < "$kept.lines" > "$work/output" 2> "$work/error" || status=$?
    [ "$status" = 1 ] && [ "$(sed '/^[0-9]* page /d' "$work/error")" = "$wanted" ] || fails "$* ended with status $status"
    [ "$(tail -n 1 "$work/output")" = "done" ] || fails "$* doesn't end with done"
    count=$((count + 1))
}

# All is done, with status 0, where each page is confirmed and only the last DCN is missing: the line drops, or T1 is over; not where the
# block was answered by RNR alone, nor where the call is stopped. A fault's record comes after that of how the call stands.
try_whole() {
    lines=$top/.ci/conversations/worked_answerer.lines
    while IFS='|' read -r less more wanted; do
        status=0
        rm -rf "$work/stored"
        mkdir "$work/stored"
        { head -n "-$less" "$lines"; printf "$more"; } > "$work/lines"
        "$program" station --answer --out "$work/stored" < "$work/lines" > "$work/output" 2> "$work/error" || status=$?
        [ "$status $(tail -n 1 "$work/error")" = "$wanted" ] || fails "a call without its last DCN: $status $(cat "$work/error")"
        count=$((count + 1))
    done << 'CASES'
1||0 end line-lost pages 1
1|end 15100\n|0 end line-lost pages 1
1|quiet 15100\nquiet 50100\n|0 end no-answer pages 1
1|stop 15100\n|1 end stopped pages 1
2||1 end line-lost pages 1
2|quiet 14100\nquiet 49100\n|1 end no-answer pages 1
CASES
    { head -n -1 "$lines"; echo hush; } > "$work/lines"
    rm -f "$work/stored"/*
    ends 1 station --json --answer --out "$work/stored" < "$work/lines"
    [ "$(sed -n 2p "$work/error")" = '{"pages":1,"whole":true}' ] || fails "the record before that of a fault"
    sed -n 3p "$work/error" | grep -q '^{"fault":31,' || fails "the record of a fault"
    count=$((count + 1))
}

# The limits of a call: the page that would pass one isn't stored, and DCN is said in place of its confirmation, as to `stop`.
try_call_limits() {
    stopped="a further page is dropped, and the call stopped:"
    # of two pages, whose second one has no MCF, or the first one
    with_one="10 s; blocks 1, ${nothing#*, }; $fast"
    without="7 s; $nothing; $fast"
    two=reference_room_for_one_page
    answers_so $two "$stopped --most-pages
$with_one
end stopped pages 1" --limit 1 --most-pages 1
    first=$(stat -c %s "$work/stored/page-1.pbm")
    [ "$(ls "$work/stored")" = page-1.pbm ] || fails "--most-pages 1 left other files"
    cp "$work/output" "$work/wanted"
    answers_so $two "$stopped --most-octets
$with_one
end stopped pages 1" --limit 1 --most-octets "$first"
    is_same "$work/output" "$work/wanted" "what is said at --most-octets"
    answers_so $two "$stopped --most-octets
$without
end stopped pages 0" --limit 1 --most-octets "$((first - 1))"
    [ -z "$(ls "$work/stored")" ] || fails "--most-octets left a file"
    kept=$top/.ci/conversations/$two
    rm -rf "$work/stored"
    mkdir "$work/stored"
    "$program" station --answer --out "$work/stored" --limit 1 --most-pages 2 --most-octets "$((2 * first))" --most-seconds 3600 \
        < "$kept.lines" > "$work/output" 2> "$work/error" || fails "limits that aren't reached: status $?"
    is_same "$work/output" "$kept.expected" "the answers with limits that aren't reached"
    cat "$work/stored"/* > "$work/pages"
    is_same "$work/pages" "$kept.pages" "the pages with limits that aren't reached"
    # a good frame that is unknown, every 20 s: only --most-seconds ends it
    { for at in $(seq 1000 20000 201000); do
        printf 'quiet %s\nrx %s v21 hdlc 74 7E7EDF47A85AD6FAF901\nquiet %s\n' "$at" "$((at + 5000))" "$((at + 10000))"
    done; } > "$work/lines"
    ends 1 station --answer --out "$work/stored" < "$work/lines"
    before=$(wc -l < "$work/output")
    [ "$(tail -n 1 "$work/error")" = "end line-lost pages 0" ] || fails "a good frame every 20 s doesn't hold the line"
    status=0
    "$program" station --answer --out "$work/stored" --most-seconds 60 < "$work/lines" > "$work/output" 2> "$work/error" || status=$?
    printf '%s\n' "the call is stopped: --most-seconds" "61 s; $nothing" "end stopped pages 0" > "$work/wanted"
    sed -i '/^[0-9]* heard other /d' "$work/error"
    is_same "$work/error" "$work/wanted" "what is told at --most-seconds"
    [ "$status $(tail -n 1 "$work/output")" = "1 done" ] && [ "$(wc -l < "$work/output")" -lt "$before" ] || fails "--most-seconds: status $status"
    count=$((count + 3))
    try_carriers
}

# A call of 60 s at most is stopped where a carrier has just ended, and on one that doesn't end it is given up ten seconds later: an answerer's
# and a caller's.
# Four hours are the most if nothing is said, and 0 is no limit.
try_carriers() {
    { echo "quiet 1000"; for at in $(seq 2000 5000 200000); do echo "rx $at v21 hdlc 74 7E7EDF47A85AD6FAF901"; done; } > "$work/lines"
    is_stopped_at 62 60 --answer --out "$work/stored"
    is_stopped_at 62 60 --call "$top/.ci/conversations/reference_no_line_at_all.pbm"
    { echo "quiet 1000"; for at in $(seq 2000 1000 200000); do echo "busy $at"; done; } > "$work/lines"
    is_given_up_at 70 60 --answer --out "$work/stored"
    is_given_up_at 70 60 --call "$top/.ci/conversations/reference_no_line_at_all.pbm"
    { echo "quiet 1000"; for at in $(seq 10000 300000 14710000); do echo "busy $at"; done; } > "$work/lines"
    is_given_up_at 14410 '' --answer --out "$work/stored"
    is_given_up_at 14410 '' --call "$top/.ci/conversations/reference_no_line_at_all.pbm"
    for side in "--answer --out $work/stored" "--call $top/.ci/conversations/reference_no_line_at_all.pbm"; do
        ends 1 station --most-seconds 0 $side < "$work/lines"
        grep -q '^end line-lost' "$work/error" || fails "--most-seconds 0 stops a call"
    done
    count=$((count + 8))
}

# A station stops its call at this second, and says DCN, then done. Arguments: the second, the limit or nothing, the words of the station.
is_stopped_at() {
    ends_late_at stopped "the call is stopped: --most-seconds" "$@"
    tail -n 2 "$work/output" | grep -q '^tx ' || fails "--most-seconds: $*: no DCN"
}

# A station gives its call up at this second, and says nothing more than done.
is_given_up_at() {
    ends_late_at never-quiet "the call is given up, as its line never fell quiet: --most-seconds" "$@"
    tail -n 2 "$work/output" | grep -q '^tx ' && fails "--most-seconds: $*: DCN on a carrier"
    [ "$(grep -c '^done$' "$work/output")" = 1 ] || fails "--most-seconds: $*: no done"
}

# A call that lasts too long ends so, with these words, at this second.
ends_late_at() {
    name=$1 words=$2 second=$3 most=$4
    shift 4
    ends 1 station ${most:+--most-seconds "$most"} "$@" < "$work/lines"
    [ "$(grep -cx "$words" "$work/error")" = 1 ] || fails "--most-seconds: $*: no word of it"
    grep -q "^$second s; " "$work/error" || fails "--most-seconds: $*: ended at $(grep -o '^[0-9]* s; ' "$work/error"), not $second s"
    grep -qE "^end $name (pages|confirmed) 0$" "$work/error" || fails "--most-seconds: $*: $(tail -n 1 "$work/error")"
    [ "$(tail -n 1 "$work/output")" = "done" ] || fails "--most-seconds: $*: not done"
}

# A folder that can't be written, as root can't write /proc, is found before a line is read; and nothing is left of looking.
try_unwritable_folder() {
    status=0
    echo "no line" | "$program" station --answer --out /proc > "$work/output" 2> "$work/error" || status=$?
    [ "$status $(head -1 "$work/error")" = "1 fault 8" ] || fails "a folder that can't be written: status $status"
    for how in --explain --json; do
        ends 1 station $how --answer --out /proc < /dev/null
        grep -q '/proc: no new file can be made in it: ' "$work/error" && [ ! -s "$work/output" ] || fails "the words of a folder that can't be written"
    done
    rm -rf "$work/stored"
    mkdir "$work/stored"
    echo "end 1" | ends 1 station --answer --out "$work/stored"
    printf '%s\n' "0 s; $nothing" "end line-lost pages 0" > "$work/wanted"
    is_same "$work/error" "$work/wanted" "what is told of a station that looked where it may store"
    [ -z "$(ls "$work/stored")" ] || fails "a station left a file where it looked"
    count=$((count + 4))
}

# `frames --pages` that is killed while it writes a page leaves no file of the page's name: only a part file, as it was; and where no octet may
# be written, nothing is left. disk.py kills a station.
try_killed() {
    words="frames --pages $work/stored $top/docs/examples/line.bits"
    rm -rf "$work/stored"
    mkdir "$work/stored"
    # the second call that changes a file is the first that writes one
    status=$({
        { DISK_AT=2 DISK_DOES=kill LD_PRELOAD=$work/disk.so "$program" $words || echo $? >&3; } | cat > "$work/output"
    } 3>&1 2> /dev/null)
    # SIGKILL
    is_status 137 "$words that is killed"
    ls "$work/stored" > "$work/left"
    grep -q '^faxtool-[0-9a-f]\{16\}\.part$' "$work/left" || fails "$words wasn't killed while it wrote a page"
    [ "$(wc -l < "$work/left")" = 1 ] || fails "$words was killed, and left: $(cat "$work/left")"
    rm "$work/stored"/*
    status=$({ (ulimit -f 0; exec "$program" $words 2>&1) || echo "status $?"; } | tail -n 2)
    [ "$status" = "fault 8
status 1" ] || fails "$words where no octet may be written: $status"
    [ -z "$(ls "$work/stored")" ] || fails "$words where no octet may be written left a file"
    count=$((count + 2))
}

# Lines of no allowed form, and one of more than 400,000 octets; and one of as many, which is allowed.
try_no_lines() {
    kept=$work/stored
    while IFS= read -r line; do
        status=0
        printf "$line\n" | "$program" station --answer --out "$kept" > "$work/output" 2> "$work/error" || status=$?
        [ "$status $(cat "$work/error" "$work/output")" = "1 fault 31 at line 1" ] || fails "the line '$line' ended with status $status"
        count=$((count + 1))
    done << 'CASES'

quiet
quiet 1\040
\040quiet 1
quiet 1\r
Quiet 1
quiet +1
quiet 1000000000000000
quiet 1 1
end
rx 1 v21 hdlc 0
rx 1 v21 hdlc 8 0
rx 1 v21 hdlc 8 0000
rx 1 v21 hdlc 9 00
rx 1 v21 hdlc 8 0G
rx 1 v21 psk 8 00
rx 1 v17-4800 raw 8 00
rx 1 v21 hdlc 00000008 00
rx 1  v21 hdlc 8 00
CASES
    rm -f "$work/told"
    for time in 1 01; do
        { printf "rx $time v21 hdlc 1599912 "; head -c 399978 /dev/zero | tr '\0' 0; echo; } > "$work/long"
        ends 1 station --answer --out "$kept" < "$work/long"
        echo "$time $(cat "$work/output" "$work/error" | tr '\n' ' ')" >> "$work/told"
    done
    printf '%s\n' "1 wait 0 s; $nothing end line-lost pages 0 " "01 fault 31 at line 1 " > "$work/wanted"
    is_same "$work/told" "$work/wanted" "lines of 400,000 octets and one more"
    count=$((count + 2))
}

# What is wrong with a line, and at which column: as words, and in a record.
try_no_line_words() {
    while IFS='|' read -r before line words; do
        status=0
        printf "$before$line\n" > "$work/lines"
        number=$(wc -l < "$work/lines")
        "$program" station --explain --answer --out "$work/stored" < "$work/lines" > "$work/output" 2> "$work/error" || status=$?
        printf 'fault 31 at line %s\nstandard input: line %s, %s\n' "$number" "$number" "$words" > "$work/wanted"
        [ "$status" = 1 ] || fails "the line '$line' ended with status $status"
        is_same "$work/error" "$work/wanted" "the words of the line '$line'"
        ends 1 station --json --answer --out "$work/stored" < "$work/lines"
        grep -qF "\"line\":$number,\"words\":\"standard input: line $number, $words\"" "$work/error" || fails "the record of the line '$line'"
        count=$((count + 2))
    done << 'CASES'
||column 1: no line of a station begins with this word
|\040quiet 1|column 1: no line of a station begins with this word
quiet 1\n|Quiet 1|column 1: no line of a station begins with this word
|quiet|column 7: a time is expected here, 1 to 15 digits
|quiet 1\r|column 7: a time is expected here, 1 to 15 digits
|quiet 1000000000000000|column 7: a time is expected here, 1 to 15 digits
|quiet 1 1|column 9: such a line ends after its time
|missed 1 1|column 10: such a line ends after its time
|missed|column 8: a time is expected here, 1 to 15 digits
|quiet 1\040|column 9: such a line ends after its time
quiet 5\nquiet 6\n|busy 5|column 6: the time is before that of the line before, or too long after it
quiet 5\n|quiet 35006|column 7: the time is before that of the line before, or too long after it
quiet 5\n|rx 4 v21 raw 0 |column 4: the time is before that of the line before, or too long after it
|rx +1 v21 raw 0 |column 4: a time is expected here, 1 to 15 digits
|rx 1 v17-4800 raw 8 00|column 6: a carrier is expected here
|rx 1  v21 hdlc 8 00|column 6: a carrier is expected here
|rx 1 v21 psk 8 00|column 10: hdlc or raw is expected here
|rx 1 v21 hdlc 00000008 00|column 15: the number of bits is expected here, 1 to 7 digits
|rx 1 v21 hdlc 8|column 17: two hexadecimal digits are expected for each octet of the bits
|rx 1 v21 hdlc 8 0G|column 17: two hexadecimal digits are expected for each octet of the bits
CASES
    { printf "quiet 1\nrx 1 v21 hdlc 1599912 "; head -c 399979 /dev/zero | tr '\0' 0; echo; } > "$work/long"
    ends 1 station --explain --answer --out "$work/stored" < "$work/long"
    [ "$(tail -n 1 "$work/error")" = "standard input: line 2, column 400001: the line has more than 400000 octets" ] ||
        fails "the words of a line that is too long"
    count=$((count + 1))
}

# The trace of the caller of a kept conversation, by hand: it comes after what its file had.
try_trace() {
    kept=$top/.ci/conversations/worked_caller
    echo "an earlier trace" | tee "$work/trace" > "$work/wanted"
    cat >> "$work/wanted" << 'LINES'
34900 heard DIS receiver v17 fine 2432 t6 ecm
34900 said DCS v17-14400 standard 1728 t6 256
34900 said TRAINING
43000 said DCS v17-14400 standard 1728 t6 256
43000 said TRAINING
44000 heard CFR
44000 said FCD 0 256
44000 said RCP
44000 said RCP
44000 said RCP
44000 said PPS EOP page 0 block 0 last 0
50000 heard MCF
50000 said DCN
LINES
    "$program" station --call --trace "$work/trace" "$kept.pbm" < "$kept.lines" > "$work/output" 2> "$work/error" ||
        fails "a station with a trace ended with status $?"
    is_same "$work/trace" "$work/wanted" "the trace of a caller"
    status=0
    "$program" station --call --trace "$work/missing/trace" "$kept.pbm" < "$kept.lines" > "$work/output" 2> "$work/error" || status=$?
    [ "$status $(head -1 "$work/error")" = "1 fault 8" ] || fails "a trace that can't be opened: status $status"
    "$program" station --call --trace /dev/full "$kept.pbm" < "$kept.lines" > "$work/output" 2> "$work/error" ||
        fails "a station with a trace on a full disk ended with status $?"
    is_same "$work/output" "$kept.expected" "the answers with a trace on a full disk"
    printf '%s\n' "the trace can't be written any more and ends here; the call goes on" "$(cat "$kept.error")" > "$work/wanted"
    is_same "$work/error" "$work/wanted" "what is told of a trace on a full disk"
    count=$((count + 3))
}

# A trace has a line for the frames of a block that follow each other, and with --trace-frames one for each; the lines say the same frames.
try_trace_frames() {
    kept=$top/.ci/conversations/worked_caller
    works decode --code mmr --width 1728 "$top/docs/examples/a4.mmr" "$work/third.pbm"
    for option in "" --trace-frames; do
        rm -f "$work/trace$option"
        ends 0 station --call --trace "$work/trace$option" $option "$work/third.pbm" < "$kept.lines"
        [ "$(grep -c " said PPS " "$work/trace$option")" -ge 1 ] || fails "a trace $option has no PPS"
        count=$((count + 1))
    done
    rm "$work/third.pbm"
    python3 -B -c 'import re, sys
whole, each = (open(name).read().splitlines() for name in sys.argv[1:])
runs = [line for line in whole if re.search(r" FCD \d+\.\.\d+$", line)]
wide = []
for line in whole:
    said, _, last = line.partition("..")
    first = said.rpartition(" ")
    wide += [f"{first[0]} {number}" for number in range(int(first[2]), int(last) + 1)] if last else [line]
short = [re.sub(r"( FCD \d+) \d+$", r"\1", line) for line in each]
sys.exit(not runs or [re.sub(r"( FCD \d+) \d+$", r"\1", line) for line in wide] != short)' "$work/trace" "$work/trace--trace-frames" ||
        fails "the lines of frames in a trace"
}

# Records of a trace, of how a call ended and of a fault say what the lines say.
try_station_records() {
    rm -rf "$work/stored"
    mkdir "$work/stored"
    runs=$(python3 -B "$data/try_json_station.py" "$program" "$work/stored") || fails "station --json"
    count=$((count + runs))
}

# `--from N`: what a caller sends of a document of more pages is what it sends of those from the Nth on; and why there are none.
try_from() {
    kept=$top/.ci/conversations/worked_caller
    narrow=$(octets "50 34 0A 38 20 31 0A 30")
    cat "$narrow" "$kept.pbm" "$kept.pbm" > "$work/three.pbm"
    cat "$narrow" "$kept.pbm" > "$work/two.pbm"
    for words in "--from 2 $work/two.pbm" "--from 3 $work/three.pbm" "--from 1 $kept.pbm"; do
        "$program" station --call $words < "$kept.lines" > "$work/output" 2> "$work/error" || fails "station --call $words: status $?"
        is_same "$work/output" "$kept.expected" "the answers of station --call $words"
        is_same "$work/error" "$kept.error" "the last line of station --call $words"
        count=$((count + 1))
    done
    explains "fault 28" "$work/three.pbm: it has pages up to 3, and --from is 4" station --call --from 4 "$work/three.pbm"
    cat "$kept.pbm" "$narrow" "$narrow" > "$work/three.pbm"
    explains "fault 26" "$work/three.pbm: page 2 is 8 pixels wide, and a call carries 1728, 2048 or 2432" station --call "$work/three.pbm"
    explains "fault 26" "$work/three.pbm: page 3 is 8 pixels wide, and a call carries 1728, 2048 or 2432" station --call --from 3 \
        "$work/three.pbm"
    rm "$work/two.pbm" "$work/three.pbm"
}

# Two processes that are joined: each line is answered at once, and the pages arrive; also if they say frames by V.21 as contents.
try_joined() {
    for words in "--lose 0 --seed 1" "--lose 10% --seed 4" "--lose 1/10 --seed 5" "--lose-frames 25% --seed 3"; do
        for kind in "" --frames "--frames --hear"; do
            rm -rf "$work/stored"
            mkdir "$work/stored"
            timeout 600 python3 -B "$top/docs/examples/join.py" $words --caller-command "$program station --call $kind" --answerer-command \
                "$program station --answer $kind" "$top/docs/examples/row.pbm" "$work/stored" > "$work/output" 2> "$work/error" ||
                fails "join.py $words of stations with '$kind' ended with status $?"
            [ "$(grep -c ': end normal ' "$work/output")" = 2 ] || fails "join.py $words of stations with '$kind': $(tail -2 "$work/output")"
            is_same "$work/stored/page-1.pbm" "$top/docs/examples/row.pbm" "the page of join.py $words of stations with '$kind'"
            count=$((count + 1))
        done
    done
    grep -q ' without [1-9][0-9]* frames$' "$work/output" || fails "join.py --lose-frames loses none"
    grep -q ' v21 frames [0-9]* without 1 frames$' "$work/output" || fails "join.py --lose-frames loses none of V.21"
}

# A page that is handed over is confirmed once the driver has kept it, on a line that loses and with a disk that takes up to 9 s.
try_held() {
    for words in "--lose 0 --seed 1 --slow 9000" "--lose 0.1 --seed 4 --slow 9000" "--lose 0.1 --seed 9"; do
        rm -rf "$work/stored"
        mkdir "$work/stored"
        timeout 600 python3 -B "$top/docs/examples/join.py" $words --caller-command "$program station --call" --answerer-command \
            "$program station --answer --hold" "$top/docs/examples/row.pbm" "$work/stored" > "$work/output" 2> "$work/error" ||
            fails "join.py $words with a page that is held ended with status $?"
        [ "$(grep -c ': end normal ' "$work/output")" = 2 ] || fails "join.py $words with a page that is held: $(tail -2 "$work/output")"
        is_same "$work/stored/page-1.pbm" "$top/docs/examples/row.pbm" "the page of join.py $words that is held"
        count=$((count + 1))
    done
}

# late_by MS: answers the worked call with --late MS, whose last page comes 2 s after the lines before it.
late_by() {
    rm -rf "$work/stored"
    mkdir "$work/stored"
    { sed '/^rx 14000 /,$d' "$kept.lines"; sleep 2; sed -n '/^rx 14000 /,$p' "$kept.lines"; } |
        ends 0 station --answer --out "$work/stored" --late "$1"
    is_same "$work/stored/page-1.pbm" "$kept.pages" "the page of an answer with --late $1"
    count=$((count + 1))
}

# An answer that comes later than --late allows, for the times of the lines, isn't sent, and that is said; its page is stored.
try_late() {
    kept=$top/.ci/conversations/worked_answerer
    late_by 3600000
    is_same "$work/output" "$kept.expected" "the answers with --late 3600000"
    late_by off
    is_same "$work/output" "$kept.expected" "the answers with --late off"
    late_by 500
    late="the answer to the line at 14000 isn't sent: it comes too late"
    sed "1a $late" "$kept.error" > "$work/wanted"
    is_same "$work/error" "$work/wanted" "what is said of an answer that comes too late"
    [ "$(grep -c '^tx ' "$work/output")" = "$(($(grep -c '^tx ' "$kept.expected") - 1))" ] || fails "an answer that comes too late is sent"
}

# A page is synced under another name, and its folder after it has its own, before MCF; that holds whatever call on the disk fails, and
# whenever the process is killed, with links and without. What a killed one leaves, the next one removes.
try_disk() {
    ${CC:-cc} -std=gnu11 -Wall -Wextra -O1 -shared -fPIC -o "$work/disk.so" "$top/.ci/end_to_end/disk.c" -ldl || fails "disk.c isn't compiled"
    runs=$(python3 -B "$top/.ci/end_to_end/disk.py" "$program" "$work/disk.so" "$top/.ci/conversations/worked_answerer") ||
        fails "pages on a disk that fails"
    count=$((count + runs))
    runs=$(python3 -B "$top/.ci/end_to_end/leftovers.py" "$program" "$work/disk.so") || fails "part files that were left"
    count=$((count + runs))
    try_killed
    rm "$work/disk.so"
}

# Memory that is refused once: the line is lost, and the call goes on.
try_memory_refused() {
    ${CC:-cc} -std=gnu11 -Wall -Wextra -O1 -shared -fPIC -o "$work/memory.so" "$top/.ci/end_to_end/memory.c" || fails "memory.c isn't compiled"
    runs=$(python3 -B "$top/.ci/end_to_end/memory.py" "$program" "$work/memory.so" "$top/.ci/conversations/worked_answerer") ||
        fails "a station without memory"
    rm "$work/memory.so"
    count=$((count + runs))
}

# What is told is written a line at a time, and nowhere else if standard error is closed.
try_whole_lines() {
    runs=$(python3 -B "$top/.ci/end_to_end/lines.py" "$program" "$top/.ci/conversations/worked_page_number_that_jumps") ||
        fails "lines of a station"
    count=$((count + runs))
}

# A caller that leaves while its last page is answered by RNR alone, or not at all, wasn't sent a confirmation: the end says so. And a PPS that
# repeats a confirmed block with EOP in place of MPS makes no call whole.
try_left() {
    kept=$top/.ci/conversations/worked_answerer
    rm -rf "$work/stored"
    mkdir "$work/stored"
    sed '/^rx 15000 /d' "$kept.lines" > "$work/lines"
    status=0
    "$program" station --answer --out "$work/stored" < "$work/lines" > "$work/output" 2> "$work/error" || status=$?
    # the second DIS was said though nothing was heard
    printf '%s\n' "14000 page 1 in page-1.pbm: 1728 x 1, standard, mmr, v17-14400" "the caller left before its last page was confirmed" \
        "16 s; ${nothing% 0} 1; $fast" "end peer-left pages 1" > "$work/wanted"
    [ "$status" = 1 ] || fails "a caller that leaves after RNR: status $status"
    is_same "$work/error" "$work/wanted" "what is said of a caller that leaves after RNR"
    rm "$work/stored"/*
    ends 1 station --json --answer --out "$work/stored" < "$work/lines"
    [ "$(sed -n 2p "$work/error")" = '{"pages":1,"whole":false,"why":"the caller left before its last page was confirmed"}' ] ||
        fails "the record of a caller that leaves after RNR: $(cat "$work/error")"
    rm "$work/stored"/*
    # PPS-MPS of page 0, block 0, which is confirmed; then PPS-EOP of the same, and the line drops
    { sed '/^rx 8000 /,$d' "$top/.ci/conversations/reference_room_for_one_page.lines"
        printf '%s\n' "rx 9000 v21 frames FF13BF2F000000" "end 12000"; } > "$work/lines"
    status=0
    "$program" station --answer --out "$work/stored" < "$work/lines" > "$work/output" 2> "$work/error" || status=$?
    [ "$status $(tail -n 1 "$work/error")" = "1 end line-lost pages 1" ] || fails "a repeat with another end: $status $(cat "$work/error")"
    count=$((count + 3))
}

# pool_by FOLDER WORDS: the pool of the folder plays calls over lines that lose, with a disk that holds answers for seconds, and with kills:
# each page is stored whole, once, before it is confirmed.
pool_by() {
    pool=$1
    shift
    rm -rf "$work/stored"
    mkdir "$work/stored"
    timeout 1800 python3 -B "$pool/pool.py" "$@" "$work/stored" --command "$program station" > "$work/output" 2> "$work/error"
}

# 200 calls of five pages, and in each a station is killed if the call lasts; and 100 calls whose three pages are handed over. A line that
# sends the answers to older lines too confirms pages that aren't stored: the pool must see that.
try_pool() {
    works decode --code mmr --width 1728 "$data/wide.mmr.msb" "$work/second.pbm"
    works decode --code mmr --width 1728 "$top/docs/examples/a4.mmr" "$work/third.pbm"
    cat "$top/docs/examples/row.pbm" "$work/second.pbm" "$work/third.pbm" > "$work/three.pbm"
    python3 -B -c 'import random, sys
chance = random.Random(5)
for rows in range(20, 53, 8):
    octets = bytes(chance.choice((0, 0, 0, 255, 15, 60)) for _ in range(216 * rows))
    sys.stdout.buffer.write(b"P4\n1728 %d\n" % rows + octets)' > "$work/five.pbm"
    killed="--lose 0.08 --slow 4000 --kill 1 --seed 6 $work/five.pbm"
    for words in "--calls 200 $killed" "--calls 100 --hold $work/three.pbm"; do
        pool_by "$top/docs/examples" $words || { cat "$work/error" >&2; fails "pool.py $words: $(cat "$work/output")"; }
        grep -q '00 calls: .* normal; ' "$work/output" || fails "pool.py $words: $(cat "$work/output")"
    done
    rm -rf "$work/older"
    mkdir "$work/older"
    cp "$top/docs/examples/pool.py" "$top/docs/examples/hdlc.py" "$work/older"
    sed '/if line.startswith(("busy ", "rx ")):/,+1d' "$top/docs/examples/join.py" > "$work/older/join.py"
    ! pool_by "$work/older" --calls 20 $killed || fails "pool.py doesn't see answers to older lines"
    grep -q 'is confirmed by the answer to an older line$' "$work/error" || fails "pool.py says something else of answers to older lines"
    rm -r "$work/stored" "$work/older" "$work/second.pbm" "$work/third.pbm" "$work/three.pbm" "$work/five.pbm"
    count=$((count + 320))
}

# The kept conversations, of which there are 26 at least; words that are no station's; and random conversations for a minute.
try_stations() {
    held=0
    for kept in "$top"/.ci/conversations/*.words; do
        name=${kept##*/}
        converse "${name%.words}"
        held=$((held + 1))
    done
    [ "$held" -ge 26 ] || fails "there are only $held conversations in .ci/conversations"
    while IFS='|' read -r words why; do
        refuses station $words
        [ -z "$why" ] || [ "$(head -1 "$work/error")" = "error: $why" ] || fails "station $words: other words: $(head -1 "$work/error")"
    done << 'CASES'
|a station answers or calls: either --answer or --call is needed
IN|a station answers or calls: either --answer or --call is needed
--answer|--answer needs --out, the folder of the pages
--call|--call needs IN, the file of the document
--answer --call --out DIR|--answer and --call can't be used together
--answer --call IN|--answer and --call can't be used together
--answer --out DIR IN|--frame, --fine, --from and IN are for a station with --call
--answer --out DIR --fine|--frame, --fine, --from and IN are for a station with --call
--answer --out DIR --from 1|--frame, --fine, --from and IN are for a station with --call
--answer --frame 64|--frame, --fine, --from and IN are for a station with --call
--call --from 0 IN|
--answer --out DIR --limit 0|
--answer --out DIR --t1 0|
--call -|IN can't be standard input, where the lines come
--call --out DIR IN|--out, --standard, --widest, --limit, --mode, --most-pages, --most-octets, --refuse and --hold are for a station with --answer
--call --most-pages 1 IN|--out, --standard, --widest, --limit, --mode, --most-pages, --most-octets, --refuse and --hold are for a station with --answer
--call --most-octets 1 IN|--out, --standard, --widest, --limit, --mode, --most-pages, --most-octets, --refuse and --hold are for a station with --answer
--answer --out DIR --most-pages 0|
--call --refuse IN|--out, --standard, --widest, --limit, --mode, --most-pages, --most-octets, --refuse and --hold are for a station with --answer
--call --no-refuse IN|--out, --standard, --widest, --limit, --mode, --most-pages, --most-octets, --refuse and --hold are for a station with --answer
--answer --out DIR --refuse --no-refuse|--refuse and --no-refuse can't be used together
--call --mode 600 IN|--out, --standard, --widest, --limit, --mode, --most-pages, --most-octets, --refuse and --hold are for a station with --answer
--answer --out DIR --hold --limit 1|--hold takes one page at a time, and can't be used with --limit
--call --hold IN|--out, --standard, --widest, --limit, --mode, --most-pages, --most-octets, --refuse and --hold are for a station with --answer
--answer --out DIR --mode 64|a mode is three octal digits, perhaps after a 0, as 0640
--answer --out DIR --mode 1640|a mode is three octal digits, perhaps after a 0, as 0640
--answer --out DIR --mode 06400|a mode is three octal digits, perhaps after a 0, as 0640
--answer --out DIR --mode 0680|a mode is three octal digits, perhaps after a 0, as 0640
--answer --out DIR --mode rwx|a mode is three octal digits, perhaps after a 0, as 0640
--call --limit 1 IN|--out, --standard, --widest, --limit, --mode, --most-pages, --most-octets, --refuse and --hold are for a station with --answer
--call --widest 1728 IN|--out, --standard, --widest, --limit, --mode, --most-pages, --most-octets, --refuse and --hold are for a station with --answer
--call --t4 x IN|
--answer --out DIR --late 0|--late is 1 to 3600000 milliseconds, or off
--answer --out DIR --late +5|--late is 1 to 3600000 milliseconds, or off
--answer --out DIR --late 3600001|--late is 1 to 3600000 milliseconds, or off
--answer --out DIR --late Off|--late is 1 to 3600000 milliseconds, or off
--call --late 20ms IN|--late is 1 to 3600000 milliseconds, or off
CASES
    faults "fault 8" station --answer --out "$work/missing"
    faults "fault 8" station --call "$work/missing"
    faults "fault 26" station --call "$(octets "50 34 0A 38 20 31 0A 30")"
    try_taken_numbers
    try_unwritten
    try_unwritable_folder
    try_modes
    try_call_limits
    try_whole
    try_no_lines
    try_no_line_words
    try_trace
    try_trace_frames
    try_station_records
    try_from
    try_joined
    try_held
    try_late
    try_disk
    try_whole_lines
    try_left
    try_memory_refused
    try_pool
    python3 -B "$top/bench/fuzz/reference_station.py" --dry > "$work/output" || fails "reference_station.py: $(cat "$work/output")"
    FAXTOOL=$program timeout 600 python3 -B "$top/bench/fuzz/fuzz_station.py" --times 300 --seed 36 > "$work/output" ||
        fails "random conversations: $(cat "$work/output")"
    [ "$(cut -d " " -f 1 "$work/output" | head -1)" -ge 100 ] || fails "only $(head -1 "$work/output")"
    count=$((count + 100))
}
