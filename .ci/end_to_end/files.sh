# Files, standard input and output.

# Standard input and output in the place of files.
try_standard() {
    for code in mh mmr; do
        "$program" code --code $code - - < "$data/page.pbm" > "$work/made"
        is_same "$work/made" "$data/page.$code.msb" "code --code $code - -"
        "$program" decode --code $code --width 315 - - < "$work/made" > "$work/decoded"
        is_same "$work/decoded" "$data/page.pbm" "decode --code $code - -"
        "$program" show --code $code --width 315 - < "$work/made" > "$work/output"
        is_same "$work/output" "$data/page.txt" "show --code $code -"
    done
    "$program" frames - < "$data/line.bits" > "$work/output"
    is_same "$work/output" "$data/line.txt" "frames -"
    input=$(octets "$white")
    printf 'polite 11' | "$program" call --script - --out "$work/pages" "$input" > "$work/output"
    is_same "$work/pages" "$input" "call --script -"
    refuses call --script - -
    count=$((count + 8))
}

# aren_t_apart TEXT WORDS: the words end with status 1 and the text alone on standard error, and nothing is printed or written.
aren_t_apart() {
    text=$1
    shift
    cksum row other script > sums
    gives 1 "$@"
    [ "$(cat "$work/error")" = "$text: nothing is read or written" ] || fails "$* doesn't say: $text"
    [ ! -s "$work/output" ] || fails "$* printed something"
    cksum row other script > wanted
    is_same sums wanted "the files of $*"
    [ ! -e new ] && [ ! -e to/to-caller.bits ] || fails "$* wrote a new file"
}

# makes_apart FILE: a folder with a copy of the file as `row`, and with other names of it.
makes_apart() {
    rm -rf "$work/apart"
    mkdir -p "$work/apart/to"
    cd "$work/apart"
    cp "$1" row
    echo as it was > other
    echo polite 11 > script
    ln row hard
    ln -s row soft
    ln -s ../row to/soft
    ln -s new to-new
    ln -s ../new to/new
}

# replaces FILE WORDS: a copy of the file, `row`, is read and written by the words with each of its names at the end, and gets there what
# the words write into a new file.
replaces() {
    file=$1
    shift
    makes_apart "$file"
    gives 0 "$@" "$work/written"
    for name in row ./row hard soft to/soft to/../row "$work/apart/row"; do
        makes_apart "$file"
        gives 0 "$@" "$name"
        is_same "$name" "$work/written" "what $* $name wrote"
    done
}

# Two files of a command that are the same file, by whatever names. An output takes the place of what was read whole before. Where it would
# destroy what is still to be read, or two outputs meet, nothing is read or written, as where two things would go to standard output.
try_apart() {
    image=$(octets "$white")
    works code --code mmr "$image" "$work/white.mmr"
    replaces "$image" code --code mh row
    replaces "$work/white.mmr" decode --code mmr --width 1728 row
    replaces "$data/page.mh.msb" decode row
    replaces "$image" call --script script row --diagram
    replaces "$image" call --lose 5% --seed 1 row --out
    replaces "$data/line.bits" frames --caller row --answerer other --diagram
    makes_apart "$image"
    # a file of --bits takes no place of another
    faults "fault 8" call --script script --bits . "$(cp row to-answerer.bits; echo to-answerer.bits)"
    is_same to-answerer.bits row "the document in the place of a file of --bits"
    works call --script script --out script row
    is_same script row "the pages that took the place of the script"
    for words in "identify row" "call --lose 5% --seed 1 row"; do
        makes_apart "$image"
        works $words
        cat row "$work/output" > wanted
        "$program" $words >> row 2> "$work/error" || fails "$words with its file as standard output ended with status $?"
        is_same row wanted "what $words adds to its file"
    done
    makes_apart "$image"
    for name in row ./row hard soft to/soft to/../row "$work/apart/row"; do
        aren_t_apart "IN and --trace are the same file" station --call --trace "$name" row
    done
    for name in new ./new to-new to/../new to/new "$work/apart/new"; do
        aren_t_apart "--out and --diagram are the same file" call --script script --out new --diagram "$name" row
    done
    aren_t_apart "--out and --diagram are the same file" call --script script --out other --diagram other row
    aren_t_apart "--out and --diagram are the same file" call --script script --out row --diagram hard row
    aren_t_apart "--out and a file of --bits are the same file" call --script script --bits to --out to/to-caller.bits row
    for words in "--out -" "--diagram -"; do
        aren_t_apart "${words% -} and what is printed can't both go to standard output" call --script script $words row
        aren_t_apart "${words% -} and what is printed can't both go to standard output" call --lose 5% --seed 1 $words row
    done
    aren_t_apart "--out and --diagram can't both go to standard output" call --script script --out - --diagram - row
    gives 1 call --script script --json --out - row
    [ "$(cat "$work/error")" = '{"notice":"--out and what is printed can'"'"'t both go to standard output: nothing is read or written"}' ] ||
        fails "call --json --out - has another record: $(cat "$work/error")"
    cp row kept
    for words in "frames row" "identify row other" "identify other row" "call --script script --out row other"; do
        status=0
        "$program" $words >> row 2> "$work/error" || status=$?
        is_status 1 "$words with its file as standard output"
        grep -q "are the same file: nothing is read or written$" "$work/error" || fails "$words with its file as standard output says otherwise"
        is_same row kept "the file of $words"
    done
    for option in --out --diagram; do
        { "$program" call --script script "$option" /dev/stdout row 2> "$work/error" || echo "status $?"; } | cat > "$work/output"
        [ "$(cat "$work/output")" = "status 1" ] || fails "call $option /dev/stdout into a pipe printed something"
    done
    works code --code mh row new
    works code --code mh row to/soft.mh
    works call --script script --out /dev/null --diagram /dev/null row
    count=$((count + 8))
    cd "$top"
}

# too_large SIZE SIGNAL WORDS: the words with OUT after them, where no file may be larger than SIZE blocks, are refused, and OUT stays as it was.
# The program's own words go through a pipe, which has no greatest size. SIGNAL is ignored, if it isn't `none`.
too_large() {
    size=$1 signal=$2
    shift 2
    cp "$work/kept" "$work/made"
    {
        (
            [ "$signal" = none ] || trap '' "$signal"
            ulimit -f "$size"
            FAXTOOL_EXPLAIN=1 exec "$program" "$@" "$work/made" 2>&1
        ) || echo "status $?"
    } | cat > "$work/output"
    printf '%s\n' "fault 8" "$work/made: it would be larger than a file may be" "status 1" > "$work/wanted"
    is_same "$work/output" "$work/wanted" "$1 where a file has at most $size blocks, with $signal ignored"
    is_same "$work/made" "$work/kept" "OUT where a file has at most $size blocks"
    ! ls "$work"/faxtool-* > "$work/listed" 2>&1 || fails "$1 left a part of OUT"
    count=$((count + 1))
}

# An output that can't be written to its end: what was there stays, and nothing lies beside it. The system ends a process that writes past the
# greatest size of a file, unless its signal is ignored; a block has 512 or 1,024 octets. And an output that is a link, or has permissions
# of its own.
try_kept() {
    echo "as it was" > "$work/kept"
    for size in 0 1 8 100; do
        too_large $size none decode --code mmr --width 1728 "$top/docs/examples/a4.mmr"
        too_large $size XFSZ decode --code mmr --width 1728 "$top/docs/examples/a4.mmr"
    done
    too_large 1 none code --code mh "$work/large.pbm"
    ln -s far "$work/link"
    echo before > "$work/far"
    { (ulimit -f 1; exec "$program" code --code mh "$work/large.pbm" "$work/link" 2>&1) || echo "status $?"; } | cat > "$work/output"
    printf '%s\n' "fault 8" "status 1" > "$work/wanted"
    is_same "$work/output" "$work/wanted" "code to a link where a file has at most a block"
    rm -f "$work/link" "$work/far" "$work/made"
    (ulimit -f 2000; exec "$program" decode --code mmr --width 1728 "$top/docs/examples/a4.mmr" "$work/made") || fails "decode below the greatest size"
    cp "$work/kept" "$work/made"
    chmod 640 "$work/made"
    works code --code mh "$data/page.pbm" "$work/made"
    [ "$(stat -c %a "$work/made")" = 640 ] || fails "OUT has other permissions"
    ln -s made "$work/link"
    works code --code mmr "$data/page.pbm" "$work/link"
    is_same "$work/made" "$data/page.mmr.msb" "OUT by a link"
    [ -L "$work/link" ] || fails "code replaced a link"
    rm -f "$work/link" "$work/made"
    count=$((count + 3))
}

# What is printed can't be written: a full disk, and a closed output.
try_outputs() {
    for words in "show --code mh --width 315 $data/page.mh.msb" "frames $data/line.bits"; do
        if [ -c /dev/full ]; then
            status=0
            "$program" $words > /dev/full 2> "$work/error" || status=$?
            [ "$status $(cat "$work/error")" = "1 fault 8" ] || fails "$words on a full disk ended with status $status"
        fi
        status=0
        "$program" $words >&- 2> "$work/error" || status=$?
        [ "$status $(cat "$work/error")" = "1 fault 8" ] || fails "$words on a closed output ended with status $status"
        count=$((count + 2))
    done
    [ ! -c /dev/full ] || faults "fault 8" code --code mh "$data/page.pbm" /dev/full
}

# A closed output gives its number to the first file that is opened then. OUT is whole where nothing is printed; else that is fault 8, and
# no file is made.
try_closed() {
    "$program" code --code mh "$data/page.pbm" "$work/made" >&- || fails "code with a closed output ended with status $?"
    is_same "$work/made" "$data/page.mh.msb" "OUT of code with a closed output"
    "$program" decode --code mh --width 315 "$work/made" "$work/decoded" >&- || fails "decode with a closed output ended with status $?"
    is_same "$work/decoded" "$data/page.pbm" "OUT of decode with a closed output"
    mkdir -p "$work/none" "$work/sent"
    input=$(octets "$white")
    echo "polite 11" > "$work/script"
    works call --script "$work/script" --bits "$work/sent" "$input"
    for words in "frames --pages $work/none $work/sent/to-answerer.bits" "call --script $work/script --out $work/none/out.pbm $input" \
        "call --lose 5% --seed 1 --out $work/none/out.pbm $input" "code --code mh $input -" "decode --code mh --width 315 $work/made -"; do
        status=0
        "$program" $words >&- 2> "$work/error" || status=$?
        [ "$status $(cat "$work/error")" = "1 fault 8" ] || fails "$words with a closed output ended with status $status"
    done
    [ -z "$(ls "$work/none")" ] || fails "a file of pages was made with a closed output"
    rm -r "$work/none" "$work/sent"
    count=$((count + 7))
}

# A new file beside OUT takes its place: no file that is there, of whatever name, is written, emptied or removed.
try_safe() {
    rm -rf "$work/safe"
    mkdir -p "$work/safe/full"
    cd "$work/safe"
    try_beside
    try_refused_outputs
    try_numbers
    cd "$top"
}

# wrote_page: OUT has the page's code, and beside it lies no new file.
wrote_page() {
    is_same out "$data/page.mh.msb" "OUT: $*"
    ! ls faxtool-* > listed 2>&1 || fails "code left a file beside OUT: $*"
}

# The files that lie beside OUT, its permissions, and its length of name.
try_beside() {
    echo mine > victim
    for kind in file link pipe folder; do
        rm -rf out out.part
        case $kind in
        file) cp victim out.part ;;
        link) ln -s victim out.part ;;
        pipe) mkfifo out.part ;;
        folder) mkdir out.part ;;
        esac
        works code --code mh "$data/page.pbm" out
        wrote_page "a $kind out.part"
        [ ! -L out ] || fails "OUT became a link"
        [ "$kind" = pipe ] || [ "$kind" = folder ] || [ "$(cat victim out.part)" = "$(printf 'mine\nmine')" ] || fails "code wrote into out.part"
    done
    rm -rf out.part
    cp "$data/page.mh.msb" page.part
    works decode --code mh --width 315 page.part page
    is_same page "$data/page.pbm" "decode of page.part"
    is_same page.part "$data/page.mh.msb" "IN beside OUT"
    long=$(printf '%0252d' 0)
    echo before > "$long"
    works code --code mh "$data/page.pbm" "$long"
    is_same "$long" "$data/page.mh.msb" "OUT with a name of 252 octets"
    try_taken_names
}

# Part files that others have left, however many: OUT is written, and they stay as they are. The shell's number is the program's after exec.
try_taken_names() {
    echo before > out
    timeout 60 sh -c 'for number in $(seq 200); do echo mine > faxtool-$$-$number.part; done
        exec "$1" code --code mh "$2" out' sh "$program" "$data/page.pbm" 2> error || fails "code among 200 part files ended with status $?"
    [ "$(cat faxtool-*.part | sort -u) $(ls faxtool-*.part | wc -l)" = "mine 200" ] || fails "code wrote or removed a file that it hadn't made"
    rm faxtool-*.part
    wrote_page "200 part files"
    count=$((count + 1))
}

# OUT stays as it was: read-only, in a folder that takes no new file, and where the program is ended in the midst.
try_refused_outputs() {
    echo before > out
    chmod 444 out
    explains "fault 8" "out: permission denied" code --code mh "$data/page.pbm" out
    ln -s out link
    explains "fault 8" "link: permission denied" code --code mh "$data/page.pbm" link
    [ "$(cat out)" = before ] || fails "code wrote into a read-only OUT"
    rm -f out link
    if [ "$(id -u)" != 0 ]; then
        echo before > full/out
        chmod 555 full
        explains "fault 8" "full/out: permission denied" code --code mh "$data/page.pbm" full/out
        [ "$(cat full/out)" = before ] || fails "code wrote OUT in a folder that takes no new file"
        chmod 755 full
    fi
    for signal in INT TERM; do
        echo before > out
        mkfifo slow
        { head -c 500 "$data/page.pbm"; sleep 2; } > slow &
        status=0
        timeout -s $signal 0.5 "$program" code --code mh slow out 2> error || status=$?
        [ "$status $(cat out)" = "124 before" ] || fails "code that is ended by $signal wrote OUT, or wasn't ended"
        rm slow out
        count=$((count + 1))
    done
    if command -v script > /dev/null; then
        status=0
        script -qec "'$program' code --code mh '$work/none' -" /dev/null < /dev/null > output || status=$?
        tr -d '\r' < output > shown
        printf 'fault 8\nstandard output is a terminal\n' > wanted
        [ "$status" = 1 ] || fails "code to a terminal ended with status $status"
        is_same shown wanted "the words of code to a terminal"
        ! grep -q none output || fails "code to a terminal looked at IN first"
        count=$((count + 1))
    fi
}

# The files of pages are new ones: a number that is taken is passed over, and the next one is told.
try_numbers() {
    line=$top/docs/examples/line.bits
    rm -rf pages
    mkdir pages
    echo mine > pages/page-1.pbm
    ln -s ../victim pages/page-2.pbm
    gives 1 frames --pages pages "$line"
    [ "$(cat victim pages/page-1.pbm)" = "$(printf 'mine\nmine')" ] || fails "frames --pages wrote into a file that was there"
    is_same pages/page-3.pbm "$top/docs/examples/row.pbm" "the page of the next free number"
    grep -qx "page 1: page-3.pbm, 1728 x 1 pixels, standard lines" "$work/output" || fails "frames --pages didn't print the number"
    for folder in missing victim; do
        gives 1 frames --pages $folder "$line"
        [ ! -s "$work/output" ] || fails "frames --pages printed a line before it looked at its folder"
        [ "$(cat "$work/error")" = "fault 8" ] || fails "frames --pages $folder"
    done
}

# Each call of the system fails once, in each command that writes files: nothing that was there is lost, no file is cut short under its
# name, and that is said.
try_calls_fail() {
    ${CC:-cc} -std=gnu11 -Wall -Wextra -O1 -shared -fPIC -o "$work/calls_fail.so" "$top/.ci/end_to_end/calls_fail.c" -ldl ||
        fails "calls_fail.c isn't compiled"
    runs=$(python3 -B "$top/.ci/end_to_end/calls_fail.py" "$program" "$work/calls_fail.so" "$top") ||
        fails "commands whose calls of the system fail"
    rm "$work/calls_fail.so"
    count=$((count + runs))
}

# A place at which nothing is when an output is opened: what is there when it is ended stays. So it is with two outputs whose names differ
# in the case of letters alone, on a disk on which that doesn't count. Each of two runs that write one file waits before it gives its name.
try_taken() {
    ${CC:-cc} -std=gnu11 -Wall -Wextra -O1 -shared -fPIC -o "$work/disk.so" "$top/.ci/end_to_end/disk.c" -ldl || fails "disk.c isn't compiled"
    taken=0
    for _ in 1 2 3 4 5 6 7 8 9 10; do
        rm -rf "$work/taken"
        mkdir "$work/taken"
        for run in 1 2; do
            { DISK_SLOW=link LD_PRELOAD=$work/disk.so "$program" decode --explain --code mh --width 315 "$data/page.mh.msb" "$work/taken/new.pbm" \
                2> "$work/said_$run" || true; } &
        done
        wait
        is_same "$work/taken/new.pbm" "$data/page.pbm" "the file of two runs"
        [ "$(ls "$work/taken")" = new.pbm ] || fails "two runs that write one file left $(ls "$work/taken")"
        cat "$work/said_1" "$work/said_2" > "$work/said"
        [ ! -s "$work/said" ] || { echo "fault 8" && echo "$work/taken/new.pbm: there is a file of this name already"; } | cmp -s - "$work/said" ||
            fails "two runs that write one file said $(cat "$work/said")"
        [ ! -s "$work/said" ] || taken=$((taken + 1))
        count=$((count + 2))
    done
    [ "$taken" -gt 0 ] || fails "no run found that its place was taken meanwhile"
    rm "$work/disk.so"
    # a file comes to the place of the pages of a call once that reads its script
    rm -rf "$work/taken" && mkdir "$work/taken" && mkfifo "$work/taken/script"
    { echo mine > "$work/taken/new.pbm"; cat "$top/docs/examples/one_page.script"; } > "$work/taken/script" &
    ends 1 call --explain --script "$work/taken/script" --out "$work/taken/new.pbm" "$top/docs/examples/row.pbm"
    wait
    [ "$(cat "$work/taken/new.pbm")" = mine ] || fails "call --out wrote over a file that wasn't there at first"
    [ "$(cat "$work/error")" = "$(printf 'fault 8\n%s: there is a file of this name already' "$work/taken/new.pbm")" ] ||
        fails "call --out said $(cat "$work/error")"
    count=$((count + 1))
}

# Standard output, standard error and the file of `--trace` at the greatest size of a file: no run ends by a signal.
try_limits() {
    runs=$(python3 -B "$top/.ci/end_to_end/limits.py" "$program" "$top") || fails "commands at the greatest size of a file"
    count=$((count + runs))
}
