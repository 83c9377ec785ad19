# `make try` and `docs/examples/join.py`: what someone who is new here runs first.

# A copy of what packaging/try.sh reads, in which this program stands for the one that it has built.
first_copy() {
    first=$work/first_try
    rm -rf "$first"
    mkdir -p "$first/docs" "$first/build" "$first/bindings"
    cp -r "$top/packaging" "$first/"
    cp -r "$top/docs/examples" "$first/docs/"
    cp "$top/crates.txt" "$top/VERSION" "$first/"
    cp "$top/bindings/build.sh" "$top"/bindings/g3fax.* "$first/bindings/"
    for crate in "$top"/crates/*/src; do
        crate=${crate%/src}
        mkdir -p "$first/crates/${crate##*/}"
        cp -r "$crate/src" "$first/crates/${crate##*/}/"
    done
    cp "$program" "$first/build/faxtool"
    (
        top=$first KIT=${KIT:-/opt/rattle}
        . "$first/packaging/common.sh"
        unproved_sum faxtool > "$first/build/faxtool.sources"
    )
}

# first STATUS: try.sh, found from another folder and by no PATH, ends with the status.
first() {
    status=0
    (cd / && timeout 120 env PATH=/usr/local/bin:/usr/bin:/bin "$first/packaging/try.sh") > "$work/output" 2> "$work/error" || status=$?
    [ "$status" = "$1" ] || fails "packaging/try.sh ended with status $status, and not $1: $(tail -n 3 "$work/output")"
    count=$((count + 1))
}

# says TEXT FILE: the line is in the file.
says() {
    grep -qF -e "$1" "$2" || fails "this isn't said: $1"
}

# The page of docs/examples comes over a bad line; a page that is changed on its way, and sources that can't be built, end with a fault.
try_first() {
    first_copy
    first 0
    [ ! -s "$work/error" ] || fails "packaging/try.sh wrote to standard error"
    says "build/faxtool is built of these sources already, without proof" "$work/output"
    says "12 of 64 items were lost, and 7 frames of the page were sent again" "$work/output"
    says "the stored page is the page that was sent, pixel for pixel" "$work/output"
    says "answerer normal pages 1" "$work/output"
    [ -s "$first/build/call.svg" ] || fails "packaging/try.sh drew no picture"
    rm -f "$work/call.svg"
    works decode --code mmr --width 1728 "$top/docs/examples/fax.mmr" "$work/fax.pbm"
    works call --lose 20% --seed 7 --expect normal --diagram "$work/call.svg" "$work/fax.pbm"
    is_same "$work/call.svg" "$top/docs/call.svg" "docs/call.svg, which a call of docs/examples/fax.mmr draws"
    rm "$work/call.svg"
    works decode --code mmr --width 1728 --fine "$top/docs/examples/a4.mmr" "$work/a4.pbm"
    is_same "$first/build/stored.pbm" "$work/a4.pbm" "the page that packaging/try.sh stores"
    cat > "$first/build/faxtool" << WRONG
#!/bin/sh
"$program" "\$@" || exit
[ "\$1" != call ] || printf x | dd of=build/stored.pbm bs=1 seek=4000 conv=notrunc 2> /dev/null
WRONG
    first 1
    says "the stored page is another one than was sent" "$work/error"
    cat > "$first/build/faxtool" << WRONG
#!/bin/sh
"$program" "\$@"
[ "\$1" != call ]
WRONG
    first 1
    says "the call didn't end normally" "$work/error"
    try_first_kit
}

# Without a kit a line says so. Where a source is changed the program is built anew, and where that fails none is there.
try_first_kit() {
    kit=$KIT
    export KIT="$work/no kit"
    rm -rf "$KIT"
    first 1
    says "there is no Rattle kit in $KIT" "$work/error"
    mkdir -p "$KIT/bin" "$KIT/toolchain/bin" "$KIT/toolchain/lib"
    touch "$KIT/KIT-ID" "$KIT/WHAT" "$KIT/bin/rtlib.py" "$KIT/bin/rattle" "$KIT/toolchain/bin/clang" "$KIT/toolchain/bin/ld.lld"
    printf '#!/bin/sh\necho "rt was called: $*"\n' > "$KIT/bin/rt"
    chmod +x "$KIT/bin/rt"
    (
        top=$first
        . "$first/packaging/common.sh"
        unproved_sum faxtool > "$first/build/faxtool.sources"
    )
    cp "$program" "$first/build/faxtool"
    first 0
    echo "// changed" >> "$first/crates/raster/src/lib.rt"
    first 1
    says "rt was called: try" "$work/error"
    [ ! -e "$first/build/faxtool" ] || fails "packaging/try.sh left a program of other sources"
    export KIT="$kit"
    [ -n "$KIT" ] || unset KIT
}

# joins STATUS WORDS: docs/examples/join.py ends with the status, with one line on standard error if that isn't 0; no signal ended a station.
joins() {
    end=$1 status=0
    shift
    timeout 600 python3 -B "$top/docs/examples/join.py" "$@" > "$work/output" 2> "$work/error" || status=$?
    [ "$status" = "$end" ] || fails "join.py $* ended with status $status, and not $end"
    ! grep ', status -' "$work/output" >&2 || fails "join.py $*: a signal ended a station"
    [ "$end" = 0 ] || [ "$(wc -l < "$work/error")" = 1 ] || fails "join.py $* wrote $(wc -l < "$work/error") lines on standard error"
    count=$((count + 1))
}

# Two of docs/examples/driver.py, in real time.
try_drivers() {
    rm -rf "$work/drivers"
    mkdir "$work/drivers"
    timeout 300 python3 -B "$top/.ci/end_to_end/drivers.py" "$program" "$top/docs/examples/driver.py" "$top/docs/examples/row.pbm" "$work/drivers" \
        > "$work/output" 2> "$work/error" || fails "docs/examples/driver.py: $(cat "$work/error")"
    rm -r "$work/drivers"
    count=$((count + 1))
}

# pools_odd SAYS WORDS: docs/examples/pool.py says in one line what is wrong with its words, with status 2, and begins no call.
pools_odd() {
    says=$1 status=0
    shift
    timeout 60 python3 -B "$top/docs/examples/pool.py" "$@" > "$work/output" 2> "$work/error" || status=$?
    [ "$status" = 2 ] || fails "pool.py $* ended with status $status: $(cat "$work/error")"
    [ "$(cat "$work/error")" = "pool.py: error: $says" ] || fails "pool.py $*: $(cat "$work/error")"
    [ ! -s "$work/output" ] || fails "pool.py $* printed $(cat "$work/output")"
    count=$((count + 1))
}

# Words that pool.py can't take: numbers that are none, files and folders that aren't there, and a folder of a call that is there.
try_pool_words() {
    rm -rf "$work/pooled"
    mkdir -p "$work/pooled/call-2"
    set -- --calls 2 --command "$program station"
    pools_odd "the following arguments are required: IN.pbm, DIR"
    pools_odd "the following arguments are required: DIR" "$row"
    pools_odd "argument --calls: invalid count value: '0'" --calls 0 "$row" "$work/pooled"
    pools_odd "argument --lines: invalid count value: '-1'" --lines -1 "$row" "$work/pooled"
    pools_odd "argument --slow: invalid number value: '-1'" --slow -1 "$row" "$work/pooled"
    pools_odd "argument --command: invalid command value: ''" --command "" "$row" "$work/pooled"
    pools_odd "$work/missing can't be run: --command names another program" --command "$work/missing station" "$row" "$work/pooled"
    pools_odd "$work/missing.pbm: No such file or directory" "$@" "$work/missing.pbm" "$work/pooled"
    pools_odd "$work/missing/call-1: No such file or directory" "$@" "$row" "$work/missing"
    pools_odd "$work/pooled/call-2: File exists" "$@" "$row" "$work/pooled"
    pools_odd "$program: PBM images (P4) are expected here" "$@" "$program" "$work/pooled"
    rm -r "$work/pooled"
}

# join.py says in a line that there is no program, no folder or no document, with the station's own words.
try_joins() {
    row=$top/docs/examples/row.pbm
    set -- --caller-command "$program station --call" --answerer-command "$program station --answer"
    rm -rf "$work/stored"
    mkdir "$work/stored"
    joins 2 --caller-command "$work/missing station --call" --answerer-command "$program station --answer" "$row" "$work/stored"
    says "join.py: $work/missing can't be run as the caller: No such file or directory" "$work/error"
    joins 1 "$@" "$row" "$work/missing"
    says "join.py: the answerer failed: fault 8; $work/missing: no such file or folder" "$work/error"
    joins 1 "$@" "$work/missing.pbm" "$work/stored"
    says "join.py: the caller failed: fault 8; $work/missing.pbm: no such file or folder" "$work/error"
    for words in --lose --slow=-1 --slow=x --seed=x --caller-command= --lines=1 "one two three"; do
        joins 2 $words "$row" "$work/stored"
    done
    joins 2 --answerer-command "'" "$row" "$work/stored"
    try_pool_words
    for rate in 101% 1/0 -1 x; do
        status=0
        python3 -B "$top/docs/examples/join.py" "--lose=$rate" "$row" "$work/stored" > "$work/output" 2> "$work/error" || status=$?
        [ "$status $(tail -n 1 "$work/error")" = "2 join.py: error: argument --lose: invalid rate value: '$rate'" ] || fails "join.py --lose=$rate"
    done
    joins 0 "$@" "$row" "$work/stored"
    [ ! -s "$work/error" ] || fails "join.py of a call that ends normally wrote to standard error"
    # a station that says more of its pages than a pipe holds
    for page in $(seq 1100); do cat "$row"; done > "$work/many.pbm"
    joins 0 "$@" "$work/many.pbm" "$work/stored"
    says "answerer: end normal pages 1100, status 0" "$work/output"
    rm "$work/many.pbm"
    rm -r "$work/stored"
}
