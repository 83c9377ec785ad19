# The second reading of the tables, in bench/fuzz.

# 300 random scripts, 100 random calls over a bad line, 20 runs of many such calls and 300 random pages of fixed seeds: what the program prints and decodes is what the
# reference says.
try_reference() {
    for reading in reference_call reference_drive reference_times reference_pages; do
        python3 -B "$top/bench/fuzz/$reading.py" --dry > "$work/output" || fails "$reading.py doesn't read its worked cases: $(cat "$work/output")"
    done
    mkdir -p "$work/reference"
    timeout 600 python3 -B "$data/try_reference.py" "$program" "$work/reference" || fails "the reference says something else"
    count=$((count + 720))
}

# try_flood STREAM FAXTOOL: a page of 20,000 rows in 7.5 kilooctets of code, sent forty times to an answerer that has room for two pages. Each
# is stored, taken after an RNR and confirmed, in memory for three of its bitmaps of 6 megaoctets and little more.
try_flood() {
    python3 -c "import sys; sys.stdout.buffer.write(b'P4\n2432 20000\n' + (b'@' + bytes(303)) * 20000)" > "$work/bar.pbm"
    "$2" code --code mmr --order lsb "$work/bar.pbm" "$work/bar.code" || fails "the page of a bar isn't coded"
    (ulimit -v 30000; exec "$1" "$work/bar.code" flood) > "$work/output" 2> "$work/error" || fails "${1##*/}: a flood of pages: $(cat "$work/error")"
    [ "$(sort "$work/output" | uniq -c | awk '{ print $1, $2, $3, $5 }' | tr '\n' ';')" = "40 Mcf  ;20 Rnr  ;40 page 2432 20000;" ] ||
        fails "${1##*/}: a flood of pages is answered otherwise: $(sort "$work/output" | uniq -c | head -5)"
}

# try_streams FAXTOOL: the rows by octets, what stations of each type say, and the calls of .ci/calls by joined terminals; 300 random streams of a fixed seed and the octets of 300 calls: what the programs of
# crates/stream_tool answer, store and send is what the reference says. The codes of the calls' pages are FAXTOOL's.
try_streams() {
    python3 -B "$top/bench/fuzz/fuzz_stream.py" --dry > "$work/output" || fails "fuzz_stream.py doesn't answer its worked streams: $(cat "$work/output")"
    mkdir -p "$work/reference"
    built=$top/crates/stream_tool/out/stream_tool
    [ -z "$STREAM" ] || built=$STREAM
    if [ ! -x "$built" ]; then
        echo "end to end: no stream_tool is built, so it is built without proof"
        built=$work/stream_tool
        "$top/packaging/build_unproved.sh" "$top/crates/stream_tool" "$built" > "$work/built" 2>&1 || { cat "$work/built" >&2; exit 1; }
    fi
    for stream in "$built" "$built.by-rattle"; do
        [ -x "$stream" ] || continue
        timeout 600 python3 -B "$data/try_rows.py" "$stream" "$1" "$work/reference" || fails "${stream##*/}: a worked row has other octets"
        timeout 600 python3 -B "$data/try_stations.py" "$stream" "$work/reference" "$top/docs/STATION.md" || fails "${stream##*/}: a station says something else"
        timeout 600 python3 -B "$data/try_joined.py" "$stream" "$1" "$top/.ci/calls" "$work/reference" || fails "${stream##*/}: joined terminals end otherwise"
        timeout 600 python3 -B "$data/try_streams.py" "$stream" "$work/reference" || fails "${stream##*/}: the reference answers something else"
        timeout 600 python3 -B "$data/try_octets.py" "$stream" "$1" "$work/reference" || fails "${stream##*/}: the reference sends other octets"
        [ "$stream" != "$built" ] || try_flood "$stream" "$1"
        echo "end to end: ${stream##*/} passed 300 streams and 300 calls"
    done
}
