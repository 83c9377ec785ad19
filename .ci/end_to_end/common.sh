# What each file of cases uses: a run of the program, and what it must give.

# fails WORDS: tells what is wrong, and ends.
fails() {
    echo "end to end: FAILED: $*" >&2
    [ ! -s "$work/error" ] || head -5 "$work/error" >&2
    exit 1
}

# is_status STATUS WORDS: $status is this one. A program that a signal ended has 128 and the signal's number, so it is no status that a
# case wants.
is_status() {
    [ "$status" = "$1" ] || { end=$1; shift; fails "$* ended with status $status, and not $end"; }
}

# ends STATUS WORDS: the program ends with the status. It reads the standard input of this call.
ends() {
    end=$1 status=0
    shift
    timeout 60 "$program" "$@" > "$work/output" 2> "$work/error" || status=$?
    is_status "$end" "faxtool $*"
}

# gives STATUS WORDS: the same without standard input, counted as a run.
gives() {
    ends "$@" < /dev/null
    count=$((count + 1))
}

# finds_least: $least is the memory, in KB for `ulimit -v`, under which the program begins in each run: no case gives it less. With the
# least memory the system can't map the program's file and ends it by SIGSEGV, status 139: below 2,000 KB for a program of clang, and some
# 2,840 for one of Rattle's own compiler. With more the loader can't map the C library, status 127. A SIGSEGV after that is the program's own.
finds_least() {
    is_mapped=
    for least in $(seq 1000 20 12000); do
        status=0
        { (ulimit -v "$least"; exec "$program" version) || status=$?; } > "$work/output" 2> "$work/error"
        case $is_mapped$status in
        139) ;;
        *127) is_mapped=yes ;;
        *) break ;;
        esac
    done
    [ "$status" -le 1 ] || fails "faxtool version with $least KB of memory ended with status $status"
    least=$((least + 40))
}

# within KB WORDS: the program in so much memory; $status is its status. The system gives a stack some 130 KB at a place that differs from run
# to run, and ends a program by SIGSEGV, status 139, whose stack passes that by a page where no memory is left: so it is run up to five times
# until it ends otherwise. A crash of its own comes each time.
within() {
    most=$1
    shift
    for _ in 1 2 3 4 5; do
        status=0
        { (ulimit -v "$most"; exec "$program" "$@") || status=$?; } > "$work/output" 2> "$work/error"
        [ "$status" = 139 ] || break
    done
}

# is_same FILE WANTED WORDS: the file has the octets of the other one.
is_same() {
    difference=$(cmp "$1" "$2" 2>&1) || fails "$3: other octets: $difference"
}

# works WORDS: the program ends well and says nothing on standard error.
works() {
    gives 0 "$@"
    [ ! -s "$work/error" ] || fails "$* wrote to standard error"
}

# faults LINE WORDS: the program ends with status 1 and the line on standard error, and prints nothing; and with --explain a
# second line comes after it.
faults() {
    line=$1
    shift
    gives 1 "$@" --explain
    [ "$(head -n 1 "$work/error")" = "$line" ] || fails "$* --explain didn't write: $line"
    [ "$(wc -l < "$work/error")" = 2 ] && [ -n "$(tail -n 1 "$work/error")" ] || fails "$* --explain didn't write a second line"
    gives 1 "$@"
    [ "$(cat "$work/error")" = "$line" ] || fails "$* didn't write: $line"
    [ ! -s "$work/output" ] || fails "$* printed something"
}

# explains LINE SECOND WORDS: as faults, and with --explain the second line is this one.
explains() {
    line=$1 second=$2
    shift 2
    faults "$line" "$@"
    gives 1 "$@" --explain
    printf '%s\n%s\n' "$line" "$second" > "$work/wanted"
    is_same "$work/error" "$work/wanted" "the words of $*"
    [ ! -s "$work/output" ] || fails "$* --explain printed something"
}

# takes_at_most KB WORDS: the program ends well, and never has more memory than this resident, by the system's count.
takes_at_most() {
    most=$1
    shift
    python3 -B -c 'import resource, subprocess, sys
subprocess.run(sys.argv[2:], check=True, stdin=subprocess.DEVNULL)
most = resource.getrusage(resource.RUSAGE_CHILDREN).ru_maxrss
sys.exit(most > int(sys.argv[1]) and f"{most} KB resident")' "$most" "$program" "$@" > "$work/output" 2> "$work/error" ||
        fails "faxtool $* in $most KB"
    count=$((count + 1))
}

# refuses WORDS: the words are not a command: status 2, a text on standard error and none on standard output.
refuses() {
    gives 2 "$@"
    [ -s "$work/error" ] || fails "$* gave no text"
    [ ! -s "$work/output" ] || fails "$* printed something"
}

# octets TEXT: a file of the octets of a text in hex, whose name it prints.
octets() {
    name=$work/octets_$(echo "$1" | cksum | tr -d ' ')
    for hex in $(echo "$1" | tr _ ' '); do
        printf "\\$(printf %03o "0x$hex")"
    done > "$name"
    echo "$name"
}

# bits TEXT: a file of the bits of a text of 0 and 1, filled with 0 to an octet, whose name it prints.
bits() {
    name=$work/bits_$(echo "$1" | cksum | tr -d ' ')
    python3 -c 'import sys
text = sys.argv[1].replace(" ", "")
text += "0" * (-len(text) % 8)
sys.stdout.buffer.write(bytes(int(text[at:at + 8], 2) for at in range(0, len(text), 8)))' "$1" > "$name"
    echo "$name"
}
