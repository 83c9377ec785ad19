# What .ci/run says of its parts. `parts` is how many there are.
# shellcheck shell=sh disable=SC2154

begun=$(date +%s) number=0 spent=$(mktemp)
trap 'rm -f "$spent"' EXIT

# used: the processor minutes of all that ran so far, by what `times` wrote: in the shell itself, since another one has run nothing.
used() {
    sed -n '2s/[ms]/ /gp' "$spent" | awk '{ printf "%.0f", $1 + $2 / 60 + $3 + $4 / 60 }'
}

# part WORDS: says which part begins, and when, and runs it.
part() {
    number=$((number + 1)) since=$(($(date +%s) - begun))
    printf '== part %d of %d, after %d min %02d s: %s\n' "$number" "$parts" $((since / 60)) $((since % 60)) "$*"
    "$@"
}

# whole: says how long all parts took.
whole() {
    since=$(($(date +%s) - begun))
    times > "$spent"
    [ "$number" = "$parts" ] || { echo "run: there were $number parts, and not $parts" >&2; exit 1; }
    printf '== all %d parts passed in %d min %02d s, with %s processor minutes\n' "$number" $((since / 60)) $((since % 60)) "$(used)"
}
