# The man pages and the completions, which docs/man/make.py writes.

# They are those of the program's help; `man` and `mandoc`, where they are there, show each page without a warning; zsh and fish, where they
# are there, take their completion. Only what was tried is counted.
try_man() {
    "$top/docs/man/make.py" "$program" --check > "$work/output" 2> "$work/error" || fails "man pages and completion"
    count=$((count + 1))
    for page in "$top"/docs/man/*.1; do
        if command -v man > /dev/null; then
            LC_ALL=C.UTF-8 MANWIDTH=80 man --warnings -l "$page" > "$work/output" 2> "$work/error" || fails "man -l $page"
            [ -s "$work/output" ] && [ ! -s "$work/error" ] || fails "man -l $page has a warning"
            count=$((count + 1))
        fi
        if command -v mandoc > /dev/null; then
            mandoc -T lint "$page" > "$work/error" 2>&1 || fails "mandoc $page"
            count=$((count + 1))
        fi
    done
    command -v man > /dev/null || command -v mandoc > /dev/null || echo "end to end: there is no man and no mandoc, so no man page is shown"
    if command -v zsh > /dev/null; then
        zsh -n "$top/docs/completion/_faxtool" 2> "$work/error" || fails "the completion for zsh"
    fi
    if command -v fish > /dev/null; then
        fishes "code show decode frames call identify judge station version help" ""
        fishes "mh mmr t4 t6" "code --code "
        fishes "v27 v27v29 v29" "station --modems v2"
        for command in code show decode frames call identify judge station version; do
            gives 2 "$command" --help
            fishes "$(sed -n 's/^  *\(-h, \)\{0,1\}\(--[a-z0-9-]*\).*/\2/p' "$work/error")" "$command --"
        done
    fi
}

# fishes WANTED WORDS: what fish completes the words to, in any order.
fishes() {
    # a home of its own, so that no settings are read
    HOME=$work XDG_CONFIG_HOME=$work/config XDG_DATA_HOME=$work/data fish -c \
        "source '$top/docs/completion/faxtool.fish'; complete -C 'faxtool $2'" 2> "$work/error" | cut -f 1 | sort > "$work/output"
    printf '%s\n' $1 | sort > "$work/wanted"
    is_same "$work/output" "$work/wanted" "fish completes faxtool $2"
}
