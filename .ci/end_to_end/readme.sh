# The command lines of the README, of docs/USING.md, docs/SCRIPTS.md and docs/JSON.md, and the recipes with other programs.

# Each command line of these documents ends and prints as they show, in a copy of docs/examples.
try_readme() {
    commands=$("$top/.ci/sessions.py" "$program" "$top/README.md" "$top/docs/USING.md" "$top/docs/SCRIPTS.md" "$top/docs/JSON.md" "$top/docs/BENCH.md" 2> "$work/error") || fails "a command line of a document"
    count=$((count + commands))
}

# The recipes for pictures and archives make what they should, where their programs are installed.
try_recipes() {
    python3 -B "$data/try_recipes.py" "$program" > "$work/output" 2>&1 || { cat "$work/output"; fails "a recipe of docs/USING.md or docs/ARCHIVE.md"; }
    sed '$d' "$work/output"
    count=$((count + $(tail -n 1 "$work/output")))
}

# An archive of files that other programs make, as far as these are installed: what each is said to be, and its pages.
try_archive() {
    python3 -B "$data/try_archive.py" "$program" > "$work/output" 2>&1 || { cat "$work/output"; fails "an archive of other programs' files"; }
    sed '$d' "$work/output"
    count=$((count + $(tail -n 1 "$work/output")))
}
