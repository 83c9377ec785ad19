# What the scripts of this folder use: names, times and what is missing. `top` is the top of the repository.
# shellcheck shell=sh disable=SC2154

# ends WORDS: says what is wrong, and ends.
ends() {
    echo "${0##*/}: $*" >&2
    exit 1
}

# needs PROGRAM..: each of these programs is there.
needs() {
    for word in "$@"; do
        command -v "$word" > /dev/null || ends "the program $word is missing"
    done
}

# gits WORDS: git, of the repository here, whoever owns it.
gits() {
    git -c safe.directory="$top" -C "$top" "$@"
}

# is_git: the top is that of a git repository, and git is there.
is_git() {
    command -v git > /dev/null && [ "$(gits rev-parse --show-toplevel 2> /dev/null)" = "$top" ]
}

# commit: the commit of the sources, with a word where they were changed since; of a source tarball the one that its file COMMIT has.
commit() {
    if is_git; then
        changed=
        [ -z "$(gits status --porcelain)" ] || changed=" and changes that aren't committed"
        echo "$(gits rev-parse HEAD)$changed"
    elif [ -f "$top/COMMIT" ]; then
        cat "$top/COMMIT"
    else
        echo "unknown"
    fi
}

# is_proved PROGRAM LIBRARY: neither the program nor the library in this folder says that it was built without proof. A program that says
# nothing isn't taken for a proved one; of one that isn't there install.sh tells.
is_proved() {
    { [ ! -f "$1" ] || "$1" version | grep -v "built without proof" | grep -q .; } && ! grep -qs "built without proof" "$2/g3fax.pc"
}

# marks FILE PROGRAM LIBRARY: docs/PROOF.md as it is installed says in its second paragraph if what is installed was built without proof.
marks() {
    # shellcheck disable=SC2016
    is_proved "$2" "$3" || sed -i '1a\
\
**The program and the library that are installed here were built without proof.** What follows is of those that `make` builds.' "$1"
}

# epoch: the time that files in a package have, in seconds: SOURCE_DATE_EPOCH, else that of the commit, else that of the file VERSION.
epoch() {
    if [ -n "$SOURCE_DATE_EPOCH" ]; then
        echo "$SOURCE_DATE_EPOCH"
    elif is_git; then
        gits log -1 --format=%ct
    else
        stat -c %Y "$top/VERSION"
    fi
}

# sources: each file of the sources, one a line, in the order of its octets.
sources() {
    if is_git; then
        gits ls-files
    else
        (cd "$top" && find . -type f ! -path '*/out/*' ! -path './build/*' ! -path './bindings/build/*' ! -path '*/__pycache__/*' \
            ! -path './.git/*' \
            ! -path ./COMMIT | sed 's,^\./,,')
    fi | LC_ALL=C sort
}

# unproved_sum CRATE: the sum of what a build of a crate without proof is made of: its sources, those of the crates below it, the scripts
# that build it, and the name of the kit.
unproved_sum() {
    (
        cd "$top"
        for crate in "$1" $(sed -n "s/^$1\( *staticlib\)\{0,1\}://p" crates.txt); do
            [ ! -d "crates/$crate" ] || find "crates/$crate/src" -type f
        done | LC_ALL=C sort | xargs -d '\n' sha256sum
        sha256sum crates.txt VERSION packaging/build_unproved.sh packaging/reach_exports.py bindings/build.sh bindings/g3fax.*
        cat "$KIT/KIT-ID" "$KIT/WHAT"
    ) | sha256sum | cut -d ' ' -f 1
}
