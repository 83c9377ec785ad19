#!/bin/sh
# Builds the tests of crates without proof, with all checks and the address sanitizer, and runs each test in a process of its own:
#
#     .ci/crate_tests.sh CRATE..
#
# They are the tests that `rt ci` proves and runs, and stop where `rt try --test` does, which isn't optimized and takes a quarter of an hour for
# the largest page. Ends with status 1 at the first that fails, is stopped, or takes ten minutes.
set -e
top=$(cd "$(dirname "$0")/.." && pwd)
work=$(mktemp -d)
trap 'rm -rf "$work"' EXIT

fails() {
    cat "$work/said" >&2
    echo "crate tests: FAILED: $*" >&2
    exit 1
}

[ $# -gt 0 ] || { echo "usage: crate_tests.sh CRATE.." >&2; exit 2; }
for crate in "$@"; do
    "$top/packaging/build_unproved.sh" "$top/crates/$crate" "$work/tests" --checked > "$work/said" 2>&1 || fails "$crate isn't built"
    "$work/tests" --list > "$work/said" 2>&1 || fails "$crate lists no tests"
    tests=$(sed -n 's/: test$//p' "$work/said")
    # none may be left out
    [ "$(echo "$tests" | grep -c .)" = "$(grep -rh '^ *#\[test\]' "$top/crates/$crate/src" | wc -l)" ] || fails "$crate has other tests"
    for test in $tests; do
        timeout 600 "$work/tests" "$test" > "$work/said" 2>&1 || fails "$crate $test: status $?"
    done
    echo "crate tests: $(echo "$tests" | wc -l) of $crate passed, built without proof"
done
