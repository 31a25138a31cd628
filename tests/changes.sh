# For scripts that show that another script can fail: it is run over copies of the repository's files with one change
# each, and has to find every one. To be read by `.`; before that, these are set:
#   work    a folder for other files
#   prefix  what a line begins with that tells of a difference
# and two functions are there: `fresh` makes the copy anew, and `tested` runs the script over it. `copy` is its folder:
# outside the repository, since rt refuses sources that stand in no crate, and taken away at the end, whatever happens.

outside=$(mktemp -d) || exit 1
trap 'rm -rf "$outside"' EXIT
trap 'exit 1' HUP INT TERM
copy=$outside/copy
found=0

fail() {
    echo "must_fail: $*"
    exit 1
}

# Without a change the script finds nothing.
finds_nothing() {
    fresh
    tested >"$work/must_fail.out" 2>&1 || { cat "$work/must_fail.out"; fail "a difference is found in what is as it should be"; }
}

# The script finds what was changed in the copy, which the words name.
finds() {
    tested >"$work/must_fail.out" 2>&1 && fail "not found: $*"
    grep -q "^$prefix: " "$work/must_fail.out" || { cat "$work/must_fail.out"; fail "the script broke down over: $*"; }
    found=$((found + 1))
}

# A file of the copy, and the edit that it gets by sed: found?
changed() {
    fresh
    sed "$2" "$copy/$1" >"$work/must_fail.edited" || fail "sed can't make the edit: $1, $2"
    cmp -s "$work/must_fail.edited" "$copy/$1" && fail "the edit changes nothing: $1, $2"
    cp "$work/must_fail.edited" "$copy/$1"
    finds "$1, $2"
}
