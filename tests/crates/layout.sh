#!/bin/sh
# sh tests/crates/layout.sh [ROOT]
#
# Whether `rt fmt` would change a file of a crate: it lays out copies, in a temporary folder. Names every file that it would
# change, and every must-fail edit that can't be applied. `rt ci` refuses the first, and lets the second pass as a bad
# edit. Stops where nothing was looked at.

root=$(cd "${1:-$(dirname "$0")/../..}" && pwd) || exit 1
work=$(mktemp -d) || exit 1
trap 'rm -rf "$work"' EXIT
trap 'exit 1' HUP INT TERM

crates=0
for crate in "$root"/crates/*; do
    [ -d "$crate/src" ] || continue
    name=$(basename "$crate")
    mkdir -p "$work/crates/$name" || exit 1
    for part in src specs proofs must-fail; do
        [ ! -d "$crate/$part" ] || cp -r "$crate/$part" "$work/crates/$name" || exit 1
    done
    (cd "$work/crates/$name" && rt fmt) >"$work/said" 2>&1 || { cat "$work/said"; echo "layout: rt fmt fails in crates/$name"; exit 1; }
    sed -n -e "s,^rt: formatted \(.*\),layout: crates/$name/\1: rt fmt lays it out otherwise,p" \
        -e "s,^rt: note: \(must-fail/.* cannot be applied.*\),layout: crates/$name/\1,p" "$work/said" >>"$work/found"
    crates=$((crates + 1))
done
[ "$crates" -gt 0 ] || { echo "layout: there are no crates in $root" >&2; exit 1; }
[ ! -s "$work/found" ] || { cat "$work/found"; exit 1; }
echo "layout: $crates crates, as rt fmt has them"
