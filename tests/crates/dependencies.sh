#!/bin/sh
# sh tests/crates/dependencies.sh [ROOT]
#
# Every crate that crates.txt names behind another is used by it: in its sources as NAME:: or in its definitions and
# proofs as a module of NAME. A line is NAME: DEP DEP .., with `staticlib` behind the name of a static library. Stops with
# a list of those that are not used, and where nothing was looked at.

root=${1:-$(dirname "$0")/../..}
[ -f "$root/crates.txt" ] || { echo "dependencies: there is no crates.txt in $root" >&2; exit 1; }

sed 's/#.*//' "$root/crates.txt" | awk -F: 'NF > 1 { split($1, name, " "); print name[1], $2 }' | {
    crates=0
    named=0
    unused=''
    while read -r crate needed; do
        crates=$((crates + 1))
        for other in $needed; do
            named=$((named + 1))
            if ! grep -rqE --include='*.rt' --include='*.antt' "(^|[^a-z_])$other::|Rattle\.$other\." \
                $(for folder in src specs proofs; do [ -d "$root/crates/$crate/$folder" ] && echo "$root/crates/$crate/$folder"; done); then
                unused="${unused}dependencies: $crate names $other and does not use it
"
            fi
        done
    done
    [ -z "$unused" ] || { printf '%s' "$unused"; exit 1; }
    [ "$named" -gt 0 ] || { echo "dependencies: crates.txt names none"; exit 1; }
    echo "dependencies: $crates crates use all $named that crates.txt names"
}
