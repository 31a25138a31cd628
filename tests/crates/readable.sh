#!/bin/sh
# sh tests/crates/readable.sh [ROOT]
#
# What a person has to follow in the crates (CONTRIBUTING.md, "A function's proof"): no line of more than 160 columns in
# proofs, and of 120 in definitions and code; no chain of more than six `.before`, and no `.requires` read by place deeper
# than two, however they are broken over lines; no two files of laws with one name, and no two records, of definitions,
# laws and functions' proofs. Columns are bytes, whatever awk is at hand: what is within them is within them by
# characters too. What rt leaves in crates/*/out is passed over. Names every place that is not so, and stops where nothing
# was looked at.

root=${1:-$(dirname "$0")/../..}
cd "$root" || exit 1
LC_ALL=C
export LC_ALL
work=$(mktemp -d) || exit 1
trap 'rm -rf "$work"' EXIT
trap 'exit 1' HUP INT TERM

# The files of a part of the crates with that ending.
of_part() {
    for crate in crates/*; do
        [ ! -d "$crate/$1" ] || find "$crate/$1" -type f -name "*.$2"
    done
}
of_part proofs antt | sort >"$work/proofs"
{ of_part specs antt; of_part src rt; } | sort >"$work/definitions"
[ -s "$work/proofs" ] && [ -s "$work/definitions" ] || { echo "readable: there are no proofs and definitions in $root" >&2; exit 1; }

# Lines that are too long: the limit, the files.
columns() {
    xargs awk -v limit="$1" 'length($0) > limit { print "readable: " FILENAME ":" FNR ": " length($0) " columns, more than " limit }' <"$2"
}

# Chains, over the whole of each file. A step is a word of its own, however it is written.
chains() {
    xargs awk '
        function step(word) {
            if (word == ".before") { if (!before++) at = FNR } else before = 0
            if (before == 7) print "readable: " FILENAME ":" at ": a chain of more than six .before"
            if (word == ".requires") { asked = 1; place = FNR } else if (asked && word ~ /^\.[0-9]+$/) asked++; else asked = 0
            if (asked == 4) print "readable: " FILENAME ":" place ": .requires by place, deeper than two"
        }
        FNR == 1 { before = 0; asked = 0 }
        {
            text = $0
            sub(/(^|[ \t])--([ \t].*)?$/, "", text)
            gsub(/[(){}]/, " & ", text)
            gsub(/\./, " .", text)
            n = split(text, words, /[ \t]+/)
            for (i = 1; i <= n; i++) if (words[i] != "") step(words[i])
        }' <"$1"
}

# Records with one name, in whatever crates: the later one is told, definitions first.
records() {
    grep -h '\.antt$' "$work/definitions" "$work/proofs" | xargs awk '
        {
            i = 1
            while ($i ~ /^(pub|private|abbrev|unfoldable)$/) i++
            name = $(i + 1)
            if ($i != "record" || name == "" || name ~ /^[{(]/) next
            if (name in first) print "readable: " FILENAME ":" FNR ": the record " name ": " first[name] " has that name too"
            else first[name] = FILENAME ":" FNR
        }'
}

{
    columns 160 "$work/proofs"
    columns 120 "$work/definitions"
    chains "$work/proofs"
    records
    # Files of laws stand right under proofs/; every crate has its Lib.
    grep -E '^crates/[^/]*/proofs/[^/]*\.antt$' "$work/proofs" | grep -v '/Lib\.antt$' |
        awk -F/ '{ if ($4 in first) print "readable: " $0 ": " first[$4] " has that name too"; else first[$4] = $0 }'
} >"$work/found"

[ ! -s "$work/found" ] || { cat "$work/found"; exit 1; }
echo "readable: $(wc -l <"$work/proofs") proofs and files of laws, $(wc -l <"$work/definitions") of definitions and code"
