#!/bin/sh
# sh tests/corpus/list.sh
#
# `make list` with names of files as people have them: blanks, both quotes, dollar signs and the shell's signs; and what it
# says of a folder, of no file, and of a file that can't be read. Needs the listing program. $MAKE names make.

root=$(cd "$(dirname "$0")/../.." && pwd)
make=${MAKE:-make}
work=$(mktemp -d) || exit 1
trap 'rm -rf "$work"' EXIT
trap 'exit 1' HUP INT TERM

fail() {
    echo "make list: $*"
    exit 1
}

# What make list says of a table: status, standard output, standard error. Told of no other make's options.
list() {
    (cd "$root" && MAKEFLAGS= MFLAGS= MAKELEVEL= $make --no-print-directory list TABLE="$1") >"$work/out" 2>"$work/err"
}

names=0
for name in plain.table 'two blanks.table' "it's.table" 'the "run".table' 'a$b $(c) ${d} `e`.table' 'a#b;c&d.table'; do
    cp "$root/tests/corpus/example_a.table" "$work/$name" || exit 1
    list "$work/$name" || { cat "$work/err"; fail "$name: refused"; }
    diff "$root/tests/corpus/example_a.listing" "$work/out" || fail "$name: not the listing of example A"
    names=$((names + 1))
done

# Refused, with the name and these words, and nothing on standard output.
refuses() {
    if list "$1"; then fail "$1: taken"; fi
    [ ! -s "$work/out" ] || { cat "$work/out"; fail "$1: refused, with an answer"; }
    grep -qxF "$1: $2" "$work/err" || { cat "$work/err"; fail "$1: refused, but not by '$2'"; }
}
refuses "$work" "this is a folder, and a table is a file"
refuses "$work/it's not there" "there is no such file"
cp "$root/tests/corpus/example_a.table" "$work/closed" && chmod 0 "$work/closed" || exit 1
if [ -r "$work/closed" ]; then
    echo "make list: this user reads every file, so that one that can't be read was not tried"
else
    refuses "$work/closed" "it can't be read"
fi

echo "make list: $names names taken; a folder and a missing file refused by name"
