#!/bin/sh
# sh tests/corpus/run.sh PROGRAM
#
# Gives every table of this folder to PROGRAM on standard input and compares
# what it prints with the expected listing, byte for byte. Stops at the first
# difference. The exit status of PROGRAM is not looked at, except that an end
# by a signal is a failure: the format's document says nothing of it.

if [ $# -ne 1 ]; then
    echo "usage: sh tests/corpus/run.sh PROGRAM" >&2
    exit 2
fi
case $1 in
    */*) program=$1 ;;
    *) program=./$1 ;;
esac
folder=$(dirname "$0")

if [ ! -f "$program" ]; then
    echo "$1: there is no such program" >&2
    exit 1
fi
if [ ! -x "$program" ]; then
    echo "$1: is not executable" >&2
    exit 1
fi

actual=$(mktemp) || exit 1
trap 'rm -f "$actual"' EXIT
trap 'exit 1' HUP INT TERM

# The first lines of a listing, and how long it is. A last line that ends
# without a line feed is marked.
show() {
    head -n 8 "$1" | cut -c 1-100 | sed 's/^/    /'
    echo "    ($(($(wc -l <"$1"))) lines, $(($(wc -c <"$1"))) bytes)"
    if [ -s "$1" ] && [ -n "$(tail -c 1 "$1")" ]; then
        echo "    (no line feed at the end)"
    fi
}

compared=0
for table in "$folder"/*.table; do
    if [ ! -f "$table" ]; then
        echo "$folder: no tables here" >&2
        exit 1
    fi
    name=$(basename "$table" .table)
    expected=$folder/$name.listing
    if [ ! -f "$expected" ]; then
        echo "$name: the table has no $name.listing" >&2
        exit 1
    fi
    "$program" <"$table" >"$actual"
    status=$?
    if ! where=$(LC_ALL=C cmp "$expected" "$actual" 2>&1); then
        echo "$name: not the expected listing"
        echo "  expected:"
        show "$expected"
        echo "  actual (the program ended with $status):"
        show "$actual"
        echo "  $where"
        diff "$expected" "$actual" | head -n 6 | cut -c 1-100 | sed 's/^/    /'
        exit 1
    fi
    if [ "$status" -gt 128 ]; then
        echo "$name: the listing is as expected, but the program ended with $status"
        exit 1
    fi
    compared=$((compared + 1))
done
for expected in "$folder"/*.listing; do
    if [ ! -f "${expected%.listing}.table" ]; then
        echo "$(basename "$expected"): a listing without its table" >&2
        exit 1
    fi
done
echo "$compared listings of the corpus are as expected"
