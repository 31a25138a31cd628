#!/bin/sh
# sh tests/corpus/fresh.sh CORPUS_BINARY
#
# Says whether the tables and listings of this folder are exactly what the
# program `corpus` of tests/reference writes.

if [ $# -ne 1 ]; then
    echo "usage: sh tests/corpus/fresh.sh CORPUS_BINARY" >&2
    exit 2
fi
case $1 in
    */*) corpus=$1 ;;
    *) corpus=./$1 ;;
esac
folder=$(dirname "$0")

if [ ! -f "$corpus" ] || [ ! -x "$corpus" ]; then
    echo "$1: there is no such program, or it is not executable" >&2
    exit 1
fi

fresh=$(mktemp -d) || exit 1
trap 'rm -rf "$fresh"' EXIT
trap 'exit 1' HUP INT TERM
"$corpus" "$fresh" >/dev/null || {
    echo "$1: failed" >&2
    exit 1
}

same=0
for written in "$fresh"/*; do
    if [ ! -f "$written" ]; then
        echo "$1: wrote nothing" >&2
        exit 1
    fi
    name=$(basename "$written")
    if [ ! -f "$folder/$name" ]; then
        echo "$name: not in the corpus, but the program writes it"
        exit 1
    fi
    cmp "$written" "$folder/$name" || exit 1
    same=$((same + 1))
done
for kept in "$folder"/*.table "$folder"/*.listing; do
    name=$(basename "$kept")
    if [ ! -f "$fresh/$name" ]; then
        echo "$name: in the corpus, but the program does not write it"
        exit 1
    fi
done
echo "the $same files of the corpus are what the second implementation writes"
