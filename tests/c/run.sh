#!/bin/sh
# sh tests/c/run.sh ARCHIVES WORK
#
# Compares the headers with the archives and the sources (headers.sh), then compiles the C programs of this
# folder against the headers and the archives in ARCHIVES, as C11 and as C++ where g++ is there, and runs
# them. Programs go to WORK.

if [ $# -ne 2 ] || [ ! -d "$1" ] || [ ! -d "$2" ]; then
    echo "usage: sh tests/c/run.sh ARCHIVES WORK" >&2
    exit 2
fi
archives=$1
work=$2
here=$(dirname "$0")
flags="-Wall -Wextra -Werror -pedantic -O1"

sh "$here/headers.sh" "$archives" || exit 1
awk -f "$here/refusals.awk" "$here/../../docs/refusals.txt" >"$work/refusals.inc" && [ -s "$work/refusals.inc" ] || exit 1

# The program, and the archives that it takes and no others.
run() {
    program=$1
    shift
    gcc -std=c11 $flags -I"$here/../../include" -I"$work" -o "$work/$program" "$here/$program.c" "$@" -lm || exit 1
    "$work/$program" || exit 1
    command -v g++ >/dev/null 2>&1 || return 0
    g++ -std=c++11 $flags -I"$here/../../include" -I"$work" -o "$work/$program.cxx" -x c++ "$here/$program.c" -x none "$@" -lm || exit 1
    "$work/$program.cxx" >"$work/$program.out" || { cat "$work/$program.out"; exit 1; }
    echo "$program: ok as C++ too"
}

run run_table_link "$archives/librun_table.a"
run calls "$archives/libkeeper.a" "$archives/liblisting_text.a"
command -v g++ >/dev/null 2>&1 || echo "g++ is missing: nothing was compiled as C++"
exit 0
