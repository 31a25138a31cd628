#!/bin/sh
# sh tests/differential/faults.sh [CALLS [PATTERN]]
#
# Shows that the comparisons can fail. The model of the fuzzer (fuzz/model.c) stands in the library's place: as
# it is and with the chase of chase.inc, with which all must agree, and then with one fault of faults.txt at a
# time; with a PATTERN, as grep takes it, those alone in whose names it is. The differential tests (CALLS calls)
# must find each fault, and the listings of the corpus each of passes, but for that of ceilings, which no listing
# takes; what small scopes, the replay of the fuzzer's inputs and the corpus say is printed of all. Needs gcc, cargo
# and the archives. All the model's calls stand in one archive, which has both names.
set -u
calls=${1:-100000}
pattern=${2:-.}
cd "$(dirname "$0")/../.." || exit 1
work=$(pwd)/target/faults
list=tests/differential/faults.txt
test -f target/staticlib/librun_table.a || { echo "target/staticlib/librun_table.a is not there: make archives" >&2; exit 1; }
mkdir -p "$work"
rm -f "$work"/*.a "$work"/*.o "$work/faults.inc"
cp target/staticlib/librun_table.a "$work/"

# add NUMBER: the model in $work/model.c with the names of that fault.
add() {
    gcc -std=c11 -w -O2 -DPREFIX=fault$1_ -Ifuzz -Iinclude -Itests/differential -c -o "$work/fault$1.o" "$work/model.c" || exit 1
    echo "FAULT($1)" >>"$work/faults.inc"
}

cp fuzz/model.c "$work/model.c"
add 0
# The chase as some faults have it, with no search behind it where send numbers rise.
sed 's/^static void latest_under(\(.*\))$/#define BEHIND sends_fall(run)\n#include "chase.inc"\nstatic void searched(\1)/' \
    fuzz/model.c >"$work/model.c"
add 1
grep -v '^#' "$list" | grep -e "^[^|]*$pattern[^|]*|" >"$work/faults.txt" || { echo "no fault has '$pattern' in its name" >&2; exit 1; }
number=1
while IFS='|' read -r name edit; do
    number=$((number + 1))
    sed "$edit" fuzz/model.c >"$work/model.c"
    if [ "$(diff fuzz/model.c "$work/model.c" | grep -c '^<')" != 1 ]; then
        echo "fault '$name': the edit does not change one line" >&2
        exit 1
    fi
    add $number
done <"$work/faults.txt"
gcc -std=c11 -Wall -Wextra -Werror -O2 -Iinclude -I"$work" -c -o "$work/faults.o" tests/differential/faults.c &&
ar rcs "$work/libkeeper.a" "$work"/*.o && cp "$work/libkeeper.a" "$work/liblisting_text.a" &&
(cd tests/differential && KEEPER_LIB_DIR=$work cargo --quiet build --release --target-dir "$work/cargo") &&
gcc -std=c11 -O2 -Iinclude -o "$work/replay" fuzz/replay.c fuzz/target.c fuzz/model.c "$work/libkeeper.a" &&
gcc -std=c11 -Wall -Wextra -Werror -O2 -Iinclude -o "$work/listing" tests/differential/listing.c "$work/liblisting_text.a" || exit 1

# verdict COMMAND: a fault may make a call that never ends; that is found too.
verdict() {
    if timeout 60 "$@" >"$work/log" 2>&1; then echo agrees; else echo found; fi
}

# The verdict of small scopes: found where one of them finds something.
of_scopes() {
    for scope in 'lines 3 2 2' 'sets 3 2 2' 'under 3 2 2' 'marked 3 2 2' 'stand 3 2 2' 'steps 3 2 2' 'listing 8 1'; do
        said=$(verdict "$work/cargo/release/scopes" $scope)
        test $said = agrees || break
    done
    echo $said
}

for FAULT in 0 1; do
    export FAULT
    "$work/cargo/release/calls" "$calls" >"$work/log" || { cat "$work/log"; exit 1; }
    "$work/replay" fuzz/corpus/* >"$work/log" || { cat "$work/log"; exit 1; }
    sh tests/corpus/run.sh "$work/listing" >"$work/log" || { cat "$work/log"; exit 1; }
    test "$(of_scopes)" = agrees || { cat "$work/log"; exit 1; }
done
echo "with no fault: the model agrees with the second implementation ($calls calls, and small scopes), and so it does with a chase"
missed=0
number=1
while IFS='|' read -r name edit; do
    number=$((number + 1))
    export FAULT=$number
    by_scopes=$(of_scopes)
    by_replay=$(verdict "$work/replay" fuzz/corpus/*)
    by_corpus=$(verdict sh tests/corpus/run.sh "$work/listing")
    by_calls=$(verdict "$work/cargo/release/calls" "$calls")
    after=$(sed -n 's/^FAILED after \([0-9]*\) calls.*/\1/p' "$work/log")
    echo "$name: calls: $by_calls${after:+ after $after}; scopes lines, sets, under, marked, stand and steps 3 2 2, listing 8 1: $by_scopes; replay: $by_replay; corpus: $by_corpus"
    must=$by_calls
    case $name in
        'passes: under ceilings'*) ;;
        passes:*) test "$by_corpus" = found || must=agrees ;;
    esac
    test "$must" = found || missed=$((missed + 1))
done <"$work/faults.txt"
echo "$((number - 1)) faults, $missed not found by the tests that must find them"
test "$missed" -eq 0
