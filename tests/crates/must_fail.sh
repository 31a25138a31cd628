#!/bin/sh
# sh tests/crates/must_fail.sh WORK
#
# That readable.sh, layout.sh, dependencies.sh and verdict.sh can fail: the first three are run over copies of a crate with
# one change each, readable.sh on either side of each limit; the last over lines as rt ci prints them.

if [ $# -ne 1 ] || [ ! -d "$1" ]; then
    echo "usage: sh tests/crates/must_fail.sh WORK" >&2
    exit 2
fi
work=$(cd "$1" && pwd)
here=$(cd "$(dirname "$0")" && pwd)
root=$here/../..
prefix=readable
. "$root/tests/changes.sh"

proof=crates/rollback/proofs/receipt_left/Answers.antt
laws=crates/rollback/proofs/RollbackLaws.antt
spec=crates/rollback/specs/Rollback.antt
code=crates/rollback/src/lib.rt

fresh() {
    rm -rf "$copy"
    mkdir -p "$copy/crates" || exit 1
    mkdir "$copy/crates/rollback" || exit 1
    for part in src specs proofs must-fail; do cp -r "$root/crates/rollback/$part" "$copy/crates/rollback" || exit 1; done
    # A proof to change, where the prover needs none.
    [ -f "$copy/$proof" ] || { mkdir -p "$copy/$(dirname "$proof")" && echo '-- A proof.' >"$copy/$proof"; } || exit 1
}

tested() {
    sh "$here/readable.sh" "$copy"
}

# A file of the copy gets lines at its end: found, and told by its name; or not found.
longer() {
    fresh
    printf '%s\n' "$2" >>"$copy/$1"
}
differs() {
    longer "$1" "$2"
    finds "$1, $2"
    grep -q "^readable: $1:[0-9]*: .*$3" "$work/must_fail.out" || { cat "$work/must_fail.out"; fail "found, but not told by '$3': $1, $2"; }
}
agrees() {
    longer "$1" "$2"
    tested >"$work/must_fail.out" 2>&1 || { cat "$work/must_fail.out"; fail "found, and within the limit: $1, $2"; }
}

# So many columns, and so many times a word.
wide() {
    awk -v n="$1" 'BEGIN { line = "-- "; while (length(line) < n) line = line "x"; print line }'
}
repeated() {
    awk -v n="$1" -v word="$2" 'BEGIN { while (n--) line = line word; print line }'
}

finds_nothing

differs "$proof" "$(wide 161)" '161 columns, more than 160'
agrees "$proof" "$(wide 160)"
differs "$laws" "$(wide 161)" '161 columns, more than 160'
differs "$spec" "$(wide 121)" '121 columns, more than 120'
agrees "$spec" "$(wide 120)"
differs "$code" "// $(wide 118)" '121 columns, more than 120'
agrees "$code" "// $(wide 117)"
# Greek counts by its bytes.
differs "$spec" "-- $(repeated 59 λ)" '121 columns, more than 120'

differs "$proof" "x c = c$(repeated 7 ' .before') .requires" 'more than six .before'
differs "$proof" "x c = f (c$(repeated 8 ' .before')) (c .before)" 'more than six .before'
differs "$proof" "x c = c$(repeated 7 .before)" 'more than six .before'
differs "$laws" "x c = c$(repeated 4 ' .before')
   $(repeated 3 ' .before')" 'more than six .before'
agrees "$proof" "x c = c$(repeated 6 ' .before')"
agrees "$proof" "x c = f (c$(repeated 4 ' .before')) (c$(repeated 4 ' .before'))"
differs "$proof" "x c = f (c$(repeated 7 .before)) c" 'more than six .before'
agrees "$proof" "x c = f c$(repeated 4 .before) c$(repeated 4 .before)"
agrees "$proof" "x c = c$(repeated 6 .before).before_it.before"
agrees "$proof" "-- c$(repeated 7 ' .before')"

differs "$proof" 'x c = c .requires .1 .1 .0' '.requires by place, deeper than two'
differs "$proof" 'x c = f (c .before .requires .1 .1 .1 .1 _)' '.requires by place, deeper than two'
differs "$proof" 'x c = f (c.before.requires.1.1.1) c' '.requires by place, deeper than two'
differs "$laws" 'x c = c .requires .1
    .1 .0' '.requires by place, deeper than two'
agrees "$proof" 'x c = c.requires.1.0'
agrees "$proof" 'x c = f (c .requires .1 .1) (c .requires .1 .0)'
agrees "$proof" 'x c = f c.requires.1.1 c.requires.1.0'
agrees "$proof" 'x c = c .requires .1 .1 .few'

fresh
mkdir -p "$copy/crates/other/proofs"
cp "$copy/$laws" "$copy/crates/other/proofs"
finds "two files of laws with one name"
grep -q 'RollbackLaws.antt has that name too' "$work/must_fail.out" || { cat "$work/must_fail.out"; fail "found, but the other file is not named"; }

# Records: in proofs, laws and definitions, of this crate and of another one; the one in specs/ is told as the other.
other="$spec:[0-9]* has that name too"
differs "$laws" 'pub record AtLine (n : ℕ) : Type 0 where' "the record AtLine: $other"
differs "$proof" 'record AtLine (n : ℕ) : Type 0 where' "the record AtLine: $other"
differs "$proof" '    pub record AtLine : Type 0 where' "the record AtLine: $other"
differs "$spec" 'pub record AtLine (n : ℕ) : Type 0 where' "the record AtLine: $other"
agrees "$laws" 'pub record AtLines (n : ℕ) : Type 0 where'
agrees "$laws" '-- pub record AtLine (n : ℕ) : Type 0 where'
agrees "$proof" 'x c =
    record { few = c }
y c =
    record { few = c }'
for folder in specs proofs; do
    fresh
    mkdir -p "$copy/crates/tables/$folder"
    echo 'pub record AtLine (n : ℕ) : Type 0 where' >"$copy/crates/tables/$folder/Other.antt"
    finds "two records with one name in two crates"
    grep -q 'the record AtLine: .* has that name too' "$work/must_fail.out" || { cat "$work/must_fail.out"; fail "found, but the record is not named"; }
done

# What rt leaves in a crate is passed over.
fresh
mkdir -p "$copy/crates/rollback/out/proofs" "$copy/crates/rollback/out/rlib/src"
wide 500 | tee "$copy/crates/rollback/out/proofs/RollbackLaws.antt" >"$copy/crates/rollback/out/rlib/src/lib.rt"
tested >"$work/must_fail.out" 2>&1 || { cat "$work/must_fail.out"; fail "a file of out/ is looked at"; }

# Where there is nothing to look at, that is no agreement.
fresh
rm -r "$copy/crates"
mkdir "$copy/crates"
finds "no crates"
readable=$found

# ---- the layout
prefix=layout
tested() {
    sh "$here/layout.sh" "$copy"
}
found=0
fresh
rm -r "$copy/crates/rollback/must-fail"
tested >"$work/must_fail.out" 2>&1 || { cat "$work/must_fail.out"; fail "rt fmt lays the crate out otherwise than it stands"; }
for file in "$laws" "$spec" "$code"; do
    case $file in
    *.rt) longer "$file" 'fn  other() {}' ;;
    *) longer "$file" 'other  :  Type 0' ;;
    esac
    finds "$file, laid out otherwise"
    grep -q "^layout: $file: " "$work/must_fail.out" || { cat "$work/must_fail.out"; fail "found, but not named: $file"; }
done
fresh
rm -r "$copy/crates/rollback/must-fail"
mkdir "$copy/crates/rollback/must-fail"
printf '%s\n' 'file: src/lib.rt' 'old: no such text' 'new: another' >"$copy/crates/rollback/must-fail/lost.edit"
finds "an edit that can't be applied"
grep -q "^layout: crates/rollback/must-fail/lost.edit " "$work/must_fail.out" || { cat "$work/must_fail.out"; fail "found, but the edit is not named"; }
fresh
rm -r "$copy/crates/rollback"
finds "no crates"
layout=$found

# ---- what crates.txt names
prefix=dependencies
tested() {
    sh "$here/dependencies.sh" "$copy"
}
found=0
of_rollback=$(sed -n 's/^rollback: *//p' "$root/crates.txt")
fresh
echo "rollback: $of_rollback" >"$copy/crates.txt"
tested >"$work/must_fail.out" 2>&1 || { cat "$work/must_fail.out"; fail "rollback does not use what crates.txt names for it"; }
echo "rollback staticlib: $of_rollback # for C" >"$copy/crates.txt"
tested >"$work/must_fail.out" 2>&1 || { cat "$work/must_fail.out"; fail "a static library is not read as such"; }
echo "rollback: $of_rollback zigzag" >"$copy/crates.txt"
finds "a crate that is not used"
grep -q '^dependencies: rollback names zigzag and does not use it$' "$work/must_fail.out" || { cat "$work/must_fail.out"; fail "found, but zigzag is not named"; }
echo "rollback:" >"$copy/crates.txt"
finds "no crate that is named"
dependencies=$found

# ---- the verdict of rt ci
last='12 passed, 0 failed'
ok='rt: ok; handles allowed: none; must-fail edits: 9 refused'
gate() {
    printf '%s\n' 'rt: tables proved' "$@" | sh "$here/verdict.sh" >"$work/must_fail.out" 2>&1
}
gate "$ok; every proof and must-fail edit was done in this run" "$last" 'status 0' || fail "a run that passed is refused"
[ "$(tail -n 1 "$work/must_fail.out")" = "$last" ] || fail "the last line is not rt ci's"
gate "$ok, 2 of them only by a limit; the others are kept" "$last" 'status 0' || fail "a run that passed is refused"
gate "$ok, 0 bad; every proof" "$last" 'status 0' || fail "a run without a bad edit is refused"
passes() {
    ! gate "$@" || fail "rt ci's lines are taken for a verdict: $*"
    verdicts=$((verdicts + 1))
}
verdicts=0
passes "$ok, 1 bad; every proof" "$last" 'status 0'
passes "$ok, 10 bad; every proof" "$last" 'status 0'
passes "$ok, 2 of them only by a limit, 3 bad; every proof" "$last" 'status 0'
passes "$ok; every proof" '12 passed, 1 failed' 'status 1'
passes 'rt: FAILED: tables' '0 passed, 1 failed' 'status 1'
passes "$last" 'status 0'
passes "$ok; every proof" "$last"
passes 'status 0'

echo "must_fail: $readable changes found by readable.sh, and none within its limits; $layout by layout.sh, $dependencies by dependencies.sh, $verdicts verdicts refused"
