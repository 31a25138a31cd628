#!/bin/sh
# The benchmark: makes the tables, builds what is compared, counts instructions where valgrind is there,
# measures, and writes docs/BENCHMARKS.md. Run from the repository's root, with the archives in place.
# `sh bench/run.sh stack` only measures the stack of the calls, and prints the report's table of it.
# `sh bench/run.sh beside OLD.a` only measures the archive beside an older libkeeper.a, in one program, and prints the
# archive's times divided by the older one's; the check of a table tells how much of that is chance.
set -eu
out=target/bench
say() { echo "bench: $*" >&2; }
lacks() { say "$* is not there"; exit 1; }
case "$#:${1-}" in
0: | 1:stack) ;;
2:beside)
    [ -f "$2" ] || lacks "$2"
    for tool in nm objcopy; do command -v "$tool" >/dev/null || lacks "$tool"; done
    ;;
*)
    echo "usage: sh bench/run.sh [stack | beside OLD.a]" >&2
    exit 2
    ;;
esac
for archive in keeper listing_text run_table; do
    [ -f "target/staticlib/lib$archive.a" ] || lacks "target/staticlib/lib$archive.a (make archives)"
done
rm -rf "$out"
mkdir -p "$out/tables" "$out/callgrind"

say "building"
cargo --quiet build --release --manifest-path tests/reference/Cargo.toml --target-dir target/cargo
cargo --quiet build --release --manifest-path bench/rust/Cargo.toml --target-dir target/cargo
for part in bench plain marking worklist; do
    gcc -std=gnu11 -Wall -Wextra -Werror -O3 -Iinclude -c -o "$out/$part.o" "bench/$part.c"
done
gcc -std=gnu11 -Wall -Wextra -Werror -O2 -o "$out/chain" bench/chain.c
# An older archive's calls under other names.
old=
if [ "${1-}" = beside ]; then
    nm -g --defined-only "$2" | awk 'NF == 3 { print $3, "old_" $3 }' >"$out/names"
    for name in check_table recovery_line lines_of_sets line_under stand_together fall_back keep_sheet; do
        grep -q "^keeper_$name " "$out/names" || say "$2 has no keeper_$name: not compared"
    done
    objcopy --redefine-syms="$out/names" "$2" "$out/old.a"
    old="-Wl,--undefined=old_keeper_check_table $out/old.a"
fi
# The same code at four places: what is linked after a pad stands 16 bytes further for each 16 bytes of it. Beside an
# older archive it is two places, and either archive comes first at each: so two that are the same come out the same.
place() {
    gcc -c -DPAD="$2" -o "$out/pad-c-$1.o" bench/pad.S
    gcc -c -DPAD="$3" -o "$out/pad-archive-$1.o" bench/pad.S
    # shellcheck disable=SC2086 # several words
    gcc -o "$out/bench-$1" "$out/bench.o" "$out/pad-c-$1.o" "$out/plain.o" "$out/marking.o" "$out/worklist.o" "$out/pad-archive-$1.o" \
        ${4-} target/staticlib/libkeeper.a $old target/staticlib/liblisting_text.a target/staticlib/librun_table.a \
        target/cargo/release/libpasses.a -lpthread -ldl -lm
}
if [ -n "$old" ]; then
    place 1 0 0
    place 2 0 0 "$old"
    place 3 32 48
    place 4 32 48 "$old"
else
    place 1 0 0
    place 2 16 16
    place 3 32 48
    place 4 48 0
fi

# A row: its label, whether it is a history, looked at as closely, or other, kind, seed, N, M. A chain has no seed.
row() {
    file="$out/tables/$3-$4-$5-$6.table"
    case $3 in
    chain) "$out/chain" "$5" "$6" >"$file" ;;
    *) target/cargo/release/reference gen "$3" "$4" "$5" "$6" >"$file" ;;
    esac
    printf '%s\t%s\t%s\n' "$1" "$2" "$file" >>"$out/rows"
}
row 'random history' history history 1 2 512
row 'random history' history history 1 2 4096
row 'random history' history history 1 8 512
row 'random history' history history 1 8 4096
row 'random history, another' history history 4 8 4096
row 'random history' history history 1 32 512
row 'random history' history history 1 32 4096
row 'random history, another' history history 4 32 4096
row 'clustered' history clustered 1 2 4096
row 'clustered' history clustered 1 8 4096
row 'clustered' history clustered 1 32 512
row 'clustered' history clustered 1 32 4096
row 'random history with receipts' history history-unsaved 6 8 4096
row 'random history with receipts' history history-unsaved 6 32 4096
row 'clustered, with receipts' history clustered-unsaved 1 8 4096
row 'clustered, with receipts' history clustered-unsaved 1 32 4096
row 'domino, time order' close domino-time 1 2 512
row 'domino, time order' close domino-time 1 2 4096
row 'domino, by sender' other domino-by-sender 1 2 4096
row 'ring domino, time order' other ring-time 1 8 4096
row 'ring domino, by round' other ring-rounds-along 1 8 4096
row 'ring domino, by chance' other ring-interleaved 1 8 4096
row 'ring, each has sent, time order' other ring-time-unsaved 1 8 4096
row 'ring, each has sent, by chance' other ring-interleaved-unsaved 1 8 4096
row 'chain through all channels' other chain 1 8 4096
row 'ring domino, time order' other ring-time 1 32 4096
row 'ring domino, by round' other ring-rounds-along 1 32 4096
row 'ring domino, by sender' other ring-by-sender 1 32 4096
row 'ring domino, by chance' other ring-interleaved 1 32 4096
row 'ring, each has sent, time order' other ring-time-unsaved 1 32 4096
row 'ring, each has sent, by chance' other ring-interleaved-unsaved 1 32 4096
row 'sixteen dominoes, time order' other dominoes-time 1 32 4096
row 'sixteen dominoes, by sender' other dominoes-by-sender 1 32 4096
row 'staircase' other staircase-repeated 1 32 496
row 'staircase, repeated' other staircase-repeated 1 32 4096
row 'chain through all channels' other chain 1 32 4096

if [ "${1-}" = stack ]; then
    say "measuring the stack"
    "$out/bench-1" stack "$out/rows"
    exit 0
fi

say "comparing the answers"
"$out/bench-1" compare "$out/rows"

if [ "${1-}" = beside ]; then
    for place in 1 2 3 4; do
        say "measuring, $place of 4"
        "$out/bench-$place" beside "$out/rows" "$out/figures-$place"
    done
    "$out/bench-1" ratios "$out/rows" "$out"/figures-[1-4]
    exit 0
fi

if command -v valgrind >/dev/null 2>&1; then
    say "counting instructions"
    valgrind --tool=callgrind --callgrind-out-file="$out/callgrind/out" "$out/bench-1" instructions "$out/rows" \
        >"$out/callgrind.log" 2>&1 || { cat "$out/callgrind.log" >&2; exit 1; }
    awk 'FNR == 1 { label = "" }
         /^desc: Trigger: Client Request: row / { label = $5 " " $6 " " $7 " " $8 }
         /^totals: / && label != "" { print label, $2 }' "$out"/callgrind/out.* >"$out/instructions"
    BENCH_VALGRIND="counted by callgrind, $(valgrind --version)"
    export BENCH_VALGRIND
else
    say "valgrind is not there: no instruction counts"
fi

BENCH_FIGURE3=
if python3 -c 'import networkx' >/dev/null 2>&1; then
    BENCH_FIGURE3='python3 bench/figure3.py'
    BENCH_NETWORKX="$(python3 -c 'import networkx, platform; print(networkx.__version__ + " on Python " + platform.python_version())')"
    export BENCH_NETWORKX
else
    say "python3 with networkx is not there: no figures of it"
fi
BENCH_CPU="$(sed -n 's/^model name[^:]*: *//p' /proc/cpuinfo | head -n 1)"
BENCH_CORES="$(getconf _NPROCESSORS_ONLN)"
BENCH_KIT="$(rt version)"
BENCH_GCC="$(gcc --version | head -n 1)"
BENCH_RUSTC="$(rustc --version)"
BENCH_DATE="$(date -u +%Y-%m-%d)"
export BENCH_FIGURE3 BENCH_CPU BENCH_CORES BENCH_KIT BENCH_GCC BENCH_RUSTC BENCH_DATE

for place in 1 2 3 4; do
    say "measuring, $place of 4"
    "$out/bench-$place" measure "$out/rows" "$out/figures-$place"
done
say "writing the report"
"$out/bench-1" report "$out/rows" "$out/instructions" bench/report.md "$out/BENCHMARKS.md" "$out"/figures-[1-4]
cp "$out/BENCHMARKS.md" docs/BENCHMARKS.md
cat docs/BENCHMARKS.md
