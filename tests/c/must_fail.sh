#!/bin/sh
# sh tests/c/must_fail.sh ARCHIVES WORK
#
# That the tests of this folder can fail. calls.c is run over calls with one fault each (faulty.c); calls.c and
# run_table_link.c are compiled with headers of one fault each; and headers.sh is run over copies of the repository's
# texts with one change each. Every one must be found.

if [ $# -ne 2 ] || [ ! -d "$1" ] || [ ! -d "$2" ]; then
    echo "usage: sh tests/c/must_fail.sh ARCHIVES WORK" >&2
    exit 2
fi
archives=$(cd "$1" && pwd)
work=$(cd "$2" && pwd)
here=$(cd "$(dirname "$0")" && pwd)
root=$here/../..
prefix=headers
. "$root/tests/changes.sh"

# ---- calls with a fault
renamed=
for call in check_table recovery_line line_of_set lines_of_sets line_under marked_line stand_together send save receive fall_back keep_sheet listing; do
    renamed="$renamed -Dkeeper_$call=faulty_$call"
done
awk -f "$here/refusals.awk" "$root/docs/refusals.txt" >"$work/refusals.inc" || exit 1
gcc -std=c11 -O1 -DFIRST_FAILURE -I"$root/include" -I"$work" $renamed -c -o "$work/calls_faulty.o" "$here/calls.c" || exit 1
gcc -std=c11 -Wall -Wextra -O1 -I"$root/include" -o "$work/calls_faulty" "$work/calls_faulty.o" "$here/faulty.c" \
    "$archives/libkeeper.a" "$archives/liblisting_text.a" -lm || exit 1
FAULT=0 "$work/calls_faulty" >"$work/must_fail.out" || { cat "$work/must_fail.out"; fail "calls.c fails without a fault"; }
faults=$(grep -o 'fault([0-9]*)' "$here/faulty.c" | tr -dc '0-9\n' | sort -nu)
# As many at a time as there are processors; each is a process of its own.
echo "$faults" | xargs -n 1 -P "$(getconf _NPROCESSORS_ONLN)" sh -c \
    'FAULT=$1 "$0" >/dev/null 2>&1; [ $? -eq 1 ] || echo "fault $1 of faulty.c is not found"' "$work/calls_faulty" >"$work/must_fail.out" ||
    fail "the faults can't be run"
[ ! -s "$work/must_fail.out" ] || fail "$(cat "$work/must_fail.out")"
found=$(echo "$faults" | wc -l)
echo "must_fail: $found faulty calls found by calls.c"

# ---- headers whose helpers, words or version have a fault: found by a program that is compiled with them
program_finds() {
    program=$1
    rm -rf "$copy"
    mkdir -p "$copy" && cp -r "$root/include" "$copy" || exit 1
    sed "$3" "$root/include/$2" >"$copy/include/$2" || fail "sed can't make the edit: $2, $3"
    cmp -s "$root/include/$2" "$copy/include/$2" && fail "the edit changes nothing: $2, $3"
    gcc -std=c11 -O0 -DFIRST_FAILURE -I"$copy/include" -I"$work" -o "$work/header_faulty" "$here/$program.c" "$archives"/lib*.a -lm || fail "does not compile: $2, $3"
    "$work/header_faulty" >"$work/must_fail.out" 2>&1
    [ $? -eq 1 ] || fail "not found by $program.c: $2, $3"
    found=$((found + 1))
}
found=0
program_finds calls keeper.h 's/bytes\[place\] | (bytes\[place + 1\] << 8)/bytes[place + 1] | (bytes[place] << 8)/'
program_finds calls keeper.h 's/(bytes\[place + 1\] << 8)/(bytes[place + 1] << 7)/'
program_finds calls keeper.h 's/bytes\[place\] | (bytes\[place + 1\]/bytes[2 * place] | (bytes[2 * place + 1]/'
program_finds calls keeper.h 's/bytes\[place\] = (uint8_t)(number & 0xFF)/bytes[place] = (uint8_t)(number \& 0x7F)/'
program_finds calls keeper.h 's/bytes\[place + 1\] = (uint8_t)(number >> 8);/&\n    bytes[place + 2] = 0;/'
program_finds calls keeper.h 's/bytes\[place + 1\] = (uint8_t)(number >> 8);//'
program_finds calls keeper.h 's/return "a set has a bit/return "the set has a bit/'
program_finds calls keeper.h 's/before it, "$/before it,"/'
program_finds calls keeper.h '/case KEEPER_BAD_LIST:/d'
program_finds calls keeper.h 's/KEEPER_CHANNEL_OUT_OF_ORDER = 23/KEEPER_CHANNEL_OUT_OF_ORDER = 99/'
program_finds calls keeper.h 's/KEEPER_MESSAGE_PASSED_OVER = 24/KEEPER_MESSAGE_PASSED_OVER = 99/'
program_finds calls keeper.h 's/receipt passes over an older waiting message/receipt passes over a waiting message/'
program_finds calls keeper.h 's/with the same sender and "$/with the same sender and"/'
program_finds calls keeper.h '/case KEEPER_MESSAGE_PASSED_OVER:/d'
program_finds calls keeper.h '/case KEEPER_MESSAGE_PASSED_OVER:/,/;$/d'
program_finds calls keeper.h 's/return "a process named in a send, save or receipt/return "a process named in a send or save/'
program_finds calls keeper.h 's/return "the list of a save or receipt has/return "the list of a save has/'
program_finds calls keeper.h 's/    default: return run_table_refusal_words(refusal);/    default: return 0;/'
program_finds calls keeper.h 's/    switch (refusal) {/    switch ((uint16_t)refusal) {/'
program_finds calls keeper.h 's/KEEPER_TABLE_FULL = 14/KEEPER_TABLE_FULL = 99/'
program_finds calls keeper.h 's/KEEPER_WRONG_CEILING_COUNT = 17/KEEPER_WRONG_CEILING_COUNT = 99/'
program_finds calls keeper.h 's/KEEPER_CEILING_TOO_HIGH = 18/KEEPER_CEILING_TOO_HIGH = 99/'
program_finds calls keeper.h 's/return "the list of ceilings does not have N numbers"/return "the list of ceilings has not N numbers"/'
program_finds calls keeper.h '/case KEEPER_CEILING_TOO_HIGH: return/d'
program_finds calls keeper.h 's/KEEPER_UNEQUAL_LISTS = 20/KEEPER_UNEQUAL_LISTS = 99/'
program_finds calls keeper.h 's/KEEPER_BAD_NAMED_PROCESS = 21/KEEPER_BAD_NAMED_PROCESS = 22/; s/KEEPER_NAMED_STATE_TOO_HIGH = 22/KEEPER_NAMED_STATE_TOO_HIGH = 21/'
program_finds calls keeper.h 's/KEEPER_NAMED_STATE_TOO_HIGH = 22/KEEPER_NAMED_STATE_TOO_HIGH = 99/'
program_finds calls keeper.h 's/return "the lists of named processes and of their states/return "the lists of named processes and states/'
program_finds calls keeper.h '/case KEEPER_UNEQUAL_LISTS:/,/return/d'
program_finds calls keeper.h 's/return "a named process is N or above, or not above/return "a named process is N or above, or below/'
program_finds calls keeper.h '/case KEEPER_BAD_NAMED_PROCESS: return/d'
program_finds calls keeper.h 's/return "a named state is not below/return "a named state is above/'
program_finds calls keeper.h '/case KEEPER_NAMED_STATE_TOO_HIGH: return/d'
program_finds calls keeper.h 's/KEEPER_MARKS_TOO_SHORT = 19/KEEPER_MARKS_TOO_SHORT = 99/'
program_finds calls keeper.h 's/return "the mark buffer is shorter than (sum of counts + N)/return "the mark buffer is shorter than (sum of counts)/'
program_finds calls keeper.h '/case KEEPER_MARKS_TOO_SHORT:/,/return/d'
program_finds calls keeper.h 's/#define KEEPER_MARKS_ROOM 16388/#define KEEPER_MARKS_ROOM 16387/'
program_finds calls keeper.h '/#define KEEPER_MARKS_SIZE/s/ + 7) / + 8) /'
program_finds calls keeper.h '/#define KEEPER_MARKS_SIZE/s/ + 7) /) /'
program_finds calls keeper.h '/#define KEEPER_MARKS_SIZE/s/ + (size_t)(n)//'
program_finds calls keeper.h '/#define KEEPER_MARKS_SIZE/s/(size_t)(sum)/(size_t)sum/'
program_finds calls keeper.h '/#define KEEPER_MARKS_SIZE/s/(size_t)(n)/(size_t)n/'
program_finds calls keeper.h '/#define KEEPER_MARKS_SIZE/s/(size_t)(sum) + (size_t)(n)/(uint16_t)((sum) + (n))/'
program_finds calls keeper.h '/#define KEEPER_MARKS_SIZE/s/ (\(.*\))$/ \1/'
program_finds calls keeper.h 's/KEEPER_TOO_MANY_SETS = 25/KEEPER_TOO_MANY_SETS = 99/'
program_finds calls keeper.h 's/KEEPER_TOO_MANY_SETS = 25/KEEPER_TOO_MANY_SETS = 12/; s/KEEPER_UNKNOWN_PROCESS_IN_SET = 12/KEEPER_UNKNOWN_PROCESS_IN_SET = 25/'
program_finds calls keeper.h 's/return "there are more than 256 sets"/return "there are 256 sets or more"/'
program_finds calls keeper.h '/case KEEPER_TOO_MANY_SETS: return/d'
program_finds calls keeper.h 's/#define KEEPER_MOST_SETS 256/#define KEEPER_MOST_SETS 255/'
program_finds calls keeper.h 's/#define KEEPER_LINES_ROOM 16384/#define KEEPER_LINES_ROOM 16383/'
program_finds calls keeper.h '/#define KEEPER_LINES_SIZE/s/(2 \* /(/'
program_finds calls keeper.h '/#define KEEPER_LINES_SIZE/s/(2 \* /(64 * /; /#define KEEPER_LINES_SIZE/s/ \* (size_t)(n)//'
program_finds calls keeper.h '/#define KEEPER_LINES_SIZE/s/(size_t)(n)/(size_t)n/'
program_finds calls keeper.h '/#define KEEPER_LINES_SIZE/s/(size_t)(s)/(size_t)s/'
program_finds calls keeper.h '/#define KEEPER_LINES_SIZE/s/(2 \* (size_t)(n) \* (size_t)(s))/((uint16_t)(2 * (n) * (s)))/'
program_finds calls keeper.h '/#define KEEPER_LINES_SIZE/s/ (\(2.*\))$/ \1/'
program_finds calls keeper.h 's/#define KEEPER_VERSION "/&1/'
program_finds calls keeper.h 's/#define KEEPER_VERSION_PATCH .*/#define KEEPER_VERSION_PATCH x/'
program_finds calls run_table.h 's/return "a count is 0/return "a count of 0/'
program_finds calls run_table.h 's/return "no refusal"/return ""/'
program_finds calls run_table.h 's/return "a refusal that/return "refusal that/'
program_finds calls run_table.h 's/return "a receipt number is above/return "a receipt number is not below/'
program_finds calls run_table.h 's/smaller send number, "$/smaller send number,"/'
program_finds calls run_table.h '/case RUN_TABLE_CHANNEL_OUT_OF_ORDER:/,/;$/d'
program_finds run_table_link run_table.h 's/RUN_TABLE_CHANNEL_OUT_OF_ORDER = 23/RUN_TABLE_CHANNEL_OUT_OF_ORDER = 99/'
program_finds run_table_link run_table.h 's/return "of two messages with the same sender and receiver/return "of two messages/'
program_finds run_table_link run_table.h 's/smaller send number, "$/smaller send number,"/'
program_finds run_table_link run_table.h 's/waits, or, where both are received, has a smaller "/waits, or has a smaller "/'
program_finds run_table_link run_table.h '/case RUN_TABLE_CHANNEL_OUT_OF_ORDER:/,/;$/d'
# A reader that lets tables out of order through.
program_finds run_table_link run_table.h '$i #define run_table_check(...) ((run_table_check)(__VA_ARGS__) % 23)'
program_finds run_table_link run_table.h 's/return "a count is 0/return "a count of 0/'
program_finds run_table_link run_table.h 's/return "no refusal"/return ""/'
program_finds run_table_link run_table.h 's/return "a refusal that/return "refusal that/'
program_finds run_table_link run_table.h 's/return "a receipt number is above/return "a receipt number is not below/'
program_finds run_table_link run_table.h 's/RUN_TABLE_RECEIPT_NUMBER_TOO_HIGH = 9/RUN_TABLE_RECEIPT_NUMBER_TOO_HIGH = 99/'
program_finds run_table_link run_table.h 's/RUN_TABLE_WRONG_LENGTH = 4/RUN_TABLE_WRONG_LENGTH = 17/'
program_finds run_table_link run_table.h 's/#define RUN_TABLE_VERSION_MINOR .*/#define RUN_TABLE_VERSION_MINOR 99/'
# A call of the table reader that raises a floating point flag; those of the keeper are in faulty.c.
program_finds run_table_link run_table.h '$i #include <fenv.h>\n#define run_table_count(...) (feraiseexcept(FE_INVALID), (run_table_count)(__VA_ARGS__))'
echo "must_fail: $found headers with a fault found by calls.c and run_table_link.c"

# ---- headers, sources, manual, pages, binding or archives that have changed
fresh() {
    rm -rf "$copy"
    mkdir -p "$copy/docs" "$copy/tests/c" "$copy/archives" "$copy/bindings/rust" || exit 1
    cp -r "$root/include" "$root/man" "$copy" && cp "$root/docs/MANUAL.md" "$root/docs/BENCHMARKS.md" "$copy/docs" && cp "$here/headers.sh" "$copy/tests/c" &&
        cp -r "$root/bindings/rust/src" "$copy/bindings/rust" && cp "$archives"/*.a "$copy/archives" || exit 1
    for crate in run_table keeper listing_text run_table_c keeper_c listing_text_c; do
        mkdir -p "$copy/crates/$crate" && cp -r "$root/crates/$crate/src" "$copy/crates/$crate" || exit 1
    done
}

tested() {
    sh "$copy/tests/c/headers.sh" "$copy/archives"
}

found=0
finds_nothing
changed include/keeper.h 's/keeper_fall_back(/keeper_rollback(/'
changed include/keeper.h '/^uint32_t keeper_check_table/d'
changed include/keeper.h 's/^uint32_t keeper_check_table.*/&\nuint32_t keeper_more(void);/'
changed include/keeper.h 's/uint16_t from, uint16_t to/uint16_t to, uint16_t from/'
changed include/keeper.h 's/uint16_t from, uint16_t to/uint32_t from, uint16_t to/'
changed include/keeper.h 's/uint32_t keeper_save(/uint16_t keeper_save(/'
changed include/keeper.h 's/const uint16_t \*list/uint16_t *list/'
changed include/keeper.h 's/const uint16_t \*ceilings/uint16_t *ceilings/'
changed include/keeper.h 's/const uint16_t \*ceilings/const uint32_t *ceilings/'
changed include/keeper.h 's/size_t ceilings_length/size_t ceiling_count/'
changed include/keeper.h 's/size_t ceilings_length/uint16_t ceilings_length/'
changed include/keeper.h 's/uint32_t keeper_line_under(/uint32_t keeper_line_below(/'
changed include/keeper.h 's/uint8_t \*marks, /const uint8_t *marks, /'
changed include/keeper.h 's/uint8_t \*marks, /uint16_t *marks, /'
changed include/keeper.h 's/size_t marks_length/size_t marks_room/'
changed include/keeper.h 's/size_t marks_length/uint32_t marks_length/'
changed include/keeper.h 's/uint8_t \*marks, size_t marks_length, uint8_t \*answer/uint8_t *answer, uint8_t *marks, size_t marks_length/'
changed include/keeper.h 's/uint32_t keeper_marked_line(/uint32_t keeper_marking_line(/'
changed include/keeper.h 's/uint32_t keeper_stand_together(/uint32_t keeper_stand(/'
changed include/keeper.h '/^uint32_t keeper_stand_together(/,/;$/d'
changed include/keeper.h '/^uint32_t keeper_stand_together(/,/;$/s/const uint16_t \*processes/uint16_t *processes/'
changed include/keeper.h '/^uint32_t keeper_stand_together(/,/;$/s/const uint16_t \*processes/const uint32_t *processes/'
changed include/keeper.h '/^uint32_t keeper_stand_together(/,/;$/s/const uint16_t \*states/const uint8_t *states/'
changed include/keeper.h '/^uint32_t keeper_stand_together(/,/;$/s/size_t processes_length/size_t names/'
changed include/keeper.h '/^uint32_t keeper_stand_together(/,/;$/s/size_t states_length/uint16_t states_length/'
changed include/keeper.h '/^uint32_t keeper_stand_together(/,/;$/s/const uint16_t \*states, size_t states_length,//'
changed include/keeper.h '/^uint32_t keeper_stand_together(/,/;$/{s/processes/other/g; s/states/processes/g; s/other/states/g}'
changed include/keeper.h '/^uint32_t keeper_stand_together(/,/;$/s/size_t \*written/uint32_t *written/'
changed include/keeper.h 's/uint32_t keeper_lines_of_sets(/uint32_t keeper_lines(/'
changed include/keeper.h '/^uint32_t keeper_lines_of_sets(/,/;$/d'
changed include/keeper.h '/^uint32_t keeper_lines_of_sets(/,/;$/s/const uint32_t \*sets/uint32_t *sets/'
changed include/keeper.h '/^uint32_t keeper_lines_of_sets(/,/;$/s/const uint32_t \*sets/const uint16_t *sets/'
changed include/keeper.h '/^uint32_t keeper_lines_of_sets(/,/;$/s/size_t sets_length/size_t set_count/'
changed include/keeper.h '/^uint32_t keeper_lines_of_sets(/,/;$/s/size_t sets_length/uint16_t sets_length/'
changed include/keeper.h '/^uint32_t keeper_lines_of_sets(/,/;$/s/const uint32_t \*sets, size_t sets_length/uint32_t set/'
changed include/keeper.h '/^uint32_t keeper_lines_of_sets(/,/;$/s/uint16_t \*scratch/const uint16_t *scratch/'
changed include/keeper.h '/^uint32_t keeper_lines_of_sets(/,/;$/s/uint16_t \*scratch, size_t numbers, //'
changed include/keeper.h '/^uint32_t keeper_lines_of_sets(/,/;$/s/uint8_t \*answer/uint16_t *answer/'
changed include/keeper.h 's/uint32_t keeper_receive(/uint32_t keeper_receipt(/'
changed include/keeper.h '/^uint32_t keeper_receive(/,/;$/d'
changed include/keeper.h '/^uint32_t keeper_receive(/,/;$/s/uint32_t keeper/void keeper/'
changed include/keeper.h '/^uint32_t keeper_receive(/,/;$/s/uint16_t process/uint32_t process/'
changed include/keeper.h '/^uint32_t keeper_receive(/,/;$/s/const uint16_t \*list/uint16_t *list/'
changed include/keeper.h '/^uint32_t keeper_receive(/,/;$/s/size_t list_length/size_t entries/'
changed include/keeper.h '/^uint32_t keeper_receive(/,/;$/s/uint16_t process, const uint16_t \*list/const uint16_t *list, uint16_t process/'
changed include/keeper.h 's/uint16_t \*scratch, size_t numbers/uint16_t *scratch, uint32_t numbers/'
changed include/run_table.h 's/#include <stdint.h>//'
changed include/keeper.h 's/#include "run_table.h"//'
! command -v g++ >/dev/null 2>&1 || changed include/keeper.h 's/extern "C" {/extern "C" {{/'
changed include/run_table.h 's/size_t p)/uint16_t p)/'
changed include/listing_text.h 's/uint8_t \*text, size_t room/size_t room, uint8_t *text/'
changed include/listing_text.h 's/#include "keeper.h"//'
# A static inline function is told of, and is no call of the archive.
changed include/keeper.h 's/^static inline uint16_t keeper_u16_at/uint16_t keeper_u16_at(const uint8_t *bytes, size_t place);\n&/'
changed include/keeper.h 's/^uint32_t keeper_check_table.*/&\nstatic inline void keeper_more(void)\n{\n}\n/'
changed include/keeper.h 's/^\(static inline void keeper_put_u16.*size_t\) place/\1 at/'
changed include/keeper.h '/^static inline uint16_t keeper_u16_at/,/^}/d'
changed include/run_table.h 's/^static inline /static /'
changed man/keeper.3 's/^\.Fa "uint16_t number"/.Fa "uint32_t number"/'
changed man/keeper.3 '/^\.Nm keeper_put_u16/d'
changed man/keeper.3 's/^\.Nm keeper_send ,/.Nm keeper_sent ,/'
changed man/keeper.3 '/^\.Nm keeper_receive ,/d'
changed man/keeper.3 '/^\.Nm keeper_stand_together ,/d'
changed man/keeper.3 '/^\.Nm keeper_lines_of_sets ,/d'
changed docs/MANUAL.md '/^| `const char \*keeper_refusal_words/d'
changed docs/MANUAL.md 's/^| `void keeper_put_u16(bytes, /| `void keeper_put_u16(/'
# The stack that is told of a call.
changed include/keeper.h '/^\/\* The keep sheet/,/^uint32_t keeper_keep_sheet/s/Stack: [0-9]*/&0/'
changed include/keeper.h '/^\/\* The table after a receipt/,/^uint32_t keeper_receive/s/Stack: [0-9]*/Stack: 22/'
changed include/keeper.h '/^\/\* Whether named checkpoints/,/^uint32_t keeper_stand_together/s/Stack: [0-9]*/Stack: 22/'
changed include/keeper.h '/^\/\* The lines of many sets/,/^uint32_t keeper_lines_of_sets/s/Stack: [0-9]*/Stack: 22/'
changed include/listing_text.h 's/Stack: \([0-9]*\)[0-9],/Stack: \1,/'
changed include/run_table.h 's/Stack: [0-9][0-9]*/Stack: 22/'
changed man/keeper.3 's/^\.It Fn keeper_save Ta [0-9]*/&0/'
changed man/keeper.3 '/^\.It Fn keeper_listing Ta /d'
changed man/keeper.3 '/^\.It Fn keeper_line_under Ta /d'
changed man/keeper.3 '/^\.It Fn keeper_marked_line Ta /d'
changed man/keeper.3 '/^\.It Fn keeper_receive Ta /d'
changed man/keeper.3 '/^\.It Fn keeper_stand_together Ta /d'
changed man/keeper.3 '/^\.It Fn keeper_lines_of_sets Ta /d'
changed man/run_table_check.3 's/^\(\.It Fn run_table_sent Ta\) 8/\1 9/'
changed docs/BENCHMARKS.md '/^| `keeper_send` | [0-9]* | [0-9]* |$/d'
changed docs/BENCHMARKS.md '/^| `keeper_line_under` | [0-9]* | [0-9]* |$/d'
changed docs/BENCHMARKS.md '/^| `keeper_marked_line` | [0-9]* | [0-9]* |$/d'
changed docs/BENCHMARKS.md '/^| `keeper_receive` | [0-9]* | [0-9]* |$/d'
changed docs/BENCHMARKS.md '/^| `keeper_stand_together` | [0-9]* | [0-9]* |$/d'
changed docs/BENCHMARKS.md '/^| `keeper_lines_of_sets` | [0-9]* | [0-9]* |$/d'
changed docs/BENCHMARKS.md 's/^\(| `run_table_count` | [0-9]* |\) 8/\1 16/'
# The source of a call: of the library, and of the archive's crate.
in_source() {
    changed "crates/$1/src/lib.rt" "$2"
    changed "crates/$1_c/src/lib.rt" "$2"
}
in_source keeper 's/set: u32/set: u64/'
in_source keeper 's/    process: u16,/    saver: u16,/'
in_source keeper 's/    list: &\[u16\],//'
in_source keeper 's/ceilings: &\[u16\],/ceilings: \&[u8],/'
in_source keeper 's/ceilings: &\[u16\],/ceilings: \&mut [u16],/'
in_source keeper 's/marks: &mut \[u8\],/marks: \&[u8],/'
in_source keeper 's/marks: &mut \[u8\],/marks: \&mut [u16],/'
in_source keeper 's/processes: &\[u16\],/processes: \&[u8],/'
in_source keeper 's/states: &\[u16\],/states: \&mut [u16],/'
in_source keeper 's/    states: &\[u16\],//'
in_source keeper 's/extern "C" fn keeper_stand_together(/extern "C" fn keeper_stand(/'
in_source keeper 's/^pub extern "C" fn keeper_stand_together(/pub fn keeper_stand_together(/'
in_source keeper 's/sets: &\[u32\],/sets: \&[u16],/'
in_source keeper 's/sets: &\[u32\],/sets: \&mut [u32],/'
in_source keeper 's/    sets: &\[u32\],//'
in_source keeper '/fn keeper_lines_of_sets(/,/^) ->/s/scratch: &mut \[u16\]/scratch: \&[u16]/'
in_source keeper '/fn keeper_lines_of_sets(/,/^) ->/s/scratch: &mut \[u16\],//'
in_source keeper 's/extern "C" fn keeper_lines_of_sets(/extern "C" fn keeper_lines(/'
in_source keeper 's/^pub extern "C" fn keeper_lines_of_sets(/pub fn keeper_lines_of_sets(/'
in_source keeper 's/extern "C" fn keeper_receive(/extern "C" fn keeper_receipt(/'
in_source keeper 's/^pub extern "C" fn keeper_receive(/pub fn keeper_receive(/'
in_source keeper '/fn keeper_receive(/,/^) ->/s/process: u16/process: u8/'
in_source keeper '/fn keeper_receive(/,/^) ->/s/list: &\[u16\]/list: \&[u32]/'
in_source run_table 's/^pub extern "C" fn run_table_processes(table: &\[u8\]) -> u16/pub extern "C" fn run_table_processes(table: \&[u8]) -> u32/'
in_source listing_text 's/text: &mut \[u8\], written/text: \&[u8], written/'
# What the archive's crate states again, and what it calls.
in_source keeper '/^\/\/ The recovery line of the run/s/run/table/'
in_source keeper '/^\/\/ The recovery line of the run/d'
in_source keeper '/fn keeper_send(/,/^{/s/ensures table/ensures other/'
in_source keeper '/fn keeper_send(/,/^{/s/send from to/send to from/'
in_source keeper '/fn keeper_line_under(/,/^{/{/^    ensures latest/,/^{/{/^{/!d}}'
in_source keeper '/fn keeper_save(/,/^{/s/^{/    requires { length table.now < 1 }\n{/'
in_source run_table '/fn run_table_sender(/,/^{/s/)\.sender/).receiver/'
in_source listing_text 's/ensures fits { 80000/ensures fits { 8000/'
changed crates/keeper_c/src/lib.rt 's/keeper::keeper_check_table(table)/0/'
changed crates/keeper_c/src/lib.rt 's/keeper::keeper_send(table, from, to,/keeper::keeper_send(table, to, from,/'
changed crates/keeper_c/src/lib.rt 's/keeper::keeper_receive(/keeper::keeper_save(/'
changed crates/keeper_c/src/lib.rt 's/keeper::keeper_line_of_set(.*)/{ & + 0 }/'
changed crates/run_table_c/src/lib.rt 's/run_table::run_table_sent(table, k)/run_table::run_table_sent(table, k + 1)/'
changed crates/listing_text_c/src/lib.rt 's/^    listing_text::keeper_listing(.*)$/    let refusal = &;\n    refusal/'
changed docs/MANUAL.md 's/uint16_t from, uint16_t to/uint16_t to, uint16_t from/'
changed docs/MANUAL.md '/^An archive needs nothing but/s/, `memmove`//'
changed docs/MANUAL.md 's/ceilings, ceilings_length/ceilings_length, ceilings/'
changed docs/MANUAL.md 's/marks, marks_length, //'
changed docs/MANUAL.md '/^| `uint32_t keeper_stand_together(/d'
changed docs/MANUAL.md '/^| `uint32_t keeper_stand_together(/s/states, states_length, //'
changed docs/MANUAL.md '/^| `uint32_t keeper_stand_together(/s/processes, processes_length/processes_length, processes/'
changed docs/MANUAL.md '/^| `uint32_t keeper_lines_of_sets(/d'
changed docs/MANUAL.md '/^| `uint32_t keeper_lines_of_sets(/s/sets, sets_length, //'
changed docs/MANUAL.md '/^| `uint32_t keeper_lines_of_sets(/s/sets, sets_length/sets_length, sets/'
changed docs/MANUAL.md '/^| `uint32_t keeper_lines_of_sets(/s/scratch, numbers, //'
changed docs/MANUAL.md '/^| `uint32_t keeper_receive(/d'
changed docs/MANUAL.md '/^| `uint32_t keeper_receive(/s/list, list_length/list_length, list/'
changed docs/MANUAL.md '/^| `uint16_t run_table_sent/d'
changed docs/MANUAL.md 's/^\(| `uint16_t run_table_\)sent\(.*\)/&\n\1lost\2/'
changed man/keeper.3 's/^\.Fa "uint16_t to"/.Fa "uint32_t to"/'
changed man/keeper.3 's/^\.Fa "size_t ceilings_length"/.Fa "size_t list_length"/'
changed man/keeper.3 's/^\.Fa "uint8_t \*marks"/.Fa "uint16_t *marks"/'
changed man/keeper.3 '/^\.Fo keeper_receive/,/^\.Fc/s/"uint16_t process"/"uint32_t process"/'
changed man/keeper.3 '/^\.Fo keeper_receive/,/^\.Fc/d'
changed man/keeper.3 's/^\.Fa "const uint16_t \*processes"/.Fa "uint16_t *processes"/'
changed man/keeper.3 's/^\.Fa "size_t states_length"/.Fa "size_t list_length"/'
changed man/keeper.3 '/^\.Fo keeper_stand_together/,/^\.Fc/d'
changed man/keeper.3 's/^\.Fa "const uint32_t \*sets"/.Fa "uint32_t *sets"/'
changed man/keeper.3 's/^\.Fa "size_t sets_length"/.Fa "size_t list_length"/'
changed man/keeper.3 '/^\.Fo keeper_lines_of_sets/,/^\.Fc/s/"uint16_t \*scratch"/"uint8_t *scratch"/'
changed man/keeper.3 '/^\.Fo keeper_lines_of_sets/,/^\.Fc/d'
changed man/keeper.3 's/^\.Fo keeper_listing/.Fo keeper_text/'
changed man/run_table_check.3 '/^\.Fa "size_t p"/d'
changed bindings/rust/src/archive.rs 's/set: u32/set: u64/'
changed bindings/rust/src/archive.rs 's/list: \*const u16/list: *mut u16/'
changed bindings/rust/src/archive.rs 's/ceilings: \*const u16/ceilings: *mut u16/'
changed bindings/rust/src/archive.rs 's/ceilings_length: usize/list_length: usize/'
changed bindings/rust/src/archive.rs 's/marks: \*mut u8/marks: *const u8/'
changed bindings/rust/src/archive.rs 's/marks_length: usize/marks: usize/'
changed bindings/rust/src/archive.rs 's/processes: \*const u16/processes: *mut u16/'
changed bindings/rust/src/archive.rs 's/states: \*const u16/states: *const u8/'
changed bindings/rust/src/archive.rs 's/states_length: usize/states: usize/'
changed bindings/rust/src/archive.rs '/pub fn keeper_stand_together(/,/;$/d'
changed bindings/rust/src/archive.rs 's/sets: \*const u32/sets: *mut u32/'
changed bindings/rust/src/archive.rs 's/sets: \*const u32/sets: *const u16/'
changed bindings/rust/src/archive.rs 's/sets_length: usize/sets: usize/'
changed bindings/rust/src/archive.rs '/pub fn keeper_lines_of_sets(/,/;$/s/scratch: \*mut u16/scratch: *const u16/'
changed bindings/rust/src/archive.rs '/pub fn keeper_lines_of_sets(/,/;$/d'
changed bindings/rust/src/archive.rs '/pub fn keeper_receive(/,/;$/d'
changed bindings/rust/src/archive.rs '/pub fn keeper_receive(/,/;$/s/list: \*const u16/list: *const u32/'
changed bindings/rust/src/archive.rs '/pub fn keeper_receive(/,/;$/s/process: u16/receiver: u16/'
changed bindings/rust/src/archive.rs 's/        to: u16,/        target: u16,/'
changed bindings/rust/src/archive.rs '/pub fn run_table_sent/d'
changed bindings/rust/src/archive.rs 's/run_table_processes(table: \*const u8, length: usize) -> u16/run_table_processes(table: *const u8, length: usize) -> u32/'
fresh
cp "$copy/archives/libkeeper.a" "$copy/archives/librun_table.a"
finds "the archive of another crate"
fresh
echo 'int keeper_state;' | gcc -x c -c -o "$work/must_fail.o" - && ar q "$copy/archives/libkeeper.a" "$work/must_fail.o" 2>/dev/null
finds "an archive that exports data"
fresh
echo 'static int state; __attribute__((used)) static int next(void) { return ++state; }' | gcc -x c -c -o "$work/must_fail.o" - &&
    ar q "$copy/archives/librun_table.a" "$work/must_fail.o" 2>/dev/null
finds "an archive with data of its own"
fresh
echo 'void *malloc(unsigned long); __attribute__((used)) static void *get(void) { return malloc(9); }' | gcc -x c -fno-builtin -c -o "$work/must_fail.o" - &&
    ar q "$copy/archives/liblisting_text.a" "$work/must_fail.o" 2>/dev/null
finds "an archive that allocates"
echo "must_fail: $found changes found by headers.sh"
