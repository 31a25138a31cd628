#!/bin/sh
# sh tests/refusals/must_fail.sh WORK
#
# That compare.sh can fail: it is run over copies of the files that it reads with one change each. It has to find every
# one, and to name the file and the refusal or call.

if [ $# -ne 1 ] || [ ! -d "$1" ]; then
    echo "usage: sh tests/refusals/must_fail.sh WORK" >&2
    exit 2
fi
work=$(cd "$1" && pwd)
here=$(cd "$(dirname "$0")" && pwd)
root=$here/../..
prefix=refusals
. "$root/tests/changes.sh"

fresh() {
    rm -rf "$copy"
    mkdir -p "$copy/docs" "$copy/tests/refusals" "$copy/tests/reference" "$copy/bindings/rust" "$copy/crates/tables/specs" "$copy/crates/tables/src" || exit 1
    cp "$here/compare.sh" "$copy/tests/refusals" && cp "$root/docs/refusals.txt" "$root/docs/MANUAL.md" "$copy/docs" &&
        cp -r "$root/include" "$root/man" "$copy" && cp -r "$root/bindings/rust/src" "$copy/bindings/rust" &&
        cp -r "$root/tests/reference/src" "$copy/tests/reference" &&
        cp "$root/crates/tables/src/refusal.rt" "$copy/crates/tables/src" &&
        cp "$root/crates/tables/specs/Checks.antt" "$root/crates/tables/specs/Refusals.antt" "$copy/crates/tables/specs" || exit 1
}

tested() {
    sh "$copy/tests/refusals/compare.sh"
}

# A file, the edit that it gets, and what has to be named beside the file.
differs() {
    changed "$1" "$2"
    grep -q "$1" "$work/must_fail.out" || { cat "$work/must_fail.out"; fail "found, but the file is not named: $1, $2"; }
    grep -q "$3" "$work/must_fail.out" || { cat "$work/must_fail.out"; fail "found, but not told by '$3': $1, $2"; }
}

finds_nothing

# The one table: against itself, and against the others.
differs docs/refusals.txt '/^7 /d' MESSAGE_TO_ITS_SENDER
differs docs/refusals.txt '/^4 /{h;d;};/^5 /G' WRONG_LENGTH
differs docs/refusals.txt 's/^8 /7 /' 'second refusal 7'
differs docs/refusals.txt 's/ BAD_LIST / TABLE_FULL /' 'second refusal TABLE_FULL'
differs docs/refusals.txt 's/^4   table/4   list/' 'refusal 4'
differs docs/refusals.txt 's/^9   table/9   call/' '(call).*receipt number'
differs docs/refusals.txt 's/^12 /twelve /' twelve
differs docs/refusals.txt '/^14 /s/meets M/has M/' TABLE_FULL
differs docs/refusals.txt '/^13 /{n;d;}' BAD_LIST
differs docs/refusals.txt 's/^\(16 .*TOO_SHORT\).*/\1/' 'refusal 16'
differs docs/refusals.txt '/^13 /s/$/\n#/' 'no row to go on with'
differs docs/refusals.txt '/^keeper_send /s/10 11/11 10/' keeper_send
differs docs/refusals.txt '/^keeper_send /s/table 10/10 table/' keeper_send
differs docs/refusals.txt '/^keeper_fall_back /s/16/99/' keeper_fall_back
differs docs/refusals.txt '/^keeper_save /s/13 //' keeper_save
differs docs/refusals.txt '/^keeper_line_of_set /d' keeper_line_of_set
differs docs/refusals.txt '/^17 /{h;d;};/^18 /G' 'keeper_line_under: 18 '
differs docs/refusals.txt '/^18 /s/above/not below/' CEILING_TOO_HIGH
differs docs/refusals.txt '/^keeper_line_under /s/17 18/18 17/' keeper_line_under
differs docs/refusals.txt '/^keeper_line_under /s/18 //' keeper_line_under
differs docs/refusals.txt '/^19 /{h;d;};/^16 /G' 'keeper_marked_line: 16 '
differs docs/refusals.txt '/^19 /{h;d;};/^15 /G' MARKS_TOO_SHORT
differs docs/refusals.txt '/^19 /s/, rounded up//' MARKS_TOO_SHORT
differs docs/refusals.txt '/^keeper_marked_line /s/18 19/19 18/' keeper_marked_line
differs docs/refusals.txt '/^keeper_marked_line /s/19 //' keeper_marked_line
differs docs/refusals.txt '/^keeper_marked_line /d' keeper_marked_line
differs docs/refusals.txt '/^9 /s/is above/is not below/' RECEIPT_NUMBER_TOO_HIGH
differs docs/refusals.txt '/^10 /s/send, save or receipt/send or save/' UNKNOWN_PROCESS
differs docs/refusals.txt '/^13 /s/a save or receipt/a save/' BAD_LIST
differs docs/refusals.txt '/^keeper_receive /d' keeper_receive
differs docs/refusals.txt '/^keeper_receive /s/10 13/13 10/' keeper_receive
differs docs/refusals.txt '/^keeper_receive /s/24 16/24 14 16/' keeper_receive
differs docs/refusals.txt '/^keeper_receive /s/10 //' keeper_receive
differs docs/refusals.txt '/^20 /{h;d;};/^21 /G' 'keeper_stand_together: 21 '
differs docs/refusals.txt '/^22 /{h;d;};/^16 /G' 'keeper_stand_together: 16 '
differs docs/refusals.txt '/^2[012] /{H;d;};/^19 /{p;g;s/^\n//;}' UNEQUAL_LISTS
differs docs/refusals.txt '/^20 /s/named processes and of their states/processes and states/' UNEQUAL_LISTS
differs docs/refusals.txt '/^21 /s/, or not above the one before it//' BAD_NAMED_PROCESS
differs docs/refusals.txt '/^22 /s/not below/above/' NAMED_STATE_TOO_HIGH
differs docs/refusals.txt '/^keeper_stand_together /d' keeper_stand_together
differs docs/refusals.txt '/^keeper_stand_together /s/20 21/21 20/' keeper_stand_together
differs docs/refusals.txt '/^keeper_stand_together /s/22 //' keeper_stand_together
differs docs/refusals.txt '/^keeper_stand_together /s/ 16//' keeper_stand_together
differs docs/refusals.txt '/^9 /{h;d;};/^23 /{N;N;G;}' CHANNEL_OUT_OF_ORDER
differs docs/refusals.txt '/^23 /{N;N;h;d;};/^10 /G' CHANNEL_OUT_OF_ORDER
differs docs/refusals.txt '/^23 /{N;N;d;}' CHANNEL_OUT_OF_ORDER
differs docs/refusals.txt '/^23 /s/table/call /' '(call).*of two messages'
differs docs/refusals.txt '/^23 /,/^10 /s/, or is received while the earlier one waits//' CHANNEL_OUT_OF_ORDER
differs docs/refusals.txt '/^13 /{N;h;d;};/^24 /{N;G;}' 'keeper_save: 24 '
differs docs/refusals.txt '/^24 /{N;h;d;};/^14 /G' 'keeper_save: 14 '
differs docs/refusals.txt '/^24 /s/a save or receipt/a save/' MESSAGE_PASSED_OVER
differs docs/refusals.txt '/^24 /s/older //' MESSAGE_PASSED_OVER
differs docs/refusals.txt '/^keeper_save /s/24 //' keeper_save
differs docs/refusals.txt '/^keeper_save /s/24 14/14 24/' keeper_save
differs docs/refusals.txt '/^keeper_receive /s/24 //' keeper_receive
differs docs/refusals.txt '/^keeper_receive /s/13 24/24 13/' keeper_receive
differs docs/refusals.txt '/^25 /{h;d;};/^12 /G' 'keeper_lines_of_sets: 12 '
differs docs/refusals.txt '/^11 /{h;d;};/^25 /G' TOO_MANY_SETS
differs docs/refusals.txt '/^25 /d' 'keeper_lines_of_sets: 25 '
differs docs/refusals.txt '/^25 /s/more than 256/256 or more/' TOO_MANY_SETS
differs docs/refusals.txt '/^keeper_lines_of_sets /d' keeper_lines_of_sets
differs docs/refusals.txt '/^keeper_lines_of_sets /s/25 12/12 25/' keeper_lines_of_sets
differs docs/refusals.txt '/^keeper_lines_of_sets /s/25 //' keeper_lines_of_sets
differs docs/refusals.txt '/^keeper_lines_of_sets /s/15 16/16 15/' keeper_lines_of_sets

# The headers.
differs include/keeper.h 's/NUMBER_TOO_HIGH = 8/NUMBER_TOO_HIGH = 9/;t;s/NUMBER_TOO_HIGH = 9/NUMBER_TOO_HIGH = 8/' KEEPER_SEND_NUMBER_TOO_HIGH
differs include/keeper.h 's/KEEPER_WRONG_LENGTH = 4,/KEEPER_WRONG_LENGTH,/' KEEPER_WRONG_LENGTH
differs include/keeper.h 's/KEEPER_OK = 0/KEEPER_OK = 1/' KEEPER_OK
differs include/keeper.h 's/KEEPER_BAD_LIST = /KEEPER_WRONG_LIST = /' KEEPER_BAD_LIST
differs include/keeper.h 's/the answer buffer is shorter/the answer buffer is smaller/' KEEPER_ANSWER_TOO_SHORT
differs include/keeper.h 's/the one before it, or of a message/the one before it, or a message/' KEEPER_BAD_LIST
differs include/keeper.h '/KEEPER_SEND_TO_ITSELF = /d' KEEPER_SEND_TO_ITSELF
differs include/keeper.h '/KEEPER_TOO_MANY_MESSAGES = /{h;d;};/KEEPER_WRONG_LENGTH = /G' KEEPER_TOO_MANY_MESSAGES
differs include/keeper.h '/KEEPER_RECEIPT_NUMBER_TOO_HIGH = /{h;d;};/Of the other arguments/G' KEEPER_RECEIPT_NUMBER_TOO_HIGH
differs include/keeper.h 's/KEEPER_TABLE_FULL = .*/&\n    KEEPER_MORE = 99, \/* more *\//' KEEPER_MORE
differs include/keeper.h "s/Checks: the table's, 12, 16/Checks: the table's, 16/" keeper_line_of_set
differs include/keeper.h "s/Checks: the table's, 17, 18, 16/Checks: the table's, 12, 17, 18, 16/" keeper_line_under
differs include/keeper.h '/KEEPER_WRONG_CEILING_COUNT = /{h;d;};/KEEPER_CEILING_TOO_HIGH = /G' KEEPER_WRONG_CEILING_COUNT
differs include/keeper.h 's/case KEEPER_CEILING_TOO_HIGH: /case KEEPER_WRONG_CEILING_COUNT: /' 'keeper_refusal_words.*KEEPER_WRONG_CEILING_COUNT'
differs include/keeper.h "s/Checks: the table's, 17, 18, 19, 16/Checks: the table's, 17, 18, 16/" keeper_marked_line
differs include/keeper.h '/KEEPER_MARKS_TOO_SHORT = /{N;h;d;};/KEEPER_SCRATCH_TOO_SHORT = /G' KEEPER_MARKS_TOO_SHORT
differs include/keeper.h 's/(sum of counts + N) \/ 8$/(sum of counts) \/ 8/' KEEPER_MARKS_TOO_SHORT
differs include/keeper.h 's/return "the mark buffer is shorter/return "the mark buffer is smaller/' 'keeper_refusal_words.*KEEPER_MARKS_TOO_SHORT'
differs include/keeper.h "s/Checks: the table's, 10, 13, 24, 16/Checks: the table's, 10, 13, 24, 14, 16/" keeper_receive
differs include/keeper.h "s/Checks: the table's, 10, 13, 24, 16/Checks: the table's, 13, 10, 24, 16/" keeper_receive
differs include/keeper.h "s/Checks: the table's, 10, 13, 24, 16/Checks: the table's, 10, 13, 16/" keeper_receive
differs include/keeper.h "s/Checks: the table's, 10, 13, 24, 14, 16/Checks: the table's, 10, 13, 14, 24, 16/" keeper_save
differs include/keeper.h '/KEEPER_RECEIPT_NUMBER_TOO_HIGH = /{h;d;};/KEEPER_CHANNEL_OUT_OF_ORDER = /{N;N;G;}' KEEPER_CHANNEL_OUT_OF_ORDER
differs include/keeper.h '/KEEPER_CHANNEL_OUT_OF_ORDER = /{N;N;h;d;};/Of the other arguments/G' KEEPER_CHANNEL_OUT_OF_ORDER
differs include/keeper.h 's/KEEPER_CHANNEL_OUT_OF_ORDER = 23/KEEPER_CHANNEL_OUT_OF_ORDER = 24/' KEEPER_CHANNEL_OUT_OF_ORDER
differs include/keeper.h '/KEEPER_MESSAGE_PASSED_OVER = /{N;h;d;};/KEEPER_TABLE_FULL = /G' KEEPER_MESSAGE_PASSED_OVER
differs include/keeper.h 's/KEEPER_MESSAGE_PASSED_OVER = 24, \( *\)\/\* the list of a save or receipt/KEEPER_MESSAGE_PASSED_OVER = 24, \1\/* the list of a save/' KEEPER_MESSAGE_PASSED_OVER
differs include/keeper.h '/case KEEPER_MESSAGE_PASSED_OVER:/{N;N;d;}' 'keeper_refusal_words.*row 11'
differs include/keeper.h 's/receipt passes over an older waiting message/receipt passes over a waiting message/' 'keeper_refusal_words.*KEEPER_MESSAGE_PASSED_OVER'
differs include/keeper.h 's/KEEPER_UNKNOWN_PROCESS = 10, .*/KEEPER_UNKNOWN_PROCESS = 10, \/* a process named in a send or save is N or above *\//' KEEPER_UNKNOWN_PROCESS
differs include/keeper.h 's/return "the list of a save or receipt/return "the list of a save/' 'keeper_refusal_words.*KEEPER_BAD_LIST'
differs include/keeper.h "s/Checks: the table's, 20, 21, 22, 16/Checks: the table's, 20, 21, 22/" keeper_stand_together
differs include/keeper.h "s/Checks: the table's, 20, 21, 22, 16/Checks: the table's, 21, 20, 22, 16/" keeper_stand_together
differs include/keeper.h '/KEEPER_BAD_NAMED_PROCESS = /{h;d;};/KEEPER_NAMED_STATE_TOO_HIGH = /G' KEEPER_BAD_NAMED_PROCESS
differs include/keeper.h '/KEEPER_UNEQUAL_LISTS = /{N;h;d;};/KEEPER_TABLE_FULL = /G' KEEPER_UNEQUAL_LISTS
differs include/keeper.h 's/KEEPER_NAMED_STATE_TOO_HIGH = 22, .*/KEEPER_NAMED_STATE_TOO_HIGH = 22, \/* a named state is above its count *\//' KEEPER_NAMED_STATE_TOO_HIGH
differs include/keeper.h '/case KEEPER_NAMED_STATE_TOO_HIGH: /d' 'keeper_refusal_words.*row 9'
differs include/keeper.h 's/return "the lists of named processes/return "the lists of processes/' 'keeper_refusal_words.*KEEPER_UNEQUAL_LISTS'
differs include/keeper.h "s/Checks: the table's, 15, 16/Checks: the table's, 16, 15/" keeper_keep_sheet
differs include/keeper.h "s/Checks: the table's, 25, 12, 15, 16/Checks: the table's, 12, 25, 15, 16/" keeper_lines_of_sets
differs include/keeper.h "s/Checks: the table's, 25, 12, 15, 16/Checks: the table's, 25, 12, 16/" keeper_lines_of_sets
differs include/keeper.h "s/Checks: the table's, 25, 12, 15, 16/Checks: the table's, 25, 12; 15, 16/" keeper_lines_of_sets
differs include/keeper.h '/KEEPER_TOO_MANY_SETS = /{h;d;};/KEEPER_UNKNOWN_PROCESS_IN_SET = /G' KEEPER_TOO_MANY_SETS
differs include/keeper.h 's/KEEPER_TOO_MANY_SETS = 25, \( *\)\/\* there are more than 256/KEEPER_TOO_MANY_SETS = 25, \1\/* there are more than 255/' KEEPER_TOO_MANY_SETS
differs include/keeper.h '/case KEEPER_TOO_MANY_SETS: /d' 'keeper_refusal_words.*row 3'
differs include/keeper.h 's/return "there are more than 256/return "there are more than 255/' 'keeper_refusal_words.*KEEPER_TOO_MANY_SETS'
differs include/keeper.h "s/ Checks: the table's\\. / /" keeper_check_table
differs include/run_table.h 's/RUN_TABLE_TOO_SHORT = 1/RUN_TABLE_TOO_SHORT = 2/' RUN_TABLE_TOO_SHORT
differs include/run_table.h 's/N is 0 or above 32/N is 0 or above 31/' RUN_TABLE_PROCESSES_OUT_OF_RANGE
differs include/run_table.h '/RUN_TABLE_COUNT_OUT_OF_RANGE = /d' RUN_TABLE_COUNT_OUT_OF_RANGE
differs include/run_table.h '/RUN_TABLE_WRONG_LENGTH = /{h;d;};/RUN_TABLE_COUNT_OUT_OF_RANGE = /G' RUN_TABLE_WRONG_LENGTH
differs include/run_table.h 's/return "a count is 0 or/return "a count is 1 or/' 'run_table_refusal_words.*COUNT_OUT_OF_RANGE'
differs include/run_table.h '/case RUN_TABLE_WRONG_LENGTH: /d' 'run_table_refusal_words.*row 5'
differs include/run_table.h '/case RUN_TABLE_TOO_SHORT: /{h;d;};/case RUN_TABLE_TOO_MANY_MESSAGES: /G' 'run_table_refusal_words.*row 2'
differs include/run_table.h 's/= 9, .*/= 9,    \/* a receipt number is not below the receiver'"'s count *\\//" RUN_TABLE_RECEIPT_NUMBER_TOO_HIGH
differs include/run_table.h '/RUN_TABLE_CHANNEL_OUT_OF_ORDER = /{N;N;d;}' RUN_TABLE_CHANNEL_OUT_OF_ORDER
differs include/run_table.h '/RUN_TABLE_CHANNEL_OUT_OF_ORDER = /s/the$/a/' RUN_TABLE_CHANNEL_OUT_OF_ORDER
differs include/run_table.h 's/waits, or, where both are received, has a smaller "/waits, or has a smaller "/' 'run_table_refusal_words.*CHANNEL_OUT_OF_ORDER'
differs include/run_table.h '/case RUN_TABLE_CHANNEL_OUT_OF_ORDER:/{N;N;d;}' 'run_table_refusal_words.*row 11'
differs include/run_table.h 's/return "a receipt number is above/return "a receipt number is not below/' 'run_table_refusal_words.*RECEIPT_NUMBER_TOO_HIGH'
differs include/run_table.h 's/return "no refusal"/return "nothing"/' 'run_table_refusal_words.*RUN_TABLE_OK'
differs include/run_table.h 's/case RUN_TABLE_MESSAGE_TO_ITS_SENDER: return \(.*\);/case RUN_TABLE_MESSAGE_TO_ITS_SENDER: return (\1);/' 'run_table_refusal_words.*row 8'
differs include/keeper.h 's/case KEEPER_TABLE_FULL: return "a send meets/case KEEPER_TABLE_FULL: return "a send has/' 'keeper_refusal_words.*KEEPER_TABLE_FULL'
differs include/keeper.h 's/^ *"or of a message not waiting for that process";/"";/' 'keeper_refusal_words.*KEEPER_BAD_LIST'
differs include/keeper.h '/case KEEPER_SEND_TO_ITSELF: /d' 'keeper_refusal_words.*row 2'
differs include/keeper.h 's/case KEEPER_UNKNOWN_PROCESS: /case KEEPER_WRONG_LENGTH: /' 'keeper_refusal_words.*KEEPER_WRONG_LENGTH'
differs include/keeper.h 's/    default: return run_table_refusal_words/    case KEEPER_OK: return "fine";\n&/' 'keeper_refusal_words.*KEEPER_OK'
differs include/listing_text.h 's/Checks: 16/Checks: 15/' keeper_listing

# The man pages.
differs man/keeper.3 's/^\.It 10 Dv/.It 11 Dv/' KEEPER_UNKNOWN_PROCESS
differs man/keeper.3 's/^\.It 6 Dv KEEPER_UNKNOWN_PROCESS_IN_MESSAGE/.It 6 Dv KEEPER_UNKNOWN_PROCESS/' KEEPER_UNKNOWN_PROCESS_IN_MESSAGE
differs man/keeper.3 's/^A set has a bit at N/A set has bits at N/' KEEPER_UNKNOWN_PROCESS_IN_SET
differs man/keeper.3 '/^\.It 16 Dv/{N;d;}' KEEPER_ANSWER_TOO_SHORT
differs man/keeper.3 '/^\.It 4 Dv/{N;h;d;};/^\.It 5 Dv/{N;G;}' KEEPER_WRONG_LENGTH
differs man/keeper.3 "s/^Checks: the table's, 10, 13, 24, 14/Checks: the table's, 10, 24, 14/" keeper_save
differs man/keeper.3 "s/^Checks: the table's, 10, 13, 24, 14/Checks: the table's, 10, 13, 14, 24/" keeper_save
differs man/keeper.3 '/^\.It 17 Dv/{N;h;d;};/^\.It 16 Dv/{N;G;}' KEEPER_WRONG_CEILING_COUNT
differs man/keeper.3 "s/^Checks: the table's, 17, 18, 16/Checks: the table's, 18, 17, 16/" keeper_line_under
differs man/keeper.3 '/^\.It 19 Dv/{N;h;d;};/^\.It 15 Dv/{N;G;}' KEEPER_MARKS_TOO_SHORT
differs man/keeper.3 's/^The mark buffer is shorter than (sum of counts + N)/The mark buffer is shorter than (sum of counts)/' KEEPER_MARKS_TOO_SHORT
differs man/keeper.3 "s/^Checks: the table's, 17, 18, 19, 16/Checks: the table's, 17, 18, 16, 19/" keeper_marked_line
differs man/keeper.3 '/^\.It 20 Dv/{N;h;d;};/^\.It 22 Dv/{N;G;}' KEEPER_UNEQUAL_LISTS
differs man/keeper.3 '/^\.It 21 Dv/{N;d;}' KEEPER_BAD_NAMED_PROCESS
differs man/keeper.3 's/^A named state is not below/A named state is above/' KEEPER_NAMED_STATE_TOO_HIGH
differs man/keeper.3 "s/^Checks: the table's, 20, 21, 22, 16/Checks: the table's, 20, 22, 21, 16/" keeper_stand_together
differs man/keeper.3 "/^Checks: the table's, 20, 21, 22, 16/d" keeper_stand_together
differs man/keeper.3 "s/^Checks: the table's, 10, 13, 24, 16/Checks: the table's, 10, 13, 24, 14, 16/" keeper_receive
differs man/keeper.3 "s/^Checks: the table's, 10, 13, 24, 16/Checks: the table's, 10, 13, 16/" keeper_receive
differs man/keeper.3 "/^Checks: the table's, 10, 13, 24, 16/d" keeper_receive
differs man/keeper.3 '/^\.It 23 Dv/{N;N;h;d;};/^\.It 10 Dv/{N;G;}' KEEPER_CHANNEL_OUT_OF_ORDER
differs man/keeper.3 's/^waits, or, where both are received, has a smaller/waits, or has a smaller/' KEEPER_CHANNEL_OUT_OF_ORDER
differs man/keeper.3 '/^\.It 24 Dv/{N;h;d;};/^\.It 14 Dv/{N;G;}' KEEPER_MESSAGE_PASSED_OVER
differs man/keeper.3 '/^\.It 24 Dv/{N;d;}' KEEPER_MESSAGE_PASSED_OVER
differs man/keeper.3 's/^A receipt number is above/A receipt number is not below/' KEEPER_RECEIPT_NUMBER_TOO_HIGH
differs man/keeper.3 '/^\.It 25 Dv/{N;h;d;};/^\.It 12 Dv/{N;G;}' KEEPER_TOO_MANY_SETS
differs man/keeper.3 's/^There are more than 256 sets/There are 256 sets/' KEEPER_TOO_MANY_SETS
differs man/keeper.3 "s/^Checks: the table's, 25, 12, 15, 16/Checks: the table's, 25, 12, 16, 15/" keeper_lines_of_sets
differs man/keeper.3 "/^Checks: the table's, 25, 12, 15, 16/d" keeper_lines_of_sets
differs man/run_table_check.3 '/^\.It 3$/{N;d;}' RUN_TABLE_TOO_MANY_MESSAGES
differs man/run_table_check.3 's/^\.Dv RUN_TABLE_WRONG_LENGTH/.Dv RUN_TABLE_LENGTH/' RUN_TABLE_WRONG_LENGTH
differs man/run_table_check.3 '/^\.It 8$/{N;h;d;};/^\.It 9$/{N;G;}' RUN_TABLE_SEND_NUMBER_TOO_HIGH
differs man/run_table_check.3 '/^\.It 23$/{N;d;}' RUN_TABLE_CHANNEL_OUT_OF_ORDER
differs man/run_table_check.3 '/^\.It 9$/{N;h;d;};/^\.It 23$/{N;G;}' RUN_TABLE_CHANNEL_OUT_OF_ORDER
differs man/run_table.5 '/^\.It 9$/{N;h;d;};/^\.It 23$/{N;N;G;}' '23: of two messages'
differs man/run_table.5 's/^Of two messages with the same sender and receiver/Of two messages/' '23: of two messages'
differs man/run_table.5 's/^\.It 7$/.It/' 'same sender and receiver'
differs man/run_table.5 's/^A count is 0/A count is 1/' 'a count is 0'
differs man/run_table.5 '/^\.It 2$/{N;d;}' 'N is 0 or above'
differs man/run_table.5 's/^A receipt number is above/A receipt number is not below/' '9: a receipt number'

# The manual.
differs docs/MANUAL.md 's/^| 15 | call/| 51 | call/' '15 (call)'
differs docs/MANUAL.md 's/^| 10 | call/| 10 | table/' '10 (call)'
differs docs/MANUAL.md '/^| 11 |/s/twice/two times/' '11 (call)'
differs docs/MANUAL.md '/^| 14 |/d' '14 (call)'
differs docs/MANUAL.md '/^| 12 |/{h;d;};/^| 13 |/G' '12 (call)'
differs docs/MANUAL.md '/^| 17 |/{h;d;};/^| 16 |/G' '17 (call)'
differs docs/MANUAL.md '/^| `uint32_t keeper_line_under(/d' keeper_line_under
differs docs/MANUAL.md '/^| 19 |/{h;d;};/^| 16 |/G' '19 (call)'
differs docs/MANUAL.md '/^| 19 |/s/, rounded up//' '19 (call)'
differs docs/MANUAL.md '/^| `uint32_t keeper_marked_line(/d' keeper_marked_line
differs docs/MANUAL.md '/^| `uint32_t keeper_marked_line(/s/18, 19, 16/18, 16/' keeper_marked_line
differs docs/MANUAL.md '/^| 20 |/{h;d;};/^| 16 |/G' '20 (call)'
differs docs/MANUAL.md '/^| 21 |/s/N or above, or//' '21 (call)'
differs docs/MANUAL.md '/^| 22 |/d' '22 (call)'
differs docs/MANUAL.md '/^| `uint32_t keeper_stand_together(/d' keeper_stand_together
differs docs/MANUAL.md '/^| `uint32_t keeper_stand_together(/s/20, 21, 22, 16/20, 21, 22/' keeper_stand_together
differs docs/MANUAL.md '/^| `uint32_t keeper_send(/s/10, 11, 14/10, 14/' keeper_send
differs docs/MANUAL.md '/^| 9 |/s/is above/is not below/' '9 (table)'
differs docs/MANUAL.md '/^| `uint32_t keeper_receive(/d' keeper_receive
differs docs/MANUAL.md '/^| `uint32_t keeper_receive(/s/10, 13, 24, 16/10, 13, 24, 14, 16/' keeper_receive
differs docs/MANUAL.md '/^| `uint32_t keeper_receive(/s/13, 24, 16/13, 16/' keeper_receive
differs docs/MANUAL.md '/^| `uint32_t keeper_save(/s/24, 14/14, 24/' keeper_save
differs docs/MANUAL.md '/^| 23 |/{h;d;};/^| 10 |/G' '23 (table)'
differs docs/MANUAL.md '/^| 9 |/{h;d;};/^| 23 |/G' '23 (table)'
differs docs/MANUAL.md '/^| 23 |/s/while the earlier one waits/before the earlier one/' '23 (table)'
differs docs/MANUAL.md '/^| 24 |/{h;d;};/^| 14 |/G' '24 (call)'
differs docs/MANUAL.md '/^| 24 |/d' '24 (call)'
differs docs/MANUAL.md '/^| 25 |/{h;d;};/^| 12 |/G' '25 (call)'
differs docs/MANUAL.md '/^| 25 |/s/more than 256/256 or more/' '25 (call)'
differs docs/MANUAL.md '/^| `uint32_t keeper_lines_of_sets(/d' keeper_lines_of_sets
differs docs/MANUAL.md '/^| `uint32_t keeper_lines_of_sets(/s/25, 12/12, 25/' keeper_lines_of_sets
differs docs/MANUAL.md '/^| `uint32_t keeper_listing(/s/| 16 |/| |/' keeper_listing

# The names of the code, and their definition.
differs crates/tables/src/refusal.rt '/^    ChannelOutOfOrder,/{h;d;};/^    AnswerTooShort,/G' ChannelOutOfOrder
differs crates/tables/src/refusal.rt 's/Refusal::MarksTooShort => 19,/Refusal::MarksTooShort => 15,/' MarksTooShort
differs crates/tables/src/refusal.rt '/^    TableFull,/d' TableFull
differs crates/tables/specs/Refusals.antt 's/^refusal_number BadList = 13/refusal_number BadList = 24/' BadList
differs crates/tables/specs/Refusals.antt '/^refusal_number WrongLength = /d' WrongLength

# The binding.
differs bindings/rust/src/refusal.rs 's/SendToItself = 11/SendToItself = 12/' SendToItself
differs bindings/rust/src/refusal.rs 's/SendToItself = 11/SendToItself/' SendToItself
differs bindings/rust/src/refusal.rs 's/BadList = 13, call/BadList = 13, table/' BadList
differs bindings/rust/src/refusal.rs 's/or of a message not waiting/or of one not waiting/' BadList
differs bindings/rust/src/refusal.rs 's/    TableFull = /    TooFull = /' TableFull
differs bindings/rust/src/refusal.rs '/^    WrongLength = /d' WrongLength
differs bindings/rust/src/refusal.rs '/^    WrongLength = /{h;d;};/^    CountOutOfRange = /G' WrongLength
changed bindings/rust/src/lib.rs "s/^\\/\\/\\/ Checks: the table's, 12, 16/\\/\\/\\/ Checks: the table's, 16/"
differs bindings/rust/src/refusal.rs '/^    WrongCeilingCount = /{h;d;};/^    AnswerTooShort = /G' WrongCeilingCount
changed bindings/rust/src/lib.rs "s/^\\/\\/\\/ Checks: the table's, 17, 18, 16/\\/\\/\\/ Checks: the table's, 18, 16/"
differs bindings/rust/src/refusal.rs '/^    MarksTooShort = /{h;d;};/^    ScratchTooShort = /G' MarksTooShort
differs bindings/rust/src/refusal.rs 's/MarksTooShort = 19, call/MarksTooShort = 19, table/' MarksTooShort
changed bindings/rust/src/lib.rs "s/^\\/\\/\\/ Checks: the table's, 17, 18, 19, 16/\\/\\/\\/ Checks: the table's, 19, 17, 18, 16/"
differs bindings/rust/src/refusal.rs '/^    UnequalLists = /{h;d;};/^    NamedStateTooHigh = /G' UnequalLists
differs bindings/rust/src/refusal.rs 's/BadNamedProcess = 21, call/BadNamedProcess = 21, table/' BadNamedProcess
differs bindings/rust/src/refusal.rs 's/NamedStateTooHigh = 22/NamedStateTooHigh = 21/' NamedStateTooHigh
changed bindings/rust/src/lib.rs "s/^\\/\\/\\/ Checks: the table's, 20, 21, 22, 16/\\/\\/\\/ Checks: the table's, 20, 21, 16/"
changed bindings/rust/src/lib.rs "/^\\/\\/\\/ Checks: the table's, 20, 21, 22, 16/d"
differs bindings/rust/src/refusal.rs 's/a receipt number is above/a receipt number is not below/' ReceiptNumberTooHigh
changed bindings/rust/src/lib.rs "s/^\\/\\/\\/ Checks: the table's, 10, 13, 24, 16/\\/\\/\\/ Checks: the table's, 10, 13, 24, 14, 16/"
changed bindings/rust/src/lib.rs "s/^\\/\\/\\/ Checks: the table's, 10, 13, 24, 16/\\/\\/\\/ Checks: the table's, 10, 13, 16/"
changed bindings/rust/src/lib.rs "s/^\\/\\/\\/ Checks: the table's, 10, 13, 24, 14/\\/\\/\\/ Checks: the table's, 10, 13, 14, 24/"
changed bindings/rust/src/lib.rs "/^\\/\\/\\/ Checks: the table's, 10, 13, 24, 16/d"
differs bindings/rust/src/refusal.rs '/^    ReceiptNumberTooHigh = /{h;d;};/^    ChannelOutOfOrder = /{N;G;}' ChannelOutOfOrder
differs bindings/rust/src/refusal.rs 's/ChannelOutOfOrder = 23, table/ChannelOutOfOrder = 23, call/' ChannelOutOfOrder
differs bindings/rust/src/refusal.rs 's/ChannelOutOfOrder = 23/ChannelOutOfOrder = 24/' ChannelOutOfOrder
differs bindings/rust/src/refusal.rs '/^    MessagePassedOver = /{N;h;d;};/^    TableFull = /G' MessagePassedOver
differs bindings/rust/src/refusal.rs 's/passes over an older waiting/passes over a waiting/' MessagePassedOver
differs bindings/rust/src/refusal.rs '/^    TooManySets = /{h;d;};/^    UnknownProcessInSet = /G' TooManySets
differs bindings/rust/src/refusal.rs 's/TooManySets = 25, call/TooManySets = 25, table/' TooManySets
changed bindings/rust/src/lib.rs "s/^\\/\\/\\/ Checks: the table's, 25, 12, 15, 16/\\/\\/\\/ Checks: the table's, 25, 15, 12, 16/"
changed bindings/rust/src/lib.rs "/^\\/\\/\\/ Checks: the table's, 25, 12, 15, 16/d"
changed bindings/rust/src/listing_text.rs '/^\/\/\/ Checks: 16/d'

# The second implementation, and the definition that is proved.
differs tests/reference/src/table.rs '/^pub const TABLE_CHECKS/s/4, 5/5, 4/' 'row 4 '
differs tests/reference/src/table.rs '/^pub const TABLE_CHECKS/s/, 23\]/]/' 'row 10 '
differs tests/reference/src/table.rs '/^pub const TABLE_CHECKS/s/9, 23/23, 9/' 'row 9 '
differs tests/reference/src/table.rs 's/^    \/\/ 8\. A send number is not below/    \/\/ 8. A send number is above/' '8: a send number'
differs tests/reference/src/table.rs '/^    \/\/ 3\. /d' '3: M is above'
differs tests/reference/src/gen.rs 's/"5\. A count is 0 or/"5. A count is/' '5: a count'
changed tests/reference/src/steps.rs "s/^\\/\\/\\/ Checks: the table's, 10, 13, 24, 14, 16/\\/\\/\\/ Checks: the table's, 10, 13, 14, 16/"
changed tests/reference/src/steps.rs "s/^\\/\\/\\/ Checks: the table's, 10, 13, 24, 16/\\/\\/\\/ Checks: the table's, 10, 13, 16/"
differs tests/reference/src/table.rs 's/^    \/\/ 9\. A receipt number is above/    \/\/ 9. A receipt number is not below/' '9: a receipt number'
changed tests/reference/src/marking.rs "s/^\\/\\/\\/ Checks: the table's, 17, 18, 19, 16/\\/\\/\\/ Checks: the table's, 17, 18, 16, 19/"
changed tests/reference/src/sets.rs "s/^\\/\\/\\/ Checks: the table's, 25, 12, 15, 16/\\/\\/\\/ Checks: the table's, 12, 15, 16/"
changed tests/reference/src/zigzag.rs "s/^\\/\\/\\/ Checks: the table's, 20, 21, 22, 16/\\/\\/\\/ Checks: the table's, 20, 21, 16/"
differs crates/tables/specs/Checks.antt '/number = 8 }/{h;d;};/number = 9 }/G' 'row 8 '
differs crates/tables/specs/Checks.antt 's/number = 23 }/number = 24 }/' 'row 10 '

# A file that is not there.
fresh
rm "$copy/man/run_table.5"
finds "a page that is missing"
echo "must_fail: $found changes found by compare.sh"
