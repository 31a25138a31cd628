/* listing_text.h: the text that the program `listing` prints. Link liblisting_text.a (-llisting_text);
   nothing else is needed. It has a header of its own, as it has an archive of its own. The names of
   refusals and the version are those of keeper.h. */
#ifndef LISTING_TEXT_H
#define LISTING_TEXT_H

#include "keeper.h"

#ifdef __cplusplus
extern "C" {
#endif

/* Bytes that are enough for every listing, so that check 16 never catches. */
#define KEEPER_LISTING_ROOM 80000

/* The listing of `length` bytes, a table or not. Rows of a word and decimal numbers, one space before
   each number, one line feed after each row, no byte 0 at the end:

       line L0 .. LN-1         the recovery line
       hold P L0 .. LN-1       for each process P, the line of the set of P alone
       checkpoint P C          for each kept checkpoint, in the order of the keep sheet
       message K               for each kept message, by position
       share S                 100 times the number of kept checkpoints divided by the sum of the counts:
                               the nearest whole number, and on an exact half the even one

   So 1 checkpoint of 8 gives 12, and 3 of 8 give 38. S is at most 100; it may be 100 where not all are
   kept, and 0 where some are.

   Where the table is refused, by one of the table's checks, there is one row, `refused` and the number,
   and the call returns KEEPER_OK: such bytes have a listing too. So a whole listing ends with a row of
   `share` or is one row of `refused`, and its last byte is a line feed; a stored text that is not so was cut.

   Checks: 16. It returns KEEPER_ANSWER_TOO_SHORT where the text is longer than `room`, and then nothing
   is changed. On KEEPER_OK the text stands at the front of `text` and its length in `*written`; the bytes
   beyond it are unchanged. The rules at the head of keeper.h hold: `table` may be NULL where `length` is
   0 and `text` where `room` is 0, `written` never; none of the three may overlap another; `table` is only
   read. Stack: 17000, most of it for a keep sheet and its lines. */
uint32_t keeper_listing(const uint8_t *table, size_t length, uint8_t *text, size_t room,
                        size_t *written);

#ifdef __cplusplus
}
#endif

#endif
