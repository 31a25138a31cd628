/* The calls that are compared: the archive's, which keeper.h declares, and others that take the same. */
#ifndef CALLS_H
#define CALLS_H

#include "keeper.h"

/* A call of an implementation, which takes what the archive's takes. */
#define AS_KEEPER(prefix, name) __typeof__(keeper_##name) prefix##_##name

/* Plain C: lines in the same way, after the same checks of the table; for the line by marking the same rounds of
   passes, over the same bits. */
AS_KEEPER(plain, check_table);
AS_KEEPER(plain, line_of_set);
AS_KEEPER(plain, recovery_line);
AS_KEEPER(plain, lines_of_sets);
AS_KEEPER(plain, line_under);
AS_KEEPER(plain, marked_line);
AS_KEEPER(plain, stand_together);
AS_KEEPER(plain, send);
AS_KEEPER(plain, save);
AS_KEEPER(plain, receive);
AS_KEEPER(plain, fall_back);
AS_KEEPER(plain, keep_sheet);

/* Plain C without the checks of the table. */
AS_KEEPER(bare, recovery_line);
AS_KEEPER(bare, lines_of_sets);
AS_KEEPER(bare, line_under);
AS_KEEPER(bare, marked_line);
AS_KEEPER(bare, stand_together);
AS_KEEPER(bare, send);
AS_KEEPER(bare, save);
AS_KEEPER(bare, receive);
AS_KEEPER(bare, fall_back);
AS_KEEPER(bare, keep_sheet);

/* Rust: the same, after the same checks. */
AS_KEEPER(rust, check_table);
AS_KEEPER(rust, recovery_line);
AS_KEEPER(rust, lines_of_sets);
AS_KEEPER(rust, line_under);
AS_KEEPER(rust, marked_line);
AS_KEEPER(rust, stand_together);
AS_KEEPER(rust, send);
AS_KEEPER(rust, save);
AS_KEEPER(rust, receive);
AS_KEEPER(rust, fall_back);
AS_KEEPER(rust, keep_sheet);

/* Rollback propagation by a work list over the checkpoint graph, after the same checks: with a mark for
   each checkpoint, as Figure 3 of the source has it. */
AS_KEEPER(marks, recovery_line);
AS_KEEPER(marks, line_under);
AS_KEEPER(marks, stand_together);
AS_KEEPER(marks, fall_back);
AS_KEEPER(marks, keep_sheet);

/* The same, with the marked checkpoints of a process as a range: they are always its last ones. */
AS_KEEPER(ranges, recovery_line);
AS_KEEPER(ranges, line_under);
AS_KEEPER(ranges, stand_together);
AS_KEEPER(ranges, fall_back);
AS_KEEPER(ranges, keep_sheet);

/* An older archive's calls under other names, where one is linked beside this one. */
#define OLD(name) __attribute__((weak)) AS_KEEPER(old_keeper, name)
OLD(check_table);
OLD(recovery_line);
OLD(lines_of_sets);
OLD(line_under);
OLD(stand_together);
OLD(fall_back);
OLD(keep_sheet);
#undef OLD

/* How many messages the plain C version looks at: for a line under ceilings, and for the lines of a sheet, all single
   holders together. And how many passes a line under ceilings would take by passes alone. */
size_t plain_looks_under(const uint8_t *table, const uint16_t *ceilings);
size_t plain_looks_of_holders(const uint8_t *table);
size_t plain_passes_under(const uint8_t *table, const uint16_t *ceilings);

/* How many rounds the plain C version of the marking procedure makes under ceilings, and how many passes over
   the messages in all of them together. */
struct marking {
    size_t rounds, passes;
};
struct marking plain_marking_under(const uint8_t *table, const uint16_t *ceilings);

#endif
