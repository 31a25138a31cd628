/* The calls of archives in the library's place: those of one of several faulty models, which the environment
   variable FAULT names by number; 0 is the model as it is, and 1 that with a chase. "faults.inc" has a line FAULT(k)
   for each. */
#include "listing_text.h"

#include <stdlib.h>

#define FAULT(k)                                                 \
    __typeof__(keeper_check_table) fault##k##_check_table;       \
    __typeof__(keeper_recovery_line) fault##k##_recovery_line;   \
    __typeof__(keeper_line_of_set) fault##k##_line_of_set;       \
    __typeof__(keeper_lines_of_sets) fault##k##_lines_of_sets;   \
    __typeof__(keeper_line_under) fault##k##_line_under;         \
    __typeof__(keeper_marked_line) fault##k##_marked_line;       \
    __typeof__(keeper_stand_together) fault##k##_stand_together; \
    __typeof__(keeper_send) fault##k##_send;                     \
    __typeof__(keeper_save) fault##k##_save;                     \
    __typeof__(keeper_receive) fault##k##_receive;               \
    __typeof__(keeper_fall_back) fault##k##_fall_back;           \
    __typeof__(keeper_keep_sheet) fault##k##_keep_sheet;         \
    __typeof__(keeper_listing) fault##k##_listing;
#include "faults.inc"
#undef FAULT

#define FAULT(k)                                                                                             \
    {fault##k##_check_table, fault##k##_recovery_line, fault##k##_line_of_set,    fault##k##_lines_of_sets,  \
     fault##k##_line_under,  fault##k##_marked_line,   fault##k##_stand_together, fault##k##_send,           \
     fault##k##_save,        fault##k##_receive,       fault##k##_fall_back,      fault##k##_keep_sheet,     \
     fault##k##_listing},
static const struct {
    __typeof__(keeper_check_table) *check_table;
    __typeof__(keeper_recovery_line) *recovery_line;
    __typeof__(keeper_line_of_set) *line_of_set;
    __typeof__(keeper_lines_of_sets) *lines_of_sets;
    __typeof__(keeper_line_under) *line_under;
    __typeof__(keeper_marked_line) *marked_line;
    __typeof__(keeper_stand_together) *stand_together;
    __typeof__(keeper_send) *send;
    __typeof__(keeper_save) *save;
    __typeof__(keeper_receive) *receive;
    __typeof__(keeper_fall_back) *fall_back;
    __typeof__(keeper_keep_sheet) *keep_sheet;
    __typeof__(keeper_listing) *listing;
} faults[] = {
#include "faults.inc"
};

static size_t chosen(void)
{
    static size_t number = SIZE_MAX;
    if (number == SIZE_MAX) {
        const char *word = getenv("FAULT");
        number = word == NULL ? 0 : (size_t)atoi(word);
        if (number >= sizeof faults / sizeof faults[0])
            exit(3);
    }
    return number;
}

#define TABLE const uint8_t *table, size_t length
#define ANSWER uint8_t *answer, size_t room, size_t *written

uint32_t keeper_check_table(TABLE)
{
    return faults[chosen()].check_table(table, length);
}

uint32_t keeper_recovery_line(TABLE, ANSWER)
{
    return faults[chosen()].recovery_line(table, length, answer, room, written);
}

uint32_t keeper_line_of_set(TABLE, uint32_t set, ANSWER)
{
    return faults[chosen()].line_of_set(table, length, set, answer, room, written);
}

uint32_t keeper_lines_of_sets(TABLE, const uint32_t *sets, size_t sets_length, uint16_t *scratch, size_t numbers,
                              ANSWER)
{
    return faults[chosen()].lines_of_sets(table, length, sets, sets_length, scratch, numbers, answer, room, written);
}

uint32_t keeper_line_under(TABLE, const uint16_t *ceilings, size_t ceilings_length, ANSWER)
{
    return faults[chosen()].line_under(table, length, ceilings, ceilings_length, answer, room, written);
}

uint32_t keeper_marked_line(TABLE, const uint16_t *ceilings, size_t ceilings_length, uint8_t *marks,
                            size_t marks_length, ANSWER)
{
    return faults[chosen()].marked_line(table, length, ceilings, ceilings_length, marks, marks_length, answer, room,
                                        written);
}

uint32_t keeper_stand_together(TABLE, const uint16_t *processes, size_t processes_length, const uint16_t *states,
                               size_t states_length, ANSWER)
{
    return faults[chosen()].stand_together(table, length, processes, processes_length, states, states_length, answer,
                                           room, written);
}

uint32_t keeper_send(TABLE, uint16_t from, uint16_t to, ANSWER)
{
    return faults[chosen()].send(table, length, from, to, answer, room, written);
}

uint32_t keeper_save(TABLE, uint16_t process, const uint16_t *list, size_t list_length, ANSWER)
{
    return faults[chosen()].save(table, length, process, list, list_length, answer, room, written);
}

uint32_t keeper_receive(TABLE, uint16_t process, const uint16_t *list, size_t list_length, ANSWER)
{
    return faults[chosen()].receive(table, length, process, list, list_length, answer, room, written);
}

uint32_t keeper_fall_back(TABLE, ANSWER)
{
    return faults[chosen()].fall_back(table, length, answer, room, written);
}

uint32_t keeper_keep_sheet(TABLE, uint16_t *scratch, size_t numbers, ANSWER)
{
    return faults[chosen()].keep_sheet(table, length, scratch, numbers, answer, room, written);
}

uint32_t keeper_listing(TABLE, uint8_t *text, size_t room, size_t *written)
{
    return faults[chosen()].listing(table, length, text, room, written);
}
