/* Plain C: each line from its ceiling down by passes over the messages from the last to the first; where a few of
   these do not settle it, by a chase from sender to sender, and then by passes until one lowers nothing. The line of
   a single holder whose rollback does not propagate is its ceiling. */
#include <stdbool.h>

#include "table.h"

#define EVERYONE 0xFFFFFFFFu

/* Compiled once and apart: the code of a short loop, and its time, is then the same wherever it is called from. */
#define APART __attribute__((noinline)) static

/* One pass: each orphan puts its receiver back. Answers whether there was one. */
APART int pass(uint16_t *line, struct parts t)
{
    int lowered = 0;
    for (size_t k = t.m; k-- > 0;) {
        uint16_t received = u16_at(t.receipts + 4 * k + 2);
        if (received == 0)
            continue;
        if (u16_at(t.sends + 4 * k + 2) < line[u16_at(t.sends + 4 * k)])
            continue;
        uint16_t receiver = u16_at(t.receipts + 4 * k);
        if (line[receiver] < received)
            continue;
        line[receiver] = (uint16_t)(received - 1);
        lowered = 1;
    }
    return lowered;
}

/* Where the chase stands: the messages of process p from cursor[p] on make no orphan; the processes on the stack
   were put back since they were looked at. A cursor of 0 is that of a process without a message left. */
struct chase {
    uint16_t cursor[KEEPER_MOST_PROCESSES];
    uint8_t stack[KEEPER_MOST_PROCESSES];
    bool stacked[KEEPER_MOST_PROCESSES];
    size_t height;
};

/* Puts the receiver of message k back where that is an orphan, and on the stack if it has a cursor. */
static inline void lower_at(struct chase *c, uint16_t *line, struct parts t, size_t k)
{
    uint16_t receiver = u16_at(t.receipts + 4 * k), received = u16_at(t.receipts + 4 * k + 2);
    if (received == 0 || line[receiver] < received)
        return;
    line[receiver] = (uint16_t)(received - 1);
    if (c->cursor[receiver] != 0 && !c->stacked[receiver]) {
        c->stacked[receiver] = true;
        c->stack[c->height++] = (uint8_t)receiver;
    }
}

/* Behind the last message of process p among the first k, or 0: eight at a time, each with an end of its own. */
static inline size_t behind_last(const uint8_t *sends, size_t k, size_t p)
{
    for (const uint8_t *at = sends + 4 * k; k >= 8; k -= 8, at -= 32)
        for (size_t b = 0; b < 8; b++)
            if (u16_at(at - 4 * b - 4) == p)
                return k - b;
    while (k > 0 && u16_at(sends + 4 * (k - 1)) != p)
        k--;
    return k;
}

/* Lowers a line by following it from sender to sender. First from the last message on for all processes together,
   each until a message that it sent before the line; then for one process after another that was put back, from its
   cursor on. So nothing is left to lower where the send numbers of no sender fall with the position. Answers how many
   messages were looked at. */
APART size_t chase(uint16_t *line, struct parts t)
{
    struct chase c = {.height = 0};
    size_t k = t.m;
    for (size_t running = t.n; k > 0 && running > 0; k--) {
        uint16_t sender = u16_at(t.sends + 4 * (k - 1));
        if (c.cursor[sender] != 0)
            continue;
        if (u16_at(t.sends + 4 * (k - 1) + 2) < line[sender]) {
            c.cursor[sender] = (uint16_t)k;
            running--;
        } else
            lower_at(&c, line, t, k - 1);
    }
    size_t looks = t.m - k;
    while (c.height > 0) {
        size_t p = c.stack[--c.height];
        c.stacked[p] = false;
        uint16_t number = line[p];
        for (k = c.cursor[p];;) {
            k = behind_last(t.sends, k, p);
            if (k == 0 || u16_at(t.sends + 4 * (k - 1) + 2) < number)
                break;
            lower_at(&c, line, t, --k);
        }
        looks += c.cursor[p] - k + (k > 0);
        c.cursor[p] = (uint16_t)k;
    }
    return looks;
}

/* Lowers a line from its ceiling. Passes are tried while they cost no more than a chase may, which looks at some
   (N + 1) * M messages at most, each in about a third of the time. Where they do not settle the line they are not
   tried for the next one of a sheet. Answers how many messages were looked at. */
static inline size_t settle(uint16_t *line, struct parts t, bool *passes_settle)
{
    size_t looks = 0;
    if (*passes_settle) {
        for (size_t tries = t.n / 4 + 2; tries > 0; tries--) {
            looks += t.m;
            if (!pass(line, t))
                return looks;
        }
        *passes_settle = false;
    }
    looks += chase(line, t);
    do
        looks += t.m;
    while (pass(line, t));
    return looks;
}

/* A line alone. */
static inline size_t lower(uint16_t *line, struct parts t)
{
    bool passes_settle = true;
    return settle(line, t, &passes_settle);
}

/* The ceiling of a set of processes that hold. */
static inline void ceiling_of_set(uint16_t *line, struct parts t, uint32_t set)
{
    for (size_t p = 0; p < t.n; p++)
        line[p] = (uint16_t)(u16_at(t.counts + 2 * p) - (set >> p & 1));
}

/* The line of such a set. */
static inline void line_of_set(uint16_t *line, struct parts t, uint32_t set)
{
    ceiling_of_set(line, t, set);
    lower(line, t);
}

/* Marks the processes whose rollback to their last state propagates: each that sent a message since then
   which was received. */
static inline void mark_propagating(bool *propagates, struct parts t)
{
    for (size_t k = 0; k < t.m; k++) {
        uint16_t sender = u16_at(t.sends + 4 * k);
        uint16_t last = (uint16_t)(u16_at(t.counts + 2 * sender) - 1);
        if (u16_at(t.sends + 4 * k + 2) < last)
            continue;
        if (u16_at(t.receipts + 4 * k + 2) == 0)
            continue;
        propagates[sender] = true;
    }
}

/* The lines of single holders, for a sheet or for sets. Answers how many messages were looked at. */
APART size_t lines_of_holders(uint16_t *lines, struct parts t)
{
    bool propagates[KEEPER_MOST_PROCESSES] = {false}, passes_settle = true;
    size_t looks = 0;
    mark_propagating(propagates, t);
    for (size_t p = 0; p < t.n; p++) {
        uint16_t line[KEEPER_MOST_PROCESSES];
        ceiling_of_set(line, t, 1u << p);
        if (propagates[p])
            looks += settle(line, t, &passes_settle);
        memcpy(lines + t.n * p, line, 2 * t.n);
    }
    return looks;
}

/* Writes the lines of sets, one after another, from those of single holders: at each place the least that a process of the
   set has there, or the count. A number is stored whether it is lower or not: gcc takes eight of them at a time then. */
APART void put_lines_of_sets(struct parts t, const uint16_t *lines, const uint32_t *sets, size_t sets_length, uint8_t *answer)
{
    for (size_t s = 0; s < sets_length; s++) {
        uint16_t line[KEEPER_MOST_PROCESSES];
        memcpy(line, t.counts, 2 * t.n);
        for (size_t holder = 0; holder < t.n; holder++) {
            const uint16_t *of_holder = lines + t.n * holder;
            if (sets[s] & (uint32_t)1 << holder)
                for (size_t p = 0; p < t.n; p++)
                    line[p] = of_holder[p] < line[p] ? of_holder[p] : line[p];
        }
        for (size_t p = 0; p < t.n; p++)
            put_u16(answer + 2 * (t.n * s + p), line[p]);
    }
}

size_t plain_looks_under(const uint8_t *table, const uint16_t *ceilings)
{
    uint16_t line[KEEPER_MOST_PROCESSES];
    struct parts t = parts_of(table);
    memcpy(line, ceilings, 2 * t.n);
    return lower(line, t);
}

size_t plain_looks_of_holders(const uint8_t *table)
{
    uint16_t lines[KEEPER_SCRATCH_NUMBERS];
    return lines_of_holders(lines, parts_of(table));
}

size_t plain_passes_under(const uint8_t *table, const uint16_t *ceilings)
{
    uint16_t line[KEEPER_MOST_PROCESSES];
    struct parts t = parts_of(table);
    memcpy(line, ceilings, 2 * t.n);
    size_t passes = 1;
    while (pass(line, t))
        passes++;
    return passes;
}

static inline uint32_t do_recovery_line(const uint8_t *table, uint8_t *answer, size_t room, size_t *written)
{
    struct parts t = parts_of(table);
    uint16_t line[KEEPER_MOST_PROCESSES];
    if (room < 2 * t.n)
        return KEEPER_ANSWER_TOO_SHORT;
    line_of_set(line, t, EVERYONE);
    return put_line(line, t.n, answer, room, written);
}

static inline uint32_t do_lines_of_sets(const uint8_t *table, const uint32_t *sets, size_t sets_length, uint16_t *scratch, size_t numbers, uint8_t *answer, size_t room, size_t *written)
{
    struct parts t = parts_of(table);
    uint32_t refusal = check_sets(t, sets, sets_length);
    if (refusal != 0)
        return refusal;
    if (numbers < t.n * t.n)
        return KEEPER_SCRATCH_TOO_SHORT;
    if (room < 2 * t.n * sets_length)
        return KEEPER_ANSWER_TOO_SHORT;
    lines_of_holders(scratch, t);
    put_lines_of_sets(t, scratch, sets, sets_length, answer);
    *written = 2 * t.n * sets_length;
    return 0;
}

static inline uint32_t do_line_under(const uint8_t *table, const uint16_t *ceilings, size_t ceilings_length, uint8_t *answer, size_t room, size_t *written)
{
    struct parts t = parts_of(table);
    uint16_t line[KEEPER_MOST_PROCESSES];
    uint32_t refusal = check_ceilings(t, ceilings, ceilings_length);
    if (refusal != 0)
        return refusal;
    if (room < 2 * t.n)
        return KEEPER_ANSWER_TOO_SHORT;
    memcpy(line, ceilings, 2 * t.n);
    lower(line, t);
    return put_line(line, t.n, answer, room, written);
}

static inline uint32_t do_stand_together(const uint8_t *table, const uint16_t *processes, size_t processes_length, const uint16_t *states, size_t states_length, uint8_t *answer, size_t room, size_t *written)
{
    struct parts t = parts_of(table);
    uint16_t line[KEEPER_MOST_PROCESSES];
    uint32_t refusal = check_names(t, processes, processes_length, states, states_length);
    if (refusal != 0)
        return refusal;
    ceilings_of_names(line, t, processes, states, processes_length);
    lower(line, t);
    return put_standing(line, t.n, processes, states, processes_length, answer, room, written);
}

static inline uint32_t do_send(const uint8_t *table, uint16_t from, uint16_t to, uint8_t *answer, size_t room, size_t *written)
{
    struct parts t = parts_of(table);
    if (from >= t.n || to >= t.n)
        return KEEPER_UNKNOWN_PROCESS;
    if (from == to)
        return KEEPER_SEND_TO_ITSELF;
    if (t.m >= KEEPER_MOST_MESSAGES)
        return KEEPER_TABLE_FULL;
    size_t size = 4 + 2 * t.n + 8 * t.m + 8;
    if (room < size)
        return KEEPER_ANSWER_TOO_SHORT;
    uint8_t *send = answer + 4 + 2 * t.n + 4 * t.m;
    memcpy(answer, table, 4 + 2 * t.n + 4 * t.m);
    put_u16(answer + 2, (uint16_t)(t.m + 1));
    put_u16(send, from);
    put_u16(send + 2, (uint16_t)(u16_at(t.counts + 2 * from) - 1));
    memcpy(send + 4, t.receipts, 4 * t.m);
    put_u16(send + 4 + 4 * t.m, to);
    put_u16(send + 4 + 4 * t.m + 2, 0);
    *written = size;
    return 0;
}

/* The process and the list of a save or a receipt. */
static inline uint32_t check_list(struct parts t, uint16_t process, const uint16_t *list, size_t entries)
{
    if (process >= t.n)
        return KEEPER_UNKNOWN_PROCESS;
    for (size_t a = 0; a < entries; a++) {
        size_t k = list[a];
        if (k >= t.m || (a > 0 && list[a] <= list[a - 1]))
            return KEEPER_BAD_LIST;
        if (u16_at(t.receipts + 4 * k) != process || u16_at(t.receipts + 4 * k + 2) != 0)
            return KEEPER_BAD_LIST;
    }
    /* One walk up to the last position, with the senders of which a message was passed over. */
    bool passed[KEEPER_MOST_PROCESSES] = {false};
    for (size_t k = 0, a = 0; a < entries; k++) {
        uint16_t sender = u16_at(t.sends + 4 * k);
        if (k == list[a]) {
            if (passed[sender])
                return KEEPER_MESSAGE_PASSED_OVER;
            a++;
        } else if (u16_at(t.receipts + 4 * k) == process && u16_at(t.receipts + 4 * k + 2) == 0)
            passed[sender] = true;
    }
    return 0;
}

/* The table with another receipt number for the listed messages. */
static inline void put_receipts(struct parts t, const uint8_t *table, const uint16_t *list, size_t entries, uint16_t number, uint8_t *answer)
{
    memcpy(answer, table, 4 + 2 * t.n + 8 * t.m);
    uint8_t *receipts = answer + 4 + 2 * t.n + 4 * t.m;
    for (size_t a = 0; a < entries; a++)
        put_u16(receipts + 4 * list[a] + 2, number);
}

static inline uint32_t do_save(const uint8_t *table, uint16_t process, const uint16_t *list, size_t entries, uint8_t *answer, size_t room, size_t *written)
{
    struct parts t = parts_of(table);
    uint32_t refusal = check_list(t, process, list, entries);
    if (refusal != 0)
        return refusal;
    uint16_t count = u16_at(t.counts + 2 * process);
    if (count >= KEEPER_MOST_CHECKPOINTS)
        return KEEPER_TABLE_FULL;
    size_t size = 4 + 2 * t.n + 8 * t.m;
    if (room < size)
        return KEEPER_ANSWER_TOO_SHORT;
    put_receipts(t, table, list, entries, count, answer);
    put_u16(answer + 4 + 2 * process, (uint16_t)(count + 1));
    *written = size;
    return 0;
}

static inline uint32_t do_receive(const uint8_t *table, uint16_t process, const uint16_t *list, size_t entries, uint8_t *answer, size_t room, size_t *written)
{
    struct parts t = parts_of(table);
    uint32_t refusal = check_list(t, process, list, entries);
    if (refusal != 0)
        return refusal;
    size_t size = 4 + 2 * t.n + 8 * t.m;
    if (room < size)
        return KEEPER_ANSWER_TOO_SHORT;
    put_receipts(t, table, list, entries, u16_at(t.counts + 2 * process), answer);
    *written = size;
    return 0;
}

static inline uint32_t do_fall_back(const uint8_t *table, uint8_t *answer, size_t room, size_t *written)
{
    struct parts t = parts_of(table);
    uint16_t line[KEEPER_MOST_PROCESSES];
    line_of_set(line, t, EVERYONE);
    return put_fall_back(t, line, answer, room, written);
}

static inline uint32_t do_keep_sheet(const uint8_t *table, uint16_t *scratch, size_t numbers, uint8_t *answer, size_t room, size_t *written)
{
    struct parts t = parts_of(table);
    if (numbers < t.n * t.n)
        return KEEPER_SCRATCH_TOO_SHORT;
    lines_of_holders(scratch, t);
    return put_sheet(t, scratch, answer, room, written);
}

/* Each call with the checks of the table and without. */
#define CHECKED(call) do { uint32_t refusal = check(table, length); return refusal != 0 ? refusal : (call); } while (0)
#define BARE(call) do { (void)length; return (call); } while (0)
#define CALLS(prefix, HOW) \
    uint32_t prefix##_recovery_line(const uint8_t *table, size_t length, uint8_t *answer, size_t room, size_t *written) \
    { HOW(do_recovery_line(table, answer, room, written)); } \
    uint32_t prefix##_lines_of_sets(const uint8_t *table, size_t length, const uint32_t *sets, size_t sets_length, uint16_t *scratch, size_t numbers, uint8_t *answer, size_t room, size_t *written) \
    { HOW(do_lines_of_sets(table, sets, sets_length, scratch, numbers, answer, room, written)); } \
    uint32_t prefix##_line_under(const uint8_t *table, size_t length, const uint16_t *ceilings, size_t ceilings_length, uint8_t *answer, size_t room, size_t *written) \
    { HOW(do_line_under(table, ceilings, ceilings_length, answer, room, written)); } \
    uint32_t prefix##_stand_together(const uint8_t *table, size_t length, const uint16_t *processes, size_t processes_length, const uint16_t *states, size_t states_length, uint8_t *answer, size_t room, size_t *written) \
    { HOW(do_stand_together(table, processes, processes_length, states, states_length, answer, room, written)); } \
    uint32_t prefix##_send(const uint8_t *table, size_t length, uint16_t from, uint16_t to, uint8_t *answer, size_t room, size_t *written) \
    { HOW(do_send(table, from, to, answer, room, written)); } \
    uint32_t prefix##_save(const uint8_t *table, size_t length, uint16_t process, const uint16_t *list, size_t entries, uint8_t *answer, size_t room, size_t *written) \
    { HOW(do_save(table, process, list, entries, answer, room, written)); } \
    uint32_t prefix##_receive(const uint8_t *table, size_t length, uint16_t process, const uint16_t *list, size_t entries, uint8_t *answer, size_t room, size_t *written) \
    { HOW(do_receive(table, process, list, entries, answer, room, written)); } \
    uint32_t prefix##_fall_back(const uint8_t *table, size_t length, uint8_t *answer, size_t room, size_t *written) \
    { HOW(do_fall_back(table, answer, room, written)); } \
    uint32_t prefix##_keep_sheet(const uint8_t *table, size_t length, uint16_t *scratch, size_t numbers, uint8_t *answer, size_t room, size_t *written) \
    { HOW(do_keep_sheet(table, scratch, numbers, answer, room, written)); }

CALLS(plain, CHECKED)
CALLS(bare, BARE)

uint32_t plain_line_of_set(const uint8_t *table, size_t length, uint32_t set, uint8_t *answer, size_t room, size_t *written)
{
    uint32_t refusal = check(table, length);
    if (refusal != 0)
        return refusal;
    struct parts t = parts_of(table);
    uint16_t line[KEEPER_MOST_PROCESSES];
    if (t.n < 32 && set >> t.n != 0)
        return KEEPER_UNKNOWN_PROCESS_IN_SET;
    line_of_set(line, t, set);
    return put_line(line, t.n, answer, room, written);
}

uint32_t plain_check_table(const uint8_t *table, size_t length)
{
    return check(table, length);
}
