/* Plain C of the marking procedure (Figure 3 of the source) as the archive runs it, over the same bits of the
   lent buffer. The roots are the ceilings. A round marks all that is strictly reachable from them: passes over
   the messages from the last to the first, until a pass marks nothing. Then each marked root gives way to the
   latest unmarked state of its process. Rounds go on until no root is marked; marks stay from round to round. */
#include <stdbool.h>

#include "table.h"

static inline bool is_marked(const uint8_t *marks, size_t bit)
{
    return marks[bit / 8] >> (bit % 8) & 1;
}

/* Marks from a bit on, up to the first that is marked or to the end. */
static inline void mark_on(uint8_t *marks, size_t bit, size_t end)
{
    for (; bit < end && !is_marked(marks, bit); bit++)
        marks[bit / 8] |= (uint8_t)(1 << (bit % 8));
}

/* State y of process p is bit first[p] + y: states 0 to count of each process, so the new one too. */
static inline void first_bits(size_t *first, struct parts t)
{
    first[0] = 0;
    for (size_t p = 0; p < t.n; p++)
        first[p + 1] = first[p] + u16_at(t.counts + 2 * p) + 1;
}

/* From the ceilings, with no mark set, down to the last roots. Answers how many rounds and passes that took;
   where nobody asks for them the compiler drops the counts. */
static inline struct marking mark_under(uint16_t *root, struct parts t, const size_t *first, uint8_t *marks)
{
    struct marking done = {0, 0};
    for (size_t p = 0; p < t.n; p++)
        mark_on(marks, first[p] + root[p] + 1, first[p + 1]);
    bool replaced;
    do {
        bool marked;
        do {
            marked = false;
            for (size_t k = t.m; k-- > 0;) {
                uint16_t received = u16_at(t.receipts + 4 * k + 2);
                if (received == 0)
                    continue;
                uint16_t receiver = u16_at(t.receipts + 4 * k);
                if (is_marked(marks, first[receiver] + received))
                    continue;
                uint16_t sender = u16_at(t.sends + 4 * k), sent = u16_at(t.sends + 4 * k + 2);
                if (sent != root[sender] && !is_marked(marks, first[sender] + sent))
                    continue;
                mark_on(marks, first[receiver] + received, first[receiver + 1]);
                marked = true;
            }
            done.passes++;
        } while (marked);
        replaced = false;
        for (size_t p = 0; p < t.n; p++)
            while (is_marked(marks, first[p] + root[p])) {
                root[p]--;
                replaced = true;
            }
        done.rounds++;
    } while (replaced);
    return done;
}

struct marking plain_marking_under(const uint8_t *table, const uint16_t *ceilings)
{
    static uint8_t marks[KEEPER_MARKS_ROOM];
    struct parts t = parts_of(table);
    size_t first[KEEPER_MOST_PROCESSES + 1];
    uint16_t root[KEEPER_MOST_PROCESSES];
    first_bits(first, t);
    memcpy(root, ceilings, 2 * t.n);
    memset(marks, 0, sizeof marks);
    return mark_under(root, t, first, marks);
}

static inline uint32_t do_marked_line(const uint8_t *table, const uint16_t *ceilings, size_t ceilings_length, uint8_t *marks, size_t marks_length, uint8_t *answer, size_t room, size_t *written)
{
    struct parts t = parts_of(table);
    size_t first[KEEPER_MOST_PROCESSES + 1];
    uint16_t root[KEEPER_MOST_PROCESSES];
    uint32_t refusal = check_ceilings(t, ceilings, ceilings_length);
    if (refusal != 0)
        return refusal;
    first_bits(first, t);
    size_t size = (first[t.n] + 7) / 8;
    if (marks_length < size)
        return KEEPER_MARKS_TOO_SHORT;
    if (room < 2 * t.n)
        return KEEPER_ANSWER_TOO_SHORT;
    memcpy(root, ceilings, 2 * t.n);
    memset(marks, 0, size);
    mark_under(root, t, first, marks);
    memset(marks, 0, size);
    return put_line(root, t.n, answer, room, written);
}

uint32_t plain_marked_line(const uint8_t *table, size_t length, const uint16_t *ceilings, size_t ceilings_length, uint8_t *marks, size_t marks_length, uint8_t *answer, size_t room, size_t *written)
{
    uint32_t refusal = check(table, length);
    if (refusal != 0)
        return refusal;
    return do_marked_line(table, ceilings, ceilings_length, marks, marks_length, answer, room, written);
}

uint32_t bare_marked_line(const uint8_t *table, size_t length, const uint16_t *ceilings, size_t ceilings_length, uint8_t *marks, size_t marks_length, uint8_t *answer, size_t room, size_t *written)
{
    (void)length;
    return do_marked_line(table, ceilings, ceilings_length, marks, marks_length, answer, room, written);
}
