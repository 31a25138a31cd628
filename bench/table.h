/* What the C versions share: the numbers and parts of a table, its checks, and what is written once the
   lines are there. All of it is static, so that each version is compiled as one piece. */
#ifndef TABLE_H
#define TABLE_H

#include <string.h>

#include "calls.h"

/* Low byte first, as the machine has it. */
static inline uint16_t u16_at(const uint8_t *bytes)
{
    uint16_t value;
    memcpy(&value, bytes, 2);
    return value;
}

static inline void put_u16(uint8_t *bytes, uint16_t value)
{
    memcpy(bytes, &value, 2);
}

struct parts {
    size_t n, m;
    const uint8_t *counts, *sends, *receipts;
};

static inline struct parts parts_of(const uint8_t *table)
{
    struct parts t;
    t.n = u16_at(table);
    t.m = u16_at(table + 2);
    t.counts = table + 4;
    t.sends = t.counts + 2 * t.n;
    t.receipts = t.sends + 4 * t.m;
    return t;
}

/* The checks of messages, in checking order; after them, that none catches. */
enum fault { UNKNOWN_PROCESS, TO_ITS_SENDER, SEND_TOO_HIGH, RECEIPT_TOO_HIGH, OUT_OF_TURN, NO_FAULT };
static const uint32_t refusal_of[] = {
    KEEPER_UNKNOWN_PROCESS_IN_MESSAGE, KEEPER_MESSAGE_TO_ITS_SENDER, KEEPER_SEND_NUMBER_TOO_HIGH,
    KEEPER_RECEIPT_NUMBER_TOO_HIGH, KEEPER_CHANNEL_OUT_OF_ORDER, KEEPER_OK,
};

/* What is known of a channel: the send number of its last message, and one less than the receipt number, so that
   waiting is the highest. Zeros where it has no message yet: nothing is below them. */
struct last {
    uint16_t sent, received;
};

static inline int is_out_of_turn(struct last *last, uint16_t sent, uint16_t received)
{
    struct last now = {sent, (uint16_t)(received - 1)};
    int behind = now.sent < last->sent || now.received < last->received;
    *last = now;
    return behind;
}

/* The first of them that catches message k. A process is known before its count is read, and before its channel is. */
static inline enum fault fault_at(struct parts t, size_t k, struct last *lasts)
{
    uint16_t sender = u16_at(t.sends + 4 * k), receiver = u16_at(t.receipts + 4 * k);
    if (sender >= t.n || receiver >= t.n)
        return UNKNOWN_PROCESS;
    if (sender == receiver)
        return TO_ITS_SENDER;
    uint16_t sent = u16_at(t.sends + 4 * k + 2), received = u16_at(t.receipts + 4 * k + 2);
    if (sent >= u16_at(t.counts + 2 * sender))
        return SEND_TOO_HIGH;
    if (received > u16_at(t.counts + 2 * receiver))
        return RECEIPT_TOO_HIGH;
    if (is_out_of_turn(&lasts[KEEPER_MOST_PROCESSES * sender + receiver], sent, received))
        return OUT_OF_TURN;
    return NO_FAULT;
}

/* The table's checks: the number of the first that catches, or 0. Of the faults of all messages the first in
   checking order counts. */
static uint32_t check(const uint8_t *table, size_t length)
{
    if (length < 4)
        return KEEPER_TABLE_TOO_SHORT;
    struct parts t = parts_of(table);
    if (t.n == 0 || t.n > KEEPER_MOST_PROCESSES)
        return KEEPER_PROCESSES_OUT_OF_RANGE;
    if (t.m > KEEPER_MOST_MESSAGES)
        return KEEPER_TOO_MANY_MESSAGES;
    if (length != KEEPER_TABLE_SIZE(t.n, t.m))
        return KEEPER_WRONG_LENGTH;
    for (size_t p = 0; p < t.n; p++) {
        uint16_t count = u16_at(t.counts + 2 * p);
        if (count == 0 || count > KEEPER_MOST_CHECKPOINTS)
            return KEEPER_COUNT_OUT_OF_RANGE;
    }
    struct last lasts[KEEPER_MOST_PROCESSES * KEEPER_MOST_PROCESSES] = {{0, 0}};
    enum fault first = NO_FAULT;
    for (size_t k = 0; k < t.m; k++) {
        enum fault fault = fault_at(t, k, lasts);
        if (fault < first)
            first = fault;
    }
    return refusal_of[first];
}

/* The checks of a list of sets. */
static inline uint32_t check_sets(struct parts t, const uint32_t *sets, size_t sets_length)
{
    if (sets_length > KEEPER_MOST_SETS)
        return KEEPER_TOO_MANY_SETS;
    for (size_t s = 0; s < sets_length; s++)
        if (t.n < 32 && sets[s] >> t.n != 0)
            return KEEPER_UNKNOWN_PROCESS_IN_SET;
    return 0;
}

/* The checks of a list of ceilings. */
static inline uint32_t check_ceilings(struct parts t, const uint16_t *ceilings, size_t ceilings_length)
{
    if (ceilings_length != t.n)
        return KEEPER_WRONG_CEILING_COUNT;
    for (size_t p = 0; p < t.n; p++)
        if (ceilings[p] > u16_at(t.counts + 2 * p))
            return KEEPER_CEILING_TOO_HIGH;
    return 0;
}

/* The checks of the lists of named checkpoints. */
static inline uint32_t check_names(struct parts t, const uint16_t *processes, size_t processes_length, const uint16_t *states, size_t states_length)
{
    if (processes_length != states_length)
        return KEEPER_UNEQUAL_LISTS;
    for (size_t k = 0; k < processes_length; k++)
        if (processes[k] >= t.n || (k > 0 && processes[k] <= processes[k - 1]))
            return KEEPER_BAD_NAMED_PROCESS;
    for (size_t k = 0; k < states_length; k++)
        if (states[k] >= u16_at(t.counts + 2 * processes[k]))
            return KEEPER_NAMED_STATE_TOO_HIGH;
    return 0;
}

/* The ceilings of named checkpoints: these, and the counts of all other processes. */
static inline void ceilings_of_names(uint16_t *line, struct parts t, const uint16_t *processes, const uint16_t *states, size_t names)
{
    memcpy(line, t.counts, 2 * t.n);
    for (size_t k = 0; k < names; k++)
        line[processes[k]] = states[k];
}

/* A line as an answer. */
static inline uint32_t put_line(const uint16_t *line, size_t n, uint8_t *answer, size_t room, size_t *written)
{
    if (room < 2 * n)
        return KEEPER_ANSWER_TOO_SHORT;
    for (size_t p = 0; p < n; p++)
        put_u16(answer + 2 * p, line[p]);
    *written = 2 * n;
    return 0;
}

/* The line under named checkpoints as an answer: a yes where it has them all, else a no, which has no bytes. */
static inline uint32_t put_standing(const uint16_t *line, size_t n, const uint16_t *processes, const uint16_t *states, size_t names, uint8_t *answer, size_t room, size_t *written)
{
    for (size_t k = 0; k < names; k++)
        if (line[processes[k]] != states[k]) {
            *written = 0;
            return 0;
        }
    return put_line(line, n, answer, room, written);
}

/* The table after a fall back to a line. How many messages stay is counted first: a refusal writes
   nothing. */
static inline uint32_t put_fall_back(struct parts t, const uint16_t *line, uint8_t *answer, size_t room, size_t *written)
{
    size_t left = 0;
    for (size_t k = 0; k < t.m; k++)
        left += u16_at(t.sends + 4 * k + 2) < line[u16_at(t.sends + 4 * k)];
    size_t size = 4 + 2 * t.n + 8 * left;
    if (room < size)
        return KEEPER_ANSWER_TOO_SHORT;
    put_u16(answer, (uint16_t)t.n);
    put_u16(answer + 2, (uint16_t)left);
    for (size_t p = 0; p < t.n; p++)
        put_u16(answer + 4 + 2 * p, (uint16_t)(line[p] + 1));
    uint8_t *send = answer + 4 + 2 * t.n;
    uint8_t *receipt = send + 4 * left;
    for (size_t k = 0; k < t.m; k++) {
        uint16_t sender = u16_at(t.sends + 4 * k), sent = u16_at(t.sends + 4 * k + 2);
        if (sent >= line[sender])
            continue;
        uint16_t receiver = u16_at(t.receipts + 4 * k), received = u16_at(t.receipts + 4 * k + 2);
        if (received > line[receiver])
            received = 0;
        put_u16(send, sender);
        put_u16(send + 2, sent);
        put_u16(receipt, receiver);
        put_u16(receipt + 2, received);
        send += 4;
        receipt += 4;
    }
    *written = size;
    return 0;
}

/* The smallest state from a start on, below a count, that some line has at process i; else the count. */
static inline uint16_t next_kept(const uint16_t *lines, size_t n, size_t i, uint16_t from, uint16_t count)
{
    uint16_t least = count;
    for (size_t k = 0; k < n; k++) {
        uint16_t state = lines[n * k + i];
        if (state >= from && state < least)
            least = state;
    }
    return least;
}

/* The lowest line: at each process the least number that any line has there. */
static inline void lowest_line(const uint16_t *lines, size_t n, uint16_t *lowest)
{
    for (size_t i = 0; i < n; i++)
        lowest[i] = next_kept(lines, n, i, 0, UINT16_MAX);
}

/* Whether message k waits or crosses some line. One received at or before the lowest line crosses none. */
static inline int is_kept(const uint16_t *lines, const uint16_t *lowest, struct parts t, size_t k)
{
    uint16_t received = u16_at(t.receipts + 4 * k + 2);
    if (received == 0)
        return 1;
    if (received <= lowest[u16_at(t.receipts + 4 * k)])
        return 0;
    uint16_t sent = u16_at(t.sends + 4 * k + 2);
    const uint16_t *of_sender = lines + u16_at(t.sends + 4 * k);
    const uint16_t *of_receiver = lines + u16_at(t.receipts + 4 * k);
    for (size_t l = 0; l < t.n; l++)
        if (of_receiver[t.n * l] < received && sent < of_sender[t.n * l])
            return 1;
    return 0;
}

/* The keep sheet from the lines of single holders: K and Q are counted first, then all is written. */
static inline uint32_t put_sheet(struct parts t, const uint16_t *lines, uint8_t *answer, size_t room, size_t *written)
{
    size_t kept = 0, logged = 0;
    uint16_t lowest[KEEPER_MOST_PROCESSES];
    for (size_t i = 0; i < t.n; i++) {
        uint16_t count = u16_at(t.counts + 2 * i);
        for (uint16_t c = next_kept(lines, t.n, i, 0, count); c < count; c = next_kept(lines, t.n, i, (uint16_t)(c + 1), count))
            kept++;
    }
    lowest_line(lines, t.n, lowest);
    for (size_t k = 0; k < t.m; k++)
        logged += (size_t)is_kept(lines, lowest, t, k);
    size_t size = 4 + 4 * kept + 2 * logged;
    if (room < size)
        return KEEPER_ANSWER_TOO_SHORT;
    put_u16(answer, (uint16_t)kept);
    put_u16(answer + 2, (uint16_t)logged);
    uint8_t *process = answer + 4;
    uint8_t *state = process + 2 * kept;
    for (size_t i = 0; i < t.n; i++) {
        uint16_t count = u16_at(t.counts + 2 * i);
        for (uint16_t c = next_kept(lines, t.n, i, 0, count); c < count; c = next_kept(lines, t.n, i, (uint16_t)(c + 1), count)) {
            put_u16(process, (uint16_t)i);
            put_u16(state, c);
            process += 2;
            state += 2;
        }
    }
    for (size_t k = 0; k < t.m; k++)
        if (is_kept(lines, lowest, t, k)) {
            put_u16(state, (uint16_t)k);
            state += 2;
        }
    *written = size;
    return 0;
}

#endif
