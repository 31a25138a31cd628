/* Rollback propagation by a work list over the checkpoint graph (Figure 3 of the source): the ceiling of
   each process is in the root set, what is strictly reachable is marked, and a marked root
   gives way to the latest unmarked checkpoint of its process. An edge leads from checkpoint y of j to
   checkpoint r of i for each received message, and from each checkpoint to the next of its process.

   Two forms. `marks` has a mark for each checkpoint and a stack of checkpoints. `ranges` uses that the
   marked checkpoints of a process are always its last ones: they are a number, and the edges that leave
   the newly marked ones stand side by side. The graph is built once a call; every edge is followed at
   most once a line. */
#include "table.h"

/* The checkpoint graph: checkpoint y of process p is vertex first[p] + y, and first[p] + count is the
   process's new one. The edges that leave vertex v are those from leave[v] to leave[v + 1]. */
struct graph {
    size_t n;
    uint32_t first[KEEPER_MOST_PROCESSES + 1];
    uint16_t count[KEEPER_MOST_PROCESSES];
    uint32_t leave[KEEPER_MOST_PROCESSES * (KEEPER_MOST_CHECKPOINTS + 1) + 2];
    struct edge { uint16_t receiver, received; } edge[KEEPER_MOST_MESSAGES];
};

static struct graph graph;

static void build(struct parts t)
{
    uint32_t vertices = 0;
    graph.n = t.n;
    for (size_t p = 0; p < t.n; p++) {
        graph.first[p] = vertices;
        graph.count[p] = u16_at(t.counts + 2 * p);
        vertices += graph.count[p] + 1u;
    }
    graph.first[t.n] = vertices;
    memset(graph.leave, 0, (vertices + 2) * sizeof graph.leave[0]);
    /* A counting sort: leave[v + 2] counts, then leave[v + 1] is the place of the next edge of v. */
    for (size_t k = 0; k < t.m; k++)
        if (u16_at(t.receipts + 4 * k + 2) != 0)
            graph.leave[graph.first[u16_at(t.sends + 4 * k)] + u16_at(t.sends + 4 * k + 2) + 2]++;
    for (uint32_t v = 0; v < vertices; v++)
        graph.leave[v + 2] += graph.leave[v + 1];
    for (size_t k = 0; k < t.m; k++) {
        uint16_t received = u16_at(t.receipts + 4 * k + 2);
        if (received == 0)
            continue;
        uint32_t v = graph.first[u16_at(t.sends + 4 * k)] + u16_at(t.sends + 4 * k + 2);
        graph.edge[graph.leave[v + 1]++] = (struct edge){u16_at(t.receipts + 4 * k), received};
    }
}

/* The ceilings of a set of processes that hold. */
static inline void ceilings_of_set(uint16_t *line, uint32_t set)
{
    for (size_t p = 0; p < graph.n; p++)
        line[p] = (uint16_t)(graph.count[p] - (set >> p & 1));
}

/* From its ceilings down to the line, with the marked checkpoints of a process as a range. */
static void line_by_ranges(uint16_t *line)
{
    uint16_t done[KEEPER_MOST_PROCESSES];
    uint32_t work = 0;
    for (size_t p = 0; p < graph.n; p++) {
        done[p] = graph.count[p];
        work |= (uint32_t)(line[p] < graph.count[p]) << p;
    }
    while (work != 0) {
        unsigned p = (unsigned)__builtin_ctz(work);
        work &= work - 1;
        uint32_t from = graph.leave[graph.first[p] + line[p]];
        uint32_t to = graph.leave[graph.first[p] + done[p]];
        done[p] = line[p];
        for (uint32_t e = from; e < to; e++) {
            struct edge edge = graph.edge[e];
            if (edge.received <= line[edge.receiver]) {
                line[edge.receiver] = (uint16_t)(edge.received - 1);
                work |= 1u << edge.receiver;
            }
        }
    }
}

static uint8_t marked[KEEPER_MOST_PROCESSES * (KEEPER_MOST_CHECKPOINTS + 1)];
static uint32_t stack[KEEPER_MOST_PROCESSES * (KEEPER_MOST_CHECKPOINTS + 1)];

/* Marks what is strictly reachable from a checkpoint of process p. */
static void mark_from(uint32_t root, unsigned p)
{
    size_t height = 0;
    /* The process of a vertex goes with it on the stack, in the low bits. */
    stack[height++] = root << 5 | p;
    while (height > 0) {
        uint32_t v = stack[--height] >> 5;
        unsigned of = stack[height] & 31;
        if (v + 1 < graph.first[of + 1] && !marked[v + 1]) {
            marked[v + 1] = 1;
            stack[height++] = (v + 1) << 5 | of;
        }
        for (uint32_t e = graph.leave[v]; e < graph.leave[v + 1]; e++) {
            unsigned i = graph.edge[e].receiver;
            uint32_t w = graph.first[i] + graph.edge[e].received;
            if (!marked[w]) {
                marked[w] = 1;
                stack[height++] = w << 5 | i;
            }
        }
    }
}

/* From its ceilings down to the line, with a mark for each checkpoint. */
static void line_by_marks(uint16_t *line)
{
    memset(marked, 0, graph.first[graph.n]);
    /* The new checkpoint of a process has no edges, so it need not be followed. */
    for (unsigned p = 0; p < graph.n; p++)
        if (line[p] < graph.count[p])
            mark_from(graph.first[p] + line[p], p);
    for (int replaced = 1; replaced;) {
        replaced = 0;
        for (unsigned p = 0; p < graph.n; p++) {
            if (!marked[graph.first[p] + line[p]])
                continue;
            while (marked[graph.first[p] + line[p]])
                line[p]--;
            mark_from(graph.first[p] + line[p], p);
            replaced = 1;
        }
    }
}

#define CALLS(prefix, LOWER) \
    uint32_t prefix##_recovery_line(const uint8_t *table, size_t length, uint8_t *answer, size_t room, size_t *written) \
    { \
        uint32_t refusal = check(table, length); \
        if (refusal != 0) \
            return refusal; \
        struct parts t = parts_of(table); \
        uint16_t line[KEEPER_MOST_PROCESSES]; \
        build(t); \
        ceilings_of_set(line, 0xFFFFFFFFu); \
        LOWER(line); \
        return put_line(line, t.n, answer, room, written); \
    } \
    uint32_t prefix##_line_under(const uint8_t *table, size_t length, const uint16_t *ceilings, size_t ceilings_length, uint8_t *answer, size_t room, size_t *written) \
    { \
        uint32_t refusal = check(table, length); \
        if (refusal != 0) \
            return refusal; \
        struct parts t = parts_of(table); \
        uint16_t line[KEEPER_MOST_PROCESSES]; \
        refusal = check_ceilings(t, ceilings, ceilings_length); \
        if (refusal != 0) \
            return refusal; \
        build(t); \
        memcpy(line, ceilings, 2 * t.n); \
        LOWER(line); \
        return put_line(line, t.n, answer, room, written); \
    } \
    uint32_t prefix##_stand_together(const uint8_t *table, size_t length, const uint16_t *processes, size_t processes_length, const uint16_t *states, size_t states_length, uint8_t *answer, size_t room, size_t *written) \
    { \
        uint32_t refusal = check(table, length); \
        if (refusal != 0) \
            return refusal; \
        struct parts t = parts_of(table); \
        uint16_t line[KEEPER_MOST_PROCESSES]; \
        refusal = check_names(t, processes, processes_length, states, states_length); \
        if (refusal != 0) \
            return refusal; \
        build(t); \
        ceilings_of_names(line, t, processes, states, processes_length); \
        LOWER(line); \
        return put_standing(line, t.n, processes, states, processes_length, answer, room, written); \
    } \
    uint32_t prefix##_fall_back(const uint8_t *table, size_t length, uint8_t *answer, size_t room, size_t *written) \
    { \
        uint32_t refusal = check(table, length); \
        if (refusal != 0) \
            return refusal; \
        struct parts t = parts_of(table); \
        uint16_t line[KEEPER_MOST_PROCESSES]; \
        build(t); \
        ceilings_of_set(line, 0xFFFFFFFFu); \
        LOWER(line); \
        return put_fall_back(t, line, answer, room, written); \
    } \
    uint32_t prefix##_keep_sheet(const uint8_t *table, size_t length, uint16_t *scratch, size_t numbers, uint8_t *answer, size_t room, size_t *written) \
    { \
        uint32_t refusal = check(table, length); \
        if (refusal != 0) \
            return refusal; \
        struct parts t = parts_of(table); \
        if (numbers < t.n * t.n) \
            return KEEPER_SCRATCH_TOO_SHORT; \
        build(t); \
        for (size_t p = 0; p < t.n; p++) { \
            ceilings_of_set(scratch + t.n * p, 1u << p); \
            LOWER(scratch + t.n * p); \
        } \
        return put_sheet(t, scratch, answer, room, written); \
    }

CALLS(marks, line_by_marks)
CALLS(ranges, line_by_ranges)
