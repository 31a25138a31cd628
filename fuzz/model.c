/* See model.h. Each part names the section of the document that it follows. */
#include "model.h"

#include <stdbool.h>
#include <string.h>

enum { MOST_PROCESSES = 32, MOST_MESSAGES = 4096, MOST_STATES = 4096, MOST_SETS = 256 };

/* A message (j, y) to (i, r), and the next message of the same sender. r is 0 while it waits, and the count of i
   where it was received and is not saved yet. */
struct message {
    unsigned j, y, i, r;
    int next;
};

/* "The run table". */
struct run {
    unsigned n, m;
    unsigned count[MOST_PROCESSES];
    struct message message[MOST_MESSAGES];
    int first[MOST_PROCESSES];
};

static unsigned number_at(const uint8_t *bytes, size_t at)
{
    return bytes[at] + 256u * bytes[at + 1];
}

/* "Channels deliver in turn", of the change requests: what the messages of a channel have so far, its highest send
   and receipt numbers and whether one waits. So a message is compared with all earlier ones of its channel. One that
   was received and is not saved yet is received. */
struct channel {
    unsigned y, r;
    bool waits;
};

static bool out_of_turn(const struct channel *before, const struct message *message)
{
    bool received = message->r != 0;
    if (message->y < before->y)
        return true;
    if (received && before->waits)
        return true;
    return received && message->r < before->r;
}

static void add_to_channel(struct channel *channel, const struct message *message)
{
    channel->y = message->y;
    if (message->r == 0)
        channel->waits = true;
    else
        channel->r = message->r;
}

/* "In checking order", the table's checks: each covers the whole table before the next begins. */
static uint32_t read_run(const uint8_t *table, size_t length, struct run *run)
{
    if (length < 4)
        return 1;
    unsigned n = run->n = number_at(table, 0);
    if (n == 0 || n > MOST_PROCESSES)
        return 2;
    unsigned m = run->m = number_at(table, 2);
    if (m > MOST_MESSAGES)
        return 3;
    if (length != 4 + 2 * (size_t)n + 8 * (size_t)m)
        return 4;
    size_t sends = 4 + 2 * (size_t)n;
    size_t receipts = sends + 4 * (size_t)m;
    for (unsigned p = 0; p < n; p++) {
        run->count[p] = number_at(table, 4 + 2 * p);
        if (run->count[p] == 0 || run->count[p] > MOST_STATES)
            return 5;
    }
    for (unsigned k = 0; k < m; k++) {
        struct message *message = &run->message[k];
        message->j = number_at(table, sends + 4 * k);
        message->y = number_at(table, sends + 4 * k + 2);
        message->i = number_at(table, receipts + 4 * k);
        message->r = number_at(table, receipts + 4 * k + 2);
        if (message->j >= n || message->i >= n)
            return 6;
    }
    for (unsigned k = 0; k < m; k++)
        if (run->message[k].j == run->message[k].i)
            return 7;
    for (unsigned k = 0; k < m; k++)
        if (run->message[k].y >= run->count[run->message[k].j])
            return 8;
    for (unsigned k = 0; k < m; k++)
        if (run->message[k].r > run->count[run->message[k].i])
            return 9;
    for (unsigned p = 0; p < n; p++)
        run->first[p] = -1;
    for (unsigned k = m; k-- > 0;) {
        run->message[k].next = run->first[run->message[k].j];
        run->first[run->message[k].j] = (int)k;
    }
    struct channel channels[MOST_PROCESSES][MOST_PROCESSES] = {0};
    for (unsigned k = 0; k < m; k++) {
        struct channel *channel = &channels[run->message[k].j][run->message[k].i];
        if (out_of_turn(channel, &run->message[k]))
            return 23;
        add_to_channel(channel, &run->message[k]);
    }
    return 0;
}

/* "Lines": the latest consistent line at or below the ceilings that stand in `line`. A process that stands
   below its new state is put on a stack, and again whenever its number falls; its messages that lie at or
   after it are undone at their receivers. */
static void latest_under(const struct run *run, unsigned line[MOST_PROCESSES])
{
    unsigned stack[MOST_PROCESSES], height = 0;
    bool on_stack[MOST_PROCESSES];
    for (unsigned p = 0; p < run->n; p++) {
        on_stack[p] = line[p] < run->count[p];
        if (on_stack[p])
            stack[height++] = p;
    }
    while (height > 0) {
        unsigned j = stack[--height];
        on_stack[j] = false;
        for (int k = run->first[j]; k >= 0; k = run->message[k].next) {
            const struct message *message = &run->message[k];
            if (message->r == 0 || message->y < line[j] || message->r > line[message->i])
                continue;
            line[message->i] = message->r - 1;
            if (!on_stack[message->i]) {
                on_stack[message->i] = true;
                stack[height++] = message->i;
            }
        }
    }
}

/* The latest consistent line in which the processes of the set hold: a set is one kind of ceiling. */
static void latest_line(const struct run *run, uint32_t set, unsigned line[MOST_PROCESSES])
{
    for (unsigned p = 0; p < run->n; p++) {
        bool holding = (set >> p) % 2 == 1;
        line[p] = holding ? run->count[p] - 1 : run->count[p];
    }
    latest_under(run, line);
}

/* An answer that is being written. */
struct out {
    uint8_t *bytes;
    size_t at;
};

static void put(struct out *out, unsigned number)
{
    out->bytes[out->at++] = (uint8_t)(number % 256);
    out->bytes[out->at++] = (uint8_t)(number / 256);
}

static void put_run(struct out *out, const struct run *run)
{
    put(out, run->n);
    put(out, run->m);
    for (unsigned p = 0; p < run->n; p++)
        put(out, run->count[p]);
    for (unsigned k = 0; k < run->m; k++) {
        put(out, run->message[k].j);
        put(out, run->message[k].y);
    }
    for (unsigned k = 0; k < run->m; k++) {
        put(out, run->message[k].i);
        put(out, run->message[k].r);
    }
}

static uint32_t answer_run(const struct run *run, uint8_t *answer, size_t room, size_t *written)
{
    size_t size = 4 + 2 * (size_t)run->n + 8 * (size_t)run->m;
    if (room < size)
        return 16;
    struct out out = {answer, 0};
    put_run(&out, run);
    *written = size;
    return 0;
}

static uint32_t answer_line(const struct run *run, const unsigned line[MOST_PROCESSES], uint8_t *answer, size_t room,
                            size_t *written)
{
    if (room < 2 * (size_t)run->n)
        return 16;
    struct out out = {answer, 0};
    for (unsigned p = 0; p < run->n; p++)
        put(&out, line[p]);
    *written = out.at;
    return 0;
}

static uint32_t all_processes(const struct run *run)
{
    return run->n == 32 ? UINT32_MAX : (UINT32_C(1) << run->n) - 1;
}

/* One table at a time is looked at. */
static struct run run;

uint32_t MODEL(check_table)(const uint8_t *table, size_t length)
{
    return read_run(table, length, &run);
}

uint32_t MODEL(recovery_line)(const uint8_t *table, size_t length, uint8_t *answer, size_t room, size_t *written)
{
    uint32_t refusal = read_run(table, length, &run);
    if (refusal != 0)
        return refusal;
    unsigned line[MOST_PROCESSES];
    latest_line(&run, all_processes(&run), line);
    return answer_line(&run, line, answer, room, written);
}

uint32_t MODEL(line_of_set)(const uint8_t *table, size_t length, uint32_t set, uint8_t *answer, size_t room,
                            size_t *written)
{
    uint32_t refusal = read_run(table, length, &run);
    if (refusal != 0)
        return refusal;
    if ((set & ~all_processes(&run)) != 0)
        return 12;
    unsigned line[MOST_PROCESSES];
    latest_line(&run, set, line);
    return answer_line(&run, line, answer, room, written);
}

/* "Many what-if sets in one sitting", of the change requests: the place-by-place minimum of the lines of single
   holders over a set. That of the empty set is the counts. */
static void minimum_over(const struct run *run, uint32_t set, unsigned single[MOST_PROCESSES][MOST_PROCESSES],
                         unsigned line[MOST_PROCESSES])
{
    for (unsigned p = 0; p < run->n; p++)
        line[p] = run->count[p];
    for (unsigned q = 0; q < run->n; q++) {
        bool holding = (set >> q) % 2 == 1;
        for (unsigned p = 0; holding && p < run->n; p++)
            line[p] = single[q][p] < line[p] ? single[q][p] : line[p];
    }
}

/* All checks are made before anything is written. */
uint32_t MODEL(lines_of_sets)(const uint8_t *table, size_t length, const uint32_t *sets, size_t entries,
                              uint16_t *scratch, size_t numbers, uint8_t *answer, size_t room, size_t *written)
{
    unsigned single[MOST_PROCESSES][MOST_PROCESSES], line[MOST_PROCESSES];
    uint32_t refusal = read_run(table, length, &run);
    if (refusal != 0)
        return refusal;
    if (entries > MOST_SETS)
        return 25;
    for (size_t at = 0; at < entries; at++)
        if ((sets[at] & ~all_processes(&run)) != 0)
            return 12;
    if (numbers < (size_t)run.n * run.n)
        return 15;
    if (room < 2 * (size_t)run.n * entries)
        return 16;
    for (unsigned q = 0; q < run.n; q++) {
        latest_line(&run, UINT32_C(1) << q, single[q]);
        for (unsigned p = 0; p < run.n; p++)
            scratch[q * run.n + p] = (uint16_t)single[q][p];
    }
    struct out out = {answer, 0};
    for (size_t at = 0; at < entries; at++) {
        minimum_over(&run, sets[at], single, line);
        for (unsigned p = 0; p < run.n; p++)
            put(&out, line[p]);
    }
    *written = out.at;
    return 0;
}

/* "Lines": under ceilings that the caller lends. */
uint32_t MODEL(line_under)(const uint8_t *table, size_t length, const uint16_t *ceilings, size_t entries,
                           uint8_t *answer, size_t room, size_t *written)
{
    uint32_t refusal = read_run(table, length, &run);
    if (refusal != 0)
        return refusal;
    if (entries != run.n)
        return 17;
    for (unsigned p = 0; p < run.n; p++)
        if (ceilings[p] > run.count[p])
            return 18;
    unsigned line[MOST_PROCESSES];
    for (unsigned p = 0; p < run.n; p++)
        line[p] = ceilings[p];
    latest_under(&run, line);
    return answer_line(&run, line, answer, room, written);
}

/* "The published marking method beside ours", of the change requests: its graph. A vertex is a state of a
   process, its new one included, and the edges that leave a vertex are a list. */
enum { MOST_VERTICES = MOST_PROCESSES * (MOST_STATES + 1), MOST_EDGES = MOST_VERTICES + MOST_MESSAGES };

struct graph {
    unsigned vertices, edges;
    unsigned zero[MOST_PROCESSES]; /* the vertex of state 0 of each process; the later ones follow it */
    int leaves[MOST_VERTICES];     /* the first edge that leaves each vertex; -1: none */
    struct {
        unsigned to;
        int next;
    } edge[MOST_EDGES];
};

static void add_edge(struct graph *graph, unsigned from, unsigned to)
{
    graph->edge[graph->edges].to = to;
    graph->edge[graph->edges].next = graph->leaves[from];
    graph->leaves[from] = (int)graph->edges++;
}

static void make_graph(const struct run *run, struct graph *graph)
{
    graph->vertices = graph->edges = 0;
    for (unsigned p = 0; p < run->n; p++) {
        graph->zero[p] = graph->vertices;
        for (unsigned c = 0; c <= run->count[p]; c++)
            graph->leaves[graph->vertices++] = -1;
    }
    for (unsigned p = 0; p < run->n; p++)
        for (unsigned c = 0; c < run->count[p]; c++)
            add_edge(graph, graph->zero[p] + c, graph->zero[p] + c + 1);
    for (unsigned k = 0; k < run->m; k++) {
        const struct message *message = &run->message[k];
        if (message->r == 0)
            continue;
        add_edge(graph, graph->zero[message->j] + message->y, graph->zero[message->i] + message->r);
    }
}

/* A mark is a bit of the lent buffer, that of state 0 of process 0 first. */
static bool is_marked(const uint8_t *marks, unsigned vertex)
{
    return marks[vertex / 8] >> vertex % 8 & 1;
}

static void mark(uint8_t *marks, unsigned vertex)
{
    marks[vertex / 8] |= (uint8_t)(1 << vertex % 8);
}

/* Marks all that is strictly reachable from a root, by one edge or more: so the root itself only where the
   graph leads back to it. What was marked before was followed then. */
static void mark_from(const struct graph *graph, unsigned root, uint8_t *marks)
{
    static unsigned stack[MOST_VERTICES + 1];
    unsigned height = 0;
    stack[height++] = root;
    while (height > 0) {
        unsigned vertex = stack[--height];
        for (int e = graph->leaves[vertex]; e >= 0; e = graph->edge[e].next) {
            unsigned to = graph->edge[e].to;
            if (is_marked(marks, to))
                continue;
            mark(marks, to);
            stack[height++] = to;
        }
    }
}

/* The latest unmarked state of a process. No edge leads to state 0. */
static unsigned latest_unmarked(const struct run *run, const struct graph *graph, unsigned p, const uint8_t *marks)
{
    unsigned c = run->count[p];
    while (c > 0 && is_marked(marks, graph->zero[p] + c))
        c--;
    return c;
}

/* Figure 3 of the source: marks from the roots and, while a root is marked, another one in its place. */
static void replace_roots(const struct run *run, const struct graph *graph, unsigned root[MOST_PROCESSES], uint8_t *marks)
{
    bool replaced = true;
    while (replaced) {
        replaced = false;
        for (unsigned p = 0; p < run->n; p++)
            mark_from(graph, graph->zero[p] + root[p], marks);
        for (unsigned p = 0; p < run->n; p++) {
            unsigned stood = root[p];
            if (is_marked(marks, graph->zero[p] + stood))
                root[p] = latest_unmarked(run, graph, p, marks);
            replaced = replaced || root[p] != stood;
        }
    }
}

/* A bit for each state, the new ones included. */
static size_t states_of(const struct run *run)
{
    size_t states = run->n;
    for (unsigned p = 0; p < run->n; p++)
        states += run->count[p];
    return states;
}

/* The bytes of the marks, rounded up. */
static size_t marks_size(const struct run *run)
{
    size_t states = states_of(run);
    return states / 8 + (states % 8 != 0);
}

static void clear_marks(uint8_t *marks, size_t size)
{
    memset(marks, 0, size);
}

uint32_t MODEL(marked_line)(const uint8_t *table, size_t length, const uint16_t *ceilings, size_t entries,
                            uint8_t *marks, size_t bytes, uint8_t *answer, size_t room, size_t *written)
{
    static struct graph graph;
    uint32_t refusal = read_run(table, length, &run);
    if (refusal != 0)
        return refusal;
    if (entries != run.n)
        return 17;
    for (unsigned p = 0; p < run.n; p++)
        if (ceilings[p] > run.count[p])
            return 18;
    size_t size = marks_size(&run);
    if (bytes < size)
        return 19;
    if (room < 2 * (size_t)run.n)
        return 16;
    unsigned root[MOST_PROCESSES];
    for (unsigned p = 0; p < run.n; p++)
        root[p] = ceilings[p];
    make_graph(&run, &graph);
    clear_marks(marks, size);
    replace_roots(&run, &graph, root, marks);
    clear_marks(marks, size);
    return answer_line(&run, root, answer, room, written);
}

/* "Can these saved states stand together?", of the change requests: zigzag paths, after Definition 1 of source
   document 003. The messages that lie on one from a named state: sent at or after that state, or sent by the receiver
   of such a message, in the interval of its receipt or a later one. Receipt number r lies in interval r - 1; a waiting
   message lies on no path. `named` has a state for each process, or NOT_NAMED. */
enum { NOT_NAMED = -1 };

static void follow_paths(const struct run *run, const int named[MOST_PROCESSES], bool on_path[MOST_MESSAGES])
{
    static unsigned stack[MOST_MESSAGES];
    unsigned height = 0;
    for (unsigned k = 0; k < run->m; k++) {
        const struct message *message = &run->message[k];
        int from = named[message->j];
        on_path[k] = message->r != 0 && from != NOT_NAMED && (int)message->y >= from;
        if (on_path[k])
            stack[height++] = k;
    }
    while (height > 0) {
        const struct message *last = &run->message[stack[--height]];
        for (int k = run->first[last->i]; k >= 0; k = run->message[k].next) {
            const struct message *message = &run->message[k];
            if (on_path[k] || message->r == 0 || message->y < last->r - 1)
                continue;
            on_path[k] = true;
            stack[height++] = (unsigned)k;
        }
    }
}

/* Where a path leads to a named state the answer is no, and empty. Else each process that is not named stands at the
   latest state, its new one included, to which no path leads. */
uint32_t MODEL(stand_together)(const uint8_t *table, size_t length, const uint16_t *processes, size_t of_processes,
                               const uint16_t *states, size_t of_states, uint8_t *answer, size_t room, size_t *written)
{
    static bool on_path[MOST_MESSAGES];
    uint32_t refusal = read_run(table, length, &run);
    if (refusal != 0)
        return refusal;
    if (of_processes != of_states)
        return 20;
    for (size_t at = 0; at < of_processes; at++) {
        if (processes[at] >= run.n)
            return 21;
        if (at > 0 && processes[at] <= processes[at - 1])
            return 21;
    }
    for (size_t at = 0; at < of_states; at++)
        if (states[at] >= run.count[processes[at]])
            return 22;
    int named[MOST_PROCESSES];
    unsigned line[MOST_PROCESSES];
    for (unsigned p = 0; p < run.n; p++) {
        named[p] = NOT_NAMED;
        line[p] = run.count[p];
    }
    for (size_t at = 0; at < of_states; at++) {
        named[processes[at]] = states[at];
        line[processes[at]] = states[at];
    }
    follow_paths(&run, named, on_path);
    for (unsigned k = 0; k < run.m; k++) {
        const struct message *message = &run.message[k];
        if (!on_path[k] || message->r > line[message->i])
            continue;
        if (named[message->i] != NOT_NAMED) {
            *written = 0;
            return 0;
        }
        line[message->i] = message->r - 1;
    }
    return answer_line(&run, line, answer, room, written);
}

/* "Steps". */
uint32_t MODEL(send)(const uint8_t *table, size_t length, uint16_t from, uint16_t to, uint8_t *answer, size_t room,
                     size_t *written)
{
    uint32_t refusal = read_run(table, length, &run);
    if (refusal != 0)
        return refusal;
    if (from >= run.n || to >= run.n)
        return 10;
    if (from == to)
        return 11;
    if (run.m == MOST_MESSAGES)
        return 14;
    run.message[run.m] = (struct message){from, run.count[from] - 1, to, 0, -1};
    run.m++;
    return answer_run(&run, answer, room, written);
}

/* The list of a save or a receipt: whether it is strictly rising and of messages that wait for the process. One that
   was received and is not saved yet has the count, and waits no more. */
static bool all_wait(const struct run *run, unsigned process, const uint16_t *list, size_t entries)
{
    for (size_t at = 0; at < entries; at++) {
        if (list[at] >= run->m)
            return false;
        if (at > 0 && list[at] <= list[at - 1])
            return false;
        const struct message *message = &run->message[list[at]];
        if (message->i != process || message->r != 0)
            return false;
    }
    return true;
}

/* Whether such a list passes over a message: it has one, and an older one of the same sender that waits for the
   process too is not on it. */
static bool passes_over(const struct run *run, unsigned process, const uint16_t *list, size_t entries)
{
    static bool listed[MOST_MESSAGES];
    memset(listed, 0, sizeof listed);
    for (size_t at = 0; at < entries; at++)
        listed[list[at]] = true;
    for (size_t at = 0; at < entries; at++)
        for (unsigned k = 0; k < list[at]; k++) {
            const struct message *older = &run->message[k];
            if (older->j != run->message[list[at]].j || older->i != process)
                continue;
            if (older->r == 0 && !listed[k])
                return true;
        }
    return false;
}

/* The listed messages are received: the next state of the process, whose number is its count, will be the first
   that has them. */
static void receive_listed(struct run *run, unsigned process, const uint16_t *list, size_t entries)
{
    for (size_t at = 0; at < entries; at++)
        run->message[list[at]].r = run->count[process];
}

/* What was received before the save has the number of the state that is saved now, and keeps it. */
uint32_t MODEL(save)(const uint8_t *table, size_t length, uint16_t process, const uint16_t *list, size_t entries,
                     uint8_t *answer, size_t room, size_t *written)
{
    uint32_t refusal = read_run(table, length, &run);
    if (refusal != 0)
        return refusal;
    if (process >= run.n)
        return 10;
    if (!all_wait(&run, process, list, entries))
        return 13;
    if (passes_over(&run, process, list, entries))
        return 24;
    if (run.count[process] == MOST_STATES)
        return 14;
    receive_listed(&run, process, list, entries);
    run.count[process]++;
    return answer_run(&run, answer, room, written);
}

/* "Receipts since the last save count", of the change requests. */
uint32_t MODEL(receive)(const uint8_t *table, size_t length, uint16_t process, const uint16_t *list, size_t entries,
                        uint8_t *answer, size_t room, size_t *written)
{
    uint32_t refusal = read_run(table, length, &run);
    if (refusal != 0)
        return refusal;
    if (process >= run.n)
        return 10;
    if (!all_wait(&run, process, list, entries))
        return 13;
    if (passes_over(&run, process, list, entries))
        return 24;
    receive_listed(&run, process, list, entries);
    return answer_run(&run, answer, room, written);
}

uint32_t MODEL(fall_back)(const uint8_t *table, size_t length, uint8_t *answer, size_t room, size_t *written)
{
    uint32_t refusal = read_run(table, length, &run);
    if (refusal != 0)
        return refusal;
    unsigned line[MOST_PROCESSES];
    latest_line(&run, all_processes(&run), line);
    unsigned left = 0;
    for (unsigned k = 0; k < run.m; k++) {
        struct message message = run.message[k];
        if (message.y >= line[message.j])
            continue;
        if (message.r > line[message.i])
            message.r = 0;
        run.message[left++] = message;
    }
    run.m = left;
    for (unsigned p = 0; p < run.n; p++)
        run.count[p] = line[p] + 1;
    return answer_run(&run, answer, room, written);
}

/* "The keep sheet". */
uint32_t MODEL(keep_sheet)(const uint8_t *table, size_t length, uint16_t *scratch, size_t numbers, uint8_t *answer,
                           size_t room, size_t *written)
{
    static bool state_kept[MOST_PROCESSES][MOST_STATES];
    static bool message_kept[MOST_MESSAGES];
    uint32_t refusal = read_run(table, length, &run);
    if (refusal != 0)
        return refusal;
    if (numbers < (size_t)run.n * run.n)
        return 15;
    for (unsigned p = 0; p < run.n; p++)
        memset(state_kept[p], 0, run.count[p] * sizeof(bool));
    for (unsigned k = 0; k < run.m; k++)
        message_kept[k] = run.message[k].r == 0;
    for (unsigned holder = 0; holder < run.n; holder++) {
        unsigned line[MOST_PROCESSES];
        latest_line(&run, UINT32_C(1) << holder, line);
        for (unsigned p = 0; p < run.n; p++) {
            scratch[holder * run.n + p] = (uint16_t)line[p];
            if (line[p] < run.count[p])
                state_kept[p][line[p]] = true;
        }
        for (unsigned k = 0; k < run.m; k++) {
            const struct message *message = &run.message[k];
            if (message->y < line[message->j] && line[message->i] < message->r)
                message_kept[k] = true;
        }
    }
    unsigned states = 0, messages = 0;
    for (unsigned p = 0; p < run.n; p++)
        for (unsigned c = 0; c < run.count[p]; c++)
            states += state_kept[p][c];
    for (unsigned k = 0; k < run.m; k++)
        messages += message_kept[k];
    if (room < 4 + 4 * (size_t)states + 2 * (size_t)messages)
        return 16;
    struct out out = {answer, 0};
    put(&out, states);
    put(&out, messages);
    for (unsigned p = 0; p < run.n; p++)
        for (unsigned c = 0; c < run.count[p]; c++)
            if (state_kept[p][c])
                put(&out, p);
    for (unsigned p = 0; p < run.n; p++)
        for (unsigned c = 0; c < run.count[p]; c++)
            if (state_kept[p][c])
                put(&out, c);
    for (unsigned k = 0; k < run.m; k++)
        if (message_kept[k])
            put(&out, k);
    *written = out.at;
    return 0;
}

/* "Share rounded as the archive's forms do it", of the change requests: to the nearest whole percent, and an
   exact half to the even one. */
static unsigned share(unsigned kept, unsigned total)
{
    unsigned below = 100 * kept / total;
    unsigned rest = 100 * kept % total;
    if (2 * rest == total)
        return below + below % 2;
    return 2 * rest > total ? below + 1 : below;
}

static void put_word(struct out *out, const char *word)
{
    while (*word != '\0')
        out->bytes[out->at++] = (uint8_t)*word++;
}

/* A field: a space and a decimal number. */
static void put_field(struct out *out, unsigned number)
{
    unsigned value = 1;
    put_word(out, " ");
    while (number / value >= 10)
        value *= 10;
    for (; value > 0; value /= 10)
        out->bytes[out->at++] = (uint8_t)('0' + number / value % 10);
}

static void put_row_of(struct out *out, const char *word, unsigned number)
{
    put_word(out, word);
    put_field(out, number);
    put_word(out, "\n");
}

/* "The listing program": its rows, from the sheet and the lines of single holders. */
static void put_listing(struct out *out, const uint8_t *table, size_t length)
{
    static uint16_t lines[KEEPER_SCRATCH_NUMBERS];
    static uint8_t sheet[KEEPER_SHEET_ROOM];
    unsigned line[MOST_PROCESSES];
    size_t size;
    uint32_t refusal = MODEL(keep_sheet)(table, length, lines, KEEPER_SCRATCH_NUMBERS, sheet, sizeof sheet, &size);
    if (refusal != 0) {
        put_row_of(out, "refused", refusal);
        return;
    }
    latest_line(&run, all_processes(&run), line);
    put_word(out, "line");
    for (unsigned p = 0; p < run.n; p++)
        put_field(out, line[p]);
    put_word(out, "\n");
    for (unsigned hold = 0; hold < run.n; hold++) {
        put_word(out, "hold");
        put_field(out, hold);
        for (unsigned p = 0; p < run.n; p++)
            put_field(out, lines[hold * run.n + p]);
        put_word(out, "\n");
    }
    unsigned kept = number_at(sheet, 0), messages = number_at(sheet, 2);
    for (unsigned k = 0; k < kept; k++) {
        put_word(out, "checkpoint");
        put_field(out, number_at(sheet, 4 + 2 * k));
        put_field(out, number_at(sheet, 4 + 2 * kept + 2 * k));
        put_word(out, "\n");
    }
    for (unsigned q = 0; q < messages; q++)
        put_row_of(out, "message", number_at(sheet, 4 + 4 * kept + 2 * q));
    unsigned total = 0;
    for (unsigned p = 0; p < run.n; p++)
        total += run.count[p];
    put_row_of(out, "share", share(kept, total));
}

uint32_t MODEL(listing)(const uint8_t *table, size_t length, uint8_t *text, size_t room, size_t *written)
{
    static uint8_t listing[KEEPER_LISTING_ROOM];
    struct out out = {listing, 0};
    put_listing(&out, table, length);
    if (room < out.at)
        return 16;
    memcpy(text, listing, out.at);
    *written = out.at;
    return 0;
}
