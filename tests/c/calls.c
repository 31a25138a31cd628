/* Calls every function of libkeeper.a and liblisting_text.a and compares what each returns and all that
   it was lent, before and after, with what the headers say. Every buffer stands between guard bytes, and no
   call may raise a floating point flag: it would end a program that traps it. Then what the headers have
   beside the calls: sizes, numbers, words, the version. refusals.inc is made of docs/refusals.txt by
   refusals.awk. C and C++. */
#include "keeper.h"
#include "listing_text.h"

#include "tables.h"

#include <fenv.h>
#include <stdio.h>
#include <stdlib.h>

static int failures;
static unsigned long asked;

/* With FIRST_FAILURE the first one ends the program: enough where a fault is to be found. */
static void failure(void)
{
    failures++;
#ifdef FIRST_FAILURE
    exit(1);
#endif
}

static void failed(const char *what, const char *how)
{
    printf("calls: %s: %s\n", what, how);
    failure();
}

static void same(const char *what, unsigned long got, unsigned long expected)
{
    if (got != expected) {
        printf("calls: %s: got %lu, expected %lu\n", what, got, expected);
        failure();
    }
}

/* ---- lent memory: `size` bytes between guards; odd places are at an odd address */
#define GUARD 64

struct lent {
    uint8_t *all;
    uint8_t *at;
    size_t size;
    uint8_t fill;
};

static struct lent lend(const void *contents, size_t size, size_t odd, uint8_t fill)
{
    struct lent l;
    l.all = (uint8_t *)malloc(GUARD + odd + size + GUARD);
    if (l.all == NULL) {
        printf("calls: no memory\n");
        exit(2);
    }
    l.at = l.all + GUARD + odd;
    l.size = size;
    l.fill = fill;
    memset(l.all, fill, GUARD + odd + size + GUARD);
    if (contents != NULL && size > 0)
        memcpy(l.at, contents, size);
    return l;
}

/* Whether all bytes from one place to another, of which there is one at least, are the fill: the first is, and each is
   the one before it. */
static int filled(const uint8_t *from, const uint8_t *to, uint8_t fill)
{
    return *from == fill && memcmp(from, from + 1, (size_t)(to - from) - 1) == 0;
}

/* Whether the memory holds `count` bytes of these contents, the fill beyond them, and its guards. */
static int holds(const struct lent *l, const void *contents, size_t count)
{
    if (count > l->size || (count > 0 && memcmp(l->at, contents, count) != 0))
        return 0;
    return filled(l->all, l->at, l->fill) && filled(l->at + count, l->at + l->size + GUARD, l->fill);
}

/* ---- one call */
enum call {
    CHECK_TABLE, RECOVERY_LINE, LINE_OF_SET, LINES_OF_SETS, LINE_UNDER, MARKED_LINE, STAND_TOGETHER, SEND, SAVE, RECEIVE,
    FALL_BACK, KEEP_SHEET, LISTING
};

static const char *const names[] = {
    "keeper_check_table", "keeper_recovery_line", "keeper_line_of_set", "keeper_lines_of_sets", "keeper_line_under",
    "keeper_marked_line", "keeper_stand_together", "keeper_send", "keeper_save", "keeper_receive", "keeper_fall_back",
    "keeper_keep_sheet", "keeper_listing",
};

struct question {
    enum call call;
    const uint8_t *table;
    size_t length;
    uint32_t set;
    uint16_t from; /* the process of a save or receipt too */
    uint16_t to;
    const uint16_t *list; /* of a save or receipt, of ceilings, or of named processes */
    size_t list_length;
    const uint16_t *states; /* of the named processes */
    size_t states_length;
    const uint32_t *sets;
    size_t sets_length;
    size_t numbers;
    size_t marks; /* the length of the mark buffer */
    size_t room;
};

/* What must come back: on KEEPER_OK the bytes, and the marks zero; and the lines where the scratch holds them. */
struct answer {
    uint32_t number;
    const uint8_t *bytes;
    size_t size;
    const uint16_t *lines;
    size_t line_numbers;
    size_t marks_size;
};

static uint32_t call(const struct question *q, uint8_t *table, uint16_t *list, uint16_t *states, uint32_t *sets,
                     uint16_t *scratch, uint8_t *marks, uint8_t *answer, size_t *written)
{
    switch (q->call) {
    case CHECK_TABLE:
        return keeper_check_table(table, q->length);
    case RECOVERY_LINE:
        return keeper_recovery_line(table, q->length, answer, q->room, written);
    case LINE_OF_SET:
        return keeper_line_of_set(table, q->length, q->set, answer, q->room, written);
    case LINES_OF_SETS:
        return keeper_lines_of_sets(table, q->length, sets, q->sets_length, scratch, q->numbers, answer, q->room, written);
    case LINE_UNDER:
        return keeper_line_under(table, q->length, list, q->list_length, answer, q->room, written);
    case MARKED_LINE:
        return keeper_marked_line(table, q->length, list, q->list_length, marks, q->marks, answer, q->room, written);
    case STAND_TOGETHER:
        return keeper_stand_together(table, q->length, list, q->list_length, states, q->states_length, answer, q->room,
                                     written);
    case SEND:
        return keeper_send(table, q->length, q->from, q->to, answer, q->room, written);
    case SAVE:
        return keeper_save(table, q->length, q->from, list, q->list_length, answer, q->room, written);
    case RECEIVE:
        return keeper_receive(table, q->length, q->from, list, q->list_length, answer, q->room, written);
    case FALL_BACK:
        return keeper_fall_back(table, q->length, answer, q->room, written);
    case KEEP_SHEET:
        return keeper_keep_sheet(table, q->length, scratch, q->numbers, answer, q->room, written);
    case LISTING:
        return keeper_listing(table, q->length, answer, q->room, written);
    }
    return 99;
}

/* A pointer to the memory, or NULL where it is empty and that is asked for. */
static uint8_t *pointer(const struct lent *l, int null)
{
    return null && l->size == 0 ? NULL : l->at;
}

/* A mark buffer, at each place of eight in turn: before the call the fill stands in it, or with 0xA5 other bytes at
   each place; `marks_after` has the same, to be changed to what is to stand there after the call. */
static uint8_t marks_after[KEEPER_MARKS_ROOM + 6000];

static struct lent lend_marks(size_t size, uint8_t fill)
{
    size_t i;
    for (i = 0; i < size; i++)
        marks_after[i] = fill == 0xA5 ? (uint8_t)(37 * i + (i >> 8)) : fill;
    return lend(marks_after, size, asked % 8, fill);
}

/* Asks once; empty memory is NULL or not, and `fill` is what stands in all that the call might write. Lists and scratches
   stand at addresses of 16-bit numbers that are none of larger ones, one of the two lists and the other in turn, and sets
   at such addresses of 32-bit numbers. */
static void ask_once(const char *what, const struct question *q, const struct answer *a, uint8_t fill, int null)
{
    struct lent table = lend(q->table, q->length, 1, fill);
    struct lent list = lend(q->list, 2 * q->list_length, asked % 2 * 2, fill);
    struct lent states = lend(q->states, 2 * q->states_length, 2 - asked % 2 * 2, fill);
    struct lent sets = lend(q->sets, 4 * q->sets_length, asked % 2 * 4, fill);
    struct lent scratch = lend(NULL, 2 * q->numbers, asked % 2 * 2, fill);
    struct lent marks = lend_marks(q->call == MARKED_LINE ? q->marks : 0, fill);
    struct lent answer = lend(NULL, q->room, 1, fill);
    struct lent written = lend(NULL, sizeof(size_t), 0, fill);
    int ok = a->number == KEEPER_OK && q->call != CHECK_TABLE;
    int lines = (q->call == KEEP_SHEET && (ok || a->number == KEEPER_ANSWER_TOO_SHORT)) || (q->call == LINES_OF_SETS && ok);
    int flags;
    char where[200];
    uint32_t number;
    feclearexcept(FE_ALL_EXCEPT);
    number = call(q, pointer(&table, null), (uint16_t *)(void *)pointer(&list, null),
                  (uint16_t *)(void *)pointer(&states, null), (uint32_t *)(void *)pointer(&sets, null),
                  (uint16_t *)(void *)pointer(&scratch, null), pointer(&marks, null), pointer(&answer, null),
                  (size_t *)(void *)written.at);
    flags = fetestexcept(FE_ALL_EXCEPT);
    asked++;
    snprintf(where, sizeof where, "%s: %s, room %lu", names[q->call], what, (unsigned long)q->room);
    if (ok && q->call == MARKED_LINE)
        memset(marks_after, 0, a->marks_size);
    same(where, number, a->number);
    if (flags != 0)
        failed(where, "a floating point flag was raised");
    if (!holds(&table, q->table, q->length))
        failed(where, "the table was changed, or its guards");
    if (!holds(&list, q->list, 2 * q->list_length))
        failed(where, "the list was changed, or its guards");
    if (!holds(&states, q->states, 2 * q->states_length))
        failed(where, "the list of states was changed, or its guards");
    if (!holds(&sets, q->sets, 4 * q->sets_length))
        failed(where, "the list of sets was changed, or its guards");
    if (!holds(&scratch, a->lines, lines ? 2 * a->line_numbers : 0))
        failed(where, "the scratch does not hold what it should, or its guards were changed");
    if (!holds(&marks, marks_after, marks.size))
        failed(where, "the mark buffer does not hold what it should, or its guards were changed");
    if (!holds(&answer, a->bytes, ok ? a->size : 0))
        failed(where, "the answer buffer does not hold what it should, or its guards were changed");
    if (!holds(&written, &a->size, ok ? sizeof(size_t) : 0))
        failed(where, "*written is not what it should be, or its guards were changed");
    free(table.all);
    free(list.all);
    free(states.all);
    free(sets.all);
    free(scratch.all);
    free(marks.all);
    free(answer.all);
    free(written.all);
}

static void ask(const char *what, const struct question *q, const struct answer *a)
{
    ask_once(what, q, a, 0xA5, 0);
    ask_once(what, q, a, 0x5A, 1);
    if (q->call == MARKED_LINE) {
        ask_once(what, q, a, 0x00, 0);
        ask_once(what, q, a, 0xFF, 1);
    }
}

/* A refusal, which changes nothing; for a keep sheet under 16, `ask` with the lines. */
static void refuses(const char *what, const struct question *q, uint32_t number)
{
    struct answer a = { number, NULL, 0, NULL, 0, 0 };
    ask(what, q, &a);
}

/* Marks that are exact, one byte more and much more; and 19 with one byte less, half as many and none, whatever room
   there is. 16 leaves them as they are. */
static void answers_with_marks(const char *what, struct question q, const struct answer *a)
{
    struct answer sixteen = *a;
    size_t few[3], i;
    sixteen.number = KEEPER_ANSWER_TOO_SHORT;
    few[0] = a->marks_size - 1;
    few[1] = a->marks_size / 2;
    few[2] = 0;
    for (i = 0; i < 3; i++) {
        q.marks = few[i];
        for (q.room = 0; q.room <= a->size; q.room += a->size)
            refuses(what, &q, KEEPER_MARKS_TOO_SHORT);
    }
    for (i = 0; i < 3; i++) {
        q.marks = a->marks_size + (i == 0 ? 0 : i == 1 ? 1 : 5000);
        q.room = a->size;
        ask(what, &q, a);
        q.room = a->size - 1;
        ask(what, &q, &sixteen);
    }
}

/* A scratch that is exact, one number more and much more; and 15 with one less and with none, whatever room there is. */
static void answers_with_scratch(const char *what, struct question q, const struct answer *a)
{
    q.numbers = a->line_numbers - 1;
    q.room = a->size;
    refuses(what, &q, KEEPER_SCRATCH_TOO_SHORT);
    q.room = 0;
    refuses(what, &q, KEEPER_SCRATCH_TOO_SHORT);
    q.numbers = 0;
    refuses(what, &q, KEEPER_SCRATCH_TOO_SHORT);
    q.room = a->size;
    refuses(what, &q, KEEPER_SCRATCH_TOO_SHORT);
    q.numbers = a->line_numbers + 1;
    ask(what, &q, a);
    q.numbers = a->line_numbers + 2000;
    ask(what, &q, a);
}

/* A question that succeeds: with room that is exact, one byte more and much more; and 16 with one byte
   less and with none. An answer of no bytes fits any room. A scratch is exact, one number more, one less and none, and so
   are marks. */
static void answers(const char *what, struct question q, struct answer a)
{
    struct answer sixteen = a;
    sixteen.number = KEEPER_ANSWER_TOO_SHORT;
    if (q.call == KEEP_SHEET || q.call == LINES_OF_SETS) {
        answers_with_scratch(what, q, &a);
        q.numbers = a.line_numbers;
    }
    if (q.call == MARKED_LINE) {
        answers_with_marks(what, q, &a);
        q.marks = a.marks_size;
    }
    q.room = a.size;
    ask(what, &q, &a);
    q.room = a.size + 1;
    ask(what, &q, &a);
    q.room = a.size + 5000;
    ask(what, &q, &a);
    if (a.size == 0)
        return;
    q.room = a.size - 1;
    ask(what, &q, &sixteen);
    q.room = a.size / 2;
    ask(what, &q, &sixteen);
    q.room = 0;
    ask(what, &q, &sixteen);
}

static struct question about(enum call call, const uint8_t *table, size_t length)
{
    struct question q = { call, table, length, 0, 0, 1, NULL, 0, NULL, 0, NULL, 0, KEEPER_SCRATCH_NUMBERS, KEEPER_MARKS_ROOM,
                          KEEPER_LISTING_ROOM };
    return q;
}

/* ---- example A */
static uint8_t a_bytes[A_SIZE];

static void of_numbers(const char *what, struct question q, const uint16_t *numbers, size_t count)
{
    uint8_t bytes[128];
    struct answer a = { KEEPER_OK, bytes, 0, NULL, 0, 0 };
    a.size = put_numbers(bytes, numbers, count);
    answers(what, q, a);
}

/* A line by marking, whose marks take so many bytes. */
static void of_marks(const char *what, struct question q, const uint16_t *numbers, size_t count, size_t marks_size)
{
    uint8_t bytes[128];
    struct answer a = { KEEPER_OK, bytes, 0, NULL, 0, 0 };
    a.size = put_numbers(bytes, numbers, count);
    a.marks_size = marks_size;
    q.call = MARKED_LINE;
    answers(what, q, a);
}

/* The number at a place of a table, counted in numbers: N, M, the counts, the sends, the receipts. */
static size_t of_table(const uint8_t *table, size_t place)
{
    return table[2 * place] + 256u * table[2 * place + 1];
}

/* Names that can't stand together: no bytes, and nothing is written to the answer, whatever room there is. */
static void says_no(const char *what, struct question q)
{
    struct answer a = { KEEPER_OK, NULL, 0, NULL, 0, 0 };
    size_t size = 2 * of_table(q.table, 0), rooms[6], i;
    rooms[0] = 0;
    rooms[1] = 1;
    rooms[2] = size - 1;
    rooms[3] = size;
    rooms[4] = size + 1;
    rooms[5] = size + 5000;
    for (i = 0; i < sizeof rooms / sizeof rooms[0]; i++) {
        q.room = rooms[i];
        ask(what, &q, &a);
    }
}

/* Ceilings as names: each that is below its count names that checkpoint. A yes with this line, or a no where it is NULL. */
static void stand(const char *what, struct question q, const uint16_t *line)
{
    uint16_t processes[32], states[32];
    size_t n = of_table(q.table, 0), named = 0, p;
    for (p = 0; p < n; p++)
        if (q.list[p] < of_table(q.table, 2 + p)) {
            processes[named] = (uint16_t)p;
            states[named++] = q.list[p];
        }
    q.call = STAND_TOGETHER;
    q.list = processes;
    q.states = states;
    q.list_length = q.states_length = named;
    if (line == NULL)
        says_no(what, q);
    else
        of_numbers(what, q, line, n);
}

/* The same, given the line under the ceilings: a yes with it where it has all that is named, else a no. */
static void of_names(const char *what, struct question q, const uint16_t *line)
{
    size_t n = of_table(q.table, 0), p;
    for (p = 0; p < n; p++)
        if (q.list[p] < of_table(q.table, 2 + p) && line[p] != q.list[p]) {
            stand(what, q, NULL);
            return;
        }
    stand(what, q, line);
}

static void example_a_lines(void)
{
    static const uint16_t line[] = { 1, 1 }, hold_0[] = { 1, 1 }, hold_1[] = { 3, 2 }, counts[] = { 3, 3 };
    struct question q = about(RECOVERY_LINE, a_bytes, A_SIZE);
    of_numbers("A", q, line, 2);
    q.call = LINE_OF_SET;
    of_numbers("A, nobody holds", q, counts, 2);
    q.set = 1;
    of_numbers("A, 0 holds", q, hold_0, 2);
    q.set = 2;
    of_numbers("A, 1 holds", q, hold_1, 2);
    q.set = 3;
    of_numbers("A, both hold", q, line, 2);
    for (q.room = 0; q.room <= 4; q.room += 4) {
        q.set = 4;
        refuses("A, bit 2", &q, KEEPER_UNKNOWN_PROCESS_IN_SET);
        q.set = 7;
        refuses("A, bits 0 to 2", &q, KEEPER_UNKNOWN_PROCESS_IN_SET);
        q.set = 0x80000000u;
        refuses("A, bit 31", &q, KEEPER_UNKNOWN_PROCESS_IN_SET);
        q.set = 0x00010001u;
        refuses("A, bits 0 and 16", &q, KEEPER_UNKNOWN_PROCESS_IN_SET);
    }
}

/* Bytes: the lines of 256 sets of 32 processes. */
#define MOST_LINES 16384

/* The lines of a list of sets, from N numbers for each set that there is. */
static void of_sets(const char *what, struct question q, const uint32_t *sets, size_t count, const uint16_t *by_set)
{
    static uint8_t bytes[MOST_LINES];
    uint16_t lines[KEEPER_SCRATCH_NUMBERS];
    struct answer a = { KEEPER_OK, bytes, 0, lines, 0, 0 };
    size_t n = of_table(q.table, 0), k;
    for (k = 0; k < n; k++)
        memcpy(lines + n * k, by_set + (n << k), 2 * n);
    a.line_numbers = n * n;
    for (k = 0; k < count; k++)
        a.size += put_numbers(bytes + a.size, by_set + n * sets[k], n);
    same(what, a.size, KEEPER_LINES_SIZE(n, count));
    q.call = LINES_OF_SETS;
    q.sets = sets;
    q.sets_length = count;
    answers(what, q, a);
}

/* No sets; each set alone; all of them in their order, in the other, and each twice; these over and over, 255 and 256. */
static void of_all_sets(const char *what, const uint8_t *table, size_t length, const uint16_t *by_set)
{
    struct question q = about(LINES_OF_SETS, table, length);
    uint32_t sets[256];
    size_t all = (size_t)1 << of_table(table, 0), k;
    of_sets(what, q, NULL, 0, by_set);
    for (k = 0; k < all; k++) {
        sets[0] = (uint32_t)k;
        of_sets(what, q, sets, 1, by_set);
    }
    for (k = 0; k < all; k++)
        sets[k] = (uint32_t)k;
    of_sets(what, q, sets, all, by_set);
    for (k = 0; k < all; k++)
        sets[k] = (uint32_t)(all - 1 - k);
    of_sets(what, q, sets, all, by_set);
    for (k = 0; k < 256; k++)
        sets[k] = (uint32_t)(k / 2 % all);
    of_sets(what, q, sets, 2 * all, by_set);
    of_sets(what, q, sets, 255, by_set);
    of_sets(what, q, sets, 256, by_set);
}

/* Ceilings. The consistent lines of A are 0 0, 0 1, 1 1, 3 2 and 3 3. */
static uint16_t many[65536 + 2], many_states[65536 + 2];

static void example_a_ceilings(void)
{
    static const uint16_t lines[4][4][2] = {
        { { 0, 0 }, { 0, 1 }, { 0, 1 }, { 0, 1 } },
        { { 0, 0 }, { 1, 1 }, { 1, 1 }, { 1, 1 } },
        { { 0, 0 }, { 1, 1 }, { 1, 1 }, { 1, 1 } },
        { { 0, 0 }, { 1, 1 }, { 3, 2 }, { 3, 3 } },
    };
    static const uint16_t above[][2] = {
        { 4, 3 }, { 3, 4 }, { 4, 4 }, { 0, 4 }, { 4, 0 }, { 259, 3 }, { 3, 259 }, { 0, 4097 }, { 65535, 0 }, { 0, 65535 },
    };
    static const size_t lengths[] = { 0, 1, 3, 4, 256, 258, 65535, 65536, 65536 + 2 };
    static const uint16_t fills[] = { 0, 3, 4, 65535 };
    uint16_t list[2];
    struct question q = about(LINE_UNDER, a_bytes, A_SIZE);
    size_t i, k, l;
    int c;
    q.list = list;
    q.list_length = 2;
    for (list[0] = 0; list[0] < 4; list[0]++)
        for (list[1] = 0; list[1] < 4; list[1]++) {
            of_numbers("A, ceilings at most the counts", q, lines[list[0]][list[1]], 2);
            of_marks("A, ceilings at most the counts", q, lines[list[0]][list[1]], 2, 1);
        }
    /* Both come before 19 and 16, and 17 before 18. */
    for (c = 0; c < 3; c++)
        for (q.room = 0; q.room <= 4; q.room += 2) {
            q.call = c == 0 ? LINE_UNDER : MARKED_LINE;
            q.marks = c == 2 ? 0 : 1;
            q.list_length = 2;
            for (i = 0; i < sizeof above / sizeof above[0]; i++) {
                q.list = above[i];
                refuses("A, a ceiling above its count", &q, KEEPER_CEILING_TOO_HIGH);
            }
            q.list = many;
            for (k = 0; k < sizeof fills / sizeof fills[0]; k++) {
                for (l = 0; l < sizeof many / sizeof many[0]; l++)
                    many[l] = fills[k];
                for (l = 0; l < sizeof lengths / sizeof lengths[0]; l++) {
                    q.list_length = lengths[l];
                    refuses("A, ceilings of another number", &q, KEEPER_WRONG_CEILING_COUNT);
                }
            }
        }
}

/* Sets of A. 25 is before 12, 12 of the whole list before 15, and 15 before 16. */
static uint32_t many_sets[65536 + 257];

/* A bad set at the first place of a list, at the last, in the middle, and at all of them. */
static void example_a_bad_sets(struct question q, size_t count, uint32_t bad)
{
    size_t places[3], i;
    places[0] = 0;
    places[1] = count - 1;
    places[2] = count / 2;
    q.sets_length = count;
    for (i = 0; i < 3; i++) {
        many_sets[places[i]] = bad;
        refuses("A, a set with a bit at 2 or above", &q, KEEPER_UNKNOWN_PROCESS_IN_SET);
        many_sets[places[i]] = 0;
    }
    for (i = 0; i < count; i++)
        many_sets[i] = bad;
    refuses("A, all sets with such a bit", &q, KEEPER_UNKNOWN_PROCESS_IN_SET);
    memset(many_sets, 0, 4 * count);
}

static void example_a_too_many_sets(struct question q, size_t count)
{
    q.sets_length = count;
    refuses("A, too many sets", &q, KEEPER_TOO_MANY_SETS);
    many_sets[0] = 4;
    refuses("A, too many sets, the first one bad", &q, KEEPER_TOO_MANY_SETS);
    many_sets[0] = 0;
    many_sets[count - 1] = 0xFFFFFFFFu;
    refuses("A, too many sets, the last one bad", &q, KEEPER_TOO_MANY_SETS);
    many_sets[count - 1] = 0;
}

static void example_a_sets(void)
{
    static const uint16_t by_set[] = { 3, 3, 1, 1, 3, 2, 1, 1 };
    static const uint32_t bad[] = { 4, 7, 0x100, 0x00010001u, 0x80000000u, 0xFFFFFFFFu };
    static const size_t counts[] = { 1, 2, 3, 128, 255, 256 };
    static const size_t lengths[] = { 257, 258, 511, 512, 513, 65535, 65536, 65537, 65536 + 256, 65536 + 257 };
    static const size_t scratches[] = { 0, 3, 4, 1024 }, rooms[] = { 0, 4, 4 * 256 - 1, 4 * 256, 4 * 257 };
    struct question q = about(LINES_OF_SETS, a_bytes, A_SIZE);
    size_t b, c, k, r;
    of_all_sets("A, sets", a_bytes, A_SIZE, by_set);
    q.sets = many_sets;
    for (k = 0; k < sizeof scratches / sizeof scratches[0]; k++)
        for (r = 0; r < sizeof rooms / sizeof rooms[0]; r++) {
            q.numbers = scratches[k];
            q.room = rooms[r];
            for (c = 0; c < sizeof counts / sizeof counts[0]; c++)
                for (b = 0; b < sizeof bad / sizeof bad[0]; b++)
                    example_a_bad_sets(q, counts[c], bad[b]);
            for (c = 0; c < sizeof lengths / sizeof lengths[0]; c++)
                if (lengths[c] < 1000 || (k % 2 == 0 && r % 2 == 0))
                    example_a_too_many_sets(q, lengths[c]);
        }
}

/* Names, by that of 0 and that of 1; 3 names nothing. 9 9 is a no: no consistent line has both, and none has 2 at 0. */
static void example_a_names(void)
{
    static const uint16_t lines[4][4][2] = {
        { { 0, 0 }, { 0, 1 }, { 9, 9 }, { 0, 1 } },
        { { 9, 9 }, { 1, 1 }, { 9, 9 }, { 1, 1 } },
        { { 9, 9 }, { 9, 9 }, { 9, 9 }, { 9, 9 } },
        { { 0, 0 }, { 1, 1 }, { 3, 2 }, { 3, 3 } },
    };
    uint16_t list[2];
    struct question q = about(STAND_TOGETHER, a_bytes, A_SIZE);
    q.list = list;
    for (list[0] = 0; list[0] < 4; list[0]++)
        for (list[1] = 0; list[1] < 4; list[1]++) {
            const uint16_t *line = lines[list[0]][list[1]];
            stand("A, names", q, line[0] == 9 ? NULL : line);
        }
}

/* Names that are refused: 20 before 21, 21 of the whole list before 22, and all of them before 16. */
static void example_a_bad_names(void)
{
    static const struct {
        uint32_t refusal;
        size_t of_processes, of_states;
        uint16_t processes[3], states[3];
    } cases[] = {
        { 20, 1, 0, { 0 }, { 0 } }, { 20, 0, 1, { 0 }, { 0 } }, { 20, 2, 1, { 0, 1 }, { 1, 1 } },
        { 20, 1, 2, { 0, 1 }, { 1, 1 } }, { 20, 3, 2, { 0, 1, 2 }, { 1, 1 } }, { 20, 2, 3, { 0, 1 }, { 1, 1, 0 } },
        { 20, 2, 0, { 0, 1 }, { 1, 1 } }, { 20, 0, 2, { 0, 1 }, { 1, 1 } }, { 20, 1, 0, { 2 }, { 0 } },
        { 20, 2, 1, { 1, 0 }, { 0 } }, { 20, 1, 2, { 65535 }, { 3, 0 } }, { 20, 0, 1, { 0 }, { 65535 } },
        { 20, 1, 2, { 0 }, { 3, 0 } }, { 20, 2, 1, { 0, 1 }, { 3 } }, { 20, 3, 1, { 0, 0, 9 }, { 9 } },
        { 21, 1, 1, { 2 }, { 0 } }, { 21, 1, 1, { 3 }, { 0 } }, { 21, 1, 1, { 31 }, { 0 } },
        { 21, 1, 1, { 32 }, { 0 } }, { 21, 1, 1, { 256 }, { 0 } }, { 21, 1, 1, { 257 }, { 0 } },
        { 21, 1, 1, { 65535 }, { 0 } }, { 21, 2, 2, { 0, 2 }, { 0, 0 } }, { 21, 2, 2, { 0, 0 }, { 0, 0 } },
        { 21, 2, 2, { 1, 1 }, { 1, 1 } }, { 21, 2, 2, { 1, 0 }, { 1, 1 } }, { 21, 2, 2, { 2, 0 }, { 0, 0 } },
        { 21, 2, 2, { 0, 65535 }, { 0, 0 } }, { 21, 2, 2, { 0, 257 }, { 0, 1 } },
        { 21, 3, 3, { 0, 1, 2 }, { 0, 1, 0 } }, { 21, 3, 3, { 0, 1, 1 }, { 0, 1, 1 } },
        { 21, 3, 3, { 0, 1, 0 }, { 0, 1, 0 } }, { 21, 3, 3, { 0, 0, 1 }, { 0, 0, 1 } },
        { 21, 2, 2, { 0, 2 }, { 3, 0 } }, { 21, 2, 2, { 0, 0 }, { 3, 3 } }, { 21, 2, 2, { 1, 0 }, { 3, 0 } },
        { 21, 1, 1, { 2 }, { 65535 } }, { 21, 3, 3, { 0, 1, 2 }, { 3, 3, 0 } },
        { 21, 3, 3, { 0, 1, 1 }, { 65535, 0, 0 } }, { 21, 2, 2, { 1, 1 }, { 0, 3 } },
        { 22, 1, 1, { 0 }, { 3 } }, { 22, 1, 1, { 1 }, { 3 } }, { 22, 1, 1, { 0 }, { 4 } },
        { 22, 1, 1, { 0 }, { 256 } }, { 22, 1, 1, { 1 }, { 257 } }, { 22, 1, 1, { 0 }, { 4096 } },
        { 22, 1, 1, { 0 }, { 65535 } }, { 22, 2, 2, { 0, 1 }, { 3, 0 } }, { 22, 2, 2, { 0, 1 }, { 0, 3 } },
        { 22, 2, 2, { 0, 1 }, { 3, 3 } }, { 22, 2, 2, { 0, 1 }, { 2, 3 } }, { 22, 2, 2, { 0, 1 }, { 3, 2 } },
    };
    static const size_t rooms[] = { 0, 3, 4, 64 };
    struct question q = about(STAND_TOGETHER, a_bytes, A_SIZE);
    char what[32];
    size_t i, k;
    for (i = 0; i < sizeof cases / sizeof cases[0]; i++)
        for (k = 0; k < sizeof rooms / sizeof rooms[0]; k++) {
            q.list = cases[i].processes;
            q.list_length = cases[i].of_processes;
            q.states = cases[i].states;
            q.states_length = cases[i].of_states;
            q.room = rooms[k];
            snprintf(what, sizeof what, "A, bad names %lu", (unsigned long)i);
            refuses(what, &q, cases[i].refusal);
        }
}

/* Long lists of names. Where a length were cut to 16 or to 8 bits they would be right: checkpoint 1 of 0, of both, or
   none. */
static void example_a_many_names(void)
{
    static const size_t lengths[][2] = { { 65536, 0 }, { 0, 65536 }, { 65537, 1 }, { 1, 65537 }, { 65538, 2 }, { 2, 65538 },
                                         { 256, 0 }, { 0, 256 }, { 257, 1 }, { 2, 258 }, { 65537, 65538 }, { 65538, 65536 } };
    static const size_t equal[] = { 3, 32, 33, 255, 256, 257, 258, 65535, 65536, 65537, 65538 };
    struct question q = about(STAND_TOGETHER, a_bytes, A_SIZE);
    size_t i, k, l;
    q.list = many;
    q.states = many_states;
    for (l = 0; l < sizeof many / sizeof many[0]; l++)
        many_states[l] = 1;
    for (q.room = 0; q.room <= 4; q.room += 4) {
        /* After 0 and 1: rising as far as 16 bits go, the highest number, and 1 again. */
        for (k = 0; k < 3; k++) {
            for (l = 0; l < sizeof many / sizeof many[0]; l++)
                many[l] = (uint16_t)(l < 2 || k == 0 ? l : k == 1 ? 65535 : 1);
            for (i = 0; i < sizeof lengths / sizeof lengths[0]; i++) {
                q.list_length = lengths[i][0];
                q.states_length = lengths[i][1];
                refuses("A, long lists of other lengths", &q, KEEPER_UNEQUAL_LISTS);
            }
            for (i = 0; i < sizeof equal / sizeof equal[0]; i++) {
                q.list_length = q.states_length = equal[i];
                refuses("A, many names", &q, KEEPER_BAD_NAMED_PROCESS);
            }
        }
    }
}

static void example_a_steps(void)
{
    static const uint16_t sent[] = { 2, 6, 3, 3, 0, 0, 1, 0, 1, 1, 0, 2, 1, 2, 0, 2,
                                     1, 2, 0, 1, 0, 2, 1, 2, 0, 0, 1, 0 };
    static const uint16_t saved_0[] = { 2, 5, 4, 3, 0, 0, 1, 0, 1, 1, 0, 2, 1, 2, 1, 2, 0, 1, 0, 2, 1, 2, 0, 3 };
    static const uint16_t saved_1[] = { 2, 5, 3, 4, 0, 0, 1, 0, 1, 1, 0, 2, 1, 2, 1, 2, 0, 1, 0, 2, 1, 2, 0, 0 };
    static const uint16_t received_0[] = { 2, 5, 3, 3, 0, 0, 1, 0, 1, 1, 0, 2, 1, 2, 1, 2, 0, 1, 0, 2, 1, 2, 0, 3 };
    static const uint16_t fallen[] = { 2, 2, 2, 2, 0, 0, 1, 0, 1, 0, 0, 1 };
    static const uint16_t four[] = { 4 };
    struct question q = about(SEND, a_bytes, A_SIZE);
    of_numbers("A, 0 to 1", q, sent, 28);
    q.call = FALL_BACK;
    of_numbers("A", q, fallen, 12);
    q.call = SAVE;
    q.from = 1;
    of_numbers("A, 1 with no list", q, saved_1, 24);
    q.call = RECEIVE;
    of_numbers("A, 1 with no list", q, example_a, 24);
    q.from = 0;
    of_numbers("A, 0 with no list", q, example_a, 24);
    q.list = four;
    q.list_length = 1;
    of_numbers("A, 0 with message 4", q, received_0, 24);
    q.call = SAVE;
    of_numbers("A, 0 with message 4", q, saved_0, 24);
    for (q.room = 0; q.room <= 64; q.room += 64) {
        q.call = SEND;
        q.from = 2, q.to = 0;
        refuses("A, 2 to 0", &q, KEEPER_UNKNOWN_PROCESS);
        q.from = 0, q.to = 2;
        refuses("A, 0 to 2", &q, KEEPER_UNKNOWN_PROCESS);
        q.from = 2, q.to = 2;
        refuses("A, 2 to 2", &q, KEEPER_UNKNOWN_PROCESS);
        q.from = 256, q.to = 1;
        refuses("A, 256 to 1", &q, KEEPER_UNKNOWN_PROCESS);
        q.from = 0, q.to = 257;
        refuses("A, 0 to 257", &q, KEEPER_UNKNOWN_PROCESS);
        q.from = 65535, q.to = 65535;
        refuses("A, 65535 to 65535", &q, KEEPER_UNKNOWN_PROCESS);
        q.from = 1, q.to = 1;
        refuses("A, 1 to 1", &q, KEEPER_SEND_TO_ITSELF);
    }
}

/* What a save and a receipt refuse alike; with no room, with one byte less than the answer needs, and with enough. */
static void example_a_lists(void)
{
    static const uint16_t four[] = { 4 }, twice[] = { 4, 4 }, falling[] = { 4, 3 }, beyond[] = { 5 }, cut[] = { 260 },
                          far[] = { 4, 65535 }, received[] = { 0 };
    static const size_t rooms[] = { 0, A_SIZE - 1, A_SIZE, 64 };
    static const size_t lengths[] = { 256, 257, 65535, 65536, 65536 + 1 };
    struct question q = about(SAVE, a_bytes, A_SIZE);
    size_t i, l;
    int c;
    for (l = 1; l < sizeof many / sizeof many[0]; l++)
        many[l] = 65535;
    many[0] = 4;
    for (c = 0; c < 2; c++)
        for (i = 0; i < sizeof rooms / sizeof rooms[0]; i++) {
            q.call = c == 0 ? SAVE : RECEIVE;
            q.room = rooms[i];
            q.list = four, q.list_length = 1;
            q.from = 2;
            refuses("A, 2", &q, KEEPER_UNKNOWN_PROCESS);
            q.from = 256;
            refuses("A, 256", &q, KEEPER_UNKNOWN_PROCESS);
            q.from = 65535, q.list = beyond;
            refuses("A, 65535", &q, KEEPER_UNKNOWN_PROCESS);
            q.list_length = 0;
            refuses("A, 65535 with no list", &q, KEEPER_UNKNOWN_PROCESS);
            q.from = 1, q.list = four, q.list_length = 1;
            refuses("A, message 4 waits for 0", &q, KEEPER_BAD_LIST);
            q.from = 0, q.list = beyond;
            refuses("A, position 5", &q, KEEPER_BAD_LIST);
            q.list = cut;
            refuses("A, position 260", &q, KEEPER_BAD_LIST);
            q.list = received;
            q.from = 1;
            refuses("A, message 0 is received", &q, KEEPER_BAD_LIST);
            q.from = 0, q.list = twice, q.list_length = 2;
            refuses("A, message 4 twice", &q, KEEPER_BAD_LIST);
            q.list = falling;
            refuses("A, falling", &q, KEEPER_BAD_LIST);
            q.list = far;
            refuses("A, position 65535", &q, KEEPER_BAD_LIST);
            q.list = many;
            for (l = 0; l < sizeof lengths / sizeof lengths[0]; l++) {
                q.list_length = lengths[l];
                refuses("A, message 4 and many more", &q, KEEPER_BAD_LIST);
            }
        }
}

static void example_a_sheet(void)
{
    static const uint16_t lines[] = { 1, 1, 3, 2 };
    static const uint8_t sheet[] = { 3, 0, 2, 0, 0, 0, 1, 0, 1, 0, 1, 0, 1, 0, 2, 0, 0, 0, 4, 0 };
    static const char text[] = "line 1 1\nhold 0 1 1\nhold 1 3 2\ncheckpoint 0 1\ncheckpoint 1 1\ncheckpoint 1 2\n"
                               "message 0\nmessage 4\nshare 50\n";
    struct answer a = { KEEPER_OK, sheet, sizeof sheet, lines, 4, 0 };
    struct answer t = { KEEPER_OK, (const uint8_t *)text, sizeof text - 1, NULL, 0, 0 };
    struct question check = about(CHECK_TABLE, a_bytes, A_SIZE);
    same("size of A's sheet", KEEPER_SHEET_SIZE(3, 2), sizeof sheet);
    answers("A", about(KEEP_SHEET, a_bytes, A_SIZE), a);
    answers("A", about(LISTING, a_bytes, A_SIZE), t);
    refuses("A", &check, KEEPER_OK);
}

/* ---- shares of listings: the nearest whole percent, and of an exact half the even one */
static void listing_of(const char *what, const uint16_t *numbers, size_t count, const char *text)
{
    uint8_t table[128];
    struct answer t = { KEEPER_OK, (const uint8_t *)text, strlen(text), NULL, 0, 0 };
    answers(what, about(LISTING, table, put_numbers(table, numbers, count)), t);
}

/* Halves of a total of 8, on both sides of 50, as whole texts: 12.5, 37.5, 62.5 and 87.5. Messages are sent at the
   end of process 0, each to another process, and received before state 1, so that the line of process 0 puts the
   receivers back to 0. */
static void shares_of_8(void)
{
    static const uint16_t one[] = { 1, 0, 8 }, three[] = { 2, 1, 4, 4, 0, 3, 1, 1 },
                          five[] = { 3, 2, 2, 3, 3, 0, 1, 0, 1, 1, 1, 2, 1 },
                          seven[] = { 4, 3, 1, 2, 2, 3, 0, 0, 0, 0, 0, 0, 1, 1, 2, 1, 3, 1 };
    listing_of("1 of 8", one, 3, "line 7\nhold 0 7\ncheckpoint 0 7\nshare 12\n");
    listing_of("3 of 8", three, 8,
               "line 3 0\nhold 0 3 0\nhold 1 4 3\ncheckpoint 0 3\ncheckpoint 1 0\ncheckpoint 1 3\nshare 38\n");
    listing_of("5 of 8", five, 13,
               "line 1 0 0\nhold 0 1 0 0\nhold 1 2 2 3\nhold 2 2 3 2\ncheckpoint 0 1\ncheckpoint 1 0\ncheckpoint 1 2\n"
               "checkpoint 2 0\ncheckpoint 2 2\nshare 62\n");
    listing_of("7 of 8", seven, 18,
               "line 0 0 0 0\nhold 0 0 0 0 0\nhold 1 1 1 2 3\nhold 2 1 2 1 3\nhold 3 1 2 2 2\ncheckpoint 0 0\ncheckpoint 1 0\n"
               "checkpoint 1 1\ncheckpoint 2 0\ncheckpoint 2 1\ncheckpoint 3 0\ncheckpoint 3 2\nshare 88\n");
}

/* Processes without messages: each keeps its last checkpoint, and puts nobody back. The first ones have as many
   checkpoints as they may, and the others one each. */
static void share_of(size_t kept, size_t total, unsigned share)
{
    static char text[8000];
    uint16_t numbers[34] = { 0 }, *counts = numbers + 2;
    size_t p, i, n = 0, left = total - kept;
    char what[64];
    numbers[0] = (uint16_t)kept;
    for (p = 0; p < kept; p++) {
        size_t more = left < 4095 ? left : 4095;
        counts[p] = (uint16_t)(1 + more);
        left -= more;
    }
    n += (size_t)sprintf(text + n, "line");
    for (p = 0; p < kept; p++)
        n += (size_t)sprintf(text + n, " %u", counts[p] - 1u);
    for (p = 0; p < kept; p++) {
        n += (size_t)sprintf(text + n, "\nhold %u", (unsigned)p);
        for (i = 0; i < kept; i++)
            n += (size_t)sprintf(text + n, " %u", counts[i] - (i == p ? 1u : 0u));
    }
    for (p = 0; p < kept; p++)
        n += (size_t)sprintf(text + n, "\ncheckpoint %u %u", (unsigned)p, counts[p] - 1u);
    sprintf(text + n, "\nshare %u\n", share);
    snprintf(what, sizeof what, "%lu of %lu", (unsigned long)kept, (unsigned long)total);
    listing_of(what, numbers, 2 + kept, text);
}

/* Halves, and one checkpoint on either side of them; thirds and sixths; 5.4545.., a half if tenths were rounded
   first; 100; the largest total. */
static void shares(void)
{
    static const struct {
        size_t kept, total;
        unsigned share;
    } cases[] = {
        { 1, 199, 1 }, { 1, 200, 0 }, { 1, 201, 0 }, { 3, 199, 2 }, { 3, 200, 2 }, { 3, 201, 1 },
        { 1, 39, 3 }, { 1, 40, 2 }, { 1, 41, 2 }, { 3, 39, 8 }, { 3, 40, 8 }, { 3, 41, 7 },
        { 1, 7, 14 }, { 1, 8, 12 }, { 1, 9, 11 }, { 2, 8, 25 }, { 3, 8, 38 }, { 4, 8, 50 },
        { 5, 8, 62 }, { 5, 9, 56 }, { 6, 8, 75 }, { 7, 8, 88 }, { 7, 9, 78 }, { 8, 8, 100 },
        { 17, 40, 42 }, { 19, 40, 48 }, { 21, 40, 52 }, { 23, 40, 58 }, { 32, 255, 13 }, { 32, 256, 12 }, { 32, 257, 12 },
        { 1, 3, 33 }, { 2, 3, 67 }, { 1, 6, 17 }, { 5, 6, 83 }, { 3, 55, 5 }, { 1, 1, 100 }, { 1, 2, 50 },
        { 32, 33, 97 }, { 32, 32, 100 }, { 32, 6399, 1 }, { 32, 6400, 0 }, { 32, 6401, 0 }, { 32, 131072, 0 },
    };
    size_t i;
    shares_of_8();
    for (i = 0; i < sizeof cases / sizeof cases[0]; i++)
        share_of(cases[i].kept, cases[i].total, cases[i].share);
}

/* ---- messages that are received and unsaved, in every call */

/* An accepted table, a sheet, the listing that goes with it, and the lines of single holders. */
static void sheet_and_listing(const char *what, const uint8_t *table, size_t length, const uint16_t *numbers, size_t count,
                              const uint16_t *lines, size_t line_numbers, const char *text)
{
    uint8_t sheet[128];
    struct answer a = { KEEPER_OK, sheet, 0, NULL, 0, 0 }, t = { KEEPER_OK, (const uint8_t *)text, 0, NULL, 0, 0 };
    struct question check = about(CHECK_TABLE, table, length);
    refuses(what, &check, KEEPER_OK);
    a.size = put_numbers(sheet, numbers, count);
    a.lines = lines;
    a.line_numbers = line_numbers;
    answers(what, about(KEEP_SHEET, table, length), a);
    t.size = strlen(text);
    answers(what, about(LISTING, table, length), t);
}

/* Counts 1 1, (0,0) to (1,1) and (1,0) to (0,1), both unsaved: where one process holds, the other has received what it has
   not sent yet. So neither message crosses a line, and neither is kept. */
static void two_unsaved(void)
{
    static const uint16_t numbers[] = { 2, 2, 1, 1, 0, 0, 1, 0, 1, 1, 0, 1 };
    static const uint16_t saved_0[] = { 2, 2, 2, 1, 0, 0, 1, 0, 1, 1, 0, 1 };
    static const uint16_t saved_1[] = { 2, 2, 1, 2, 0, 0, 1, 0, 1, 1, 0, 1 };
    static const uint16_t sent[] = { 2, 3, 1, 1, 0, 0, 1, 0, 0, 0, 1, 1, 0, 1, 1, 0 };
    static const uint16_t fallen[] = { 2, 0, 1, 1 };
    static const uint16_t counts[] = { 1, 1 }, zeros[] = { 0, 0 }, lines[] = { 0, 0, 0, 0 };
    static const uint16_t by_set[] = { 1, 1, 0, 0, 0, 0, 0, 0 };
    static const uint16_t sheet[] = { 2, 0, 0, 1, 0, 0 }, first[] = { 0 }, second[] = { 1 };
    uint8_t table[24];
    uint16_t list[2];
    struct question q = about(SEND, table, put_numbers(table, numbers, 12));
    of_numbers("two unsaved, 0 to 1", q, sent, 16);
    of_numbers("two unsaved", about(RECOVERY_LINE, table, sizeof table), zeros, 2);
    of_numbers("two unsaved", about(FALL_BACK, table, sizeof table), fallen, 4);
    q.call = LINE_OF_SET;
    for (q.set = 0; q.set < 4; q.set++)
        of_numbers("two unsaved, sets", q, q.set == 0 ? counts : zeros, 2);
    of_all_sets("two unsaved, sets", table, sizeof table, by_set);
    q.call = LINE_UNDER;
    q.list = list;
    q.list_length = 2;
    for (list[0] = 0; list[0] < 2; list[0]++)
        for (list[1] = 0; list[1] < 2; list[1]++) {
            of_numbers("two unsaved, ceilings", q, list[0] == 1 && list[1] == 1 ? counts : zeros, 2);
            of_marks("two unsaved, ceilings", q, list[0] == 1 && list[1] == 1 ? counts : zeros, 2, 1);
            stand("two unsaved, names", q, list[0] == 1 && list[1] == 1 ? counts : zeros);
        }
    sheet_and_listing("two unsaved", table, sizeof table, sheet, 6, lines, 4,
                      "line 0 0\nhold 0 0 0\nhold 1 0 0\ncheckpoint 0 0\ncheckpoint 1 0\nshare 100\n");
    for (q.from = 0; q.from < 2; q.from++) {
        q.list_length = 0;
        q.call = SAVE;
        of_numbers("two unsaved, a save", q, q.from == 0 ? saved_0 : saved_1, 12);
        q.call = RECEIVE;
        of_numbers("two unsaved, a receipt of nothing", q, numbers, 12);
        q.list_length = 1;
        q.list = q.from == 0 ? second : first;
        refuses("two unsaved, listed again", &q, KEEPER_BAD_LIST);
        q.call = SAVE;
        refuses("two unsaved, listed by a save", &q, KEEPER_BAD_LIST);
        q.list = q.from == 0 ? first : second;
        refuses("two unsaved, that of the other", &q, KEEPER_BAD_LIST);
        q.call = RECEIVE;
        refuses("two unsaved, that of the other", &q, KEEPER_BAD_LIST);
    }
}

/* Counts 2 3 1: (0,0) to (1,3), (0,1) to (1,3), (1,2) to (0,2) and (1,1) to (2,1) are unsaved, (2,0) to (1,1) is saved, and
   (0,1) to 2 waits. Of the unsaved ones the first alone crosses a line, is kept, and waits again after a fall back. */
static void four_unsaved(void)
{
    static const uint16_t numbers[] = { 3, 6, 2, 3, 1, 0, 0, 0, 1, 1, 2, 2, 0, 1, 1, 0, 1,
                                        1, 3, 1, 3, 0, 2, 1, 1, 2, 1, 2, 0 };
    static const uint16_t sets[8][3] = { { 2, 3, 1 }, { 1, 2, 1 }, { 1, 2, 1 }, { 1, 2, 1 },
                                         { 1, 0, 0 }, { 1, 0, 0 }, { 1, 0, 0 }, { 1, 0, 0 } };
    /* By the ceilings of 0, 1 and 2. */
    static const uint16_t under[3][4][2][3] = {
        { { { 0, 0, 0 }, { 0, 0, 0 } }, { { 0, 0, 0 }, { 0, 0, 0 } },
          { { 0, 0, 0 }, { 0, 2, 1 } }, { { 0, 0, 0 }, { 0, 2, 1 } } },
        { { { 1, 0, 0 }, { 1, 0, 0 } }, { { 1, 0, 0 }, { 1, 0, 0 } },
          { { 1, 0, 0 }, { 1, 2, 1 } }, { { 1, 0, 0 }, { 1, 2, 1 } } },
        { { { 1, 0, 0 }, { 1, 0, 0 } }, { { 1, 0, 0 }, { 1, 0, 0 } },
          { { 1, 0, 0 }, { 1, 2, 1 } }, { { 1, 0, 0 }, { 2, 3, 1 } } },
    };
    static const uint16_t lines[] = { 1, 2, 1, 1, 2, 1, 1, 0, 0 };
    static const uint16_t sheet[] = { 4, 2, 0, 1, 1, 2, 1, 0, 2, 0, 0, 5 };
    static const uint16_t fallen[] = { 3, 1, 2, 1, 1, 0, 0, 1, 0 };
    static const uint16_t waiting[] = { 5 }, both[] = { 4, 5 };
    uint16_t after[29], list[3];
    uint8_t table[58];
    struct question q = about(LINE_OF_SET, table, put_numbers(table, numbers, 29));
    for (q.set = 0; q.set < 8; q.set++)
        of_numbers("four unsaved, sets", q, sets[q.set], 3);
    of_all_sets("four unsaved, sets", table, sizeof table, sets[0]);
    of_numbers("four unsaved", about(RECOVERY_LINE, table, sizeof table), sets[7], 3);
    of_numbers("four unsaved", about(FALL_BACK, table, sizeof table), fallen, 9);
    sheet_and_listing("four unsaved", table, sizeof table, sheet, 12, lines, 9,
                      "line 1 0 0\nhold 0 1 2 1\nhold 1 1 2 1\nhold 2 1 0 0\ncheckpoint 0 1\ncheckpoint 1 0\ncheckpoint 1 2\n"
                      "checkpoint 2 0\nmessage 0\nmessage 5\nshare 67\n");
    q.call = LINE_UNDER;
    q.list = list;
    q.list_length = 3;
    for (list[0] = 0; list[0] < 3; list[0]++)
        for (list[1] = 0; list[1] < 4; list[1]++)
            for (list[2] = 0; list[2] < 2; list[2]++) {
                of_numbers("four unsaved, ceilings", q, under[list[0]][list[1]][list[2]], 3);
                of_marks("four unsaved, ceilings", q, under[list[0]][list[1]][list[2]], 3, 2);
                of_names("four unsaved, names", q, under[list[0]][list[1]][list[2]]);
            }
    /* A save changes one count and nothing else; what waits is received beside what is unsaved, by the same number. */
    for (q.from = 0; q.from < 3; q.from++) {
        memcpy(after, numbers, sizeof after);
        q.list_length = 0;
        q.call = RECEIVE;
        of_numbers("four unsaved, a receipt of nothing", q, after, 29);
        after[2 + q.from]++;
        q.call = SAVE;
        of_numbers("four unsaved, a save", q, after, 29);
    }
    q.from = 2;
    q.list = waiting;
    q.list_length = 1;
    after[28] = 1;
    of_numbers("four unsaved, a save with message 5", q, after, 29);
    after[4] = 1;
    q.call = RECEIVE;
    of_numbers("four unsaved, a receipt of message 5", q, after, 29);
    for (q.call = SAVE; q.call <= RECEIVE; q.call = (enum call)(q.call + 1)) {
        q.from = 2, q.list = both, q.list_length = 2;
        refuses("four unsaved, 4 and 5", &q, KEEPER_BAD_LIST);
        q.list = waiting, q.list_length = 1;
        for (q.from = 0; q.from < 2; q.from++)
            refuses("four unsaved, message 5 waits for 2", &q, KEEPER_BAD_LIST);
    }
}

/* A with receipt (0,3) in the last entry, which is unsaved: where 1 holds, 0 is put back. With (0,2) there the lines are the
   same. (0,4) is among the refused tables. */
static void case_f(void)
{
    static const uint16_t line[] = { 1, 1 }, counts[] = { 3, 3 }, lines[] = { 1, 1, 1, 1 }, sheet[] = { 2, 1, 0, 1, 1, 1, 0 };
    static const uint16_t fallen[] = { 2, 2, 2, 2, 0, 0, 1, 0, 1, 0, 0, 1 };
    uint16_t numbers[A_NUMBERS], receipt;
    uint8_t table[A_SIZE];
    struct question q = about(LINE_OF_SET, table, sizeof table);
    memcpy(numbers, example_a, sizeof numbers);
    for (receipt = 2; receipt < 4; receipt++) {
        numbers[A_NUMBERS - 1] = receipt;
        put_numbers(table, numbers, A_NUMBERS);
        for (q.set = 0; q.set < 4; q.set++)
            of_numbers("case F", q, q.set == 0 ? counts : line, 2);
        of_numbers("case F", about(RECOVERY_LINE, table, sizeof table), line, 2);
        of_numbers("case F", about(FALL_BACK, table, sizeof table), fallen, 12);
        sheet_and_listing("case F", table, sizeof table, sheet, 7, lines, 4,
                          "line 1 1\nhold 0 1 1\nhold 1 1 1\ncheckpoint 0 1\ncheckpoint 1 1\nmessage 0\nshare 33\n");
    }
}

/* Steps, each on the table before it. What was received before a save is saved by it and keeps its number; of what is
   unsaved when the run falls back, position 3 waits again and position 4 is gone. */
static void steps_with_receipts(void)
{
    static const struct {
        enum call call;
        uint16_t from, to, list[2];
        size_t list_length, count;
        uint16_t after[24];
    } steps[] = {
        { SEND, 0, 1, { 0 }, 0, 8, { 2, 1, 1, 1, 0, 0, 1, 0 } },
        { RECEIVE, 1, 0, { 0 }, 1, 8, { 2, 1, 1, 1, 0, 0, 1, 1 } },
        { SEND, 1, 0, { 0 }, 0, 12, { 2, 2, 1, 1, 0, 0, 1, 0, 1, 1, 0, 0 } },
        { RECEIVE, 0, 0, { 1 }, 1, 12, { 2, 2, 1, 1, 0, 0, 1, 0, 1, 1, 0, 1 } },
        { RECEIVE, 0, 0, { 0 }, 0, 12, { 2, 2, 1, 1, 0, 0, 1, 0, 1, 1, 0, 1 } },
        { SAVE, 0, 0, { 0 }, 0, 12, { 2, 2, 2, 1, 0, 0, 1, 0, 1, 1, 0, 1 } },
        { SEND, 0, 1, { 0 }, 0, 16, { 2, 3, 2, 1, 0, 0, 1, 0, 0, 1, 1, 1, 0, 1, 1, 0 } },
        { SEND, 1, 0, { 0 }, 0, 20, { 2, 4, 2, 1, 0, 0, 1, 0, 0, 1, 1, 0, 1, 1, 0, 1, 1, 0, 0, 0 } },
        { SAVE, 1, 0, { 2 }, 1, 20, { 2, 4, 2, 2, 0, 0, 1, 0, 0, 1, 1, 0, 1, 1, 0, 1, 1, 1, 0, 0 } },
        { SAVE, 0, 0, { 0 }, 0, 20, { 2, 4, 3, 2, 0, 0, 1, 0, 0, 1, 1, 0, 1, 1, 0, 1, 1, 1, 0, 0 } },
        { SEND, 1, 0, { 0 }, 0, 24, { 2, 5, 3, 2, 0, 0, 1, 0, 0, 1, 1, 0, 1, 1, 1, 1, 0, 1, 1, 1, 0, 0, 0, 0 } },
        { RECEIVE, 0, 0, { 3, 4 }, 2, 24, { 2, 5, 3, 2, 0, 0, 1, 0, 0, 1, 1, 0, 1, 1, 1, 1, 0, 1, 1, 1, 0, 3, 0, 3 } },
        { FALL_BACK, 0, 0, { 0 }, 0, 20, { 2, 4, 3, 2, 0, 0, 1, 0, 0, 1, 1, 0, 1, 1, 0, 1, 1, 1, 0, 0 } },
        { RECEIVE, 0, 0, { 3 }, 1, 20, { 2, 4, 3, 2, 0, 0, 1, 0, 0, 1, 1, 0, 1, 1, 0, 1, 1, 1, 0, 3 } },
        { SAVE, 0, 0, { 0 }, 0, 20, { 2, 4, 4, 2, 0, 0, 1, 0, 0, 1, 1, 0, 1, 1, 0, 1, 1, 1, 0, 3 } },
        { SEND, 1, 0, { 0 }, 0, 24, { 2, 5, 4, 2, 0, 0, 1, 0, 0, 1, 1, 0, 1, 1, 1, 1, 0, 1, 1, 1, 0, 3, 0, 0 } },
        { RECEIVE, 0, 0, { 4 }, 1, 24, { 2, 5, 4, 2, 0, 0, 1, 0, 0, 1, 1, 0, 1, 1, 1, 1, 0, 1, 1, 1, 0, 3, 0, 4 } },
        { SAVE, 1, 0, { 0 }, 0, 24, { 2, 5, 4, 3, 0, 0, 1, 0, 0, 1, 1, 0, 1, 1, 1, 1, 0, 1, 1, 1, 0, 3, 0, 4 } },
        { FALL_BACK, 0, 0, { 0 }, 0, 24, { 2, 5, 4, 3, 0, 0, 1, 0, 0, 1, 1, 0, 1, 1, 1, 1, 0, 1, 1, 1, 0, 3, 0, 0 } },
    };
    static const uint16_t start[] = { 2, 0, 1, 1 };
    uint8_t table[A_SIZE];
    struct question q = about(SEND, table, put_numbers(table, start, 4));
    size_t i;
    for (i = 0; i < sizeof steps / sizeof steps[0]; i++) {
        q.call = steps[i].call;
        q.from = steps[i].from;
        q.to = steps[i].to;
        q.list = steps[i].list;
        q.list_length = steps[i].list_length;
        of_numbers("steps with receipts", q, steps[i].after, steps[i].count);
        q.length = put_numbers(table, steps[i].after, steps[i].count);
    }
}

/* ---- refused tables, in every call: with arguments and room that are right, and with none that is */
static void refused_in_every_call(void)
{
    static const uint16_t bad_list[] = { 65535, 0 };
    static const uint32_t good_sets[] = { 1, 0, 2, 3 };
    static uint32_t bad_sets[257];
    uint8_t table[64];
    char text[32];
    size_t i;
    int c;
    memset(bad_sets, 0xFF, sizeof bad_sets);
    for (i = 0; i < REFUSED_TABLES; i++) {
        const struct refused *r = &refused_tables[i];
        size_t length = put_refused(table, r);
        struct question q;
        struct answer t;
        for (c = CHECK_TABLE; c <= KEEP_SHEET; c++) {
            q = about((enum call)c, table, length);
            refuses(r->what, &q, r->refusal);
            q.sets = good_sets;
            q.sets_length = 4;
            if (c == LINES_OF_SETS)
                refuses(r->what, &q, r->refusal);
            q.set = 0xFFFFFFFFu;
            q.from = 65535;
            q.to = 65535;
            q.list = bad_list;
            q.list_length = 2;
            q.sets = bad_sets;
            q.sets_length = 257;
            q.numbers = 0;
            q.marks = 0;
            q.room = 0;
            refuses(r->what, &q, r->refusal);
            if (c != STAND_TOGETHER)
                continue;
            q.states = bad_list;
            q.states_length = 2;
            refuses(r->what, &q, r->refusal);
        }
        snprintf(text, sizeof text, "refused %u\n", (unsigned)r->refusal);
        t.number = KEEPER_OK;
        t.bytes = (const uint8_t *)text;
        t.size = strlen(text);
        t.lines = NULL;
        t.line_numbers = 0;
        t.marks_size = 0;
        answers(r->what, about(LISTING, table, length), t);
    }
}

/* A with one number changed, each channel still in order: accepted by every call. */
static void accepted_in_every_call(void)
{
    static const uint16_t counts[] = { 3, 3 };
    uint8_t table[64];
    size_t i;
    for (i = 0; i < ACCEPTED_TABLES; i++) {
        struct question q = about(CHECK_TABLE, table, put_refused(table, &accepted_tables[i]));
        refuses(accepted_tables[i].what, &q, KEEPER_OK);
        q.call = LINE_OF_SET;
        of_numbers(accepted_tables[i].what, q, counts, 2);
        q.list = counts;
        q.list_length = 2;
        q.call = LINE_UNDER;
        of_numbers(accepted_tables[i].what, q, counts, 2);
        of_marks(accepted_tables[i].what, q, counts, 2, 1);
        q.call = STAND_TOGETHER;
        q.list_length = 0;
        of_numbers(accepted_tables[i].what, q, counts, 2);
        /* An empty list changes nothing; and each other call finds something else that is wrong. */
        q.call = RECEIVE;
        q.room = 48;
        {
            struct answer a = { KEEPER_OK, table, 48, NULL, 0, 0 };
            ask(accepted_tables[i].what, &q, &a);
        }
        q.call = SEND, q.from = q.to = 1;
        refuses(accepted_tables[i].what, &q, KEEPER_SEND_TO_ITSELF);
        q.call = SAVE, q.room = 47;
        refuses(accepted_tables[i].what, &q, KEEPER_ANSWER_TOO_SHORT);
        q.call = RECOVERY_LINE, q.room = 3;
        refuses(accepted_tables[i].what, &q, KEEPER_ANSWER_TOO_SHORT);
        q.call = FALL_BACK;
        refuses(accepted_tables[i].what, &q, KEEPER_ANSWER_TOO_SHORT);
        q.call = KEEP_SHEET, q.numbers = 3;
        refuses(accepted_tables[i].what, &q, KEEPER_SCRATCH_TOO_SHORT);
        q.call = LINES_OF_SETS;
        refuses(accepted_tables[i].what, &q, KEEPER_SCRATCH_TOO_SHORT);
        q.sets = many_sets, q.sets_length = 1, q.numbers = 4;
        refuses(accepted_tables[i].what, &q, KEEPER_ANSWER_TOO_SHORT);
        q.sets_length = 257;
        refuses(accepted_tables[i].what, &q, KEEPER_TOO_MANY_SETS);
    }
}

/* ---- lists that pass over an older waiting message of a channel. Messages 0, 2 and 4 wait from 0 to 1, 1 and 5 from 2 to
   1, and 3 from 0 to 2 */
static void lists_in_turn(void)
{
    static const uint16_t numbers[] = { 3, 6, 1, 1, 1, 0, 0, 2, 0, 0, 0, 0, 0, 0, 0, 2, 0,
                                        1, 0, 1, 0, 1, 0, 2, 0, 1, 0, 1, 0 };
    enum { NUMBERS = sizeof numbers / sizeof numbers[0], FIRST_RECEIPT = 18, BYTES = 2 * NUMBERS };
    static const struct {
        uint16_t process, list[5];
        size_t list_length;
        uint32_t refusal;
    } lists[] = {
        { 1, { 2 }, 1, KEEPER_MESSAGE_PASSED_OVER },
        { 1, { 4 }, 1, KEEPER_MESSAGE_PASSED_OVER },
        { 1, { 5 }, 1, KEEPER_MESSAGE_PASSED_OVER },
        { 1, { 0, 4 }, 2, KEEPER_MESSAGE_PASSED_OVER },
        { 1, { 2, 4 }, 2, KEEPER_MESSAGE_PASSED_OVER },
        { 1, { 1, 2 }, 2, KEEPER_MESSAGE_PASSED_OVER }, /* another channel is in order */
        { 1, { 0, 5 }, 2, KEEPER_MESSAGE_PASSED_OVER },
        { 1, { 0, 2, 4, 5 }, 4, KEEPER_MESSAGE_PASSED_OVER },
        { 1, { 1, 2, 4, 5 }, 4, KEEPER_MESSAGE_PASSED_OVER },
        { 1, { 0, 1, 4, 5 }, 4, KEEPER_MESSAGE_PASSED_OVER },
        /* 13 is before 24, wherever in the list it catches. */
        { 1, { 2, 2 }, 2, KEEPER_BAD_LIST },
        { 1, { 4, 2 }, 2, KEEPER_BAD_LIST },
        { 1, { 2, 3 }, 2, KEEPER_BAD_LIST },
        { 1, { 2, 6 }, 2, KEEPER_BAD_LIST },
        { 1, { 5, 65535 }, 2, KEEPER_BAD_LIST },
        { 3, { 2 }, 1, KEEPER_UNKNOWN_PROCESS },
        /* Nothing is passed over: the oldest, both that are listed, messages of other channels. */
        { 1, { 0 }, 1, KEEPER_OK },
        { 1, { 0, 2 }, 2, KEEPER_OK },
        { 1, { 0, 2, 4 }, 3, KEEPER_OK },
        { 1, { 1 }, 1, KEEPER_OK },
        { 1, { 1, 5 }, 2, KEEPER_OK },
        { 1, { 0, 1 }, 2, KEEPER_OK },
        { 1, { 0, 1, 2, 5 }, 4, KEEPER_OK },
        { 1, { 0, 1, 2, 4, 5 }, 5, KEEPER_OK },
        { 2, { 3 }, 1, KEEPER_OK },
        { 1, { 0 }, 0, KEEPER_OK },
    };
    static const size_t rooms[] = { 0, BYTES - 1, BYTES, BYTES + 5000 };
    uint16_t after[NUMBERS];
    uint8_t table[BYTES];
    struct question q = about(SAVE, table, put_numbers(table, numbers, NUMBERS));
    size_t i, k;
    int c;
    for (i = 0; i < sizeof lists / sizeof lists[0]; i++)
        for (c = 0; c < 2; c++) {
            q.call = c == 0 ? SAVE : RECEIVE;
            q.from = lists[i].process;
            q.list = lists[i].list;
            q.list_length = lists[i].list_length;
            if (lists[i].refusal != KEEPER_OK) {
                /* 24 is before 16, too. */
                for (k = 0; k < sizeof rooms / sizeof rooms[0]; k++) {
                    q.room = rooms[k];
                    refuses("lists in turn", &q, lists[i].refusal);
                }
                continue;
            }
            memcpy(after, numbers, sizeof after);
            for (k = 0; k < q.list_length; k++)
                after[FIRST_RECEIPT + 2 * q.list[k]] = 1;
            if (c == 0)
                after[2 + q.from] = 2;
            of_numbers("lists in turn", q, after, NUMBERS);
        }
}

/* What is received waits no longer, saved or not, and is not passed over; what waits again after a fall back is. Three
   messages go from 0 to 1. */
static void turns_of_one_channel(void)
{
    static const uint16_t one[] = { 1 }, two[] = { 2 }, both[] = { 1, 2 };
    static const uint16_t unsaved_0[] = { 2, 3, 2, 1, 0, 0, 0, 0, 0, 0, 1, 1, 1, 0, 1, 0 };
    static const uint16_t unsaved_1[] = { 2, 3, 2, 1, 0, 0, 0, 0, 0, 0, 1, 1, 1, 1, 1, 0 };
    static const uint16_t unsaved_2[] = { 2, 3, 2, 1, 0, 0, 0, 0, 0, 0, 1, 1, 1, 1, 1, 1 };
    static const uint16_t saved_2[] = { 2, 3, 2, 2, 0, 0, 0, 0, 0, 0, 1, 1, 1, 1, 1, 1 };
    static const uint16_t fallen[] = { 2, 3, 2, 1, 0, 0, 0, 0, 0, 0, 1, 0, 1, 0, 1, 0 };
    uint8_t table[32];
    struct question q = about(RECEIVE, table, put_numbers(table, unsaved_0, 16));
    int c;
    q.from = 1;
    for (c = 0; c < 2; c++) {
        q.call = c == 0 ? SAVE : RECEIVE;
        q.list = two, q.list_length = 1;
        refuses("message 1 waits before 2", &q, KEEPER_MESSAGE_PASSED_OVER);
    }
    q.list = one;
    of_numbers("message 1 behind 0, which is not saved yet", q, unsaved_1, 16);
    q.list = both, q.list_length = 2;
    of_numbers("messages 1 and 2 behind 0", q, unsaved_2, 16);
    q.call = SAVE;
    of_numbers("messages 1 and 2 behind 0", q, saved_2, 16);
    put_numbers(table, unsaved_2, 16);
    q.call = FALL_BACK;
    of_numbers("all wait again", q, fallen, 16);
    put_numbers(table, fallen, 16);
    for (c = 0; c < 2; c++) {
        q.call = c == 0 ? SAVE : RECEIVE;
        q.list = both;
        refuses("message 0 waits again", &q, KEEPER_MESSAGE_PASSED_OVER);
    }
}

/* 24 is before 14: two messages wait for a process with 4,096 checkpoints. A receipt has no 14. */
static void turns_of_a_full_count(void)
{
    static const uint16_t numbers[] = { 2, 2, 1, 4096, 0, 0, 0, 0, 1, 0, 1, 0 };
    static const uint16_t received[] = { 2, 2, 1, 4096, 0, 0, 0, 0, 1, 4096, 1, 4096 };
    static const uint16_t later[] = { 1 }, both[] = { 0, 1 }, beyond[] = { 1, 2 };
    uint8_t table[24];
    struct question q = about(SAVE, table, put_numbers(table, numbers, 12));
    int c;
    q.from = 1;
    for (c = 0; c < 2; c++)
        for (q.room = 0; q.room <= 24; q.room += 12) {
            q.call = c == 0 ? SAVE : RECEIVE;
            q.list = later, q.list_length = 1;
            refuses("a full count, message 0 passed over", &q, KEEPER_MESSAGE_PASSED_OVER);
            q.list = beyond, q.list_length = 2;
            refuses("a full count, position 2", &q, KEEPER_BAD_LIST);
        }
    q.list = both;
    q.call = SAVE;
    for (q.room = 0; q.room <= 24; q.room += 12)
        refuses("a full count, both listed", &q, KEEPER_TABLE_FULL);
    q.call = RECEIVE;
    of_numbers("a full count, both listed", q, received, 12);
}

/* ---- the largest tables: N = 32, counts 1, every message (0,0) to (1,0), waiting or received at 1 */
static uint8_t large[KEEPER_LARGEST_TABLE], unsaved[KEEPER_LARGEST_TABLE], other[KEEPER_LARGEST_TABLE];

static void put_number(uint8_t *to, size_t place, uint16_t number)
{
    put_numbers(to + 2 * place, &number, 1);
}

static size_t put_large(uint8_t *to, size_t messages, uint16_t count_1, uint16_t receipt)
{
    size_t i;
    put_number(to, 0, 32);
    put_number(to, 1, (uint16_t)messages);
    for (i = 0; i < 32; i++)
        put_number(to, 2 + i, i == 1 ? count_1 : 1);
    for (i = 0; i < messages; i++) {
        put_number(to, 34 + 2 * i, 0);
        put_number(to, 35 + 2 * i, 0);
        put_number(to, 34 + 2 * messages + 2 * i, 1);
        put_number(to, 35 + 2 * messages + 2 * i, receipt);
    }
    return KEEPER_TABLE_SIZE(32, messages);
}

/* Ceilings of 32 processes, whose counts are 1, on `large`, where all messages wait: the line is the ceilings. */
static void ceilings_of_32(void)
{
    uint16_t list[33];
    struct question q = about(LINE_UNDER, large, KEEPER_LARGEST_TABLE);
    size_t p;
    int c;
    q.list = list;
    q.list_length = 32;
    for (p = 0; p < 33; p++)
        list[p] = 0;
    of_numbers("32 ceilings of 0", q, list, 32);
    of_marks("32 ceilings of 0", q, list, 32, 8);
    for (p = 0; p < 32; p++) {
        list[p] = 1;
        of_numbers("32 ceilings, some of them 1", q, list, 32);
        if (p % 31 == 0)
            of_marks("32 ceilings, some of them 1", q, list, 32, 8);
        for (c = 0; c < 2; c++) {
            q.call = c == 0 ? LINE_UNDER : MARKED_LINE;
            list[p] = 2;
            refuses("32 ceilings, one of them 2", &q, KEEPER_CEILING_TOO_HIGH);
            list[p] = 1;
        }
        q.call = LINE_UNDER;
    }
    for (c = 0; c < 2; c++) {
        q.call = c == 0 ? LINE_UNDER : MARKED_LINE;
        q.list_length = 31;
        refuses("31 ceilings for 32", &q, KEEPER_WRONG_CEILING_COUNT);
        q.list_length = 33;
        refuses("33 ceilings for 32", &q, KEEPER_WRONG_CEILING_COUNT);
    }
}

/* Names of 32 processes there: all of them, each alone, and one too many. */
static void names_of_32(void)
{
    uint16_t list[33], processes[33], states[33];
    struct question q = about(STAND_TOGETHER, large, KEEPER_LARGEST_TABLE);
    size_t p, i;
    for (p = 0; p < 33; p++) {
        processes[p] = (uint16_t)p;
        states[p] = list[p] = 0;
    }
    q.list = list;
    stand("32 names", q, list);
    for (p = 0; p < 32; p++) {
        for (i = 0; i < 32; i++)
            list[i] = i != p;
        stand("one name of 32", q, list);
    }
    q.list = processes;
    q.states = states;
    for (q.room = 0; q.room <= 64; q.room += 64) {
        q.list_length = q.states_length = 32;
        for (p = 0; p < 32; p++) {
            states[p] = 1;
            refuses("32 names, one of them 1", &q, KEEPER_NAMED_STATE_TOO_HIGH);
            states[p] = 0;
            processes[p] = (uint16_t)(p == 0 ? 32 : p - 1);
            refuses("32 names, one of them twice", &q, KEEPER_BAD_NAMED_PROCESS);
            processes[p] = (uint16_t)p;
        }
        processes[31] = 32;
        refuses("32 names, the last of 32", &q, KEEPER_BAD_NAMED_PROCESS);
        processes[31] = 31;
        q.list_length = q.states_length = 33;
        refuses("33 names for 32", &q, KEEPER_BAD_NAMED_PROCESS);
        q.list_length = 32;
        refuses("33 states for 32 names", &q, KEEPER_UNEQUAL_LISTS);
        q.list_length = 33, q.states_length = 32;
        refuses("32 states for 33 names", &q, KEEPER_UNEQUAL_LISTS);
    }
}

/* Names where all 4,096 messages (0,0) to (1,1) are saved by 1, which has two checkpoints. */
static void names_of_most(void)
{
    static const struct {
        uint16_t names[2], line[2]; /* of 0 and 1; the others are not named, and are at 1 */
        int yes;
    } cases[] = { { { 0, 0 }, { 0, 0 }, 1 }, { { 0, 1 }, { 0, 0 }, 0 }, { { 0, 2 }, { 0, 0 }, 1 },
                  { { 1, 0 }, { 1, 0 }, 1 }, { { 1, 1 }, { 1, 1 }, 1 }, { { 1, 2 }, { 1, 2 }, 1 } };
    uint16_t list[32], line[32];
    struct question q = about(STAND_TOGETHER, other, put_large(other, 4096, 2, 1));
    size_t i, p;
    q.list = list;
    for (i = 0; i < sizeof cases / sizeof cases[0]; i++) {
        for (p = 0; p < 32; p++) {
            list[p] = p < 2 ? cases[i].names[p] : 1;
            line[p] = p < 2 ? cases[i].line[p] : 1;
        }
        stand("4,096 saved", q, cases[i].yes ? line : NULL);
    }
}

/* Sets of the largest table, where nobody puts another back, and with messages that are all unsaved, where 0 puts 1 back. */
static void sets_of_most(void)
{
    static uint8_t bytes[MOST_LINES];
    uint16_t lines[KEEPER_SCRATCH_NUMBERS], line[32];
    uint32_t sets[256];
    struct answer a = { KEEPER_OK, bytes, 0, lines, KEEPER_SCRATCH_NUMBERS, 0 };
    size_t t, k, p;
    for (t = 0; t < 2; t++) {
        struct question q = about(LINES_OF_SETS, t == 0 ? large : unsaved, KEEPER_LARGEST_TABLE);
        q.sets = sets;
        q.sets_length = 256;
        for (a.size = k = 0; k < 256; k++) {
            sets[k] = k < 32 ? (uint32_t)1 << k : k < 64 ? ~((uint32_t)1 << k % 32) : (uint32_t)(k * k * 0x01010101u);
            for (p = 0; p < 32; p++)
                line[p] = (sets[k] >> p & 1) == 0 && !(t == 1 && p == 1 && (sets[k] & 1) != 0);
            a.size += put_numbers(bytes + a.size, line, 32);
        }
        for (k = 0; k < 32; k++)
            for (p = 0; p < 32; p++)
                lines[32 * k + p] = p != k && !(t == 1 && p == 1 && k == 0);
        answers("4,096 messages, 256 sets", q, a);
        same("lines of 256 sets", a.size, KEEPER_LINES_ROOM);
        a.size = 0;
        q.sets_length = 0;
        answers("4,096 messages, no sets", q, a);
    }
}

/* The lines of `unsaved`, the largest table with every message received by process 1 and unsaved. Where 0 holds, 1 has
   received what 0 has not sent yet, and is put back. */
static void lines_of_unsaved(void)
{
    static const struct {
        uint32_t set;
        size_t back[2]; /* the processes at 0; all others are at 1 */
    } cases[] = { { 0, { 99, 99 } }, { 1, { 0, 1 } }, { 2, { 1, 1 } }, { 4, { 2, 2 } }, { 0x80000000u, { 31, 31 } } };
    uint16_t line[32], ceilings[32];
    struct question q = about(LINE_OF_SET, unsaved, KEEPER_LARGEST_TABLE);
    size_t i, p;
    q.list = ceilings;
    q.list_length = 32;
    for (i = 0; i < sizeof cases / sizeof cases[0]; i++) {
        for (p = 0; p < 32; p++) {
            line[p] = p != cases[i].back[0] && p != cases[i].back[1];
            ceilings[p] = (cases[i].set >> p & 1) == 0;
        }
        q.call = LINE_OF_SET;
        q.set = cases[i].set;
        of_numbers("4,096 unsaved", q, line, 32);
        q.call = LINE_UNDER;
        of_numbers("4,096 unsaved", q, line, 32);
        of_marks("4,096 unsaved", q, line, 32, 8);
        of_names("4,096 unsaved", q, line);
    }
    memset(line, 0, sizeof line);
    of_numbers("4,096 unsaved", about(RECOVERY_LINE, unsaved, KEEPER_LARGEST_TABLE), line, 32);
}

/* Receipts of 4,096 messages, and of all but the last: their number is the count, which stays. There is no 14, 13 where the
   list goes on to M, and 24 where it leaves one but the last out. Then a save and a fall back; nothing is received twice. */
static void most_unsaved(void)
{
    static uint16_t list[KEEPER_MOST_MESSAGES + 1];
    static const uint16_t first[] = { 0 }, last[] = { 4095 };
    struct answer a = { KEEPER_OK, unsaved, KEEPER_LARGEST_TABLE, NULL, 0, 0 };
    struct question q = about(RECEIVE, large, KEEPER_LARGEST_TABLE);
    size_t i;
    for (i = 0; i < sizeof list / sizeof list[0]; i++)
        list[i] = (uint16_t)i;
    put_large(unsaved, 4096, 1, 1);
    q.from = 1;
    q.list = list;
    q.list_length = 4096;
    answers("4,096 messages received", q, a);
    memcpy(other, unsaved, sizeof other);
    a.bytes = other;
    put_number(other, 35 + 2 * (4096 + 4095), 0);
    q.list_length = 4095;
    answers("all but the last received", q, a);
    q.list = list + 1;
    refuses("all but the first received", &q, KEEPER_MESSAGE_PASSED_OVER);
    q.call = SAVE;
    refuses("all but the first received", &q, KEEPER_MESSAGE_PASSED_OVER);
    q.list = last, q.list_length = 1;
    refuses("the last alone", &q, KEEPER_MESSAGE_PASSED_OVER);
    q.call = RECEIVE;
    refuses("the last alone", &q, KEEPER_MESSAGE_PASSED_OVER);
    list[4094] = 4095;
    q.list = list, q.list_length = 4095;
    refuses("all but the one before the last", &q, KEEPER_MESSAGE_PASSED_OVER);
    list[4094] = 4094;
    for (q.room = 0; q.room <= KEEPER_LARGEST_TABLE; q.room += KEEPER_LARGEST_TABLE) {
        q.from = 1, q.list_length = 4097;
        refuses("4,097 messages", &q, KEEPER_BAD_LIST);
        q.from = 32, q.list_length = 4096;
        refuses("32 receives", &q, KEEPER_UNKNOWN_PROCESS);
    }
    lines_of_unsaved();
    q = about(RECEIVE, unsaved, KEEPER_LARGEST_TABLE);
    q.from = 1;
    a.bytes = unsaved;
    answers("4,096 unsaved, no list", q, a);
    q.list_length = 1;
    q.list = first;
    refuses("4,096 unsaved, the first is listed", &q, KEEPER_BAD_LIST);
    q.list = last;
    refuses("4,096 unsaved, the last is listed", &q, KEEPER_BAD_LIST);
    q.call = SAVE;
    refuses("4,096 unsaved, the last is listed", &q, KEEPER_BAD_LIST);
    q.list_length = 0;
    put_large(other, 4096, 2, 1);
    a.bytes = other;
    answers("4,096 unsaved", q, a);
    a.size = put_large(other, 0, 1, 0);
    answers("4,096 unsaved", about(FALL_BACK, unsaved, KEEPER_LARGEST_TABLE), a);
}

static void largest(void)
{
    static uint16_t list[KEEPER_MOST_MESSAGES], lines[KEEPER_SCRATCH_NUMBERS], line[32];
    static uint8_t sheet[KEEPER_SHEET_ROOM];
    static char text[KEEPER_LISTING_ROOM];
    size_t size = put_large(large, 4096, 1, 0), p, i, n = 0;
    struct answer a = { KEEPER_OK, other, 0, NULL, 0, 0 };
    struct question q = about(SEND, large, size);
    same("largest table", size, KEEPER_LARGEST_TABLE);
    /* 14 comes after 10 and 11 and before 16. */
    refuses("4,096 messages", &q, KEEPER_TABLE_FULL);
    q.room = 0;
    refuses("4,096 messages", &q, KEEPER_TABLE_FULL);
    q.to = 0;
    refuses("4,096 messages, to itself", &q, KEEPER_SEND_TO_ITSELF);
    q.to = 32;
    refuses("4,096 messages, to 32", &q, KEEPER_UNKNOWN_PROCESS);
    /* The send that fills a table. */
    size = put_large(other, 4095, 1, 0);
    q = about(SEND, other, size);
    a.bytes = large;
    a.size = KEEPER_LARGEST_TABLE;
    answers("4,095 messages", q, a);
    /* A save that receives them all. */
    for (i = 0; i < 4096; i++)
        list[i] = (uint16_t)i;
    put_large(other, 4096, 2, 1);
    q = about(SAVE, large, KEEPER_LARGEST_TABLE);
    q.from = 1;
    q.list = list;
    q.list_length = 4096;
    a.bytes = other;
    answers("4,096 messages received", q, a);
    /* Sets of 32: no bit is too high. */
    q = about(LINE_OF_SET, large, KEEPER_LARGEST_TABLE);
    q.set = 0xFFFFFFFFu;
    of_numbers("all 32 hold", q, line, 32);
    of_numbers("all wait", about(RECOVERY_LINE, large, KEEPER_LARGEST_TABLE), line, 32);
    for (p = 0; p < 32; p++) {
        for (i = 0; i < 32; i++)
            line[i] = i != p;
        q.set = (uint32_t)1 << p;
        of_numbers("one of 32 holds", q, line, 32);
    }
    same("largest line", KEEPER_LINE_SIZE(32), KEEPER_LARGEST_LINE);
    ceilings_of_32();
    names_of_32();
    most_unsaved();
    names_of_most();
    sets_of_most();
    /* A fall back drops every message: an answer much shorter than the table. */
    a.size = put_large(other, 0, 1, 0);
    answers("all wait", about(FALL_BACK, large, KEEPER_LARGEST_TABLE), a);
    /* 32 kept checkpoints and 4,096 kept messages. */
    n += (size_t)sprintf(text + n, "line");
    for (p = 0; p < 32; p++)
        n += (size_t)sprintf(text + n, " 0");
    for (p = 0; p < 32; p++) {
        n += (size_t)sprintf(text + n, "\nhold %u", (unsigned)p);
        for (i = 0; i < 32; i++) {
            lines[32 * p + i] = i != p;
            n += (size_t)sprintf(text + n, " %u", i != p);
        }
        put_number(sheet, 2 + p, (uint16_t)p);
        put_number(sheet, 34 + p, 0);
    }
    for (p = 0; p < 32; p++)
        n += (size_t)sprintf(text + n, "\ncheckpoint %u 0", (unsigned)p);
    for (i = 0; i < 4096; i++) {
        n += (size_t)sprintf(text + n, "\nmessage %u", (unsigned)i);
        put_number(sheet, 66 + i, (uint16_t)i);
    }
    n += (size_t)sprintf(text + n, "\nshare 100\n");
    put_number(sheet, 0, 32);
    put_number(sheet, 1, 4096);
    a.bytes = sheet;
    a.size = KEEPER_SHEET_SIZE(32, 4096);
    a.lines = lines;
    a.line_numbers = KEEPER_SCRATCH_SIZE(32);
    same("largest scratch", a.line_numbers, KEEPER_SCRATCH_NUMBERS);
    answers("all wait", about(KEEP_SHEET, large, KEEPER_LARGEST_TABLE), a);
    /* Where they are unsaved the line of 0 has 1 at 0, and all of them cross the line of 1. */
    lines[1] = 0;
    answers("4,096 unsaved", about(KEEP_SHEET, unsaved, KEEPER_LARGEST_TABLE), a);
    a.bytes = (const uint8_t *)text;
    a.size = n;
    a.lines = NULL;
    a.line_numbers = 0;
    answers("all wait", about(LISTING, large, KEEPER_LARGEST_TABLE), a);
}

/* ---- counts of 4,095 and 4,096 */
static void full_counts(void)
{
    static const uint16_t first[] = { 0 }, second[] = { 1 };
    uint16_t numbers[] = { 2, 1, 4096, 1, 1, 0, 0, 0 };
    uint16_t after[] = { 2, 1, 4096, 1, 1, 0, 0, 4095 };
    uint16_t after_1[] = { 2, 1, 4095, 2, 1, 0, 0, 0 };
    uint16_t received[] = { 2, 1, 4096, 1, 1, 0, 0, 4096 };
    uint16_t received_4095[] = { 2, 1, 4095, 1, 1, 0, 0, 4095 };
    uint8_t table[16];
    struct question q = about(SAVE, table, put_numbers(table, numbers, 8));
    refuses("count 4,096, no list", &q, KEEPER_TABLE_FULL);
    q.list = first;
    q.list_length = 1;
    refuses("count 4,096", &q, KEEPER_TABLE_FULL);
    q.room = 0;
    refuses("count 4,096", &q, KEEPER_TABLE_FULL);
    q.list = second;
    refuses("count 4,096, bad list", &q, KEEPER_BAD_LIST);
    q.from = 2;
    refuses("count 4,096, process 2", &q, KEEPER_UNKNOWN_PROCESS);
    /* A receipt meets no 14. */
    q.call = RECEIVE;
    refuses("count 4,096, process 2", &q, KEEPER_UNKNOWN_PROCESS);
    q.from = 0;
    refuses("count 4,096, bad list", &q, KEEPER_BAD_LIST);
    q.list = first;
    of_numbers("count 4,096", q, received, 8);
    q.list_length = 0;
    of_numbers("count 4,096, no list", q, numbers, 8);
    numbers[2] = 4095;
    put_numbers(table, numbers, 8);
    q.call = SAVE;
    q.list = first;
    q.list_length = 1;
    of_numbers("count 4,095", q, after, 8);
    q.call = RECEIVE;
    of_numbers("count 4,095", q, received_4095, 8);
    q.call = SAVE;
    q.from = 1;
    q.list_length = 0;
    of_numbers("count 1", q, after_1, 8);
}

/* Unsaved there: a message (1,0) to (0,4096). The largest number that a table can have, and one above it. */
static void full_unsaved(void)
{
    static const uint16_t first[] = { 0 };
    static const uint16_t lists[][2] = { { 4096, 1 }, { 4095, 1 }, { 4096, 0 }, { 4095, 0 }, { 0, 1 } };
    static const uint16_t lines[][2] = { { 4096, 1 }, { 4095, 1 }, { 4095, 0 }, { 4095, 0 }, { 0, 1 } };
    static const uint16_t hold_0[] = { 4095, 1 }, hold_1[] = { 4095, 0 };
    static const uint16_t fallen[] = { 2, 0, 4096, 1 }, above[] = { 2, 1, 4096, 1, 1, 0, 0, 4097 };
    uint16_t numbers[] = { 2, 1, 4096, 1, 1, 0, 0, 4096 }, saved_1[] = { 2, 1, 4096, 2, 1, 0, 0, 4096 };
    uint8_t table[16];
    struct question q = about(SAVE, table, put_numbers(table, numbers, 8));
    size_t i;
    refuses("count 4,096 and unsaved", &q, KEEPER_TABLE_FULL);
    q.call = CHECK_TABLE;
    refuses("count 4,096 and unsaved", &q, KEEPER_OK);
    q.call = SAVE;
    q.list = first;
    q.list_length = 1;
    refuses("count 4,096, the unsaved one is listed", &q, KEEPER_BAD_LIST);
    q.call = RECEIVE;
    refuses("count 4,096, the unsaved one is listed", &q, KEEPER_BAD_LIST);
    q.list_length = 0;
    of_numbers("count 4,096 and unsaved", q, numbers, 8);
    q.call = SAVE;
    q.from = 1;
    of_numbers("count 4,096 and unsaved, 1 saves", q, saved_1, 8);
    q.call = FALL_BACK;
    of_numbers("count 4,096 and unsaved", q, fallen, 4);
    q.call = LINE_OF_SET;
    q.set = 1;
    of_numbers("count 4,096 and unsaved, 0 holds", q, hold_0, 2);
    q.set = 2;
    of_numbers("count 4,096 and unsaved, 1 holds", q, hold_1, 2);
    q.call = LINE_UNDER;
    q.list_length = 2;
    for (i = 0; i < sizeof lists / sizeof lists[0]; i++) {
        q.list = lists[i];
        of_numbers("count 4,096 and unsaved, ceilings", q, lines[i], 2);
        of_marks("count 4,096 and unsaved, ceilings", q, lines[i], 2, 513);
        of_names("count 4,096 and unsaved, names", q, lines[i]);
    }
    put_numbers(table, above, 8);
    q = about(CHECK_TABLE, table, sizeof table);
    refuses("receipt number 4,097", &q, KEEPER_RECEIPT_NUMBER_TOO_HIGH);
}

/* Ceilings there: a message (1,0) to (0,4095). */
static void full_ceilings(void)
{
    static const uint16_t numbers[] = { 2, 1, 4096, 1, 1, 0, 0, 4095 };
    static const uint16_t lists[][2] = { { 4096, 1 }, { 4095, 1 }, { 4096, 0 }, { 4095, 0 }, { 4094, 0 }, { 0, 1 } };
    static const uint16_t lines[][2] = { { 4096, 1 }, { 4095, 1 }, { 4094, 0 }, { 4094, 0 }, { 4094, 0 }, { 0, 1 } };
    static const uint16_t above[][2] = { { 4097, 1 }, { 4096, 2 }, { 4097, 0 }, { 8192, 1 } };
    uint8_t table[16];
    struct question q = about(LINE_UNDER, table, put_numbers(table, numbers, 8));
    size_t i;
    q.list_length = 2;
    for (i = 0; i < sizeof lists / sizeof lists[0]; i++) {
        q.list = lists[i];
        of_numbers("count 4,096, ceilings", q, lines[i], 2);
        of_marks("count 4,096, ceilings", q, lines[i], 2, 513);
        of_names("count 4,096, names", q, lines[i]);
    }
    for (i = 0; i < sizeof above / sizeof above[0]; i++) {
        q.list = above[i];
        q.call = LINE_UNDER;
        refuses("count 4,096, a ceiling above its count", &q, KEEPER_CEILING_TOO_HIGH);
        q.call = MARKED_LINE;
        refuses("count 4,096, a ceiling above its count", &q, KEEPER_CEILING_TOO_HIGH);
    }
}

/* ---- the marks: how many bytes they take, and the rounds of the marking method */

/* N processes without messages, one count more here and there: the line is the ceilings. */
static void marks_of(size_t n, size_t sum, size_t bytes)
{
    uint16_t numbers[2 + 32], ceilings[32];
    uint8_t table[KEEPER_TABLE_SIZE(32, 0)];
    char what[60];
    struct question q;
    size_t p;
    numbers[0] = (uint16_t)n;
    numbers[1] = 0;
    for (p = 0; p < n; p++) {
        numbers[2 + p] = (uint16_t)(sum / n + (p < sum % n));
        ceilings[p] = (uint16_t)(p % 3 == 0 ? numbers[2 + p] : p % 3 == 1 ? 0 : numbers[2 + p] - 1);
    }
    q = about(MARKED_LINE, table, put_numbers(table, numbers, 2 + n));
    q.list = ceilings;
    q.list_length = n;
    snprintf(what, sizeof what, "marks of %lu and %lu", (unsigned long)n, (unsigned long)sum);
    of_marks(what, q, ceilings, n, bytes);
    same(what, KEEPER_MARKS_SIZE(sum, n), bytes);
}

/* Sums at and beside multiples of 8, with few and with many processes; sums of more than 16 bits; the largest. */
static void sizes_of_marks(void)
{
    static const struct {
        size_t n, sum, bytes;
    } cases[] = {
        { 1, 1, 1 }, { 1, 6, 1 }, { 1, 7, 1 }, { 1, 8, 2 }, { 1, 9, 2 }, { 1, 15, 2 }, { 1, 16, 3 }, { 1, 23, 3 }, { 1, 24, 4 },
        { 1, 4095, 512 }, { 1, 4096, 513 }, { 2, 2, 1 }, { 2, 5, 1 }, { 2, 6, 1 }, { 2, 7, 2 }, { 2, 8, 2 }, { 2, 13, 2 },
        { 2, 14, 2 }, { 2, 15, 3 }, { 3, 5, 1 }, { 3, 6, 2 }, { 7, 9, 2 }, { 7, 10, 3 }, { 8, 8, 2 }, { 8, 9, 3 }, { 9, 16, 4 },
        { 31, 33, 8 }, { 31, 34, 9 }, { 32, 32, 8 }, { 32, 33, 9 }, { 32, 39, 9 }, { 32, 40, 9 }, { 32, 41, 10 },
        { 16, 65535, 8194 }, { 16, 65536, 8194 }, { 17, 65537, 8195 }, { 32, 65504, 8192 }, { 32, 65505, 8193 },
        { 32, 131064, 16387 }, { 32, 131065, 16388 }, { 32, 131071, 16388 }, { 32, 131072, 16388 },
    };
    size_t i;
    for (i = 0; i < sizeof cases / sizeof cases[0]; i++)
        marks_of(cases[i].n, cases[i].sum, cases[i].bytes);
}

/* A domino of two processes of 40 checkpoints: messages (0,k) to (1,k) and (1,k-1) to (0,k) for each k from 1. Under
   40 40 and 40 39 no root is marked. Under all other ceilings the roots give way in turn down to 0 0: from 39 39 on one
   root by one checkpoint in each round, 79 rounds with the last, in which none does. */
static void domino(void)
{
    enum { COUNT = 40, MESSAGES = 2 * (COUNT - 1) };
    static const uint16_t lists[][2] = { { 40, 40 }, { 40, 39 }, { 40, 38 }, { 39, 40 }, { 39, 39 }, { 39, 38 }, { 38, 39 },
                                         { 1, 40 }, { 40, 0 }, { 1, 1 }, { 1, 0 }, { 0, 1 }, { 0, 40 }, { 0, 0 } };
    static const uint16_t lines[][2] = { { 40, 40 }, { 40, 39 }, { 0, 0 }, { 0, 0 }, { 0, 0 }, { 0, 0 }, { 0, 0 },
                                         { 0, 0 }, { 0, 0 }, { 0, 0 }, { 0, 0 }, { 0, 0 }, { 0, 0 }, { 0, 0 } };
    static uint8_t table[KEEPER_TABLE_SIZE(2, MESSAGES)];
    struct question q = about(MARKED_LINE, table, sizeof table);
    size_t turn, i, k;
    q.list_length = 2;
    for (turn = 0; turn < 2; turn++) {
        put_number(table, 0, 2);
        put_number(table, 1, MESSAGES);
        put_number(table, 2, COUNT);
        put_number(table, 3, COUNT);
        /* With the two channels in turn, and with all of one behind all of the other. */
        for (i = 0; i < MESSAGES; i++) {
            k = turn == 0 ? i : i < MESSAGES / 2 ? 2 * i + 1 : 2 * i - MESSAGES;
            put_number(table, 4 + 2 * i, k % 2);
            put_number(table, 5 + 2 * i, (uint16_t)(1 + k / 2 - k % 2));
            put_number(table, 4 + 2 * MESSAGES + 2 * i, 1 - k % 2);
            put_number(table, 5 + 2 * MESSAGES + 2 * i, (uint16_t)(1 + k / 2));
        }
        for (i = 0; i < sizeof lists / sizeof lists[0]; i++) {
            q.list = lists[i];
            of_marks("a domino", q, lines[i], 2, 11);
            of_names("a domino", q, lines[i]);
        }
    }
}

/* Messages that wait, of which there is no edge, and edges by which virtual checkpoints are reached. */
static void waiting_and_new(void)
{
    /* (0,1) to (1,2); (1,3) to (2,1); (1,3) to (2, waiting); (2,0) to (0, waiting). */
    static const uint16_t numbers[] = { 3, 4, 3, 4, 2, 0, 1, 1, 3, 1, 3, 2, 0, 1, 2, 2, 1, 2, 0, 0, 0 };
    static const uint16_t lists[][3] = { { 3, 4, 2 }, { 2, 4, 2 }, { 1, 4, 2 }, { 0, 4, 2 }, { 3, 3, 2 }, { 3, 2, 2 },
                                         { 3, 2, 0 }, { 3, 4, 0 }, { 2, 2, 2 }, { 2, 1, 1 }, { 0, 0, 1 }, { 0, 0, 0 } };
    static const uint16_t lines[][3] = { { 3, 4, 2 }, { 2, 4, 2 }, { 1, 1, 0 }, { 0, 1, 0 }, { 3, 3, 0 }, { 3, 2, 0 },
                                         { 3, 2, 0 }, { 3, 4, 0 }, { 2, 2, 0 }, { 2, 1, 0 }, { 0, 0, 0 }, { 0, 0, 0 } };
    uint8_t table[64];
    struct question q = about(MARKED_LINE, table, put_numbers(table, numbers, sizeof numbers / sizeof numbers[0]));
    size_t i;
    q.list_length = 3;
    for (i = 0; i < sizeof lists / sizeof lists[0]; i++) {
        q.list = lists[i];
        of_marks("waiting messages and virtual checkpoints", q, lines[i], 3, 2);
        of_names("waiting messages and virtual checkpoints", q, lines[i]);
    }
}

/* A second name in such a chain, behind the first or before it: the path goes on from process to process, down to
   checkpoint 1 of any that comes later. */
static void names_of_chain(struct question q, size_t p)
{
    static const size_t seconds[] = { 0, 1, 15, 16, 30, 31 };
    uint16_t names[32], line[32];
    size_t i, k, s;
    q.list = names;
    for (k = 0; k < sizeof seconds / sizeof seconds[0]; k++) {
        s = seconds[k];
        if (s == p)
            continue;
        for (i = 0; i < 32; i++)
            names[i] = i == p || i == s ? 1 : 2;
        stand("a chain of 32, both at 1", q, NULL);
        names[s > p ? p : s] = 0;
        stand("a chain of 32, the first at 0", q, NULL);
        names[s > p ? p : s] = 1;
        names[s > p ? s : p] = 0;
        for (i = 0; i < 32; i++)
            line[i] = i < p && i < s ? 2 : i == (s > p ? p : s) ? 1 : 0;
        stand("a chain of 32, the second at 0", q, line);
    }
}

/* 32 processes of two checkpoints, and a message (p,1) to (p+1,1) from each but the last. One process has ceiling 1, and
   the others are free: what it has sent on, and so to the last process, puts all behind it back to 0. */
static void chain_of_32(void)
{
    enum { MESSAGES = 31 };
    static uint8_t table[KEEPER_TABLE_SIZE(32, MESSAGES)];
    uint16_t ceilings[32], line[32];
    struct question q = about(MARKED_LINE, table, sizeof table);
    size_t turn, p, i, k;
    q.list = ceilings;
    q.list_length = 32;
    for (turn = 0; turn < 2; turn++) {
        put_number(table, 0, 32);
        put_number(table, 1, MESSAGES);
        for (p = 0; p < 32; p++)
            put_number(table, 2 + p, 2);
        for (i = 0; i < MESSAGES; i++) {
            k = turn == 0 ? i : MESSAGES - 1 - i;
            put_number(table, 34 + 2 * i, (uint16_t)k);
            put_number(table, 35 + 2 * i, 1);
            put_number(table, 34 + 2 * MESSAGES + 2 * i, (uint16_t)(k + 1));
            put_number(table, 35 + 2 * MESSAGES + 2 * i, 1);
        }
        for (p = 0; p < 32; p += p < 30 ? 6 : 1) {
            for (i = 0; i < 32; i++) {
                ceilings[i] = i == p ? 1 : 2;
                line[i] = i < p ? 2 : i == p ? 1 : 0;
            }
            of_marks("a chain of 32", q, line, 32, 12);
            of_names("a chain of 32", q, line);
            names_of_chain(q, p);
        }
    }
}

/* Both methods on tables by chance, under ceilings by chance. */
static uint32_t chance_state = 20261116;

static size_t chance(size_t bound)
{
    chance_state = chance_state * 1103515245u + 12345u;
    return (chance_state >> 16) % bound;
}

/* Puts each channel of a table in order: its messages keep their positions and share out their send numbers, rising, and
   their receipt numbers, rising, with 0, of those that wait, behind all others. */
static void in_order(uint8_t *table)
{
    size_t n = of_table(table, 0), m = of_table(table, 1), later, earlier;
    for (later = 0; later < m; later++)
        for (earlier = 0; earlier < later; earlier++) {
            size_t one = 2 + n + 2 * earlier, other_one = 2 + n + 2 * later, part;
            if (of_table(table, one) != of_table(table, other_one) ||
                of_table(table, one + 2 * m) != of_table(table, other_one + 2 * m))
                continue;
            for (part = 1; part <= 1 + 2 * m; part += 2 * m) {
                uint16_t before = (uint16_t)of_table(table, one + part), after = (uint16_t)of_table(table, other_one + part);
                /* As unsigned numbers, 0 less 1 is the largest. */
                int falls = part == 1 ? after < before : (uint16_t)(after - 1) < (uint16_t)(before - 1);
                if (falls) {
                    put_number(table, one + part, after);
                    put_number(table, other_one + part, before);
                }
            }
        }
}

static void both_methods(void)
{
    uint8_t table[KEEPER_TABLE_SIZE(5, 24)], line[KEEPER_LARGEST_LINE];
    uint16_t list[5];
    size_t counts[5], round, n, m, p, k, i, j, sum, written, lowered = 0;
    for (round = 0; round < 1000; round++) {
        struct question q;
        struct answer a = { KEEPER_OK, line, 0, NULL, 0, 0 };
        n = 1 + chance(5);
        m = n == 1 ? 0 : chance(25);
        put_number(table, 0, (uint16_t)n);
        put_number(table, 1, (uint16_t)m);
        for (sum = p = 0; p < n; p++) {
            counts[p] = 1 + chance(6);
            sum += counts[p];
            put_number(table, 2 + p, (uint16_t)counts[p]);
            list[p] = (uint16_t)(counts[p] - (chance(2) == 0 ? 0 : chance(counts[p] + 1)));
        }
        for (k = 0; k < m; k++) {
            j = chance(n);
            i = (j + 1 + chance(n - 1)) % n;
            put_number(table, 2 + n + 2 * k, (uint16_t)j);
            put_number(table, 3 + n + 2 * k, (uint16_t)chance(counts[j]));
            put_number(table, 2 + n + 2 * m + 2 * k, (uint16_t)i);
            put_number(table, 3 + n + 2 * m + 2 * k, (uint16_t)chance(counts[i] + 1));
        }
        in_order(table);
        q = about(MARKED_LINE, table, KEEPER_TABLE_SIZE(n, m));
        q.list = list;
        q.list_length = n;
        q.marks = a.marks_size = KEEPER_MARKS_SIZE(sum, n);
        q.room = a.size = 2 * n;
        same("the line under ceilings", keeper_line_under(table, q.length, list, n, line, sizeof line, &written), KEEPER_OK);
        same("its length", written, a.size);
        for (p = 0; p < n; p++)
            lowered += keeper_u16_at(line, 2 * p) != list[p];
        ask("by chance", &q, &a);
    }
    same("lines by chance are lowered", lowered > 500, 1);
}

/* ---- lines of sets: N processes, whose numbers have two bytes. Each even one p sent a message at its last checkpoint to p + 1
   and one to p + 3, where these are there. So it puts both back where it holds, and nobody else puts anybody back. */
static uint16_t fan_count(size_t p)
{
    return (uint16_t)(900 + 37 * p);
}

static uint16_t fan_receipt(size_t from, size_t to)
{
    return (uint16_t)(to == from + 1 ? 250 + 11 * (to % 7) : 240 + 13 * (to % 5));
}

static size_t put_fans(uint8_t *table, size_t n)
{
    size_t p, to, m = 0, k = 0;
    for (p = 0; p < n; p += 2)
        m += (p + 1 < n) + (p + 3 < n);
    put_number(table, 0, (uint16_t)n);
    put_number(table, 1, (uint16_t)m);
    for (p = 0; p < n; p++)
        put_number(table, 2 + p, fan_count(p));
    for (p = 0; p < n; p += 2)
        for (to = p + 1; to <= p + 3 && to < n; to += 2, k++) {
            put_number(table, 2 + n + 2 * k, (uint16_t)p);
            put_number(table, 3 + n + 2 * k, (uint16_t)(fan_count(p) - 1));
            put_number(table, 2 + n + 2 * m + 2 * k, (uint16_t)to);
            put_number(table, 3 + n + 2 * m + 2 * k, fan_receipt(p, to));
        }
    return KEEPER_TABLE_SIZE(n, m);
}

/* The line of a set there: that of a receiver below the receipts from its senders in the set. */
static void fan_line(uint16_t *line, size_t n, uint32_t set)
{
    size_t p, back;
    for (p = 0; p < n; p++) {
        line[p] = (uint16_t)(fan_count(p) - (set >> p & 1));
        for (back = 1; back <= 3 && p % 2 == 1; back += 2)
            if (p >= back && (set >> (p - back) & 1) != 0 && fan_receipt(p - back, p) <= line[p])
                line[p] = (uint16_t)(fan_receipt(p - back, p) - 1);
    }
}

static void of_fans(const char *what, size_t n, const uint32_t *sets, size_t count)
{
    static uint8_t table[KEEPER_TABLE_SIZE(32, 31)], bytes[MOST_LINES];
    uint16_t lines[KEEPER_SCRATCH_NUMBERS], line[32];
    struct answer a = { KEEPER_OK, bytes, 0, lines, 0, 0 };
    struct question q = about(LINES_OF_SETS, table, put_fans(table, n));
    size_t k;
    a.line_numbers = n * n;
    for (k = 0; k < n; k++)
        fan_line(lines + n * k, n, (uint32_t)1 << k);
    for (k = 0; k < count; k++) {
        fan_line(line, n, sets[k]);
        a.size += put_numbers(bytes + a.size, line, n);
    }
    q.sets = sets;
    q.sets_length = count;
    answers(what, q, a);
}

/* The highest process of each N, alone and with others, and the first bit that is too high, wherever it stands. */
static void fans(void)
{
    static const size_t sizes_of[] = { 1, 2, 3, 7, 8, 9, 16, 17, 31, 32 };
    static uint8_t table[KEEPER_TABLE_SIZE(32, 31)];
    uint32_t sets[256], all;
    size_t i, n, k;
    for (i = 0; i < sizeof sizes_of / sizeof sizes_of[0]; i++) {
        n = sizes_of[i];
        all = n == 32 ? 0xFFFFFFFFu : ((uint32_t)1 << n) - 1;
        of_fans("fans, no sets", n, NULL, 0);
        for (k = 0; k < n; k++)
            sets[k] = (uint32_t)1 << k;
        of_fans("fans, each process alone", n, sets, n);
        of_fans("fans, the last process alone", n, sets + n - 1, 1);
        for (k = 0; k < n; k++)
            sets[k] = all & ~((uint32_t)1 << (n - 1 - k));
        of_fans("fans, all processes but one", n, sets, n);
        for (k = 0; k < 256; k++)
            sets[k] = k % 5 == 0 ? 0 : k % 5 == 1 ? all : (uint32_t)(chance(65536) << 16 | chance(65536)) & all;
        of_fans("fans, 255 sets", n, sets, 255);
        of_fans("fans, 256 sets", n, sets, 256);
        of_fans("fans, all of them", n, sets + 1, 1);
        of_fans("fans, nobody", n, sets, 1);
        if (n < 32) {
            struct question q = about(LINES_OF_SETS, table, put_fans(table, n));
            q.sets = sets;
            q.sets_length = 256;
            for (k = 0; k < 256; k += k % 64 == 0 ? 63 : 1) {
                uint32_t good = sets[k];
                sets[k] |= (uint32_t)1 << (k % 3 == 0 ? 31 : n);
                q.numbers = k % 2 * 1024;
                q.room = k % 3 * 2 * n * 128;
                refuses("fans, a bit at N or above", &q, KEEPER_UNKNOWN_PROCESS_IN_SET);
                sets[k] = good;
            }
        }
    }
}

/* One process, and the most checkpoints. */
static void sets_of_one(void)
{
    static const uint16_t one[] = { 1, 0, 1 }, most[] = { 1, 0, 4096 };
    static const uint16_t one_by_set[] = { 1, 0 }, most_by_set[] = { 4096, 4095 };
    uint8_t table[6];
    put_numbers(table, one, 3);
    of_all_sets("one process, sets", table, sizeof table, one_by_set);
    put_numbers(table, most, 3);
    of_all_sets("one process, 4,096 checkpoints, sets", table, sizeof table, most_by_set);
}

/* ---- zigzag paths: a table, a number for each process, which names a checkpoint where it is below the count, and the line
   of a yes, or NULL */
static void zigzag(const char *what, const uint16_t *numbers, const uint16_t *names, const uint16_t *line)
{
    uint8_t table[128];
    struct question q = about(STAND_TOGETHER, table, KEEPER_TABLE_SIZE(numbers[0], numbers[1]));
    put_numbers(table, numbers, q.length / 2);
    q.list = names;
    stand(what, q, line);
}

/* The paths that the source tells of at its Figure 1, by messages m1 (0,0) to (1,1), m2 (1,0) to (2,1), m3 (2,1) to (0,1),
   m4 (2,0) to (1,1) and m5 (1,1) to (2,1): m1 m2 is one from checkpoint 0 of process 0 to checkpoint 1 of process 2, m5 m4
   one from checkpoint 1 of process 1 to itself, m3 m1 m2 one from checkpoint 1 of process 2 to itself. */
static void zigzags_of_the_source(void)
{
    static const uint16_t numbers[] = { 3, 5, 2, 2, 2, 0, 0, 1, 0, 2, 1, 2, 0, 1, 1, 1, 1, 2, 1, 0, 1, 1, 1, 2, 1 };
    static const uint16_t no[][3] = { { 0, 2, 1 }, { 2, 1, 2 }, { 2, 2, 1 }, { 0, 1, 2 }, { 1, 1, 2 }, { 1, 2, 1 },
                                      { 2, 1, 1 }, { 1, 0, 2 }, { 1, 2, 0 }, { 2, 1, 0 }, { 2, 0, 1 }, { 0, 0, 1 },
                                      { 1, 1, 1 }, { 1, 0, 0 } };
    static const uint16_t yes[][3] = { { 2, 2, 2 }, { 0, 2, 2 }, { 1, 2, 2 }, { 2, 0, 2 }, { 2, 2, 0 }, { 0, 0, 2 },
                                       { 0, 0, 0 } };
    static const uint16_t lines[][3] = { { 2, 2, 2 }, { 0, 0, 0 }, { 1, 2, 2 }, { 0, 0, 0 }, { 0, 0, 0 }, { 0, 0, 0 },
                                         { 0, 0, 0 } };
    size_t i;
    for (i = 0; i < sizeof no / sizeof no[0]; i++)
        zigzag("paths of the source", numbers, no[i], NULL);
    for (i = 0; i < sizeof yes / sizeof yes[0]; i++)
        zigzag("no path of the source", numbers, yes[i], lines[i]);
}

/* Each condition of a path from both sides. */
static void zigzag_bounds(void)
{
    /* (0,1) to (1,2), by the names: sent at the first or after it, received before the second. 9 9 is a no. */
    static const uint16_t one[] = { 2, 1, 3, 4, 0, 1, 1, 2 };
    static const uint16_t one_lines[4][5][2] = {
        { { 0, 0 }, { 0, 1 }, { 9, 9 }, { 9, 9 }, { 0, 1 } },
        { { 1, 0 }, { 1, 1 }, { 9, 9 }, { 9, 9 }, { 1, 1 } },
        { { 2, 0 }, { 2, 1 }, { 2, 2 }, { 2, 3 }, { 2, 4 } },
        { { 3, 0 }, { 3, 1 }, { 3, 2 }, { 3, 3 }, { 3, 4 } },
    };
    /* (0,1) to (1,2) and (1,y) to (2,1), by y: the second is sent before the interval of the receipt, in it, after it. */
    uint16_t two[] = { 3, 2, 2, 3, 2, 0, 1, 1, 0, 1, 2, 2, 1 };
    static const uint16_t first[] = { 1, 3, 2 }, last[] = { 2, 3, 1 }, both[] = { 1, 3, 1 };
    static const uint16_t first_lines[3][3] = { { 1, 1, 2 }, { 1, 1, 0 }, { 1, 1, 0 } }, both_line[] = { 1, 1, 1 };
    static const uint16_t last_line[] = { 2, 3, 1 };
    /* (0,0) to (1,r), r being 0, the count, or the count of two checkpoints, and (1,0) to (2,1): a waiting message is on no
       path, and one that is unsaved is received in the last interval. */
    uint16_t through[] = { 3, 2, 1, 1, 2, 0, 0, 1, 0, 1, 0, 2, 1 };
    static const uint16_t ends[] = { 0, 9, 1 }, waiting_line[] = { 0, 1, 1 };
    uint16_t names[2], y;
    for (names[0] = 0; names[0] < 4; names[0]++)
        for (names[1] = 0; names[1] < 5; names[1]++) {
            const uint16_t *line = one_lines[names[0]][names[1]];
            zigzag("a path of one message", one, names, line[0] == 9 ? NULL : line);
        }
    for (y = 0; y < 3; y++) {
        two[8] = y;
        zigzag("a path of two messages, its first end", two, first, first_lines[y]);
        zigzag("a path of two messages, its last end", two, last, last_line);
        zigzag("a path of two messages", two, both, y == 0 ? both_line : NULL);
    }
    zigzag("through a waiting message", through, ends, waiting_line);
    through[10] = 1;
    zigzag("through an unsaved message", through, ends, NULL);
    through[3] = 2;
    zigzag("through a saved message", through, ends, NULL);
    through[10] = 2;
    zigzag("through an unsaved message of a later interval", through, ends, waiting_line);
}

/* A path from a checkpoint to itself and to no other, by (0,1) to (1,2) and (1,1) to (0,1); beside it 2 is named, with
   which no message has to do. One process, of one checkpoint and of the most, has no path. */
static void zigzags_to_itself(void)
{
    static const uint16_t cycle[] = { 3, 2, 3, 3, 2, 0, 1, 1, 1, 1, 2, 0, 1 };
    static const uint16_t no[][3] = { { 1, 3, 2 }, { 1, 3, 1 }, { 1, 3, 0 } };
    static const uint16_t yes[][3] = { { 0, 3, 2 }, { 2, 3, 1 }, { 3, 1, 2 }, { 3, 2, 0 }, { 2, 2, 1 }, { 0, 1, 0 } };
    static const uint16_t lines[][3] = { { 0, 1, 2 }, { 2, 3, 1 }, { 0, 1, 2 }, { 3, 2, 0 }, { 2, 2, 1 }, { 0, 1, 0 } };
    static const uint16_t one[] = { 1, 0, 1 }, most[] = { 1, 0, 4096 }, names[] = { 0, 1, 2047, 2048, 4095, 4096 };
    size_t i;
    for (i = 0; i < sizeof no / sizeof no[0]; i++)
        zigzag("a path to itself", cycle, no[i], NULL);
    for (i = 0; i < sizeof yes / sizeof yes[0]; i++)
        zigzag("beside a path to itself", cycle, yes[i], lines[i]);
    for (i = 0; i < 2; i++)
        zigzag("one process, one checkpoint", one, &names[i], &names[i]);
    for (i = 0; i < sizeof names / sizeof names[0]; i++)
        zigzag("one process, 4,096 checkpoints", most, &names[i], &names[i]);
}

/* By both definitions, on small tables by chance and for all names of each: the latest of all lines that are consistent and
   have the names, by trying every line; and a path, by messages that follow one another. */
static int is_consistent(const uint8_t *table, const uint16_t *line)
{
    size_t n = of_table(table, 0), m = of_table(table, 1), k;
    for (k = 0; k < m; k++) {
        size_t send = 2 + n + 2 * k, receipt = send + 2 * m, received = of_table(table, receipt + 1);
        int after = of_table(table, send + 1) >= line[of_table(table, send)];
        if (received != 0 && after && received <= line[of_table(table, receipt)])
            return 0;
    }
    return 1;
}

static int has_path(const uint8_t *table, const uint16_t *names)
{
    size_t n = of_table(table, 0), m = of_table(table, 1), k, l;
    int on_path[12] = { 0 }, more = 1;
    while (more)
        for (more = 0, k = 0; k < m; k++) {
            size_t send = 2 + n + 2 * k, sender = of_table(table, send), sent = of_table(table, send + 1);
            int follows = sent >= names[sender];
            for (l = 0; l < m; l++) {
                size_t receipt = 2 + n + 2 * m + 2 * l;
                follows |= on_path[l] && of_table(table, receipt) == sender && sent + 1 >= of_table(table, receipt + 1);
            }
            if (follows && !on_path[k] && of_table(table, send + 2 * m + 1) != 0)
                on_path[k] = more = 1;
        }
    for (k = 0; k < m; k++) {
        size_t receipt = 2 + n + 2 * m + 2 * k, receiver = of_table(table, receipt);
        int named = names[receiver] < of_table(table, 2 + receiver);
        if (on_path[k] && named && of_table(table, receipt + 1) <= names[receiver])
            return 1;
    }
    return 0;
}

/* The next list of numbers up to the counts; from the counts on the first again, and then 0. */
static int next_list(const uint8_t *table, uint16_t *list)
{
    size_t n = of_table(table, 0), p;
    for (p = 0; p < n; p++) {
        if (list[p] < of_table(table, 2 + p)) {
            list[p]++;
            return 1;
        }
        list[p] = 0;
    }
    return 0;
}

static int latest_with(const uint8_t *table, const uint16_t *names, uint16_t *latest)
{
    size_t n = of_table(table, 0), p;
    uint16_t line[4] = { 0, 0, 0, 0 };
    int some = 0, has;
    do {
        for (has = 1, p = 0; p < n; p++)
            has &= line[p] == names[p] || names[p] == of_table(table, 2 + p);
        if (!has || !is_consistent(table, line))
            continue;
        for (p = 0; p < n; p++)
            if (!some || line[p] > latest[p])
                latest[p] = line[p];
        some = 1;
    } while (next_list(table, line));
    return some;
}

/* A table by chance, of so many processes, messages and checkpoints of a process at most. */
static size_t put_by_chance(uint8_t *table, size_t most_processes, size_t most_messages, size_t most_checkpoints)
{
    size_t n = 1 + chance(most_processes), m = n == 1 ? 0 : chance(most_messages + 1), p, k, i, j;
    put_number(table, 0, (uint16_t)n);
    put_number(table, 1, (uint16_t)m);
    for (p = 0; p < n; p++)
        put_number(table, 2 + p, (uint16_t)(1 + chance(most_checkpoints)));
    for (k = 0; k < m; k++) {
        j = chance(n);
        i = (j + 1 + chance(n - 1)) % n;
        put_number(table, 2 + n + 2 * k, (uint16_t)j);
        put_number(table, 3 + n + 2 * k, (uint16_t)chance(of_table(table, 2 + j)));
        put_number(table, 2 + n + 2 * m + 2 * k, (uint16_t)i);
        put_number(table, 3 + n + 2 * m + 2 * k, (uint16_t)chance(of_table(table, 2 + i) + 1));
    }
    in_order(table);
    return KEEPER_TABLE_SIZE(n, m);
}

static void by_both_definitions(void)
{
    uint8_t table[KEEPER_TABLE_SIZE(4, 12)];
    uint16_t names[4], line[4];
    size_t round, n, p, yes = 0, no = 0;
    for (round = 0; round < 150; round++) {
        size_t length = put_by_chance(table, 4, 12, 3);
        n = of_table(table, 0);
        memset(names, 0, sizeof names);
        do {
            struct question q = about(STAND_TOGETHER, table, length);
            struct answer a = { KEEPER_OK, NULL, 0, NULL, 0, 0 };
            uint16_t processes[4], states[4];
            uint8_t bytes[8];
            int stands = latest_with(table, names, line);
            same("a path, where no line has the names", has_path(table, names), !stands);
            for (p = 0; p < n; p++)
                if (names[p] < of_table(table, 2 + p)) {
                    processes[q.list_length] = (uint16_t)p;
                    states[q.list_length++] = names[p];
                }
            q.list = processes;
            q.states = states;
            q.states_length = q.list_length;
            q.room = stands ? 2 * n : chance(2) * 2 * n;
            if (stands) {
                a.bytes = bytes;
                a.size = put_numbers(bytes, line, n);
                yes++;
            } else
                no++;
            ask("by both definitions", &q, &a);
        } while (next_list(table, names));
    }
    same("names by chance: some stand together and some do not", yes > 1000 && no > 1000, 1);
}

/* The latest of all consistent lines at or below ceilings, by trying every line. */
static void latest_under(const uint8_t *table, const uint16_t *ceilings, uint16_t *latest)
{
    size_t n = of_table(table, 0), p;
    uint16_t line[4] = { 0, 0, 0, 0 };
    memset(latest, 0, 2 * n);
    do {
        int below = 1;
        for (p = 0; p < n; p++)
            below &= line[p] <= ceilings[p];
        if (below && is_consistent(table, line))
            for (p = 0; p < n; p++)
                if (line[p] > latest[p])
                    latest[p] = line[p];
    } while (next_list(table, line));
}

/* The lines of all sets by their definition, on small tables. Some sets of two have a line below each of the two. */
static void sets_by_definition(void)
{
    uint8_t table[KEEPER_TABLE_SIZE(4, 12)];
    uint16_t by_set[16 * 4], ceilings[4];
    size_t round, n, p, s, both = 0;
    for (round = 0; round < 60; round++) {
        size_t length = put_by_chance(table, 4, 12, 3);
        n = of_table(table, 0);
        for (s = 0; s < (size_t)1 << n; s++) {
            for (p = 0; p < n; p++)
                ceilings[p] = (uint16_t)(of_table(table, 2 + p) - (s >> p & 1));
            latest_under(table, ceilings, by_set + n * s);
        }
        for (s = 0; n > 1 && s < n; s++)
            both += by_set[n + s] != by_set[3 * n + s] && by_set[2 * n + s] == by_set[3 * n + s];
        of_all_sets("by definition, sets", table, length, by_set);
    }
    same("lines of sets by chance have numbers of either process", both > 20, 1);
}

/* Beside the single calls, and the scratch beside that of the keep sheet, on larger tables. */
static void sets_by_single_calls(void)
{
    static uint8_t table[KEEPER_TABLE_SIZE(32, 200)], bytes[MOST_LINES], sheet[KEEPER_SHEET_ROOM];
    uint16_t lines[KEEPER_SCRATCH_NUMBERS];
    uint32_t sets[256];
    size_t round, n, k, written, lowered = 0;
    for (round = 0; round < 300; round++) {
        struct answer a = { KEEPER_OK, bytes, 0, lines, 0, 0 };
        struct question q = about(LINES_OF_SETS, table, put_by_chance(table, 32, 200, 40));
        n = of_table(table, 0);
        q.sets = sets;
        q.sets_length = chance(257);
        for (k = 0; k < q.sets_length; k++) {
            sets[k] = (uint32_t)(chance(65536) << 16 | chance(65536)) & (uint32_t)(0xFFFFFFFFu >> (32 - n));
            same("the line of a set", keeper_line_of_set(table, q.length, sets[k], bytes + a.size, 2 * n, &written), KEEPER_OK);
            a.size += written;
        }
        same("a sheet", keeper_keep_sheet(table, q.length, lines, sizeof lines / 2, sheet, sizeof sheet, &written), KEEPER_OK);
        for (k = 0; k < n * n; k++)
            lowered += lines[k] + (size_t)(k / n == k % n) != of_table(table, 2 + k % n);
        q.numbers = a.line_numbers = n * n;
        q.room = a.size;
        ask("by single calls, sets", &q, &a);
    }
    same("lines of single holders by chance are lowered", lowered > 1000, 1);
}

/* ---- sizes */
static void sizes(void)
{
    same("KEEPER_MOST_PROCESSES", KEEPER_MOST_PROCESSES, 32);
    same("KEEPER_MOST_MESSAGES", KEEPER_MOST_MESSAGES, 4096);
    same("KEEPER_MOST_CHECKPOINTS", KEEPER_MOST_CHECKPOINTS, 4096);
    same("KEEPER_LARGEST_TABLE", KEEPER_LARGEST_TABLE, KEEPER_TABLE_SIZE(KEEPER_MOST_PROCESSES, KEEPER_MOST_MESSAGES));
    same("KEEPER_LARGEST_TABLE", KEEPER_LARGEST_TABLE, 32836);
    same("KEEPER_LARGEST_LINE", KEEPER_LARGEST_LINE, 64);
    same("KEEPER_MOST_SETS", KEEPER_MOST_SETS, 256);
    same("KEEPER_LINES_ROOM", KEEPER_LINES_ROOM, KEEPER_LINES_SIZE(KEEPER_MOST_PROCESSES, KEEPER_MOST_SETS));
    same("KEEPER_LINES_ROOM", KEEPER_LINES_ROOM, 16384);
    same("KEEPER_MARKS_ROOM", KEEPER_MARKS_ROOM, KEEPER_MARKS_SIZE(32 * 4096, 32));
    same("KEEPER_MARKS_ROOM", KEEPER_MARKS_ROOM, 16388);
    same("KEEPER_SCRATCH_NUMBERS", KEEPER_SCRATCH_NUMBERS, 1024);
    same("KEEPER_SHEET_ROOM", KEEPER_SHEET_ROOM, KEEPER_SHEET_SIZE(KEEPER_SCRATCH_NUMBERS, KEEPER_MOST_MESSAGES));
    same("KEEPER_SHEET_ROOM", KEEPER_SHEET_ROOM, 12292);
    same("KEEPER_LISTING_ROOM", KEEPER_LISTING_ROOM, 80000);
    same("KEEPER_TABLE_SIZE", KEEPER_TABLE_SIZE(1 + 1, 2 + 3), 48);
    same("KEEPER_LINE_SIZE", KEEPER_LINE_SIZE(1 + 1), 4);
    same("KEEPER_LINES_SIZE", KEEPER_LINES_SIZE(1 + 1, 1 + 2), 12);
    same("KEEPER_LINES_SIZE", 24 / KEEPER_LINES_SIZE(2, 3), 2);
    same("KEEPER_LINES_SIZE of no sets", KEEPER_LINES_SIZE(32, 0), 0);
    same("KEEPER_LINES_SIZE of small numbers", KEEPER_LINES_SIZE((uint8_t)32, (uint16_t)65535), 4194240);
    same("KEEPER_MARKS_SIZE", KEEPER_MARKS_SIZE(1 + 5, 1 + 1), 1);
    same("KEEPER_MARKS_SIZE", 3 * KEEPER_MARKS_SIZE(4 | 3, 1 | 2), 6);
    same("KEEPER_MARKS_SIZE", 24 / KEEPER_MARKS_SIZE(8, 1), 12);
    same("KEEPER_MARKS_SIZE of small numbers", KEEPER_MARKS_SIZE((uint16_t)65535, (uint8_t)32), 8196);
    same("KEEPER_SCRATCH_SIZE", KEEPER_SCRATCH_SIZE(1 + 2), 9);
    same("KEEPER_SHEET_SIZE", KEEPER_SHEET_SIZE(1 + 2, 1 + 1), 20);
}

/* ---- numbers */

/* A number put at a place among bytes of a fill: these two change and no others, and it is read again. */
static void one_number(size_t place, uint16_t number, uint8_t fill)
{
    uint8_t bytes[16];
    size_t i;
    memset(bytes, fill, sizeof bytes);
    keeper_put_u16(bytes, place, number);
    for (i = 0; i < sizeof bytes; i++)
        if (bytes[i] != (i == place ? number % 256 : i == place + 1 ? number / 256 : fill))
            failed("keeper_put_u16", "the bytes are not what they should be");
    same("keeper_u16_at", keeper_u16_at(bytes, place), number);
}

static void numbers(void)
{
    static const uint8_t bytes[] = { 0x34, 0x12, 0xFF, 0x00, 0xFF, 0xFF };
    uint8_t table[KEEPER_TABLE_SIZE(2, 0)], by_hand[] = { 2, 0, 0, 0, 1, 0, 1, 0 };
    uint32_t number;
    size_t place;
    same("the number at 0", keeper_u16_at(bytes, 0), 0x1234);
    same("the number at 1", keeper_u16_at(bytes, 1), 0xFF12);
    same("the number at 2", keeper_u16_at(bytes, 2), 0x00FF);
    same("the number at 3", keeper_u16_at(bytes, 3), 0xFF00);
    same("the number at 4", keeper_u16_at(bytes, 4), 65535);
    for (number = 0; number < 65536; number++)
        one_number(number % 15, (uint16_t)number, (uint8_t)(number % 3 * 0x55));
    /* In example A a place in bytes is twice the place of the number. */
    for (place = 0; place < A_NUMBERS; place++)
        same("a number of A", keeper_u16_at(a_bytes, 2 * place), example_a[place]);
    /* The first table of the header. */
    keeper_put_u16(table, 0, 2);
    keeper_put_u16(table, 2, 0);
    keeper_put_u16(table, 4, 1);
    keeper_put_u16(table, 6, 1);
    same("a first table, as bytes", memcmp(table, by_hand, sizeof by_hand) != 0 || sizeof table != sizeof by_hand, 0);
    same("a first table", keeper_check_table(table, sizeof table), KEEPER_OK);
}

/* ---- the words of refusals */
#define KEEPER_REFUSAL(name, number, words) { name, number, words },
#define RUN_TABLE_REFUSAL(name, number, words)
static const struct {
    uint32_t named, number;
    const char *words;
} refusals[] = {
#include "refusals.inc"
};
#define REFUSALS (sizeof refusals / sizeof refusals[0])

static void same_text(const char *what, const char *got, const char *expected)
{
    if (got == NULL || strcmp(got, expected) != 0) {
        printf("calls: %s: got \"%s\", expected \"%s\"\n", what, got == NULL ? "(NULL)" : got, expected);
        failure();
    }
}

static void words(void)
{
    static const uint32_t far[] = { 65536, 65537, 0x10000 + 16, 0x7FFFFFFF, 0x80000000u, 0xFFFFFFFFu };
    uint32_t number;
    size_t i;
    for (number = 0; number < 300; number++) {
        const char *expected = number == 0 ? "no refusal" : "a refusal that this version does not know";
        for (i = 0; i < REFUSALS; i++)
            if (refusals[i].number == number)
                expected = refusals[i].words;
        same_text("keeper_refusal_words", keeper_refusal_words(number), expected);
    }
    for (i = 0; i < REFUSALS; i++) {
        same("the number of a name", refusals[i].named, refusals[i].number);
        same_text("keeper_refusal_words by a name", keeper_refusal_words(refusals[i].named), refusals[i].words);
    }
    for (i = 0; i < sizeof far / sizeof far[0]; i++)
        same_text("keeper_refusal_words of a large number", keeper_refusal_words(far[i]), "a refusal that this version does not know");
}

/* ---- the version: the text is that of the numbers, and the preprocessor can compare them */
#define TEXT_OF(x) #x
#define TEXT(x) TEXT_OF(x)

static void version(void)
{
    same_text("KEEPER_VERSION", KEEPER_VERSION,
              TEXT(KEEPER_VERSION_MAJOR) "." TEXT(KEEPER_VERSION_MINOR) "." TEXT(KEEPER_VERSION_PATCH));
#if KEEPER_VERSION_MAJOR < 0 || KEEPER_VERSION_MINOR < 0 || KEEPER_VERSION_PATCH < 0
    failed("KEEPER_VERSION", "its numbers can't be compared");
#elif KEEPER_VERSION_MAJOR == 0 && KEEPER_VERSION_MINOR == 0 && KEEPER_VERSION_PATCH == 0
    failed("KEEPER_VERSION", "it is not set");
#endif
    same_text("RUN_TABLE_VERSION", RUN_TABLE_VERSION, KEEPER_VERSION);
}

int main(void)
{
    put_numbers(a_bytes, example_a, A_NUMBERS);
    sizes();
    numbers();
    words();
    version();
    example_a_lines();
    example_a_sets();
    example_a_ceilings();
    example_a_names();
    example_a_bad_names();
    example_a_many_names();
    example_a_steps();
    example_a_lists();
    example_a_sheet();
    shares();
    two_unsaved();
    four_unsaved();
    case_f();
    steps_with_receipts();
    refused_in_every_call();
    accepted_in_every_call();
    lists_in_turn();
    turns_of_one_channel();
    turns_of_a_full_count();
    largest();
    full_counts();
    full_unsaved();
    full_ceilings();
    sizes_of_marks();
    domino();
    waiting_and_new();
    chain_of_32();
    both_methods();
    fans();
    sets_of_one();
    zigzags_of_the_source();
    zigzag_bounds();
    zigzags_to_itself();
    by_both_definitions();
    sets_by_definition();
    sets_by_single_calls();
    if (failures != 0) {
        printf("calls: %d failures\n", failures);
        return 1;
    }
    printf("calls: ok, %lu calls\n", asked);
    return 0;
}
