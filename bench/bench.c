/* The benchmark, over the tables that the file ROWS names. `bench compare ROWS` ends with 1 where two
   implementations differ, and is run before anything is timed. `bench instructions ROWS` makes each call
   once, for callgrind to count. `bench measure ROWS FIGURES` measures every call of every implementation and
   leaves what it found in the file FIGURES: once for each place at which the code is linked. `bench stack
   ROWS` measures the stack of every exported call and prints the table of it. `bench report ROWS
   INSTRUCTIONS TEXT REPORT FIGURES...` takes all together and writes the report: TEXT with the tables of the
   run in their places. `bench beside ROWS FIGURES` measures the archive beside an older one that is linked too,
   and `bench ratios ROWS FIGURES...` prints the table of that. Times are of the processor, not of the clock. */
#define _GNU_SOURCE
#include <stdarg.h>
#include <stdbool.h>
#include <stdio.h>
#include <stdlib.h>
#include <string.h>
#include <time.h>

#include "calls.h"
#include "listing_text.h"
#include "run_table.h"

#if __has_include(<valgrind/callgrind.h>)
#include <valgrind/callgrind.h>
#else
#define CALLGRIND_ZERO_STATS ((void)0)
#define CALLGRIND_DUMP_STATS_AT(label) ((void)(label))
#endif

enum { MOST_ANSWER = KEEPER_LARGEST_TABLE + 64, MOST_ROWS = 64 };

/* ------------------------------------------------------------------------------------------------- */
/* The implementations. */

enum { ARCHIVE, PLAIN, BARE, RUST, MARKS, RANGES, UNDER, SINGLES, OLD, IMPLEMENTATIONS };

struct implementation {
    const char *name;
    __typeof__(keeper_keep_sheet) *keep_sheet;
    __typeof__(keeper_recovery_line) *recovery_line;
    __typeof__(keeper_lines_of_sets) *lines_of_sets;
    __typeof__(keeper_line_under) *line_under;
    __typeof__(keeper_marked_line) *marked_line;
    __typeof__(keeper_stand_together) *stand_together;
    __typeof__(keeper_fall_back) *fall_back;
    __typeof__(keeper_send) *send;
    __typeof__(keeper_save) *save;
    __typeof__(keeper_receive) *receive;
    __typeof__(run_table_check) *check;
};

/* The same lines by a call for each set. The scratch is left alone. */
static uint32_t single_lines_of_sets(const uint8_t *table, size_t length, const uint32_t *sets, size_t sets_length, uint16_t *scratch, size_t numbers, uint8_t *answer, size_t room, size_t *written)
{
    (void)scratch, (void)numbers;
    size_t sum = 0, size;
    for (size_t s = 0; s < sets_length; s++) {
        uint32_t refusal = keeper_line_of_set(table, length, sets[s], answer + sum, room - sum, &size);
        if (refusal != 0)
            return refusal;
        sum += size;
    }
    *written = sum;
    return 0;
}

static const struct implementation implementations[IMPLEMENTATIONS] = {
    {"archive", keeper_keep_sheet, keeper_recovery_line, keeper_lines_of_sets, keeper_line_under, keeper_marked_line, keeper_stand_together, keeper_fall_back, keeper_send, keeper_save, keeper_receive, run_table_check},
    {"C", plain_keep_sheet, plain_recovery_line, plain_lines_of_sets, plain_line_under, plain_marked_line, plain_stand_together, plain_fall_back, plain_send, plain_save, plain_receive, plain_check_table},
    {"C-without-checks", bare_keep_sheet, bare_recovery_line, bare_lines_of_sets, bare_line_under, bare_marked_line, bare_stand_together, bare_fall_back, bare_send, bare_save, bare_receive, NULL},
    {"Rust", rust_keep_sheet, rust_recovery_line, rust_lines_of_sets, rust_line_under, rust_marked_line, rust_stand_together, rust_fall_back, rust_send, rust_save, rust_receive, rust_check_table},
    {"work-list-marks", marks_keep_sheet, marks_recovery_line, NULL, marks_line_under, NULL, marks_stand_together, marks_fall_back, NULL, NULL, NULL, NULL},
    {"work-list-ranges", ranges_keep_sheet, ranges_recovery_line, NULL, ranges_line_under, NULL, ranges_stand_together, ranges_fall_back, NULL, NULL, NULL, NULL},
    {"archive-line-under", NULL, NULL, NULL, keeper_line_under, NULL, NULL, NULL, NULL, NULL, NULL, NULL},
    {"archive-single-calls", NULL, NULL, single_lines_of_sets, NULL, NULL, NULL, NULL, NULL, NULL, NULL, NULL},
    {"older-archive", old_keeper_keep_sheet, old_keeper_recovery_line, old_keeper_lines_of_sets, old_keeper_line_under, NULL, old_keeper_stand_together, old_keeper_fall_back, NULL, NULL, NULL, old_keeper_check_table},
};

/* The lines of sets twice: of sets by chance, and of all single processes and all pairs of neighbours, over and over.
   A line under ceilings twice: under half of each count, and under the counts. By marking too; beside that, an
   implementation without the call finds the line under the same ceilings in its own way. Named checkpoints twice: the last
   ones of the first and of the last process, which stand together on some rows; and all of a line, which do on every one. */
enum {
    SHEET_CALL, LINE_CALL, CHANCE_SETS_CALL, FEW_SETS_CALL, HALVES_CALL, COUNTS_CALL, MARKED_HALVES_CALL, MARKED_COUNTS_CALL,
    STAND_LASTS_CALL, STAND_LINE_CALL, FALL_BACK_CALL, SEND_CALL, SAVE_CALL, RECEIVE_CALL, CHECK_CALL, CALLS
};

static const char *const call_names[CALLS] = {
    "keep-sheet", "recovery-line", "lines-of-sets-by-chance", "lines-of-sets-of-few", "line-under-halves", "line-under-counts", "marked-line-under-halves",
    "marked-line-under-counts", "stand-together-lasts", "stand-together-line", "fall-back", "send", "save", "receive", "check",
};
static const char *const call_titles[CALLS] = {
    "Keep sheet", "Recovery line", "Lines of 256 sets by chance", "Lines of 256 sets of one and two", "Line under half of each count", "Line under the counts",
    "Line by marking, under half of each count", "Line by marking, under the counts", "Two last checkpoints, named",
    "A line, all of it named", "Fall back", "Send", "Save", "Receipt", "Check of a table",
};

/* What Figure 3 on networkx is asked for, of the calls that it has. */
static const char *const figure3_words[CALLS] = {
    [SHEET_CALL] = "sheet", [MARKED_HALVES_CALL] = "halves", [MARKED_COUNTS_CALL] = "counts",
};

static bool is_marking(int call)
{
    return call == MARKED_HALVES_CALL || call == MARKED_COUNTS_CALL;
}

static bool is_of_sets(int call)
{
    return call == CHANCE_SETS_CALL || call == FEW_SETS_CALL;
}

/* ------------------------------------------------------------------------------------------------- */
/* Rows. */

struct times {
    double median, least;
};

/* What a sheet's time is taken apart by, measured side by side: the checks, the recovery line, the lines of
   the single holders that take passes (each with its checks), and the sheet, of the archive, C and Rust. */
enum {
    CHECK_OF_ARCHIVE, CHECK_OF_C, CHECK_OF_RUST, LINE_OF_ARCHIVE, LINE_OF_C, LINE_OF_RUST,
    LINES_OF_ARCHIVE, LINES_OF_C, SHEET_OF_ARCHIVE, SHEET_OF_C, PARTS
};

#define PAGE 4096

struct row {
    char label[64], path[256];
    bool history;                  /* a history, random or clustered */
    bool close;                    /* looked at closely, and to be at or under the work list: histories, and the domino of two in time order */
    bool falls;                    /* the send numbers of some sender fall with the position */
    /* At the start of a page, where the answers stand in the middle of one: a copy between nearly the same places of
       two pages can take three times as long, and no row is to have that by chance. */
    _Alignas(PAGE) uint8_t table[KEEPER_LARGEST_TABLE];
    _Alignas(PAGE) uint8_t shorter[KEEPER_LARGEST_TABLE];
    size_t length, shorter_length, n, m, unsaved;
    uint16_t halves[KEEPER_MOST_PROCESSES], counts[KEEPER_MOST_PROCESSES];
    uint16_t ends[2], lasts[2];                    /* the first and the last process, and their last checkpoints */
    uint16_t everyone[KEEPER_MOST_PROCESSES], line[KEEPER_MOST_PROCESSES]; /* all processes, and the line under the halves */
    uint32_t sets[KEEPER_MOST_SETS], few_sets[KEEPER_MOST_SETS]; /* by chance, and of one and two processes */
    bool stand;                                    /* whether the two last checkpoints stand together */
    uint16_t saver, list[KEEPER_MOST_MESSAGES];
    size_t entries;
    bool propagates[KEEPER_MOST_PROCESSES];        /* the single holders whose lines take passes */
    size_t propagating;
    size_t kept, logged, kept_before, logged_before;
    double looks_of_holders, looks_of_recovery, looks_of_halves, looks_of_lasts; /* messages looked at, for a line */
    double passes_of_holders, passes_of_recovery, passes_of_halves;                /* by passes alone */
    double rounds_of_marking, passes_of_marking;
    /* What is measured: numbers of one kind alone, so that they can be taken together one by one. */
    struct figures {
        struct times times[CALLS][IMPLEMENTATIONS];
        double ratio[CALLS][IMPLEMENTATIONS];      /* archive to this, the median of side by side */
        double part[PARTS];        /* seconds, the least of each; 0: not measured */
    } here;
    double instructions[CALLS][IMPLEMENTATIONS];   /* 0: not counted */
    double networkx[CALLS];        /* seconds; 0: not measured */
};

static struct row rows[MOST_ROWS];
static size_t row_count;

static _Alignas(PAGE) struct { uint8_t half_a_page[PAGE / 2], bytes[MOST_ANSWER]; } answers;
#define answer answers.bytes
static uint16_t scratch[KEEPER_SCRATCH_NUMBERS];
static _Alignas(PAGE) uint8_t marks[KEEPER_MARKS_ROOM + 64];
static size_t written;

/* Where the report goes. */
static FILE *report;

#define SAY(...) fprintf(report, __VA_ARGS__)

static void stop(const char *format, ...)
{
    va_list list;
    va_start(list, format);
    fprintf(stderr, "bench: ");
    vfprintf(stderr, format, list);
    fprintf(stderr, "\n");
    va_end(list);
    exit(1);
}

static uint16_t number_at(const uint8_t *bytes)
{
    return (uint16_t)(bytes[0] | bytes[1] << 8);
}

static uint32_t call(const struct row *row, int which, int call)
{
    const struct implementation *by = &implementations[which];
    switch (call) {
    case SHEET_CALL:
        return by->keep_sheet(row->table, row->length, scratch, sizeof scratch / 2, answer, sizeof answer, &written);
    case LINE_CALL:
        return by->recovery_line(row->table, row->length, answer, sizeof answer, &written);
    case CHANCE_SETS_CALL:
    case FEW_SETS_CALL:
        return by->lines_of_sets(row->table, row->length, call == CHANCE_SETS_CALL ? row->sets : row->few_sets, KEEPER_MOST_SETS, scratch, sizeof scratch / 2, answer, sizeof answer, &written);
    case HALVES_CALL:
        return by->line_under(row->table, row->length, row->halves, row->n, answer, sizeof answer, &written);
    case COUNTS_CALL:
        return by->line_under(row->table, row->length, row->counts, row->n, answer, sizeof answer, &written);
    case MARKED_HALVES_CALL:
    case MARKED_COUNTS_CALL: {
        const uint16_t *ceilings = call == MARKED_HALVES_CALL ? row->halves : row->counts;
        if (by->marked_line == NULL)
            return by->line_under(row->table, row->length, ceilings, row->n, answer, sizeof answer, &written);
        return by->marked_line(row->table, row->length, ceilings, row->n, marks, sizeof marks, answer, sizeof answer, &written);
    }
    case STAND_LASTS_CALL:
        return by->stand_together(row->table, row->length, row->ends, 2, row->lasts, 2, answer, sizeof answer, &written);
    case STAND_LINE_CALL:
        return by->stand_together(row->table, row->length, row->everyone, row->n, row->line, row->n, answer, sizeof answer, &written);
    case FALL_BACK_CALL:
        return by->fall_back(row->table, row->length, answer, sizeof answer, &written);
    case SEND_CALL:
        return by->send(row->shorter, row->shorter_length, 0, 1, answer, sizeof answer, &written);
    case SAVE_CALL:
        return by->save(row->table, row->length, row->saver, row->list, row->entries, answer, sizeof answer, &written);
    case CHECK_CALL:
        return by->check(row->table, row->length);
    default:
        return by->receive(row->table, row->length, row->saver, row->list, row->entries, answer, sizeof answer, &written);
    }
}

/* The calls by which an older archive is measured, where it has them. */
static bool has_old(int call)
{
    switch (call) {
    case SHEET_CALL: return old_keeper_keep_sheet != NULL;
    case LINE_CALL: return old_keeper_recovery_line != NULL;
    case CHANCE_SETS_CALL:
    case FEW_SETS_CALL: return old_keeper_lines_of_sets != NULL;
    case HALVES_CALL:
    case COUNTS_CALL: return old_keeper_line_under != NULL;
    case STAND_LASTS_CALL:
    case STAND_LINE_CALL: return old_keeper_stand_together != NULL;
    case FALL_BACK_CALL: return old_keeper_fall_back != NULL;
    case CHECK_CALL: return old_keeper_check_table != NULL;
    default: return false;
    }
}

static bool has(int which, int call)
{
    if (which == OLD)
        return has_old(call);
    if (call == CHECK_CALL)
        return implementations[which].check != NULL;
    if (which == SINGLES || is_of_sets(call))
        return is_of_sets(call) && implementations[which].lines_of_sets != NULL;
    if (which == UNDER || is_marking(call))
        return is_marking(call);
    return implementations[which].send != NULL || call < SEND_CALL;
}

static void read_table(struct row *row)
{
    FILE *file = fopen(row->path, "rb");
    if (file == NULL)
        stop("%s can't be read", row->path);
    row->length = fread(row->table, 1, sizeof row->table, file);
    fclose(file);
    if (keeper_check_table(row->table, row->length) != 0)
        stop("%s: the table is refused", row->label);
    const uint8_t *table = row->table;
    row->n = number_at(table);
    row->m = number_at(table + 2);
    size_t sends = 4 + 2 * row->n, receipts = sends + 4 * row->m;
    for (size_t p = 0; p < row->n; p++) {
        row->counts[p] = number_at(table + 4 + 2 * p);
        row->halves[p] = row->counts[p] / 2;
        row->everyone[p] = (uint16_t)p;
    }
    /* Names. */
    row->ends[1] = (uint16_t)(row->n - 1);
    for (size_t e = 0; e < 2; e++)
        row->lasts[e] = (uint16_t)(row->counts[row->ends[e]] - 1);
    if (row->n < 2 || keeper_line_under(table, row->length, row->halves, row->n, answer, sizeof answer, &written) != 0)
        stop("%s: there are no names", row->label);
    for (size_t p = 0; p < row->n; p++)
        row->line[p] = number_at(answer + 2 * p);
    /* Sets. */
    uint32_t drawn = 20261118;
    for (size_t s = 0; s < KEEPER_MOST_SETS; s++) {
        size_t turn = s % (2 * row->n), p = turn % row->n;
        for (size_t half = 0; half < 2; half++) {
            drawn = drawn * 1664525 + 1013904223;
            row->sets[s] = row->sets[s] << 16 | drawn >> 16;
        }
        row->sets[s] &= UINT32_MAX >> (32 - row->n);
        row->few_sets[s] = 1u << p | (turn < row->n ? 0 : 1u << (p + 1) % row->n);
    }
    /* For a send: the table without its last message. */
    memcpy(row->shorter, table, receipts - 4);
    row->shorter[2] = (uint8_t)((row->m - 1) & 0xFF);
    row->shorter[3] = (uint8_t)((row->m - 1) >> 8);
    memcpy(row->shorter + receipts - 4, table + receipts, 4 * (row->m - 1));
    row->shorter_length = row->length - 8;
    /* A rollback of a process propagates where a message that it sent since its last state was received. */
    for (size_t k = 0; k < row->m; k++) {
        uint16_t sender = number_at(table + sends + 4 * k);
        if (number_at(table + sends + 4 * k + 2) + 1 == number_at(table + 4 + 2 * sender) && number_at(table + receipts + 4 * k + 2) != 0)
            row->propagates[sender] = true;
    }
    for (size_t p = 0; p < row->n; p++)
        row->propagating += row->propagates[p];
    uint16_t last_sent[KEEPER_MOST_PROCESSES] = {0};
    for (size_t k = 0; k < row->m; k++) {
        uint16_t sender = number_at(table + sends + 4 * k), sent = number_at(table + sends + 4 * k + 2);
        row->falls = row->falls || sent < last_sent[sender];
        last_sent[sender] = sent;
    }
    for (size_t k = 0; k < row->m; k++)
        row->unsaved += number_at(table + receipts + 4 * k + 2) == row->counts[number_at(table + receipts + 4 * k)];
    /* For a save and a receipt: the process that most messages wait for, and all of these. */
    size_t waiting[KEEPER_MOST_PROCESSES] = {0};
    for (size_t k = 0; k < row->m; k++)
        if (number_at(table + receipts + 4 * k + 2) == 0)
            waiting[number_at(table + receipts + 4 * k)]++;
    for (size_t p = 0; p < row->n; p++)
        if (waiting[p] > waiting[row->saver])
            row->saver = (uint16_t)p;
    for (size_t k = 0; k < row->m; k++)
        if (number_at(table + receipts + 4 * k) == row->saver && number_at(table + receipts + 4 * k + 2) == 0)
            row->list[row->entries++] = (uint16_t)k;
}

/* Whether the marks are as a call leaves them that found a buffer of one byte everywhere: cleared as far as the
   states of the row's table go where the call has marks, untouched where it has none. */
static bool marks_are_left(const struct row *row, bool has_marks, uint8_t before)
{
    size_t sum = 0;
    for (size_t p = 0; p < row->n; p++)
        sum += row->counts[p];
    size_t cleared = has_marks ? KEEPER_MARKS_SIZE(sum, row->n) : 0;
    for (size_t b = 0; b < sizeof marks; b++)
        if (marks[b] != (b < cleared ? 0 : before))
            return false;
    return true;
}

/* Every implementation gives the archive's number, length, answer and lines, and leaves the marks as it has to. */
static void compare(struct row *row)
{
    static uint8_t first_answer[MOST_ANSWER];
    static uint16_t first_scratch[KEEPER_SCRATCH_NUMBERS];
    for (int c = 0; c < CALLS; c++) {
        size_t first_written = 0;
        for (int w = 0; w < IMPLEMENTATIONS; w++) {
            if (!has(w, c))
                continue;
            memset(answer, 0xA5, sizeof answer);
            memset(scratch, 0xA5, sizeof scratch);
            memset(marks, 0xA5, sizeof marks);
            written = SIZE_MAX;
            uint32_t refusal = call(row, w, c);
            if (refusal != 0)
                stop("%s: %s of %s is refused by %u", row->label, call_names[c], implementations[w].name, refusal);
            if (!marks_are_left(row, is_marking(c) && implementations[w].marked_line != NULL, 0xA5))
                stop("%s: %s of %s leaves other marks", row->label, call_names[c], implementations[w].name);
            if (w == ARCHIVE) {
                memcpy(first_answer, answer, sizeof answer);
                memcpy(first_scratch, scratch, sizeof scratch);
                first_written = written;
                if (c == STAND_LASTS_CALL)
                    row->stand = written != 0;
                if (c == STAND_LINE_CALL && written == 0)
                    stop("%s: the checkpoints of a line do not stand together", row->label);
                if (c == SHEET_CALL) {
                    row->kept = number_at(answer);
                    row->logged = number_at(answer + 2);
                }
                if (c == LINE_CALL) {
                    /* The traditional rule keeps all that is not wholly before the recovery line. */
                    const uint8_t *receipts = row->table + 4 + 2 * row->n + 4 * row->m;
                    for (size_t p = 0; p < row->n; p++)
                        row->kept_before += (size_t)(number_at(row->table + 4 + 2 * p) - number_at(answer + 2 * p));
                    for (size_t k = 0; k < row->m; k++) {
                        uint16_t received = number_at(receipts + 4 * k + 2);
                        if (received == 0 || received > number_at(answer + 2 * number_at(receipts + 4 * k)))
                            row->logged_before++;
                    }
                }
                continue;
            }
            if (written != first_written || memcmp(answer, first_answer, sizeof answer) != 0)
                stop("%s: %s of %s differs from the archive's", row->label, call_names[c], implementations[w].name);
            if (w != SINGLES && memcmp(scratch, first_scratch, sizeof scratch) != 0)
                stop("%s: the lines of %s differ from the archive's", row->label, implementations[w].name);
        }
    }
}

/* ------------------------------------------------------------------------------------------------- */
/* Times. */

static double now(void)
{
    struct timespec t;
    clock_gettime(CLOCK_PROCESS_CPUTIME_ID, &t);
    return (double)t.tv_sec + 1e-9 * (double)t.tv_nsec;
}

static int by_size(const void *a, const void *b)
{
    double x = *(const double *)a, y = *(const double *)b;
    return (x > y) - (x < y);
}

static double median(double *values, size_t count)
{
    qsort(values, count, sizeof *values, by_size);
    return count % 2 ? values[count / 2] : (values[count / 2 - 1] + values[count / 2]) / 2;
}

enum { LEAST_REPEATS = 2, MOST_REPEATS = 51 };

typedef void task(void *context, int which);

/* Measures the tasks side by side: each repetition runs a batch of each, and begins with another one.
   Ratios are of batches of the same repetition, and the median of these is taken. */
static void measure(task *run, void *context, const int *which, size_t tasks, double budget, struct times *times, double *ratio)
{
    static double seconds[PARTS][MOST_REPEATS], quotient[MOST_REPEATS];
    size_t batch[PARTS];
    double together = 0;
    for (size_t t = 0; t < tasks; t++) {
        double start = now();
        run(context, which[t]);
        double once = now() - start;
        if (once < 1e-3) {
            start = now();
            run(context, which[t]);
            once = now() - start;
        }
        batch[t] = once > 1e-4 ? 1 : (size_t)(1e-4 / (once + 1e-8)) + 1;
        together += once * (double)batch[t];
    }
    size_t repeats = (size_t)(budget / together);
    repeats = repeats < LEAST_REPEATS ? LEAST_REPEATS : repeats > MOST_REPEATS ? MOST_REPEATS : repeats;
    for (size_t r = 0; r < repeats; r++)
        for (size_t a = 0; a < tasks; a++) {
            size_t t = (a + r) % tasks;
            double start = now();
            for (size_t b = 0; b < batch[t]; b++)
                run(context, which[t]);
            seconds[t][r] = (now() - start) / (double)batch[t];
        }
    for (size_t t = 0; t < tasks; t++) {
        for (size_t r = 0; r < repeats; r++)
            quotient[r] = seconds[0][r] / seconds[t][r];
        ratio[t] = median(quotient, repeats);
    }
    for (size_t t = 0; t < tasks; t++) {
        times[t].median = median(seconds[t], repeats);
        times[t].least = seconds[t][0];
    }
}

struct call_context {
    const struct row *row;
    int call;
};

static void run_call(void *context, int which)
{
    struct call_context *c = context;
    call(c->row, which, c->call);
}

static volatile uint32_t sink;

static void run_part(void *context, int which)
{
    const struct row *row = context;
    switch (which) {
    case CHECK_OF_ARCHIVE: sink = keeper_check_table(row->table, row->length); break;
    case CHECK_OF_C: sink = plain_check_table(row->table, row->length); break;
    case CHECK_OF_RUST: sink = rust_check_table(row->table, row->length); break;
    case LINE_OF_ARCHIVE: call(row, ARCHIVE, LINE_CALL); break;
    case LINE_OF_C: call(row, PLAIN, LINE_CALL); break;
    case LINE_OF_RUST: call(row, RUST, LINE_CALL); break;
    case LINES_OF_ARCHIVE:
        for (size_t p = 0; p < row->n; p++)
            if (row->propagates[p])
                keeper_line_of_set(row->table, row->length, 1u << p, answer, sizeof answer, &written);
        break;
    case LINES_OF_C:
        for (size_t p = 0; p < row->n; p++)
            if (row->propagates[p])
                plain_line_of_set(row->table, row->length, 1u << p, answer, sizeof answer, &written);
        break;
    case SHEET_OF_ARCHIVE: call(row, ARCHIVE, SHEET_CALL); break;
    default: call(row, PLAIN, SHEET_CALL);
    }
}

static void measure_row(struct row *row, double budget)
{
    for (int c = 0; c < CALLS; c++) {
        int which[IMPLEMENTATIONS];
        size_t tasks = 0;
        for (int w = 0; w < IMPLEMENTATIONS; w++)
            if (has(w, c))
                which[tasks++] = w;
        struct call_context context = {row, c};
        struct times times[IMPLEMENTATIONS];
        double ratio[IMPLEMENTATIONS];
        measure(run_call, &context, which, tasks, c == SHEET_CALL || is_of_sets(c) ? 3 * budget : budget, times, ratio);
        for (size_t t = 0; t < tasks; t++) {
            row->here.times[c][which[t]] = times[t];
            row->here.ratio[c][which[t]] = ratio[t];
        }
    }
    int parts[PARTS];
    struct times times[PARTS];
    double ratio[PARTS];
    size_t tasks = row->close ? PARTS : LINE_OF_ARCHIVE;
    for (size_t t = 0; t < tasks; t++)
        parts[t] = (int)t;
    measure(run_part, row, parts, tasks, 4 * budget, times, ratio);
    for (size_t t = 0; t < tasks; t++)
        row->here.part[t] = times[t].least;
    if (!row->close) {
        row->here.part[LINE_OF_ARCHIVE] = row->here.times[LINE_CALL][ARCHIVE].least;
        row->here.part[LINE_OF_C] = row->here.times[LINE_CALL][PLAIN].least;
        row->here.part[LINE_OF_RUST] = row->here.times[LINE_CALL][RUST].least;
    }
}

/* What was measured at each place of the code, taken together: of each figure the median. */
static void take_together(char **paths, int places)
{
    enum { MOST_PLACES = 8, NUMBERS = sizeof(struct figures) / sizeof(double) };
    static union { struct figures figures; double number[NUMBERS]; } all[MOST_PLACES][MOST_ROWS], together;
    if (places > MOST_PLACES)
        stop("at most %d files of figures", MOST_PLACES);
    for (int f = 0; f < places; f++) {
        FILE *file = fopen(paths[f], "rb");
        if (file == NULL || fread(all[f], sizeof all[f][0], row_count, file) != row_count)
            stop("%s can't be read", paths[f]);
        fclose(file);
    }
    for (size_t r = 0; r < row_count; r++) {
        for (int d = 0; d < NUMBERS; d++) {
            double values[MOST_PLACES];
            for (int f = 0; f < places; f++)
                values[f] = all[f][r].number[d];
            together.number[d] = median(values, (size_t)places);
        }
        rows[r].here = together.figures;
    }
}

/* ------------------------------------------------------------------------------------------------- */
/* The stack. The bytes below the stack pointer are painted, the call is made, and the deepest byte that is
   no longer paint is looked for: what the call used, with its return address and the arguments that do not
   fit in registers. Two paints, so that a byte that happens to be paint is not missed. */

enum { PAINTED = 32768 };

enum {
    CHECK_EXPORT, LINE_EXPORT, SET_EXPORT, SETS_EXPORT, UNDER_EXPORT, MARKED_EXPORT, STAND_EXPORT, SEND_EXPORT, SAVE_EXPORT,
    RECEIVE_EXPORT, FALL_BACK_EXPORT, SHEET_EXPORT, LISTING_EXPORT, TABLE_CHECK_EXPORT, PROCESSES_EXPORT, MESSAGES_EXPORT, COUNT_EXPORT, SENDER_EXPORT, SENT_EXPORT,
    RECEIVER_EXPORT, RECEIVED_EXPORT, EXPORTS
};

static const char *const export_names[EXPORTS] = {
    "keeper_check_table", "keeper_recovery_line", "keeper_line_of_set", "keeper_lines_of_sets", "keeper_line_under", "keeper_marked_line",
    "keeper_stand_together", "keeper_send", "keeper_save", "keeper_receive", "keeper_fall_back", "keeper_keep_sheet", "keeper_listing", "run_table_check",
    "run_table_processes", "run_table_messages", "run_table_count", "run_table_sender", "run_table_sent",
    "run_table_receiver", "run_table_received",
};

static uint8_t listing[KEEPER_LISTING_ROOM];

/* The arguments of a call: sets, the ceilings of a line, names, the process and list of a save or receipt, the index of a lookup. */
struct arguments {
    const uint8_t *table;
    size_t length;
    const uint32_t *sets;
    size_t of_sets;
    const uint16_t *ceilings;
    size_t of_ceilings;
    const uint16_t *processes, *states;
    size_t names;
    uint16_t process;
    const uint16_t *list;
    size_t entries, index;
};

__attribute__((noinline)) static size_t stack_of(int export, const struct arguments *with, uint8_t paint)
{
    const uint8_t *table = with->table;
    size_t length = with->length;
    volatile uint8_t *top;
    __asm__ volatile("mov %%rsp, %0" : "=r"(top) : : "memory");
    for (size_t a = 1; a <= PAINTED; a++)
        top[-(ptrdiff_t)a] = paint;
    __asm__ volatile("" : : : "memory");
    switch (export) {
    case CHECK_EXPORT: sink = keeper_check_table(table, length); break;
    case LINE_EXPORT: sink = keeper_recovery_line(table, length, answer, sizeof answer, &written); break;
    case SET_EXPORT: sink = keeper_line_of_set(table, length, 1, answer, sizeof answer, &written); break;
    case SETS_EXPORT: sink = keeper_lines_of_sets(table, length, with->sets, with->of_sets, scratch, sizeof scratch / 2, answer, sizeof answer, &written); break;
    case UNDER_EXPORT: sink = keeper_line_under(table, length, with->ceilings, with->of_ceilings, answer, sizeof answer, &written); break;
    case MARKED_EXPORT: sink = keeper_marked_line(table, length, with->ceilings, with->of_ceilings, marks, sizeof marks, answer, sizeof answer, &written); break;
    case STAND_EXPORT: sink = keeper_stand_together(table, length, with->processes, with->names, with->states, with->names, answer, sizeof answer, &written); break;
    case SEND_EXPORT: sink = keeper_send(table, length, 0, 1, answer, sizeof answer, &written); break;
    case SAVE_EXPORT: sink = keeper_save(table, length, with->process, with->list, with->entries, answer, sizeof answer, &written); break;
    case RECEIVE_EXPORT: sink = keeper_receive(table, length, with->process, with->list, with->entries, answer, sizeof answer, &written); break;
    case FALL_BACK_EXPORT: sink = keeper_fall_back(table, length, answer, sizeof answer, &written); break;
    case SHEET_EXPORT: sink = keeper_keep_sheet(table, length, scratch, sizeof scratch / 2, answer, sizeof answer, &written); break;
    case LISTING_EXPORT: sink = keeper_listing(table, length, listing, sizeof listing, &written); break;
    case TABLE_CHECK_EXPORT: sink = run_table_check(table, length); break;
    case PROCESSES_EXPORT: sink = run_table_processes(table, length); break;
    case MESSAGES_EXPORT: sink = run_table_messages(table, length); break;
    case COUNT_EXPORT: sink = run_table_count(table, length, with->index); break;
    case SENDER_EXPORT: sink = run_table_sender(table, length, with->index); break;
    case SENT_EXPORT: sink = run_table_sent(table, length, with->index); break;
    case RECEIVER_EXPORT: sink = run_table_receiver(table, length, with->index); break;
    case RECEIVED_EXPORT: sink = run_table_received(table, length, with->index); break;
    default: stop("no call %d", export);
    }
    __asm__ volatile("" : : : "memory");
    size_t depth = PAINTED;
    while (depth > 0 && top[-(ptrdiff_t)depth] == paint)
        depth--;
    return depth;
}

/* Tables for the stack alone: one process; the highest counts, whose listing has the longest numbers; a refused one. */
static const struct {
    size_t length;
    uint8_t bytes[8];
    size_t n;
    uint16_t ceilings[2], states[2];
} small_tables[] = {
    {6, {1, 0, 0, 0, 1, 0}, 1, {1}, {0}},
    {8, {2, 0, 0, 0, 0, 16, 0, 16}, 2, {4096, 1}, {4095, 0}},
    {3, {0}, 0, {0}, {0}},
};
static const uint16_t small_processes[] = {0, 1};
static const uint32_t small_sets[] = {0, 1};

static void stack_over(int export, const struct arguments *with, size_t *least, size_t *most)
{
    size_t a = stack_of(export, with, 0xA5), b = stack_of(export, with, 0x5A), depth = a > b ? a : b;
    if (depth == PAINTED)
        stop("%s uses more stack than was painted", export_names[export]);
    *least = depth < *least ? depth : *least;
    *most = depth > *most ? depth : *most;
}

/* The least and the most over the rows, the rows cut by a message, and the small tables. */
static void measure_stack(size_t least[EXPORTS], size_t most[EXPORTS])
{
    for (int e = 0; e < EXPORTS; e++) {
        least[e] = SIZE_MAX;
        most[e] = 0;
        for (size_t r = 0; r < row_count; r++) {
            const struct row *row = &rows[r];
            stack_over(e, &(struct arguments){row->table, row->length, row->sets, KEEPER_MOST_SETS, row->halves, row->n, row->ends, row->lasts, 2, row->saver, row->list, row->entries, 0}, &least[e], &most[e]);
            stack_over(e, &(struct arguments){row->shorter, row->shorter_length, row->few_sets, KEEPER_MOST_SETS, row->counts, row->n, row->everyone, row->line, row->n, row->saver, row->list, 0, row->m}, &least[e], &most[e]);
        }
        for (size_t t = 0; t < sizeof small_tables / sizeof small_tables[0]; t++)
            stack_over(e, &(struct arguments){small_tables[t].bytes, small_tables[t].length, small_sets, 2, small_tables[t].ceilings, small_tables[t].n, small_processes, small_tables[t].states, small_tables[t].n, 0, NULL, 0, 0}, &least[e], &most[e]);
    }
}

static void say_stack(void)
{
    size_t least[EXPORTS], most[EXPORTS];
    measure_stack(least, most);
    SAY("| call | least, bytes | most, bytes |\n|---|---|---|\n");
    for (int e = 0; e < EXPORTS; e++)
        SAY("| `%s` | %zu | %zu |\n", export_names[e], least[e], most[e]);
}

/* ------------------------------------------------------------------------------------------------- */
/* Instructions, counted by callgrind. */

static void count_instructions(void)
{
    for (size_t r = 0; r < row_count; r++) {
        if (!rows[r].close)
            continue;
        for (int c = 0; c < CALLS; c++)
            for (int w = 0; w < IMPLEMENTATIONS; w++) {
                if (!has(w, c) || w == SINGLES)
                    continue;
                static char label[64];
                snprintf(label, sizeof label, "row %zu %d %d", r, c, w);
                CALLGRIND_ZERO_STATS;
                call(&rows[r], w, c);
                CALLGRIND_DUMP_STATS_AT(label);
            }
    }
}

/* Lines `row ROW CALL IMPLEMENTATION COUNT`. */
static bool read_instructions(const char *path)
{
    FILE *file = fopen(path, "r");
    if (file == NULL)
        return false;
    size_t r;
    int c, w;
    double count;
    bool some = false;
    while (fscanf(file, " row %zu %d %d %lf", &r, &c, &w, &count) == 4)
        if (r < row_count && c >= 0 && c < CALLS && w >= 0 && w < IMPLEMENTATIONS) {
            rows[r].instructions[c][w] = count;
            some = true;
        }
    fclose(file);
    return some;
}

/* ------------------------------------------------------------------------------------------------- */
/* Figure 3 on networkx, by a command that takes the tables' paths. */

static void measure_networkx_of(int c, const char *command)
{
    static char line[1 << 16];
    char *words = malloc(strlen(command) + row_count * 300 + 64);
    char *end = words + sprintf(words, "%s %s", command, figure3_words[c]);
    for (size_t r = 0; r < row_count; r++)
        end += sprintf(end, " '%s'", rows[r].path);
    FILE *pipe = popen(words, "r");
    if (pipe == NULL)
        stop("Figure 3 on networkx can't be run");
    for (size_t r = 0; r < row_count; r++) {
        double seconds;
        int at;
        if (fgets(line, sizeof line, pipe) == NULL || sscanf(line, "%lf %n", &seconds, &at) != 1)
            stop("%s: Figure 3 on networkx gave no answer", rows[r].label);
        call(&rows[r], ARCHIVE, c);
        bool same = strlen(line + at) == 2 * written + 1;
        for (size_t b = 0; same && b < written; b++) {
            char byte[3];
            sprintf(byte, "%02x", answer[b]);
            same = memcmp(byte, line + at + 2 * b, 2) == 0;
        }
        if (!same)
            stop("%s: %s by Figure 3 on networkx differs from the archive's", rows[r].label, call_names[c]);
        rows[r].networkx[c] = seconds;
    }
    pclose(pipe);
    free(words);
}

static bool measure_networkx(const char *command)
{
    if (command == NULL || command[0] == 0)
        return false;
    for (int c = 0; c < CALLS; c++)
        if (figure3_words[c] != NULL)
            measure_networkx_of(c, command);
    return true;
}

/* ------------------------------------------------------------------------------------------------- */
/* The report. */

static const char *fact(const char *name)
{
    const char *value = getenv(name);
    return value != NULL && value[0] != 0 ? value : "not known";
}

/* A number with as many places as it needs. */
static const char *brief(double value)
{
    static char texts[8][32];
    static int next;
    char *text = texts[next++ % 8];
    if (value >= 9.995e3) {
        /* Commas between thousands. */
        char digits[32];
        int length = snprintf(digits, sizeof digits, "%.0f", value), out = 0;
        for (int a = 0; a < length; a++) {
            if (a > 0 && (length - a) % 3 == 0)
                text[out++] = ',';
            text[out++] = digits[a];
        }
        text[out] = 0;
    } else
        snprintf(text, 32, value >= 99.95 ? "%.0f" : value >= 9.995 ? "%.1f" : "%.2f", value);
    return text;
}

static void say_tables(void)
{
    SAY("| table | N | M | unsaved | sends fall | looks a line | looks, recovery line | looks, under halves | looks, two named | passes alone a line | passes alone, recovery line | passes alone, under halves | rounds, marking | passes, marking | K | Q | K, traditional | Q, traditional |\n");
    SAY("|---|---|---|---|---|---|---|---|---|---|---|---|---|---|---|---|---|---|\n");
    for (size_t r = 0; r < row_count; r++) {
        const struct row *row = &rows[r];
        SAY("| %s | %zu | %zu | %zu | %s | %.0f | %.0f | %.0f | %.0f | %.1f | %.0f | %.0f | %.0f | %.0f | %zu | %zu | %zu | %zu |\n", row->label, row->n, row->m,
            row->unsaved, row->falls ? "yes" : "no", row->looks_of_holders, row->looks_of_recovery, row->looks_of_halves, row->looks_of_lasts,
            row->passes_of_holders, row->passes_of_recovery, row->passes_of_halves, row->rounds_of_marking, row->passes_of_marking,
            row->kept, row->logged, row->kept_before, row->logged_before);
    }
}

static void say_call(int c, bool instructions, bool networkx)
{
    bool lists = has(MARKS, c), bare = has(BARE, c), by_figure3 = figure3_words[c] != NULL;
    const char *beside = is_marking(c) ? "line under" : "single calls";
    int by = is_marking(c) ? UNDER : is_of_sets(c) ? SINGLES : ARCHIVE;
    char beside_time[64] = "", beside_ratio[64] = "";
    if (by != ARCHIVE) {
        snprintf(beside_time, sizeof beside_time, " %s, µs |", beside);
        snprintf(beside_ratio, sizeof beside_ratio, " / %s |", beside);
    }
    SAY("| table | N | M |%s archive, µs | C, µs |%s%s / C | / C, fastest |%s / Rust |%s%s%s%s\n",
        c == STAND_LASTS_CALL ? " answer |" : "", beside_time, lists ? " work list, µs |" : "", bare ? " / C without checks |" : "", beside_ratio,
        lists ? " / work list | / its marks |" : "", instructions ? " instructions / C |" : "", by_figure3 ? " networkx, ms |" : "");
    SAY("|---|---|---|%s---|---|%s%s---|---|%s---|%s%s%s%s\n", c == STAND_LASTS_CALL ? "---|" : "", by != ARCHIVE ? "---|" : "", lists ? "---|" : "",
        bare ? "---|" : "", by != ARCHIVE ? "---|" : "", lists ? "---|---|" : "", instructions ? "---|" : "", by_figure3 ? "---|" : "");
    for (size_t r = 0; r < row_count; r++) {
        const struct row *row = &rows[r];
        const struct times *t = row->here.times[c];
        SAY("| %s | %zu | %zu |", row->label, row->n, row->m);
        if (c == STAND_LASTS_CALL)
            SAY(" %s |", row->stand ? "yes" : "no");
        SAY(" %s | %s |", brief(1e6 * t[ARCHIVE].median), brief(1e6 * t[PLAIN].median));
        if (by != ARCHIVE)
            SAY(" %s |", brief(1e6 * t[by].median));
        if (lists)
            SAY(" %s |", brief(1e6 * t[RANGES].median));
        SAY(" %.2f | %.2f |", row->here.ratio[c][PLAIN], t[ARCHIVE].least / t[PLAIN].least);
        if (bare)
            SAY(" %s |", brief(row->here.ratio[c][BARE]));
        SAY(" %.2f |", row->here.ratio[c][RUST]);
        if (by == SINGLES)
            SAY(" %.3f |", row->here.ratio[c][SINGLES]);
        else if (by == UNDER)
            SAY(" %s |", brief(row->here.ratio[c][UNDER]));
        if (lists)
            SAY(" %s | %s |", brief(row->here.ratio[c][RANGES]), brief(row->here.ratio[c][MARKS]));
        if (instructions && row->instructions[c][PLAIN] > 0)
            SAY(" %.2f |", row->instructions[c][ARCHIVE] / row->instructions[c][PLAIN]);
        else if (instructions)
            SAY(" |");
        if (by_figure3) {
            if (networkx)
                SAY(" %s |", brief(1e3 * row->networkx[c]));
            else
                SAY(" not there |");
        }
        SAY("\n");
    }
}

/* Whether a ratio is at most a limit, at the two places that the tables show. */
static bool is_met(double ratio, double limit)
{
    return ratio < limit + 0.005;
}

/* The rows that a goal is about. */
static bool of_any(const struct row *row) { (void)row; return true; }
static bool of_close(const struct row *row) { return row->close; }
static bool of_histories(const struct row *row) { return row->history; }
static bool of_most(const struct row *row) { return row->m == KEEPER_MOST_MESSAGES; }
static bool of_long_histories(const struct row *row) { return of_most(row) && row->history; }
static bool of_long_propagating(const struct row *row) { return of_most(row) && row->propagating == row->n; }
static bool of_short(const struct row *row) { return row->m <= 512; }
static bool of_rising(const struct row *row) { return !row->falls; }
static bool of_rising_two_or_eight(const struct row *row) { return !row->falls && (row->n == 2 || row->n == 8); }

static const struct {
    bool (*has)(const struct row *);
    const char *name;
} scopes[] = {
    {of_any, "all"},
    {of_close, "histories, domino of two in time order"},
    {of_histories, "histories"},
    {of_rising, "sends never fall"},
    {of_rising_two_or_eight, "the same, N = 2 or 8"},
    {of_long_histories, "histories, M = 4096"},
    {of_long_propagating, "every holder propagates, M = 4096"},
    {of_short, "M up to 512"},
};
enum { ANY_ROW, CLOSE_ROWS, HISTORY_ROWS, RISING_ROWS, RISING_TWO_OR_EIGHT_ROWS, LONG_HISTORY_ROWS, LONG_PROPAGATING_ROWS, SHORT_ROWS };

/* A limit with as many places as it has, one at least. */
static const char *limit_text(double limit)
{
    static char text[16];
    snprintf(text, sizeof text, "%.2f", limit);
    if (text[strlen(text) - 1] == '0')
        text[strlen(text) - 1] = 0;
    return text;
}

/* What is compared, and on which rows; on how many of them the ratio is at most the limit, its range, and the rows where
   it is more, where these are few. */
static void say_goal(int c, double limit, const char *of_what, int against, int scope, bool goal)
{
    size_t met = 0, of = 0;
    double lowest = 1e9, highest = 0;
    for (size_t r = 0; r < row_count; r++) {
        if (!scopes[scope].has(&rows[r]))
            continue;
        double ratio = rows[r].here.ratio[c][against];
        of++;
        met += is_met(ratio, limit);
        lowest = ratio < lowest ? ratio : lowest;
        highest = ratio > highest ? ratio : highest;
    }
    SAY("| %s | %s times %s | %s | %zu of %zu | %s to %s |", call_titles[c], limit_text(limit), of_what, scopes[scope].name, met, of, brief(lowest), brief(highest));
    if (!goal)
        SAY(" no goal |\n");
    else if (met == of)
        SAY(" met |\n");
    else if (met == 0)
        SAY(" missed on every row |\n");
    else if (of - met > 6)
        SAY(" missed: the call's table says where |\n");
    else {
        SAY(" missed on");
        for (size_t r = 0, said = 0; r < row_count; r++)
            if (scopes[scope].has(&rows[r]) && !is_met(rows[r].here.ratio[c][against], limit))
                SAY("%s %s, N = %zu, M = %zu", said++ ? ";" : "", rows[r].label, rows[r].n, rows[r].m);
        SAY(" |\n");
    }
}

/* Whether a call finds lines, one or those of a sheet, and not by marking. */
static bool has_lines(int c)
{
    return c < SEND_CALL && !is_marking(c) && !is_of_sets(c);
}

static void say_goals(void)
{
    SAY("| call | at most | rows | met | ratios | |\n|---|---|---|---|---|---|\n");
    for (int c = 0; c < CALLS; c++)
        say_goal(c, is_marking(c) ? 2.0 : 1.05, "plain C", PLAIN, ANY_ROW, true);
    for (int c = 0; c < CALLS; c++)
        if (is_of_sets(c)) {
            say_goal(c, 0.1, "256 single calls", SINGLES, LONG_HISTORY_ROWS, true);
            say_goal(c, 0.18, "256 single calls", SINGLES, LONG_PROPAGATING_ROWS, true);
            say_goal(c, 0.35, "256 single calls", SINGLES, SHORT_ROWS, true);
        }
    for (int c = 0; c < CALLS; c++)
        if (has_lines(c)) {
            say_goal(c, 3.5, "the work list", RANGES, RISING_ROWS, true);
            say_goal(c, 1.75, "the work list", RANGES, RISING_TWO_OR_EIGHT_ROWS, true);
            if (c == SHEET_CALL)
                say_goal(c, 2.0, "the work list", RANGES, HISTORY_ROWS, true);
            say_goal(c, 1.0, "the work list", RANGES, CLOSE_ROWS, true);
            say_goal(c, 1.0, "the work list with marks", MARKS, CLOSE_ROWS, true);
        }
    for (int c = 0; c < CALLS; c++)
        if (is_marking(c)) {
            say_goal(c, 1.0, "the work list with marks", MARKS, ANY_ROW, false);
            say_goal(c, 1.0, "the line under the same ceilings", UNDER, ANY_ROW, false);
        }
    for (int c = 0; c < CALLS; c++)
        say_goal(c, 1.0, "Rust", RUST, ANY_ROW, false);
}

/* The nanoseconds of a look at a message, from the recovery line's time without the checks. */
static double look_cost(const struct row *row, int line, int check)
{
    return 1e9 * (row->here.part[line] - row->here.part[check]) / row->looks_of_recovery;
}

/* The same of a pass of marking, from its time under half of each count: with it all bits that are set and cleared. */
static double marking_pass_cost(const struct row *row, int which, int check)
{
    return 1e9 * (row->here.times[MARKED_HALVES_CALL][which].least - row->here.part[check]) / (row->passes_of_marking * (double)row->m);
}

/* The time of the lines of single holders that are not their ceilings, and of a sheet without its checks and these. */
static double lines_part(const struct row *row, bool archive)
{
    return row->here.part[archive ? LINES_OF_ARCHIVE : LINES_OF_C] - (double)row->propagating * row->here.part[archive ? CHECK_OF_ARCHIVE : CHECK_OF_C];
}

static double rest_part(const struct row *row, bool archive)
{
    return row->here.part[archive ? SHEET_OF_ARCHIVE : SHEET_OF_C] - row->here.part[archive ? CHECK_OF_ARCHIVE : CHECK_OF_C] - lines_part(row, archive);
}

static void say_parts(void)
{
    SAY("| table | N | M | checks | C | lines | C | rest | C | ns a look | C | Rust |\n");
    SAY("|---|---|---|---|---|---|---|---|---|---|---|---|\n");
    for (size_t r = 0; r < row_count; r++) {
        const struct row *row = &rows[r];
        SAY("| %s | %zu | %zu | %s | %s |", row->label, row->n, row->m, brief(1e6 * row->here.part[CHECK_OF_ARCHIVE]), brief(1e6 * row->here.part[CHECK_OF_C]));
        if (row->close)
            SAY(" %s | %s | %s | %s |", brief(1e6 * lines_part(row, true)), brief(1e6 * lines_part(row, false)),
                brief(1e6 * rest_part(row, true)), brief(1e6 * rest_part(row, false)));
        else
            SAY(" | | | |");
        SAY(" %.2f | %.2f | %.2f |\n", look_cost(row, LINE_OF_ARCHIVE, CHECK_OF_ARCHIVE), look_cost(row, LINE_OF_C, CHECK_OF_C), look_cost(row, LINE_OF_RUST, CHECK_OF_RUST));
    }
}

/* The least and the most of a figure over the rows that have it. */
struct range {
    double least, most;
};

static struct range range_of(double (*figure)(const struct row *))
{
    struct range range = {1e99, 0};
    for (size_t r = 0; r < row_count; r++) {
        double value = figure(&rows[r]);
        if (value <= 0)
            continue;
        range.least = value < range.least ? value : range.least;
        range.most = value > range.most ? value : range.most;
    }
    return range;
}

static double check_of_most(const struct row *row) { return row->m == KEEPER_MOST_MESSAGES ? 1e6 * row->here.part[CHECK_OF_ARCHIVE] : 0; }
static double c_check_of_most(const struct row *row) { return row->m == KEEPER_MOST_MESSAGES ? 1e6 * row->here.part[CHECK_OF_C] : 0; }
static double send_of_most(const struct row *row) { return row->m == KEEPER_MOST_MESSAGES ? 1e6 * row->here.times[SEND_CALL][ARCHIVE].median : 0; }
static double send_without_checks(const struct row *row) { return row->m == KEEPER_MOST_MESSAGES ? 1e6 * row->here.times[SEND_CALL][BARE].median : 0; }
static double rest_ratio(const struct row *row) { return row->close ? rest_part(row, true) / rest_part(row, false) : 0; }
static double lines_ratio(const struct row *row) { return row->close && row->propagating > 0 ? lines_part(row, true) / lines_part(row, false) : 0; }
static double rest_share(const struct row *row) { return row->close ? 100 * rest_part(row, true) / row->here.part[SHEET_OF_ARCHIVE] : 0; }
static double look_of_archive(const struct row *row) { return look_cost(row, LINE_OF_ARCHIVE, CHECK_OF_ARCHIVE); }
static double look_of_c(const struct row *row) { return look_cost(row, LINE_OF_C, CHECK_OF_C); }
static double look_of_rust(const struct row *row) { return look_cost(row, LINE_OF_RUST, CHECK_OF_RUST); }
static double pass_of_archive(const struct row *row) { return row->close ? look_of_archive(row) : 0; }
static double pass_of_c(const struct row *row) { return row->close ? look_of_c(row) : 0; }
static double pass_of_rust(const struct row *row) { return row->close ? look_of_rust(row) : 0; }
/* Rows that passes alone take long for, and of which the chase leaves nothing to lower. */
static bool is_chased(const struct row *row) { return !row->falls && row->passes_of_recovery > 100; }
static double chased_look_of_archive(const struct row *row) { return is_chased(row) ? look_of_archive(row) : 0; }
static double chased_look_of_c(const struct row *row) { return is_chased(row) ? look_of_c(row) : 0; }
static double chased_passes(const struct row *row) { return is_chased(row) ? row->looks_of_recovery / (double)row->m : 0; }
static double passes_alone(const struct row *row) { return is_chased(row) ? row->passes_of_recovery : 0; }
static double marking_pass_of_archive(const struct row *row) { return marking_pass_cost(row, ARCHIVE, CHECK_OF_ARCHIVE); }
static double marking_pass_of_c(const struct row *row) { return marking_pass_cost(row, PLAIN, CHECK_OF_C); }
static double marking_pass_of_rust(const struct row *row) { return marking_pass_cost(row, RUST, CHECK_OF_RUST); }
static double sets_to_singles(const struct row *row) { return of_long_histories(row) ? 100 * row->here.ratio[CHANCE_SETS_CALL][SINGLES] : 0; }
static double few_sets_to_singles(const struct row *row) { return of_long_histories(row) ? 100 * row->here.ratio[FEW_SETS_CALL][SINGLES] : 0; }
static double sets_to_singles_of_short(const struct row *row) { return of_short(row) ? 100 * row->here.ratio[CHANCE_SETS_CALL][SINGLES] : 0; }
static double sets_to_singles_of_propagating(const struct row *row) { return of_long_propagating(row) ? 100 * row->here.ratio[CHANCE_SETS_CALL][SINGLES] : 0; }
static double marking_to_line(const struct row *row) { return row->here.ratio[MARKED_HALVES_CALL][UNDER]; }
static double marking_to_line_of_counts(const struct row *row) { return row->here.ratio[MARKED_COUNTS_CALL][UNDER]; }
static double counted(const struct row *row, int c) { return row->instructions[c][PLAIN] > 0 ? row->instructions[c][ARCHIVE] / row->instructions[c][PLAIN] : 0; }
static double counted_sheet(const struct row *row) { return counted(row, SHEET_CALL); }
static double counted_line(const struct row *row) { return counted(row, LINE_CALL); }
static double counted_sets(const struct row *row) { return counted(row, CHANCE_SETS_CALL); }
static double counted_few_sets(const struct row *row) { return counted(row, FEW_SETS_CALL); }
static double counted_halves(const struct row *row) { return counted(row, HALVES_CALL); }
static double counted_counts(const struct row *row) { return counted(row, COUNTS_CALL); }
static double counted_marked_halves(const struct row *row) { return counted(row, MARKED_HALVES_CALL); }
static double counted_marked_counts(const struct row *row) { return counted(row, MARKED_COUNTS_CALL); }
static double counted_lasts(const struct row *row) { return counted(row, STAND_LASTS_CALL); }
static double counted_named_line(const struct row *row) { return counted(row, STAND_LINE_CALL); }
static double counted_fall_back(const struct row *row) { return counted(row, FALL_BACK_CALL); }
static double counted_send(const struct row *row) { return counted(row, SEND_CALL); }
static double counted_save(const struct row *row) { return counted(row, SAVE_CALL); }
static double counted_receive(const struct row *row) { return counted(row, RECEIVE_CALL); }
static double counted_check(const struct row *row) { return counted(row, CHECK_CALL); }

/* Figures that the text takes, by name. */
static const struct {
    const char *name;
    double (*figure)(const struct row *);
    const char *unit;
} figures[] = {
    {"checks", check_of_most, " µs"},
    {"checks-of-c", c_check_of_most, " µs"},
    {"send", send_of_most, " µs"},
    {"send-without-checks", send_without_checks, " µs"},
    {"rest-ratio", rest_ratio, ""},
    {"lines-ratio", lines_ratio, ""},
    {"rest-share", rest_share, "%"},
    {"pass", pass_of_archive, " ns"},
    {"pass-of-c", pass_of_c, " ns"},
    {"pass-of-rust", pass_of_rust, " ns"},
    {"chased-look", chased_look_of_archive, " ns"},
    {"chased-look-of-c", chased_look_of_c, " ns"},
    {"chased-passes", chased_passes, ""},
    {"passes-alone", passes_alone, ""},
    {"sets-to-singles", sets_to_singles, "%"},
    {"few-sets-to-singles", few_sets_to_singles, "%"},
    {"sets-to-singles-of-short", sets_to_singles_of_short, "%"},
    {"sets-to-singles-of-propagating", sets_to_singles_of_propagating, "%"},
    {"marking-pass", marking_pass_of_archive, " ns"},
    {"marking-pass-of-c", marking_pass_of_c, " ns"},
    {"marking-pass-of-rust", marking_pass_of_rust, " ns"},
    {"marking-to-line", marking_to_line, ""},
    {"marking-to-line-of-counts", marking_to_line_of_counts, ""},
    {"instructions-sheet", counted_sheet, ""},
    {"instructions-line", counted_line, ""},
    {"instructions-sets", counted_sets, ""},
    {"instructions-few-sets", counted_few_sets, ""},
    {"instructions-halves", counted_halves, ""},
    {"instructions-counts", counted_counts, ""},
    {"instructions-marked-halves", counted_marked_halves, ""},
    {"instructions-marked-counts", counted_marked_counts, ""},
    {"instructions-lasts", counted_lasts, ""},
    {"instructions-named-line", counted_named_line, ""},
    {"instructions-fall-back", counted_fall_back, ""},
    {"instructions-send", counted_send, ""},
    {"instructions-save", counted_save, ""},
    {"instructions-receive", counted_receive, ""},
    {"instructions-check", counted_check, ""},
};

/* A line of text, each {name} in it replaced by the figure's range in this run. */
static void say_line(const char *line)
{
    for (const char *at = line; *at != 0; at++) {
        if (*at != '{') {
            fputc(*at, report);
            continue;
        }
        size_t length = strcspn(at + 1, "}"), f = 0, known = sizeof figures / sizeof figures[0];
        while (f < known && (strlen(figures[f].name) != length || strncmp(figures[f].name, at + 1, length) != 0))
            f++;
        if (f == known)
            stop("the report has no figure %.*s", (int)length, at + 1);
        struct range range = range_of(figures[f].figure);
        if (range.most > 0)
            SAY("%s to %s%s", brief(range.least), brief(range.most), figures[f].unit);
        else
            SAY("(not counted)");
        at += length + 1;
    }
}

/* The text that says what was compared and why a goal is missed; a table of this run goes where a line
   `@NAME` is. */
static void say_report(const char *text, bool instructions, bool networkx)
{
    FILE *file = fopen(text, "r");
    if (file == NULL)
        stop("%s can't be read", text);
    static char line[4096];
    while (fgets(line, sizeof line, file) != NULL) {
        if (line[0] != '@') {
            say_line(line);
            continue;
        }
        line[strcspn(line, "\n")] = 0;
        const char *name = line + 1;
        if (strcmp(name, "machine") == 0) {
            SAY("| | |\n|---|---|\n| processor | %s, %s cores |\n| kit | %s |\n| C | %s, -O3 |\n| Rust | %s, opt-level 3 |\n",
                fact("BENCH_CPU"), fact("BENCH_CORES"), fact("BENCH_KIT"), fact("BENCH_GCC"), fact("BENCH_RUSTC"));
            SAY("| networkx | %s |\n| instructions | %s |\n| date | %s |\n", networkx ? fact("BENCH_NETWORKX") : "not there: no figures",
                instructions ? fact("BENCH_VALGRIND") : "valgrind is not there: no figures", fact("BENCH_DATE"));
        } else if (strcmp(name, "tables") == 0)
            say_tables();
        else if (strcmp(name, "parts") == 0)
            say_parts();
        else if (strncmp(name, "call ", 5) == 0)
            say_call(atoi(name + 5), instructions, networkx);
        else if (strcmp(name, "goals") == 0)
            say_goals();
        else if (strcmp(name, "stack") == 0)
            say_stack();
        else
            stop("%s: no such place in the report", name);
    }
    fclose(file);
}

/* Lines `LABEL<tab>KIND<tab>PATH`; the kind is history, close (no history, but looked at as closely) or other. */
static void read_rows(const char *path)
{
    FILE *file = fopen(path, "r");
    if (file == NULL)
        stop("%s can't be read", path);
    char kind[16];
    while (row_count < MOST_ROWS) {
        struct row *row = &rows[row_count];
        if (fscanf(file, " %63[^\t] %15s %255s", row->label, kind, row->path) != 3)
            break;
        row->history = strcmp(kind, "history") == 0;
        row->close = row->history || strcmp(kind, "close") == 0;
        row_count++;
    }
    fclose(file);
    for (size_t r = 0; r < row_count; r++)
        read_table(&rows[r]);
}

/* The counts less one at the processes of a set. */
static const uint16_t *ceilings_of_set(const struct row *row, uint32_t set)
{
    static uint16_t ceilings[KEEPER_MOST_PROCESSES];
    for (size_t p = 0; p < row->n; p++)
        ceilings[p] = (uint16_t)(row->counts[p] - (set >> p & 1));
    return ceilings;
}

static void compare_rows(void)
{
    for (size_t r = 0; r < row_count; r++) {
        struct row *row = &rows[r];
        compare(row);
        const uint16_t *lasts = ceilings_of_set(row, 1u | 1u << row->ends[1]);
        row->looks_of_lasts = (double)plain_looks_under(row->table, lasts);
        row->looks_of_recovery = (double)plain_looks_under(row->table, ceilings_of_set(row, UINT32_MAX));
        row->looks_of_halves = (double)plain_looks_under(row->table, row->halves);
        row->looks_of_holders = (double)plain_looks_of_holders(row->table) / (double)row->n;
        row->passes_of_recovery = (double)plain_passes_under(row->table, ceilings_of_set(row, UINT32_MAX));
        row->passes_of_halves = (double)plain_passes_under(row->table, row->halves);
        for (size_t p = 0; p < row->n; p++)
            row->passes_of_holders += (double)plain_passes_under(row->table, ceilings_of_set(row, 1u << p)) / (double)row->n;
        struct marking marking = plain_marking_under(row->table, row->halves);
        row->rounds_of_marking = (double)marking.rounds;
        row->passes_of_marking = (double)marking.passes;
    }
}

/* ------------------------------------------------------------------------------------------------- */
/* An older archive beside this one. */

static void run_beside(void *context, int which)
{
    struct call_context *c = context;
    if (c->call == CHECK_CALL)
        sink = (which == OLD ? old_keeper_check_table : keeper_check_table)(c->row->table, c->row->length);
    else
        call(c->row, which, c->call);
}

static void measure_beside(struct row *row, double budget)
{
    for (int c = 0; c < CALLS; c++)
        if (has_old(c)) {
            struct call_context context = {row, c};
            struct times times[2];
            double ratio[2];
            measure(run_beside, &context, (const int[]){ARCHIVE, OLD}, 2, budget, times, ratio);
            row->here.ratio[c][OLD] = ratio[1];
        }
}

/* The archive's time divided by the older one's, and the least and the most of it on histories. */
static void say_beside(void)
{
    SAY("| table | N | M |");
    for (int c = 0; c < CALLS; c++)
        if (has_old(c))
            SAY(" %s |", call_titles[c]);
    SAY("\n|---|---|---|");
    for (int c = 0; c < CALLS; c++)
        if (has_old(c))
            SAY("---|");
    for (size_t r = 0; r < row_count; r++) {
        SAY("\n| %s | %zu | %zu |", rows[r].label, rows[r].n, rows[r].m);
        for (int c = 0; c < CALLS; c++)
            if (has_old(c))
                SAY(" %.*f |", rows[r].here.ratio[c][OLD] < 0.1 ? 4 : 2, rows[r].here.ratio[c][OLD]);
    }
    for (int most = 0; most < 2; most++) {
        SAY("\n| histories, the %s | | |", most ? "most" : "least");
        for (int c = 0; c < CALLS; c++)
            if (has_old(c)) {
                double end = most ? 0 : 1e9;
                for (size_t r = 0; r < row_count; r++)
                    if (rows[r].history && (rows[r].here.ratio[c][OLD] > end) == most)
                        end = rows[r].here.ratio[c][OLD];
                SAY(" %.2f |", end);
            }
    }
    SAY("\n");
}

/* Measures each row and leaves what was found in a file. */
static void measure_to(const char *path, void (*measure_one)(struct row *, double), double budget)
{
    FILE *file = fopen(path, "wb");
    if (file == NULL)
        stop("%s can't be written", path);
    for (size_t r = 0; r < row_count; r++) {
        measure_one(&rows[r], budget);
        fwrite(&rows[r].here, sizeof rows[r].here, 1, file);
    }
    if (fclose(file) != 0)
        stop("%s can't be written", path);
}

int main(int argc, char **argv)
{
    if (argc == 3 && strcmp(argv[1], "instructions") == 0) {
        read_rows(argv[2]);
        count_instructions();
        return 0;
    }
    if (argc == 3 && strcmp(argv[1], "compare") == 0) {
        read_rows(argv[2]);
        compare_rows();
        fprintf(stderr, "bench: all implementations agree on %zu tables\n", row_count);
        return 0;
    }
    if (argc == 3 && strcmp(argv[1], "stack") == 0) {
        read_rows(argv[2]);
        report = stdout;
        say_stack();
        return 0;
    }
    if (argc == 4 && strcmp(argv[1], "measure") == 0) {
        read_rows(argv[2]);
        measure_to(argv[3], measure_row, 0.02);
        return 0;
    }
    if (argc == 4 && strcmp(argv[1], "beside") == 0) {
        read_rows(argv[2]);
        measure_to(argv[3], measure_beside, 0.05);
        return 0;
    }
    if (argc >= 4 && strcmp(argv[1], "ratios") == 0) {
        read_rows(argv[2]);
        take_together(argv + 3, argc - 3);
        report = stdout;
        say_beside();
        return 0;
    }
    if (argc < 7 || strcmp(argv[1], "report") != 0)
        stop("usage: bench compare ROWS, bench instructions ROWS, bench measure ROWS FIGURES, bench stack ROWS, bench report ROWS INSTRUCTIONS TEXT REPORT FIGURES..., bench beside ROWS FIGURES, or bench ratios ROWS FIGURES...");
    read_rows(argv[2]);
    compare_rows();
    take_together(argv + 6, argc - 6);
    bool instructions = read_instructions(argv[3]);
    bool networkx = measure_networkx(getenv("BENCH_FIGURE3"));
    report = fopen(argv[5], "w");
    if (report == NULL)
        stop("%s can't be written", argv[5]);
    say_report(argv[4], instructions, networkx);
    if (fclose(report) != 0)
        stop("%s can't be written", argv[5]);
    return 0;
}
