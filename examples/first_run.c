/* A first run over keeper.h: a table of two processes is made and stepped, its keep sheets say what must
   be kept, its lines what a failure would cost, and the run falls back. Contents are not stored here; the prints say what a store would do.

   cc -Iinclude -o first_run examples/first_run.c target/staticlib/libkeeper.a */
#include <stdint.h>
#include <stdio.h>
#include <stdlib.h>

#include "keeper.h"

/* Places in a table and a sheet, in bytes (docs/MANUAL.md, "The run table", "The keep sheet"). */
static size_t count_at(size_t process) { return 4 + 2 * process; }

static size_t receipt_at(size_t n, size_t m, size_t position) { return 4 + 2 * n + 4 * m + 4 * position; }

/* A run: its table, and a second buffer, since a step reads one table and writes another. */
struct run {
    uint8_t buffer[2][KEEPER_LARGEST_TABLE];
    int now; /* which of the two has the table */
    size_t length;
};

static const uint8_t *table(const struct run *run) { return run->buffer[run->now]; }

static uint8_t *other(struct run *run) { return run->buffer[1 - run->now]; }

/* Every call answers a number, and every number is looked at. */
static void must(const char *call, uint32_t number)
{
    if (number != KEEPER_OK) {
        fprintf(stderr, "first_run: %s: refused %u: %s\n", call, (unsigned)number, keeper_refusal_words(number));
        exit(1);
    }
}

/* What a step wrote is the run's table from here on. A refused step wrote nothing. */
static void stepped(struct run *run, const char *call, uint32_t number, size_t written)
{
    must(call, number);
    run->now = 1 - run->now;
    run->length = written;
}

/* The table of a run that begins: n processes with one checkpoint each, and no messages. */
static void begin(struct run *run, uint16_t n)
{
    uint8_t *first;
    uint16_t p;

    run->now = 0;
    run->length = KEEPER_TABLE_SIZE(n, 0);
    first = run->buffer[0];
    keeper_put_u16(first, 0, n); /* N */
    keeper_put_u16(first, 2, 0); /* M */
    for (p = 0; p < n; p++)
        keeper_put_u16(first, count_at(p), 1);
    must("keeper_check_table", keeper_check_table(table(run), run->length));
}

static void send_message(struct run *run, uint16_t from, uint16_t to)
{
    size_t written = 0;
    unsigned position = keeper_u16_at(table(run), 2);
    uint32_t number = keeper_send(table(run), run->length, from, to, other(run), KEEPER_LARGEST_TABLE, &written);

    stepped(run, "keeper_send", number, written);
    printf("process %u sends to process %u: message %u\n", (unsigned)from, (unsigned)to, position);
}

/* A process receives the messages at these positions, and does not save them yet. */
static void receive_messages(struct run *run, uint16_t process, const uint16_t *list, size_t list_length)
{
    size_t k, written = 0;
    uint32_t number = keeper_receive(table(run), run->length, process, list, list_length, other(run),
                                     KEEPER_LARGEST_TABLE, &written);

    stepped(run, "keeper_receive", number, written);
    printf("process %u receives", (unsigned)process);
    for (k = 0; k < list_length; k++)
        printf("%s message %u", k == 0 ? "" : " and", (unsigned)list[k]);
    printf(", not saved yet\n");
}

/* A save of a process that has received the messages at these positions, and others before. Of all that it
   saves the receipt number is that of the checkpoint. */
static void save_checkpoint(struct run *run, uint16_t process, const uint16_t *list, size_t list_length)
{
    size_t k, n = keeper_u16_at(table(run), 0), m = keeper_u16_at(table(run), 2), written = 0;
    unsigned checkpoint = keeper_u16_at(table(run), count_at(process));
    const char *before = ", having received";
    uint32_t number = keeper_save(table(run), run->length, process, list, list_length, other(run),
                                  KEEPER_LARGEST_TABLE, &written);

    stepped(run, "keeper_save", number, written);
    printf("process %u saves: checkpoint %u", (unsigned)process, checkpoint);
    for (k = 0; k < m; k++) {
        size_t receipt = receipt_at(n, m, k);
        if (keeper_u16_at(table(run), receipt) != process || keeper_u16_at(table(run), receipt + 2) != checkpoint)
            continue;
        printf("%s %u", before, (unsigned)k);
        before = " and";
    }
    printf("\n");
}

/* Prints what the run would lose if a process failed now: it starts again from a checkpoint, and the others
   go on as they are where they have received nothing that it would no longer have sent. */
static void print_failure(const struct run *run, uint16_t failed)
{
    uint8_t line[KEEPER_LARGEST_LINE];
    size_t written = 0;
    unsigned process, n = keeper_u16_at(table(run), 0);

    must("keeper_line_of_set", keeper_line_of_set(table(run), run->length, (uint32_t)1 << failed, line, sizeof line,
                                                  &written));
    printf("if process %u failed now:\n", (unsigned)failed);
    for (process = 0; process < n; process++) {
        unsigned number = keeper_u16_at(line, 2 * (size_t)process);
        if (number == keeper_u16_at(table(run), count_at(process)))
            printf("    process %u goes on as it is\n", process);
        else
            printf("    process %u goes back to its checkpoint %u\n", process, number);
    }
}

static int is_kept_checkpoint(const uint8_t *sheet, unsigned process, unsigned number)
{
    size_t at, k = keeper_u16_at(sheet, 0);

    for (at = 4; at < 4 + 2 * k; at += 2)
        if (keeper_u16_at(sheet, at) == process && keeper_u16_at(sheet, at + 2 * k) == number)
            return 1;
    return 0;
}

static int is_kept_message(const uint8_t *sheet, unsigned position)
{
    size_t at, k = keeper_u16_at(sheet, 0), q = keeper_u16_at(sheet, 2);

    for (at = 4 + 4 * k; at < KEEPER_SHEET_SIZE(k, q); at += 2)
        if (keeper_u16_at(sheet, at) == position)
            return 1;
    return 0;
}

/* Makes the keep sheet and prints for each checkpoint and message whether its contents must be kept. What
   may be discarded are contents alone: no entry of the table is dropped. */
static void print_sheet(const struct run *run)
{
    static uint16_t scratch[KEEPER_SCRATCH_NUMBERS];
    static uint8_t sheet[KEEPER_SHEET_ROOM];
    size_t written = 0;
    unsigned process, number, position;
    unsigned n = keeper_u16_at(table(run), 0), m = keeper_u16_at(table(run), 2);

    must("keeper_keep_sheet", keeper_keep_sheet(table(run), run->length, scratch, KEEPER_SCRATCH_NUMBERS, sheet,
                                                sizeof sheet, &written));
    printf("the sheet, %u bytes:\n", (unsigned)written);
    for (process = 0; process < n; process++)
        for (number = 0; number < keeper_u16_at(table(run), count_at(process)); number++)
            printf("    %s checkpoint %u of process %u\n",
                   is_kept_checkpoint(sheet, process, number) ? "keep   " : "discard", number, process);
    for (position = 0; position < m; position++)
        printf("    %s message %u\n", is_kept_message(sheet, position) ? "keep   " : "discard", position);
}

/* The whole run falls back to its recovery line. From here on, numbers above the line and positions are
   used again: contents are best stored under names that never are. */
static void fall_back(struct run *run)
{
    uint8_t line[KEEPER_LARGEST_LINE];
    size_t written = 0;
    unsigned process, position, n = keeper_u16_at(table(run), 0), m;
    uint32_t number;

    must("keeper_recovery_line", keeper_recovery_line(table(run), run->length, line, sizeof line, &written));
    number = keeper_fall_back(table(run), run->length, other(run), KEEPER_LARGEST_TABLE, &written);
    stepped(run, "keeper_fall_back", number, written);

    printf("the run falls back:\n");
    for (process = 0; process < n; process++)
        printf("    process %u is restored from its checkpoint %u\n", process, (unsigned)keeper_u16_at(line, 2 * (size_t)process));
    m = keeper_u16_at(table(run), 2);
    for (position = 0; position < m; position++) {
        size_t receipt = receipt_at(n, m, position);
        if (keeper_u16_at(table(run), receipt + 2) == 0)
            printf("    message %u is delivered again to process %u\n", position,
                   (unsigned)keeper_u16_at(table(run), receipt));
    }
}

int main(void)
{
    static struct run run;
    static const uint16_t first[] = {0}, second[] = {1}, third[] = {2}, both[] = {1, 2};
    size_t written = 0;
    uint32_t number;

    begin(&run, 2);
    printf("a run of two processes begins, with checkpoint 0 of each\n");
    send_message(&run, 0, 1);
    save_checkpoint(&run, 1, first, 1);
    save_checkpoint(&run, 0, NULL, 0);
    print_sheet(&run);

    send_message(&run, 1, 0);
    print_failure(&run, 1);
    receive_messages(&run, 0, second, 1);
    print_failure(&run, 1);
    save_checkpoint(&run, 1, NULL, 0);
    print_failure(&run, 1);
    send_message(&run, 1, 0);
    save_checkpoint(&run, 0, third, 1);
    print_sheet(&run);

    /* A step that can't be made: the number says why, and nothing is changed. */
    number = keeper_send(table(&run), run.length, 0, 0, other(&run), KEEPER_LARGEST_TABLE, &written);
    if (number != KEEPER_SEND_TO_ITSELF) {
        fprintf(stderr, "first_run: a send of process 0 to itself answered %u\n", (unsigned)number);
        return 1;
    }
    printf("process 0 can't send to itself: refused %u: %s\n", (unsigned)number, keeper_refusal_words(number));

    fall_back(&run);
    print_sheet(&run);

    /* A channel delivers in the order sent: message 1 waits again, and what is sent behind it can't be received
       before it. */
    send_message(&run, 1, 0);
    number = keeper_receive(table(&run), run.length, 0, third, 1, other(&run), KEEPER_LARGEST_TABLE, &written);
    if (number != KEEPER_MESSAGE_PASSED_OVER) {
        fprintf(stderr, "first_run: a receipt of message 2 before message 1 answered %u\n", (unsigned)number);
        return 1;
    }
    printf("process 0 can't receive message 2 alone: refused %u: %s\n", (unsigned)number, keeper_refusal_words(number));
    receive_messages(&run, 0, both, 2);
    return 0;
}
