/* The fuzzer's target: the bytes of an input choose a table and a list of calls; every call is made of the
   archives and of the model (model.c), with guards round all that is lent, and any difference ends the program.

   An input is a mode byte, a table, and then calls until the bytes run out. A missing byte reads as 0.

   Mode, bit 0: the table is raw, else it is built. Raw: two bytes of length, then the bytes themselves.
   Built: N, M and the counts, then four bytes for each message; the numbers are brought into their ranges, and
   each channel's are put in turn, so that the table is accepted. Bit 1: counts are near 4,096. Bit 2: one of the
   table's numbers is then replaced by two bytes of the input. Bit 3: one byte is added to the table, or taken
   away. Bits 4 to 6 are 6: messages may be received and unsaved; are 5: they may be too, and channels are left as
   they come. Bits 5 to 7 all set: there are nearly 4,096 messages, the given ones over and over, which is slow and
   so is rare.

   A call is a byte for which call, a byte for the lengths of the answer buffer and the scratch, and its arguments.
   The low four bits of the first byte say which: 14 and 15 are the line under a list of ceilings, below them it is by
   the remainder of 7. Bit 7: the answer of a step becomes the table. The check of the table (0 and 7) has no answer:
   the listing, which takes any bytes too and no more than they, is made behind it, and its buffer is by the byte of
   lengths. Behind the line under a list of ceilings comes the line by marking, with the same list and the same room:
   bits 3 to 5 of the byte of lengths say how long its mark buffer is, bits 6 and 7 what stands in it before, and it
   takes no byte of its own. Behind that comes the question whether states can stand together: each ceiling that is
   not its count names a state, and again no byte is taken. Where bits 4 to 6 of the first byte are 5, it is asked
   once more, with names and a room by the bytes that follow. Behind the line of a set come the lines of several sets,
   this one among them, and no byte is taken: bits 3 to 5 of the byte of lengths say how long the scratch is, bits 6
   and 7 where in the list the set stands. Where bits 4 to 7 of the first byte are 5, they come once more, with a list
   and a room by the bytes that follow. With every save comes the receipt of the same list by the same process. Bits 4
   to 6 of the first byte say by which of the two answers a chain of steps goes on: by the receipt's where they are 6,
   else by the save's. */
#include "model.h"

#include <stdbool.h>
#include <stdio.h>
#include <stdlib.h>
#include <string.h>

int LLVMFuzzerTestOneInput(const uint8_t *data, size_t size);

/* The calls compared so far. */
unsigned long calls_compared;

enum {
    LARGEST_RAW = 40000,
    LARGEST_ROOM = KEEPER_LISTING_ROOM + 64,
    LARGEST_SCRATCH = KEEPER_SCRATCH_NUMBERS + 64,
    LARGEST_LIST = 65536 + 40,
    LARGEST_MARKS = 65536 + 40,
    LARGEST_SETS = 65536 + 40,
    MOST_POSITIONS = 300,
    MOST_WORK = 60000,
    GUARDS = 32
};

/* The rest of the input. */
struct input {
    const uint8_t *at, *end;
};

static unsigned byte(struct input *input)
{
    return input->at < input->end ? *input->at++ : 0;
}

static unsigned number(struct input *input)
{
    unsigned low = byte(input);
    return low + 256 * byte(input);
}

/* A table with guards, and what it was before the calls. */
static uint8_t table_bytes[GUARDS + LARGEST_RAW + GUARDS], table_before[sizeof table_bytes];
static size_t table_length;

/* What a call is lent besides, once for the archive and once for the model. */
struct loan {
    uint8_t answer[GUARDS + LARGEST_ROOM + GUARDS];
    uint16_t scratch[GUARDS + LARGEST_SCRATCH + GUARDS];
    uint16_t list[GUARDS + LARGEST_LIST + GUARDS];
    uint16_t states[GUARDS + LARGEST_LIST + GUARDS];
    uint8_t marks[GUARDS + LARGEST_MARKS + GUARDS];
    uint32_t sets[GUARDS + LARGEST_SETS + GUARDS];
    size_t written[3];
};
static struct loan before, by_archive, by_model;

/* A call with its arguments. */
enum {
    CHECK_TABLE, RECOVERY_LINE, LINE_OF_SET, SEND, SAVE, FALL_BACK, KEEP_SHEET, LINE_UNDER, LISTING, MARKED_LINE,
    RECEIVE, STAND_TOGETHER, LINES_OF_SETS
};
struct call {
    unsigned which;
    uint32_t set;
    uint16_t from, to;
    size_t entries, states, sets, numbers, marks, room;
};
static const char *const names[] = {"check_table", "recovery_line", "line_of_set", "send",        "save",
                                    "fall_back",   "keep_sheet",    "line_under",  "listing",     "marked_line",
                                    "receive",     "stand_together", "lines_of_sets"};

static uint32_t of_archive(const struct call *call, struct loan *loan)
{
    const uint8_t *table = table_bytes + GUARDS;
    uint8_t *answer = loan->answer + GUARDS;
    switch (call->which) {
    case CHECK_TABLE: return keeper_check_table(table, table_length);
    case RECOVERY_LINE: return keeper_recovery_line(table, table_length, answer, call->room, &loan->written[1]);
    case LINE_OF_SET: return keeper_line_of_set(table, table_length, call->set, answer, call->room, &loan->written[1]);
    case SEND: return keeper_send(table, table_length, call->from, call->to, answer, call->room, &loan->written[1]);
    case SAVE:
        return keeper_save(table, table_length, call->from, loan->list + GUARDS, call->entries, answer, call->room,
                           &loan->written[1]);
    case RECEIVE:
        return keeper_receive(table, table_length, call->from, loan->list + GUARDS, call->entries, answer, call->room,
                              &loan->written[1]);
    case FALL_BACK: return keeper_fall_back(table, table_length, answer, call->room, &loan->written[1]);
    case KEEP_SHEET:
        return keeper_keep_sheet(table, table_length, loan->scratch + GUARDS, call->numbers, answer, call->room,
                                 &loan->written[1]);
    case LINE_UNDER:
        return keeper_line_under(table, table_length, loan->list + GUARDS, call->entries, answer, call->room,
                                 &loan->written[1]);
    case MARKED_LINE:
        return keeper_marked_line(table, table_length, loan->list + GUARDS, call->entries, loan->marks + GUARDS,
                                  call->marks, answer, call->room, &loan->written[1]);
    case STAND_TOGETHER:
        return keeper_stand_together(table, table_length, loan->list + GUARDS, call->entries, loan->states + GUARDS,
                                     call->states, answer, call->room, &loan->written[1]);
    case LINES_OF_SETS:
        return keeper_lines_of_sets(table, table_length, loan->sets + GUARDS, call->sets, loan->scratch + GUARDS,
                                    call->numbers, answer, call->room, &loan->written[1]);
    default: return keeper_listing(table, table_length, answer, call->room, &loan->written[1]);
    }
}

static uint32_t of_model(const struct call *call, struct loan *loan)
{
    const uint8_t *table = table_bytes + GUARDS;
    uint8_t *answer = loan->answer + GUARDS;
    switch (call->which) {
    case CHECK_TABLE: return model_check_table(table, table_length);
    case RECOVERY_LINE: return model_recovery_line(table, table_length, answer, call->room, &loan->written[1]);
    case LINE_OF_SET: return model_line_of_set(table, table_length, call->set, answer, call->room, &loan->written[1]);
    case SEND: return model_send(table, table_length, call->from, call->to, answer, call->room, &loan->written[1]);
    case SAVE:
        return model_save(table, table_length, call->from, loan->list + GUARDS, call->entries, answer, call->room,
                          &loan->written[1]);
    case RECEIVE:
        return model_receive(table, table_length, call->from, loan->list + GUARDS, call->entries, answer, call->room,
                             &loan->written[1]);
    case FALL_BACK: return model_fall_back(table, table_length, answer, call->room, &loan->written[1]);
    case KEEP_SHEET:
        return model_keep_sheet(table, table_length, loan->scratch + GUARDS, call->numbers, answer, call->room,
                                &loan->written[1]);
    case LINE_UNDER:
        return model_line_under(table, table_length, loan->list + GUARDS, call->entries, answer, call->room,
                                &loan->written[1]);
    case MARKED_LINE:
        return model_marked_line(table, table_length, loan->list + GUARDS, call->entries, loan->marks + GUARDS,
                                 call->marks, answer, call->room, &loan->written[1]);
    case STAND_TOGETHER:
        return model_stand_together(table, table_length, loan->list + GUARDS, call->entries, loan->states + GUARDS,
                                    call->states, answer, call->room, &loan->written[1]);
    case LINES_OF_SETS:
        return model_lines_of_sets(table, table_length, loan->sets + GUARDS, call->sets, loan->scratch + GUARDS,
                                   call->numbers, answer, call->room, &loan->written[1]);
    default: return model_listing(table, table_length, answer, call->room, &loan->written[1]);
    }
}

static void show_bytes(const char *what, const uint8_t *bytes, size_t length)
{
    printf("%s (%zu bytes):", what, length);
    for (size_t at = 0; at < length; at++)
        printf("%s%02x", at % 2 == 0 ? " " : "", bytes[at]);
    printf("\n");
}

static void show_list(const char *what, const uint16_t *list, size_t entries)
{
    printf("%s of %zu:", what, entries);
    for (size_t at = 0; at < entries && at < MOST_POSITIONS; at++)
        printf(" %u", list[at]);
    printf("%s\n", entries > MOST_POSITIONS ? " and so on" : "");
}

static void show_sets(const uint32_t *sets, size_t entries)
{
    printf("%zu sets:", entries);
    for (size_t at = 0; at < entries && at < MOST_POSITIONS; at++)
        printf(" %#x", sets[at]);
    printf("%s\n", entries > MOST_POSITIONS ? " and so on" : "");
}

static void show_numbers(const char *what, const uint16_t *numbers, size_t length)
{
    printf("%s:", what);
    for (size_t at = 0; at < length; at++)
        printf(" %u", numbers[at]);
    printf("\n");
}

/* A listing, as far as the length written says. */
static void show_text(const char *what, const struct call *call, const struct loan *loan, uint32_t returned)
{
    if (call->which == LISTING && returned == 0 && loan->written[1] <= call->room)
        printf("%s:\n%.*s\n", what, (int)loan->written[1], (const char *)loan->answer + GUARDS);
}

static _Noreturn void differ(const char *what, const struct call *call, uint32_t got, uint32_t expected)
{
    printf("difference: %s\n", what);
    printf("call %s: set %#x, from or process %u, to %u, room %zu, scratch %zu, marks %zu\n", names[call->which],
           call->set, call->from, call->to, call->room, call->numbers, call->marks);
    show_list("list", before.list + GUARDS, call->entries);
    if (call->which == STAND_TOGETHER)
        show_list("states", before.states + GUARDS, call->states);
    if (call->which == LINES_OF_SETS)
        show_sets(before.sets + GUARDS, call->sets);
    show_bytes("table", table_before + GUARDS, table_length);
    printf("archive: number %u, length %zu; model: number %u, length %zu; length before the call %zu\n", got,
           by_archive.written[1], expected, by_model.written[1], before.written[1]);
    show_text("listing of the archive", call, &by_archive, got);
    show_text("listing of the model", call, &by_model, expected);
    show_bytes("answer buffer of the archive", by_archive.answer + GUARDS, call->room);
    show_bytes("answer buffer of the model  ", by_model.answer + GUARDS, call->room);
    if (call->which == MARKED_LINE) {
        show_bytes("marks before the call", before.marks + GUARDS, call->marks);
        show_bytes("marks of the archive ", by_archive.marks + GUARDS, call->marks);
        show_bytes("marks of the model   ", by_model.marks + GUARDS, call->marks);
    }
    if (call->which == LINES_OF_SETS) {
        show_numbers("scratch of the archive", by_archive.scratch + GUARDS, call->numbers);
        show_numbers("scratch of the model  ", by_model.scratch + GUARDS, call->numbers);
    }
    fflush(stdout);
    abort();
}

/* The bytes and numbers of a loan that a call may see, with their guards. */
static bool same_loans(const struct call *call, const char **what)
{
    size_t room = GUARDS + call->room + GUARDS;
    size_t numbers = sizeof(uint16_t) * (GUARDS + call->numbers + GUARDS);
    size_t entries = sizeof(uint16_t) * (GUARDS + call->entries + GUARDS);
    size_t states = sizeof(uint16_t) * (GUARDS + call->states + GUARDS);
    size_t sets = sizeof(uint32_t) * (GUARDS + call->sets + GUARDS);
    size_t marks = GUARDS + call->marks + GUARDS;
    *what = "the answer buffer or its guards";
    if (memcmp(by_archive.answer, by_model.answer, room) != 0)
        return false;
    *what = "the scratch or its guards";
    if (memcmp(by_archive.scratch, by_model.scratch, numbers) != 0)
        return false;
    *what = "the list or its guards";
    if (memcmp(by_archive.list, before.list, entries) != 0)
        return false;
    *what = "the list of states or its guards";
    if (memcmp(by_archive.states, before.states, states) != 0)
        return false;
    *what = "the list of sets or its guards";
    if (memcmp(by_archive.sets, before.sets, sets) != 0)
        return false;
    *what = "the marks or their guards";
    if (memcmp(by_archive.marks, by_model.marks, marks) != 0)
        return false;
    *what = "the length written or its guards";
    return memcmp(by_archive.written, by_model.written, sizeof before.written) == 0;
}

static void copy_loan(struct loan *to, const struct call *call)
{
    memcpy(to->answer, before.answer, GUARDS + call->room + GUARDS);
    memcpy(to->scratch, before.scratch, sizeof(uint16_t) * (GUARDS + call->numbers + GUARDS));
    memcpy(to->list, before.list, sizeof(uint16_t) * (GUARDS + call->entries + GUARDS));
    memcpy(to->states, before.states, sizeof(uint16_t) * (GUARDS + call->states + GUARDS));
    memcpy(to->sets, before.sets, sizeof(uint32_t) * (GUARDS + call->sets + GUARDS));
    memcpy(to->marks, before.marks, GUARDS + call->marks + GUARDS);
    memcpy(to->written, before.written, sizeof before.written);
}

/* Makes the call of both and compares. The number returned. */
static uint32_t compare(const struct call *call)
{
    const char *what;
    copy_loan(&by_model, call);
    copy_loan(&by_archive, call);
    uint32_t expected = of_model(call, &by_model);
    uint32_t got = of_archive(call, &by_archive);
    if (got != expected)
        differ("the returned number", call, got, expected);
    if (!same_loans(call, &what))
        differ(what, call, got, expected);
    if (memcmp(table_bytes, table_before, GUARDS + table_length + GUARDS) != 0)
        differ("the table or its guards were changed", call, got, expected);
    calls_compared++;
    return got;
}

/* What the buffers hold before a call: bytes that depend on the place. */
static void fill_once(void)
{
    static bool filled;
    if (filled)
        return;
    filled = true;
    for (size_t at = 0; at < sizeof before.answer; at++)
        before.answer[at] = (uint8_t)(at * 37 + 11);
    for (size_t at = 0; at < sizeof before.scratch / sizeof before.scratch[0]; at++)
        before.scratch[at] = (uint16_t)(at * 2503 + 40007);
    for (size_t at = 0; at < 3; at++)
        before.written[at] = 0x0123456789abcdef + at;
}

/* The length and the guards of the table are set, and it is kept for comparison. */
static void table_is_set(size_t length)
{
    table_length = length;
    memset(table_bytes, 0xC3, GUARDS);
    memset(table_bytes + GUARDS + length, 0x3C, GUARDS);
    memcpy(table_before, table_bytes, GUARDS + length + GUARDS);
}

static void set_number(size_t place, unsigned value)
{
    table_bytes[GUARDS + 2 * place] = (uint8_t)value;
    table_bytes[GUARDS + 2 * place + 1] = (uint8_t)(value >> 8);
}

static unsigned get_number(size_t place)
{
    return table_bytes[GUARDS + 2 * place] + 256u * table_bytes[GUARDS + 2 * place + 1];
}

static size_t raw_table(struct input *input)
{
    size_t length = number(input);
    size_t left = (size_t)(input->end - input->at);
    if (length > left)
        length = left;
    if (length > LARGEST_RAW)
        length = LARGEST_RAW;
    memcpy(table_bytes + GUARDS, input->at, length);
    input->at += length;
    return length;
}

/* Message k of a table whose sends and receipts begin at these numbers. */
struct entry {
    unsigned j, y, i, r;
};

static struct entry get_message(size_t sends, size_t receipts, size_t k)
{
    return (struct entry){get_number(sends + 2 * k), get_number(sends + 2 * k + 1), get_number(receipts + 2 * k),
                          get_number(receipts + 2 * k + 1)};
}

static void set_message(size_t sends, size_t receipts, size_t k, struct entry entry)
{
    set_number(sends + 2 * k, entry.j);
    set_number(sends + 2 * k + 1, entry.y);
    set_number(receipts + 2 * k, entry.i);
    set_number(receipts + 2 * k + 1, entry.r);
}

/* Exchanges two numbers of the table where the first is larger; a waiting receipt, 0, is above all numbers. */
static void order_numbers(size_t first, size_t second, bool receipts)
{
    unsigned a = get_number(first), b = get_number(second);
    if (receipts ? a - 1 > b - 1 : a > b) {
        set_number(first, b);
        set_number(second, a);
    }
}

/* Puts the messages of each channel in turn: its send numbers rise, and so do its receipt numbers, those that wait
   last. */
static void put_in_turn(size_t sends, size_t receipts, size_t m)
{
    for (size_t k = 0; k < m; k++)
        for (size_t later = k + 1; later < m; later++) {
            size_t send = sends + 2 * k, receipt = receipts + 2 * k;
            size_t later_send = sends + 2 * later, later_receipt = receipts + 2 * later;
            if (get_number(send) != get_number(later_send) || get_number(receipt) != get_number(later_receipt))
                continue;
            order_numbers(send + 1, later_send + 1, false);
            order_numbers(receipt + 1, later_receipt + 1, true);
        }
}

static size_t built_table(struct input *input, unsigned mode)
{
    bool any_order = (mode & 0x70) == 0x50;
    unsigned shape = byte(input);
    unsigned n = 1 + (shape < 192 ? shape % 4 : shape % 32);
    unsigned given = byte(input) % 64;
    unsigned m = given;
    if (n == 1)
        given = m = 0;
    if (given > 0 && mode >= 224)
        m = 4096 - byte(input) % 3;
    set_number(0, n);
    set_number(1, m);
    for (unsigned p = 0; p < n; p++) {
        unsigned low = byte(input);
        set_number(2 + p, (mode & 2) != 0 ? 4096 - low % 3 : 1 + low % 40);
    }
    size_t sends = 2 + n, receipts = sends + 2 * (size_t)m;
    for (unsigned k = 0; k < given; k++) {
        unsigned j = byte(input) % n;
        unsigned i = (j + 1 + byte(input) % (n - 1)) % n;
        unsigned y = byte(input);
        unsigned r = byte(input);
        /* Counts near the limit have their own high numbers. */
        unsigned of_j = get_number(2 + j), of_i = get_number(2 + i);
        y = (mode & 2) != 0 && y >= 128 ? of_j - 1 - (y - 128) : y % of_j;
        if ((mode & 0x70) == 0x60 || any_order)
            of_i++;
        r = (mode & 2) != 0 && r >= 128 ? of_i - 1 - (r - 128) : r % of_i;
        set_message(sends, receipts, k, (struct entry){j, y, i, r});
    }
    if (!any_order)
        put_in_turn(sends, receipts, given);
    /* Where there are more than are given: each several times in its place, or all of them again and again. */
    for (unsigned k = m; k-- > 0;)
        set_message(sends, receipts, k, get_message(sends, receipts, any_order ? k % given : k * given / m));
    size_t numbers = receipts + 2 * (size_t)m;
    if ((mode & 4) != 0) {
        size_t place = number(input) % numbers;
        set_number(place, number(input));
    }
    size_t length = 2 * numbers;
    if ((mode & 8) != 0)
        length = byte(input) % 2 == 0 ? length + 1 : length - 1;
    return length;
}

static void guard_list(uint16_t *list, size_t entries)
{
    for (size_t at = 0; at < GUARDS; at++) {
        list[at] = (uint16_t)(at * 7 + 50001);
        list[GUARDS + entries + at] = (uint16_t)(at * 11 + 50101);
    }
}

/* The length and the guards of the list are set. */
static void list_is_set(struct call *call, size_t entries)
{
    call->entries = entries;
    guard_list(before.list, entries);
}

/* Those of both lists of a question whether states can stand together: the list is that of the processes. */
static void names_are_set(struct call *call, size_t entries, size_t states)
{
    list_is_set(call, entries);
    call->states = states;
    guard_list(before.states, states);
}

/* A list for a save and a receipt: entries of the input, and, where the upper four bits of its byte are 3, 65,536
   more, which 16 bits don't count; or the positions that wait for the process, all or every other, perhaps with one
   of them changed, and, where these bits are 10, the positions that were received and are unsaved among them. */
static void make_list(struct input *input, struct call *call)
{
    unsigned kind = byte(input);
    uint16_t *list = before.list + GUARDS;
    size_t entries = 0;
    size_t length = table_length;
    size_t n = length >= 4 ? get_number(0) : 0, m = length >= 4 ? get_number(1) : 0;
    if (kind % 2 == 0) {
        bool is_long = (kind & 0xF0) == 0x30;
        entries = kind / 2 % (is_long ? 8 : 16);
        for (size_t at = 0; at < entries; at++)
            list[at] = (uint16_t)number(input);
        if (is_long) {
            memset(list + entries, 0xFF, sizeof(uint16_t) * 65536);
            entries += 65536;
        }
    } else if (length == 4 + 2 * n + 8 * m) {
        size_t receipts = 2 + n + 2 * m, seen = 0;
        for (size_t k = 0; k < m && entries < MOST_POSITIONS; k++) {
            unsigned r = get_number(receipts + 2 * k + 1);
            bool unsaved = (kind & 0xF0) == 0xA0 && call->from < n && r == get_number(2 + call->from);
            bool listed = get_number(receipts + 2 * k) == call->from && (r == 0 || unsaved);
            if (listed && ((kind & 2) == 0 || seen++ % 2 == 0))
                list[entries++] = (uint16_t)k;
        }
        if ((kind & 4) != 0 && entries > 0) {
            size_t place = byte(input) % entries;
            list[place] = (uint16_t)number(input);
        }
        if ((kind & 8) != 0 && entries > 1) {
            size_t place = 1 + byte(input) % (entries - 1);
            list[place] = list[place - 1];
        }
    }
    list_is_set(call, entries);
}

/* The count of a process as the table has it, accepted or not. */
static unsigned count_of(size_t p)
{
    return 6 + 2 * p <= table_length ? get_number(2 + p) : 1;
}

/* A list of ceilings: as many as there are processes, or another number of them. A byte for each process: 0 is
   its count, and from there on downwards; from 128 on upwards from 0; the last few are above the count. */
static void make_ceilings(struct input *input, struct call *call, size_t n)
{
    unsigned kind = byte(input);
    uint16_t *list = before.list + GUARDS;
    size_t entries = n;
    switch (kind & 7) {
    case 1: entries = n - (n > 0); break;
    case 2: entries = n + 1; break;
    case 3: entries = (kind & 8) != 0 ? 0 : byte(input); break;
    case 4: entries = 65536 + ((kind & 8) != 0 ? n : 0); break;
    default: break;
    }
    for (size_t p = 0; p < entries; p++) {
        if (p >= n) {
            list[p] = 65535;
            continue;
        }
        unsigned count = count_of(p);
        unsigned from = byte(input);
        if (from < 128)
            list[p] = (uint16_t)(count - from % (count + 1));
        else if (from < 250)
            list[p] = (uint16_t)((from - 128) % (count + 1));
        else if (from < 252)
            list[p] = (uint16_t)(count + 1);
        else
            list[p] = (uint16_t)(from == 252 ? 65535 : number(input));
    }
    list_is_set(call, entries);
}

/* The ceilings as names: each that is not its count names that state of its process. */
static void name_ceilings(struct call *call, size_t n)
{
    uint16_t *processes = before.list + GUARDS, *states = before.states + GUARDS;
    size_t entries = 0;
    for (size_t p = 0; p < call->entries; p++) {
        uint16_t ceiling = processes[p];
        if (p < n && ceiling == count_of(p))
            continue;
        states[entries] = ceiling;
        processes[entries++] = (uint16_t)p;
    }
    names_are_set(call, entries, entries);
}

/* What is wrong with the lists of names, by the low three bits of a byte. A list that is longer by 65,536 has a length
   that 16 bits don't tell from the other's. */
static void damage_names(struct input *input, struct call *call, size_t n, unsigned kind)
{
    uint16_t *processes = before.list + GUARDS, *states = before.states + GUARDS;
    size_t entries = call->entries;
    size_t place = (kind & 7) >= 1 && (kind & 7) <= 3 && entries > 0 ? byte(input) % entries : 0;
    switch (kind & 7) {
    case 1:
        if (entries > 0)
            processes[place] = (uint16_t)number(input);
        break;
    case 2:
        if (place > 0)
            processes[place] = processes[place - 1];
        break;
    case 3:
        if (place > 0) {
            uint16_t other = processes[place];
            processes[place] = processes[place - 1];
            processes[place - 1] = other;
        }
        break;
    case 4:
        processes[entries] = (uint16_t)n;
        states[entries] = 0;
        names_are_set(call, entries + 1, entries + 1);
        break;
    case 5:
        processes[entries] = (uint16_t)(entries > 0 ? processes[entries - 1] + 1 : 0);
        states[entries] = 0;
        names_are_set(call, entries + ((kind & 8) != 0), entries + ((kind & 8) == 0));
        break;
    case 6: {
        size_t more_processes = (kind & 8) != 0 ? 65536 : 0, more_states = (kind & 16) != 0 ? 65536 : 0;
        memset(processes + entries, 0xFF, sizeof(uint16_t) * more_processes);
        memset(states + entries, 0, sizeof(uint16_t) * more_states);
        names_are_set(call, entries + more_processes, entries + more_states);
        break;
    }
    case 7: names_are_set(call, (kind & 8) != 0 ? entries : 0, (kind & 8) != 0 ? 0 : entries); break;
    default: break;
    }
}

/* Names of the input: a byte for what is wrong with them, the set of processes, and a byte for each named state: 0 is
   the last state, and from there on downwards; from 128 on upwards from 0; the last few are the count and above. */
static void make_names(struct input *input, struct call *call, size_t n)
{
    unsigned kind = byte(input);
    uint32_t set = 0;
    for (size_t bit = 0; bit < n; bit += 8)
        set |= (uint32_t)byte(input) << bit;
    uint16_t *processes = before.list + GUARDS, *states = before.states + GUARDS;
    size_t entries = 0;
    for (size_t p = 0; p < n; p++) {
        if ((set >> p & 1) == 0)
            continue;
        unsigned count = count_of(p) > 0 ? count_of(p) : 1;
        unsigned from = byte(input);
        processes[entries] = (uint16_t)p;
        if (from < 128)
            states[entries] = (uint16_t)(count - 1 - from % count);
        else if (from < 250)
            states[entries] = (uint16_t)((from - 128) % count);
        else if (from < 252)
            states[entries] = (uint16_t)count;
        else
            states[entries] = (uint16_t)(from == 252 ? 65535 : number(input));
        entries++;
    }
    names_are_set(call, entries, entries);
    damage_names(input, call, n, kind);
}

/* The mark buffer of a line by marking: its length, and what stands in it before: bytes that depend on the place,
   or all marks, no mark, every other one. The exact length is that of the counts that the table has, accepted or
   not; 65,536 bytes, which 16 bits don't count, are lent too. */
static void make_marks(struct call *call, size_t n, unsigned lengths)
{
    unsigned fill = lengths >> 6;
    size_t sum = 0;
    for (size_t p = 0; p < n; p++)
        sum += count_of(p);
    size_t exact = KEEPER_MARKS_SIZE(sum, n);
    switch (lengths >> 3 & 7) {
    case 0: call->marks = exact; break;
    case 1: call->marks = exact - (exact > 0); break;
    case 2: call->marks = exact + 1; break;
    case 3: call->marks = sum / 8; break;
    case 4: call->marks = (sum + n) / 8; break;
    case 5: call->marks = 0; break;
    case 6: call->marks = KEEPER_MARKS_ROOM; break;
    default: call->marks = fill == 3 ? 65536 : exact + GUARDS; break;
    }
    if (call->marks > LARGEST_MARKS)
        call->marks = LARGEST_MARKS;
    for (size_t at = 0; at < GUARDS + call->marks + GUARDS; at++)
        before.marks[at] = (uint8_t)(at * 53 + 29);
    static const uint8_t fills[4] = {0, 0xFF, 0, 0x55};
    if (fill != 0)
        memset(before.marks + GUARDS, fills[fill], call->marks);
}

/* What the archive found as the line under a list of ceilings: its number, and the line where that is 0. */
struct line {
    uint32_t number;
    size_t length;
    uint8_t bytes[KEEPER_LARGEST_LINE];
};

static struct line line_found(uint32_t number)
{
    struct line line = {.number = number, .length = number == 0 ? by_archive.written[1] : 0};
    memcpy(line.bytes, by_archive.answer + GUARDS, line.length);
    return line;
}

/* The line by marking behind the line under the same ceilings, whose call this was: of the archive too, the same
   line. */
static void marking_behind(struct call *call, const struct line *under, size_t n, unsigned lengths)
{
    call->which = MARKED_LINE;
    make_marks(call, n, lengths);
    uint32_t got = compare(call);
    bool too_short = got == 19 && (under->number == 0 || under->number == 16);
    if (got != under->number && !too_short)
        differ("the number of the line by marking beside that of the line under the ceilings", call, got, under->number);
    if (got == 0 && memcmp(by_archive.answer + GUARDS, under->bytes, under->length) != 0)
        differ("the line by marking is not the line under the ceilings", call, got, under->number);
}

/* The length of the answer of a call, as the model has it; 0 where it is refused or a no. */
static size_t answer_size(const struct call *call)
{
    struct call unbounded = *call;
    unbounded.room = LARGEST_ROOM;
    memcpy(by_model.list, before.list, sizeof(uint16_t) * (GUARDS + call->entries + GUARDS));
    memcpy(by_model.states, before.states, sizeof(uint16_t) * (GUARDS + call->states + GUARDS));
    return of_model(&unbounded, &by_model) == 0 ? by_model.written[1] : 0;
}

/* Whether a line has every named state. */
static bool has_names(const struct line *line, const struct call *call)
{
    for (size_t at = 0; at < call->entries; at++)
        if (keeper_u16_at(line->bytes, 2 * (size_t)before.list[GUARDS + at]) != before.states[GUARDS + at])
            return false;
    return true;
}

/* Whether the states that the ceilings name can stand together. Of the archive too: where the list has a ceiling for
   each process, it is a yes with the line under them if that line has every named state, and a no else; a name of no
   state is a ceiling above its count. There is room for a yes, or one byte less, where the line has no answer. */
static void names_behind(struct call *call, const struct line *under, size_t n, unsigned lengths)
{
    bool is_whole = call->entries == n;
    call->which = STAND_TOGETHER;
    call->marks = 0;
    name_ceilings(call, n);
    size_t size = answer_size(call);
    if (under->number != 0 && under->number != 16 && size > 0)
        call->room = size - ((lengths & 7) == 0);
    uint32_t got = compare(call);
    if (!is_whole)
        return;
    bool is_no = got == 0 && by_archive.written[1] == 0;
    if (got != (under->number == 18 ? 22 : under->number) && !(under->number == 16 && is_no))
        differ("the number of named states beside that of the line under them", call, got, under->number);
    if (got != 0)
        return;
    if (under->number == 0 && is_no == has_names(under, call))
        differ("named states stand together where the line under them has them all, and nowhere else", call, got,
               under->number);
    if (!is_no && memcmp(by_archive.answer + GUARDS, under->bytes, under->length) != 0)
        differ("the line of named states is not the line under them", call, got, under->number);
}

/* A save and the receipt of the same list by the same process; the call is one of them, and is made last. Of the
   archive the numbers are the same, but where the save meets 14, and so are the tables, but for the count of the
   process, which the save makes larger by one. A receipt has room for its answer, or one byte less, where the save
   has no answer. */
static uint32_t save_and_receipt(const struct call *call, size_t size, unsigned lengths)
{
    static struct step {
        uint32_t number;
        uint8_t answer[KEEPER_LARGEST_TABLE];
    } save, receipt;
    struct call other = *call;
    other.which = call->which == SAVE ? RECEIVE : SAVE;
    size_t size_of_other = answer_size(&other);
    if (size == 0 && size_of_other > 0)
        other.room = size_of_other - ((lengths & 7) == 0);
    const struct call *const calls[2] = {&other, call};
    for (int at = 0; at < 2; at++) {
        struct step *step = calls[at]->which == SAVE ? &save : &receipt;
        step->number = compare(calls[at]);
        if (step->number == 0)
            memcpy(step->answer, by_archive.answer + GUARDS, by_archive.written[1]);
    }
    bool full = save.number == 14 && (receipt.number == 0 || receipt.number == 16);
    if (save.number != receipt.number && !full)
        differ("the number of a save beside that of the receipt", call, save.number, receipt.number);
    if (save.number == 0) {
        size_t count = 4 + 2 * (size_t)call->from;
        keeper_put_u16(receipt.answer, count, (uint16_t)(keeper_u16_at(receipt.answer, count) + 1));
        if (memcmp(save.answer, receipt.answer, table_length) != 0)
            differ("a save is not the receipt of its list and one count more", call, save.number, receipt.number);
    }
    return call->which == SAVE ? save.number : receipt.number;
}

/* The length and the guards of the list of sets are set. */
static void sets_are_set(struct call *call, size_t entries)
{
    call->sets = entries;
    for (size_t at = 0; at < GUARDS; at++) {
        before.sets[at] = (uint32_t)(at * 7 + 500000001);
        before.sets[GUARDS + entries + at] = (uint32_t)(at * 11 + 500000101);
    }
}

static uint32_t all_of(size_t n)
{
    return n >= 32 ? UINT32_MAX : (UINT32_C(1) << n) - 1;
}

/* The length of the scratch of lines of sets, by bits 3 to 5 of the byte of lengths. */
static void make_scratch(struct call *call, size_t n, unsigned lengths)
{
    switch (lengths >> 3 & 7) {
    case 1: call->numbers = n * n - (n > 0); break;
    case 2: call->numbers = n * n + 1; break;
    case 3: call->numbers = 0; break;
    case 4: call->numbers = n; break;
    case 5: call->numbers = LARGEST_SCRATCH; break;
    default: call->numbers = n * n; break;
    }
}

/* Sets of the input: a byte for how many and for what is wrong with them, then the sets, as many as its upper four
   bits say. Where its lower three bits ask for more, they go on from the first, or, where none is given, with all sets
   in their order. Bit 3: one of them has a bit at N or above, if there is such a bit. */
static void make_sets(struct input *input, struct call *call, size_t n)
{
    unsigned kind = byte(input);
    uint32_t *sets = before.sets + GUARDS;
    size_t given = kind >> 4, entries = given;
    for (size_t at = 0; at < given; at++) {
        sets[at] = 0;
        for (size_t bit = 0; bit < n; bit += 8)
            sets[at] |= (uint32_t)byte(input) << bit & all_of(n);
    }
    switch (kind & 7) {
    case 1: entries = 256; break;
    case 2: entries = 257; break;
    case 3: entries = 255; break;
    case 4: entries = 65536 + given; break;
    case 5: entries = byte(input); break;
    case 6: entries = 256 + byte(input); break;
    default: break;
    }
    for (size_t at = given; at < entries; at++)
        sets[at] = given > 0 ? sets[at % given] : (uint32_t)at & all_of(n);
    if ((kind & 8) != 0) {
        size_t place = number(input), bit = byte(input);
        if (entries > 0 && n < 32)
            sets[place % entries] |= UINT32_C(1) << (n + bit % (32 - n));
    }
    sets_are_set(call, entries);
}

/* The length of the lines of a list, refused or not; of one that is far too long that of 257 lines. */
static size_t lines_size(const struct call *call, size_t n)
{
    return KEEPER_LINES_SIZE(n, call->sets > KEEPER_MOST_SETS ? KEEPER_MOST_SETS + 1 : call->sets);
}

/* Whether the archive's line k is what its scratch says: the smallest of the lines of the set's processes, and the
   count where it has none. */
static bool is_minimum(uint32_t set, size_t k, size_t n)
{
    const uint8_t *line = by_archive.answer + GUARDS + 2 * n * k;
    for (size_t p = 0; p < n; p++) {
        unsigned least = count_of(p);
        for (size_t q = 0; q < n; q++) {
            unsigned at = by_archive.scratch[GUARDS + q * n + p];
            if ((set >> q & 1) != 0 && at < least)
                least = at;
        }
        if (keeper_u16_at(line, 2 * p) != least)
            return false;
    }
    return true;
}

/* The lines of sets, with what the archive says of them besides. */
static uint32_t compare_sets(const struct call *call, size_t n)
{
    uint32_t got = compare(call);
    for (size_t k = 0; got == 0 && k < call->sets; k++)
        if (!is_minimum(before.sets[GUARDS + k], k, n))
            differ("a line of a set is not the minimum of the lines in the scratch", call, got, got);
    return got;
}

/* The lines of several sets behind the line of a set: of none, of it without its first process and without its last,
   of all, and of each alone; and of the set itself, as the first, as the last, between them, or as both. Of the
   archive too: its line is the same, and the numbers are, as far as both calls make a check. There is room for all
   lines, one byte less, more, or none. */
static void sets_behind(struct call *call, const struct line *alone, size_t n, unsigned lengths)
{
    uint32_t *sets = before.sets + GUARDS, set = call->set;
    uint32_t last = set;
    while ((last & (last - 1)) != 0)
        last &= last - 1;
    size_t entries = 0;
    unsigned place = lengths >> 6;
    if (place == 0 || place == 1)
        sets[entries++] = set;
    sets[entries++] = 0;
    sets[entries++] = set & (set - 1) & all_of(n);
    if (place == 3)
        sets[entries++] = set;
    sets[entries++] = set & ~last & all_of(n);
    sets[entries++] = all_of(n);
    for (size_t p = 0; p < n; p++)
        sets[entries++] = UINT32_C(1) << p;
    if (place == 0 || place == 2)
        sets[entries++] = set;
    sets_are_set(call, entries);
    call->which = LINES_OF_SETS;
    make_scratch(call, n, lengths);
    call->room = lines_size(call, n);
    switch (lengths & 7) {
    case 0: call->room -= n > 0; break;
    case 1: call->room += GUARDS; break;
    case 2: call->room = 0; break;
    default: break;
    }
    uint32_t got = compare_sets(call, n);
    bool checked_here = got == 15 || got == 16;
    bool made_by_both = alone->number != 0 && alone->number != 16;
    if (made_by_both ? got != alone->number : got != 0 && !checked_here)
        differ("the number of the lines of sets beside that of the line of one", call, got, alone->number);
    for (size_t k = 0; got == 0 && alone->number == 0 && k < entries; k++)
        if (sets[k] == set && memcmp(by_archive.answer + GUARDS + 2 * n * k, alone->bytes, alone->length) != 0)
            differ("the line of a set among others is not its line", call, got, alone->number);
}

/* The room of a call whose answer has so many bytes. */
static void make_room(struct input *input, struct call *call, size_t answer, unsigned lengths)
{
    switch (lengths & 7) {
    case 0: call->room = answer > 0 ? answer - 1 : 0; break;
    case 1: call->room = answer + 1 + byte(input) % 40; break;
    case 2: call->room = 0; break;
    case 3: call->room = byte(input); break;
    case 4:
        if (call->which == LISTING)
            call->room = KEEPER_LISTING_ROOM;
        else
            call->room = answer > 0 ? number(input) % answer : 0;
        break;
    default: call->room = answer; break;
    }
}

static void one_call(struct input *input)
{
    unsigned first = byte(input), lengths = byte(input);
    struct call call = {.which = (first & 15) < 14 ? (first & 15) % 7 : LINE_UNDER};
    size_t n = table_length >= 2 ? get_number(0) : 0;
    n = n > 32 ? 32 : n;
    if (call.which == CHECK_TABLE) {
        compare(&call);
        call.which = LISTING;
    }
    if (call.which == LINE_OF_SET) {
        unsigned kind = byte(input);
        call.set = kind % 2 == 0 ? kind / 2 : number(input) + 65536u * number(input);
    }
    if (call.which == SEND || call.which == SAVE) {
        unsigned named = byte(input);
        call.from = (uint16_t)(named == 255 ? number(input) : named % (n + 1));
        named = call.which == SEND ? byte(input) : 0;
        call.to = (uint16_t)(named == 255 ? number(input) : named % (n + 1));
    }
    if (call.which == SAVE) {
        make_list(input, &call);
        if ((first & 0x70) == 0x60)
            call.which = RECEIVE;
    }
    if (call.which == LINE_UNDER)
        make_ceilings(input, &call, n);
    if (call.which == KEEP_SHEET) {
        switch (lengths >> 5) {
        case 0: call.numbers = n * n - (n > 0); break;
        case 1: call.numbers = n * n + 1; break;
        case 2: call.numbers = byte(input); break;
        case 3: call.numbers = 1024 + byte(input) % 32; break;
        default: call.numbers = n * n; break;
        }
    }
    size_t answer = answer_size(&call);
    make_room(input, &call, answer, lengths);
    bool lists = call.which == SAVE || call.which == RECEIVE;
    uint32_t got = lists ? save_and_receipt(&call, answer, lengths) : compare(&call);
    if (call.which == LINE_UNDER) {
        struct line under = line_found(got);
        marking_behind(&call, &under, n, lengths);
        names_behind(&call, &under, n, lengths);
        if ((first & 0x70) == 0x50) {
            make_names(input, &call, n);
            make_room(input, &call, 2 * n, lengths);
            compare(&call);
        }
    }
    if (call.which == LINE_OF_SET) {
        struct line alone = line_found(got);
        sets_behind(&call, &alone, n, lengths);
        if ((first & 0xF0) == 0x50) {
            make_sets(input, &call, n);
            make_room(input, &call, lines_size(&call, n), lengths);
            compare_sets(&call, n);
        }
    }
    bool step = lists || call.which == SEND || call.which == FALL_BACK;
    if ((first & 128) != 0 && step && got == 0) {
        memcpy(table_bytes + GUARDS, by_archive.answer + GUARDS, by_archive.written[1]);
        table_is_set(by_archive.written[1]);
    }
}

int LLVMFuzzerTestOneInput(const uint8_t *data, size_t size)
{
    struct input input = {data, data + size};
    fill_once();
    unsigned mode = byte(&input);
    table_is_set((mode & 1) != 0 ? raw_table(&input) : built_table(&input, mode));
    /* Fewer calls where the table is long. */
    for (size_t work = 0; work < MOST_WORK && input.at < input.end; work += 2000 + table_length)
        one_call(&input);
    return 0;
}
