/* Links librun_table.a alone and calls each of its functions, on example A and on refused tables, with
   guard bytes round the table; none may raise a floating point flag. Then asks for the words of refusals, by
   refusals.inc, which is made of docs/refusals.txt by refusals.awk. C and C++. */
#include "run_table.h"

#include "tables.h"

#include <fenv.h>
#include <stdio.h>

static int failures;

static void same(const char *what, unsigned long got, unsigned long expected)
{
    if (got != expected) {
        printf("run_table_link: %s: got %lu, expected %lu\n", what, got, expected);
        failures++;
    }
}

static void sizes(void)
{
    same("RUN_TABLE_MOST_PROCESSES", RUN_TABLE_MOST_PROCESSES, 32);
    same("RUN_TABLE_MOST_MESSAGES", RUN_TABLE_MOST_MESSAGES, 4096);
    same("RUN_TABLE_MOST_CHECKPOINTS", RUN_TABLE_MOST_CHECKPOINTS, 4096);
    same("RUN_TABLE_LARGEST", RUN_TABLE_LARGEST, 4 + 2 * 32 + 8 * 4096);
    same("RUN_TABLE_SIZE", RUN_TABLE_SIZE(1 + 1, 2 + 3), A_SIZE);
    same("RUN_TABLE_SIZE of the limits", RUN_TABLE_SIZE(RUN_TABLE_MOST_PROCESSES, RUN_TABLE_MOST_MESSAGES),
         RUN_TABLE_LARGEST);
}

/* Every function on the bytes, and N, M and the first number of each kind against those expected. */
static void no_table(const uint8_t *table, size_t length, unsigned n, unsigned m)
{
    same("N of no table", run_table_processes(table, length), n);
    same("M of no table", run_table_messages(table, length), m);
    same("count of no table", run_table_count(table, length, 0), 0);
    same("sender of no table", run_table_sender(table, length, 0), 0);
    same("sent of no table", run_table_sent(table, length, 0), 0);
    same("receiver of no table", run_table_receiver(table, length, 0), 0);
    same("received of no table", run_table_received(table, length, 0), 0);
}

#define KEEPER_REFUSAL(name, number, words)
#define RUN_TABLE_REFUSAL(name, number, words) { name, number, words },
static const struct {
    uint32_t named, number;
    const char *words;
} refusals[] = {
#include "refusals.inc"
};
#define REFUSALS (sizeof refusals / sizeof refusals[0])

static void words(void)
{
    uint32_t number;
    size_t i;
    for (number = 0; number < 300; number++) {
        const char *expected = number == 0 ? "no refusal" : "a refusal that this version does not know";
        for (i = 0; i < REFUSALS; i++)
            if (refusals[i].number == number)
                expected = refusals[i].words;
        same("run_table_refusal_words", strcmp(run_table_refusal_words(number), expected) != 0, 0);
    }
    for (i = 0; i < REFUSALS; i++)
        same("the number of a name", refusals[i].named, refusals[i].number);
    same("run_table_refusal_words of the largest number",
         strcmp(run_table_refusal_words(0xFFFFFFFFu), "a refusal that this version does not know") != 0, 0);
}

#define TEXT_OF(x) #x
#define TEXT(x) TEXT_OF(x)

static void version(void)
{
    same("RUN_TABLE_VERSION", strcmp(RUN_TABLE_VERSION, TEXT(RUN_TABLE_VERSION_MAJOR) "." TEXT(RUN_TABLE_VERSION_MINOR) "." TEXT(RUN_TABLE_VERSION_PATCH)) != 0, 0);
#if RUN_TABLE_VERSION_MAJOR < 0 || RUN_TABLE_VERSION_MINOR < 0 || RUN_TABLE_VERSION_PATCH < 0
    same("the preprocessor's RUN_TABLE_VERSION", 1, 0);
#endif
}

int main(void)
{
    uint8_t bytes[17 + 64 + 16], kept[64];
    uint8_t *table = bytes + 17;
    size_t i, k;
    memset(bytes, 0xA5, sizeof bytes);
    memset(kept, 0xA5, sizeof kept);
    put_numbers(table, example_a, A_NUMBERS);
    put_numbers(kept, example_a, A_NUMBERS);
    sizes();
    words();
    version();
    feclearexcept(FE_ALL_EXCEPT);
    same("check", run_table_check(table, 48), RUN_TABLE_OK);
    same("processes", run_table_processes(table, 48), 2);
    same("messages", run_table_messages(table, 48), 5);
    same("count 0", run_table_count(table, 48, 0), 3);
    same("count 1", run_table_count(table, 48, 1), 3);
    same("count 2", run_table_count(table, 48, 2), 0);
    same("count far beyond", run_table_count(table, 48, SIZE_MAX), 0);
    for (k = 0; k < 5; k++) {
        same("sender", run_table_sender(table, 48, k), example_a[4 + 2 * k]);
        same("sent", run_table_sent(table, 48, k), example_a[4 + 2 * k + 1]);
        same("receiver", run_table_receiver(table, 48, k), example_a[14 + 2 * k]);
        same("received", run_table_received(table, 48, k), example_a[14 + 2 * k + 1]);
    }
    for (k = 5; k < 8; k++) {
        size_t beyond = k == 7 ? SIZE_MAX : k;
        same("sender beyond", run_table_sender(table, 48, beyond), 0);
        same("sent beyond", run_table_sent(table, 48, beyond), 0);
        same("receiver beyond", run_table_receiver(table, 48, beyond), 0);
        same("received beyond", run_table_received(table, 48, beyond), 0);
    }
    /* An unsaved message is received with the count. */
    put_numbers(table + 46, &example_a[2], 1);
    same("check of an unsaved message", run_table_check(table, 48), RUN_TABLE_OK);
    same("received, unsaved", run_table_received(table, 48, 4), 3);
    put_numbers(table + 46, &example_a[23], 1);
    /* Cut in the middle of the last receipt: what stands beyond the end is 0, 0xA5 there or not. */
    same("receiver of 45 bytes", run_table_receiver(table, 45, 4), 0);
    same("sent of 27 bytes", run_table_sent(table, 27, 4), 2);
    same("sent of 26 bytes", run_table_sent(table, 26, 4), 0);
    no_table(table, 0, 0, 0);
    no_table(NULL, 0, 0, 0);
    no_table(table, 3, 2, 5);
    same("memory", memcmp(table, kept, 64) != 0, 0);
    for (i = 0; i < REFUSED_TABLES; i++) {
        size_t length = put_refused(kept, &refused_tables[i]);
        memset(table, 0xA5, 64);
        memcpy(table, kept, length);
        memset(kept + length, 0xA5, 64 - length);
        same(refused_tables[i].what, run_table_check(table, length), refused_tables[i].refusal);
        if (length == 0)
            same("NULL", run_table_check(NULL, 0), RUN_TABLE_TOO_SHORT);
        same("memory of a refused table", memcmp(table, kept, 64) != 0, 0);
    }
    for (i = 0; i < ACCEPTED_TABLES; i++) {
        size_t length = put_refused(kept, &accepted_tables[i]);
        memset(table, 0xA5, 64);
        memcpy(table, kept, length);
        memset(kept + length, 0xA5, 64 - length);
        same(accepted_tables[i].what, run_table_check(table, length), RUN_TABLE_OK);
        same("memory of an accepted table", memcmp(table, kept, 64) != 0, 0);
    }
    same("floating point flags", (unsigned long)fetestexcept(FE_ALL_EXCEPT), 0);
    for (i = 0; i < 16; i++) {
        same("guard before", bytes[i], 0xA5);
        same("guard after", bytes[17 + 64 + i], 0xA5);
    }
    if (failures == 0)
        printf("run_table_link: ok\n");
    return failures != 0;
}
