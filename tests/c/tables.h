/* Tables for the tests of the archives: example A of the format's document; refused tables that are A
   with one number changed or cut to another length; and accepted ones that are A with one number changed.
   C and C++. */
#ifndef TABLES_H
#define TABLES_H

#include <stddef.h>
#include <stdint.h>
#include <string.h>

/* N = 2, M = 5, counts 3 3; then the sends, then the receipts. */
#define A_NUMBERS 24
#define A_SIZE 48
static const uint16_t example_a[A_NUMBERS] = {
    2, 5, 3, 3,
    0, 0, 1, 0, 1, 1, 0, 2, 1, 2,
    1, 2, 0, 1, 0, 2, 1, 2, 0, 0,
};

/* Puts numbers as bytes, low byte first, and answers how many bytes they are. */
static size_t put_numbers(uint8_t *to, const uint16_t *numbers, size_t count)
{
    size_t i;
    for (i = 0; i < count; i++) {
        to[2 * i] = (uint8_t)(numbers[i] & 0xFF);
        to[2 * i + 1] = (uint8_t)(numbers[i] >> 8);
    }
    return 2 * count;
}

/* A with the number at a place changed, cut or filled up with zeros to a length of 64 at most. */
struct refused {
    const char *what;
    uint32_t refusal;
    size_t place;
    uint16_t number;
    size_t length;
};

static const struct refused refused_tables[] = {
    { "no bytes", 1, 0, 2, 0 },
    { "one byte", 1, 0, 2, 1 },
    { "three bytes", 1, 0, 2, 3 },
    { "three bytes, N = 33", 1, 0, 33, 3 },
    { "N = 0", 2, 0, 0, 48 },
    { "N = 33", 2, 0, 33, 48 },
    { "four bytes, N = 33", 2, 0, 33, 4 },
    { "N = 258", 2, 0, 258, 48 },
    { "M = 4,097", 3, 1, 4097, 48 },
    { "four bytes, M = 4,097", 3, 1, 4097, 4 },
    { "four bytes", 4, 0, 2, 4 },
    { "one byte less", 4, 0, 2, 47 },
    { "one byte more", 4, 0, 2, 49 },
    { "M = 6", 4, 1, 6, 48 },
    { "M = 4,096", 4, 1, 4096, 48 },
    { "first count 0", 5, 2, 0, 48 },
    { "last count 4,097", 5, 3, 4097, 48 },
    { "first sender 2", 6, 4, 2, 48 },
    { "last receiver 2", 6, 22, 2, 48 },
    { "last message to its sender", 7, 22, 1, 48 },
    { "last send (1,3)", 8, 13, 3, 48 },
    { "last receipt (0,4)", 9, 23, 4, 48 },
    { "first receipt (1,4)", 9, 15, 4, 48 },
    { "last receipt (0,259)", 9, 23, 259, 48 },
    { "last receipt (0,65535)", 9, 23, 65535, 48 },
    /* Messages 0 and 3 are from 0 to 1, and 1, 2 and 4 from 1 to 0. A smaller send number: */
    { "last send (1,0)", 23, 13, 0, 48 },
    { "second send (1,2)", 23, 7, 2, 48 },
    /* received while the earlier one waits: */
    { "message 0 waits, 3 is received", 23, 15, 0, 48 },
    { "message 1 waits, 2 is received", 23, 17, 0, 48 },
    /* a smaller receipt number: */
    { "message 3 received before 0", 23, 21, 1, 48 },
    { "message 4 received before 2", 23, 23, 1, 48 },
    { "message 0 not saved yet, 3 saved", 23, 15, 3, 48 },
    { "message 1 not saved yet, 2 saved", 23, 17, 3, 48 },
};
#define REFUSED_TABLES (sizeof refused_tables / sizeof refused_tables[0])

/* In order: equal numbers, and later ones that wait or are not saved yet. */
static const struct refused accepted_tables[] = {
    { "A", 0, 0, 2, 48 },
    { "messages 1 and 2 sent at 0", 0, 9, 0, 48 },
    { "messages 2 and 4 sent at 1", 0, 13, 1, 48 },
    { "messages 2 and 4 sent at 2", 0, 9, 2, 48 },
    { "messages 0 and 3 sent at 2", 0, 5, 2, 48 },
    { "messages 1 and 2 received at 2", 0, 17, 2, 48 },
    { "messages 1 and 2 received at 1", 0, 19, 1, 48 },
    { "messages 2 and 4 received at 2", 0, 23, 2, 48 },
    { "message 0 received at 1, 3 at 2", 0, 15, 1, 48 },
    { "message 3 not saved yet", 0, 21, 3, 48 },
    { "message 4 not saved yet", 0, 23, 3, 48 },
    { "message 2 not saved yet, 4 waits", 0, 19, 3, 48 },
    { "message 3 waits", 0, 21, 0, 48 },
    { "messages 2 and 4 wait", 0, 19, 0, 48 },
};
#define ACCEPTED_TABLES (sizeof accepted_tables / sizeof accepted_tables[0])

static size_t put_refused(uint8_t to[64], const struct refused *r)
{
    uint16_t numbers[A_NUMBERS];
    memcpy(numbers, example_a, sizeof numbers);
    numbers[r->place] = r->number;
    memset(to, 0, 64);
    put_numbers(to, numbers, A_NUMBERS);
    return r->length;
}

#endif
