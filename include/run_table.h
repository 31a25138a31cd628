/* run_table.h: the reader of run tables. Link librun_table.a (-lrun_table); nothing else is needed.

   A run table describes a run of N processes that take checkpoints and send each other messages. It is
   made of unsigned 16-bit numbers, low byte first:

       bytes from      what
       0               N, the number of processes, 1 to 32
       2               M, the number of messages, 0 to 4,096
       4               N counts: how many checkpoints each process has, 1 to 4,096. They are numbered
                       from 0, so checkpoint c exists where c is below the count
       4 + 2N          M sends: the sender, and the number of its latest checkpoint before sending
       4 + 2N + 4M     M receipts: the receiver, and the number of its first checkpoint after receiving;
                       0 says that the message is waiting: not received yet; the receiver's count
                       says that it was received since the receiver's latest checkpoint, and is not
                       saved yet

   A table has exactly 4 + 2N + 8M bytes. Message k is entry k of sends and receipts; k, from 0, is its
   position. Two equal entries are two messages.

   The messages from one process to another are a channel. It delivers in the order sent, and they stand
   in the table in that order: of two of them the one at the later position has no smaller send number, is
   not received while the earlier one waits, and where both are received has no smaller receipt number.

   What holds of every call: the table is `length` bytes at `table`, which may stand at any address and
   may be NULL where the length is 0. Any bytes may be given. The call reads nothing else, writes nothing
   and always returns: proved, as is the number that it returns, given that the pointer and the length
   are right. It keeps nothing from one call to the next, so that several threads may call at once. What
   is static inline here stands in no archive, and is tested and not proved. Tested, too, is that no call
   raises a floating point flag. Stack: the most that a call was measured to use on x86-64, in bytes, its
   return address included. */
#ifndef RUN_TABLE_H
#define RUN_TABLE_H

#include <stddef.h>
#include <stdint.h>

#ifdef __cplusplus
extern "C" {
#endif

/* The version of this header and of its archive; the three numbers are for the preprocessor too. */
#define RUN_TABLE_VERSION "0.7.2"
#define RUN_TABLE_VERSION_MAJOR 0
#define RUN_TABLE_VERSION_MINOR 7
#define RUN_TABLE_VERSION_PATCH 2

/* The limits, and the bytes of a table with n processes and m messages. */
#define RUN_TABLE_MOST_PROCESSES 32
#define RUN_TABLE_MOST_MESSAGES 4096
#define RUN_TABLE_MOST_CHECKPOINTS 4096
#define RUN_TABLE_LARGEST 32836
#define RUN_TABLE_SIZE(n, m) (4 + 2 * (size_t)(n) + 8 * (size_t)(m))

/* What run_table_check returns, in checking order, which is a list of its own: a smaller number does not
   say that its check comes first. Later versions may return further numbers, whose checks stand anywhere
   in that order. The keeper's calls return the same numbers. */
enum run_table_refusal {
    RUN_TABLE_OK = 0,
    RUN_TABLE_TOO_SHORT = 1,                  /* the table has fewer than 4 bytes */
    RUN_TABLE_PROCESSES_OUT_OF_RANGE = 2,     /* N is 0 or above 32 */
    RUN_TABLE_TOO_MANY_MESSAGES = 3,          /* M is above 4,096 */
    RUN_TABLE_WRONG_LENGTH = 4,               /* the length differs from 4 + 2N + 8M */
    RUN_TABLE_COUNT_OUT_OF_RANGE = 5,         /* a count is 0 or above 4,096 */
    RUN_TABLE_UNKNOWN_PROCESS_IN_MESSAGE = 6, /* a sender or receiver is N or above */
    RUN_TABLE_MESSAGE_TO_ITS_SENDER = 7,      /* a message has the same sender and receiver */
    RUN_TABLE_SEND_NUMBER_TOO_HIGH = 8,       /* a send number is not below the sender's count */
    RUN_TABLE_RECEIPT_NUMBER_TOO_HIGH = 9,    /* a receipt number is above the receiver's count */
    RUN_TABLE_CHANNEL_OUT_OF_ORDER = 23       /* of two messages with the same sender and receiver the
                                                 later one has a smaller send number, or is received while
                                                 the earlier one waits, or, where both are received, has a
                                                 smaller receipt number */
};

/* The check of a refusal in words, for a message to people. Any number may be given: of 0, and of one that
   this header does not know, the text says so. It is never NULL, and is not to be freed. */
static inline const char *run_table_refusal_words(uint32_t refusal)
{
    switch (refusal) {
    case RUN_TABLE_OK: return "no refusal";
    case RUN_TABLE_TOO_SHORT: return "the table has fewer than 4 bytes";
    case RUN_TABLE_PROCESSES_OUT_OF_RANGE: return "N is 0 or above 32";
    case RUN_TABLE_TOO_MANY_MESSAGES: return "M is above 4,096";
    case RUN_TABLE_WRONG_LENGTH: return "the length differs from 4 + 2N + 8M";
    case RUN_TABLE_COUNT_OUT_OF_RANGE: return "a count is 0 or above 4,096";
    case RUN_TABLE_UNKNOWN_PROCESS_IN_MESSAGE: return "a sender or receiver is N or above";
    case RUN_TABLE_MESSAGE_TO_ITS_SENDER: return "a message has the same sender and receiver";
    case RUN_TABLE_SEND_NUMBER_TOO_HIGH: return "a send number is not below the sender's count";
    case RUN_TABLE_RECEIPT_NUMBER_TOO_HIGH: return "a receipt number is above the receiver's count";
    case RUN_TABLE_CHANNEL_OUT_OF_ORDER:
        return "of two messages with the same sender and receiver the later one has a smaller send number, "
               "or is received while the earlier one waits, or, where both are received, has a smaller "
               "receipt number";
    default: return "a refusal that this version does not know";
    }
}

/* The number of the first check that catches, or RUN_TABLE_OK where none does: the table is accepted. A
   check covers the whole table before the next begins. Stack: 2136. */
uint32_t run_table_check(const uint8_t *table, size_t length);

/* The lookups answer for a refused table too: each byte beyond the end is read as 0, N and M are what
   then stands in their places, whatever their size, and the parts follow from these two. Each uses 8 bytes
   of stack. */

/* N. */
uint16_t run_table_processes(const uint8_t *table, size_t length);

/* M. */
uint16_t run_table_messages(const uint8_t *table, size_t length);

/* The count of process p; 0 where p is N or above. */
uint16_t run_table_count(const uint8_t *table, size_t length, size_t p);

/* Of message k; 0 where k is M or above: its sender, */
uint16_t run_table_sender(const uint8_t *table, size_t length, size_t k);

/* the number of the sender's latest checkpoint before sending it, */
uint16_t run_table_sent(const uint8_t *table, size_t length, size_t k);

/* its receiver, */
uint16_t run_table_receiver(const uint8_t *table, size_t length, size_t k);

/* and the number of the receiver's first checkpoint after receiving it; 0 while it is waiting, and the
   count of the receiver while it is received and not saved yet. */
uint16_t run_table_received(const uint8_t *table, size_t length, size_t k);

#ifdef __cplusplus
}
#endif

#endif
