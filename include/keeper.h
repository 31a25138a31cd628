/* keeper.h: recovery lines, steps and keep sheets of checkpointed runs. Link libkeeper.a (-lkeeper);
   nothing else is needed. Tables have the format that run_table.h describes. That header is included for
   the words of the table's checks; its own calls are in librun_table.a (-lrun_table).

   What holds of every call:

   Lent memory. Each table, list, scratch, mark buffer and answer buffer is a pointer and a length. The
   lengths of tables, mark buffers and answer buffers count bytes, those of lists and scratches 16-bit
   numbers, and that of a list of sets 32-bit numbers. Where a length is 0 its pointer may be NULL; where it
   is not, the pointer must point to that much. `written` is never NULL. No two things lent to one call may
   overlap, `*written` included. Tables, mark buffers and answer buffers may stand at any address; lists,
   scratches and `written` at one that suits their type. A call touches nothing but what it is lent, and
   only reads tables and lists.

   The number. A call returns KEEPER_OK, or the number of the first of its checks that catches. It makes
   them in the checking order, in which enum keeper_refusal lists them, and each covers the whole table,
   or the whole list, before the next begins. That order is a list of its own: a smaller number does not
   say that its check comes first. A table is accepted where none of the table's checks catches.

   Success. The answer stands at the front of the answer buffer and its length in bytes in `*written`;
   what lies beyond the answer in the buffer is unchanged. The numbers of an answer have 16 bits, low
   byte first. Two answers have no bytes: the no of keeper_stand_together, and the lines of no sets.

   Refusal. Nothing lent is changed, neither `*written` nor the answer buffer nor marks nor scratch, in any
   byte. There is one exception, which stands at keeper_keep_sheet.

   What a call returns and writes, that it touches nothing else and that it always returns: all this is
   proved, for any contents and lengths, given that what is lent is there, does not overlap and is left
   alone until the call returns. A call allocates nothing and keeps nothing from one call to the next, so
   that several threads may call at once, each with memory of its own to write to. What is static inline
   here stands in no archive, and is tested and not proved. Tested, too, is that no call raises a floating
   point flag.

   Stack. At each call stands the most that it was measured to use on x86-64, in bytes, its return address
   included. */
#ifndef KEEPER_H
#define KEEPER_H

#include <stddef.h>
#include <stdint.h>

#include "run_table.h"

#ifdef __cplusplus
extern "C" {
#endif

/* The version of this header and of its archive; the three numbers are for the preprocessor too. */
#define KEEPER_VERSION "0.7.2"
#define KEEPER_VERSION_MAJOR 0
#define KEEPER_VERSION_MINOR 7
#define KEEPER_VERSION_PATCH 2

/* What a call returns, in checking order. Later versions may return further numbers, whose checks stand
   anywhere in that order. */
enum keeper_refusal {
    KEEPER_OK = 0,
    /* Of the table, in every call that checks it; these are the table's checks: */
    KEEPER_TABLE_TOO_SHORT = 1,            /* the table has fewer than 4 bytes */
    KEEPER_PROCESSES_OUT_OF_RANGE = 2,     /* N is 0 or above 32 */
    KEEPER_TOO_MANY_MESSAGES = 3,          /* M is above 4,096 */
    KEEPER_WRONG_LENGTH = 4,               /* the length differs from 4 + 2N + 8M */
    KEEPER_COUNT_OUT_OF_RANGE = 5,         /* a count is 0 or above 4,096 */
    KEEPER_UNKNOWN_PROCESS_IN_MESSAGE = 6, /* a sender or receiver is N or above */
    KEEPER_MESSAGE_TO_ITS_SENDER = 7,      /* a message has the same sender and receiver */
    KEEPER_SEND_NUMBER_TOO_HIGH = 8,       /* a send number is not below the sender's count */
    KEEPER_RECEIPT_NUMBER_TOO_HIGH = 9,    /* a receipt number is above the receiver's count */
    KEEPER_CHANNEL_OUT_OF_ORDER = 23,      /* of two messages with the same sender and receiver the later one
                                              has a smaller send number, or is received while the earlier
                                              one waits, or, where both are received, has a smaller
                                              receipt number */
    /* Of the other arguments, on an accepted table: */
    KEEPER_UNKNOWN_PROCESS = 10,           /* a process named in a send, save or receipt is N or above */
    KEEPER_SEND_TO_ITSELF = 11,            /* a send names one process twice */
    KEEPER_TOO_MANY_SETS = 25,             /* there are more than 256 sets */
    KEEPER_UNKNOWN_PROCESS_IN_SET = 12,    /* a set has a bit at N or above */
    KEEPER_WRONG_CEILING_COUNT = 17,       /* the list of ceilings does not have N numbers */
    KEEPER_CEILING_TOO_HIGH = 18,          /* a ceiling is above its process's count */
    KEEPER_UNEQUAL_LISTS = 20,             /* the lists of named processes and of their states are of unequal
                                              length */
    KEEPER_BAD_NAMED_PROCESS = 21,         /* a named process is N or above, or not above the one before it */
    KEEPER_NAMED_STATE_TOO_HIGH = 22,      /* a named state is not below its process's count */
    KEEPER_BAD_LIST = 13,                  /* the list of a save or receipt has a position of M or above,
                                              or not above the one before it, or of a message not waiting
                                              for that process */
    KEEPER_MESSAGE_PASSED_OVER = 24,       /* the list of a save or receipt passes over an older waiting
                                              message with the same sender and receiver */
    KEEPER_TABLE_FULL = 14,                /* a send meets M = 4,096, or a save meets a count of 4,096 */
    KEEPER_MARKS_TOO_SHORT = 19,           /* the mark buffer is shorter than (sum of counts + N) / 8
                                              bytes, rounded up */
    KEEPER_SCRATCH_TOO_SHORT = 15,         /* the scratch is shorter than N * N numbers */
    KEEPER_ANSWER_TOO_SHORT = 16           /* the answer buffer is shorter than the answer */
};

/* The check of a refusal in words, for a message to people. Any number may be given: of 0, and of one that
   this header does not know, the text says so. It is never NULL, and is not to be freed. */
static inline const char *keeper_refusal_words(uint32_t refusal)
{
    switch (refusal) {
    case KEEPER_UNKNOWN_PROCESS: return "a process named in a send, save or receipt is N or above";
    case KEEPER_SEND_TO_ITSELF: return "a send names one process twice";
    case KEEPER_TOO_MANY_SETS: return "there are more than 256 sets";
    case KEEPER_UNKNOWN_PROCESS_IN_SET: return "a set has a bit at N or above";
    case KEEPER_WRONG_CEILING_COUNT: return "the list of ceilings does not have N numbers";
    case KEEPER_CEILING_TOO_HIGH: return "a ceiling is above its process's count";
    case KEEPER_UNEQUAL_LISTS:
        return "the lists of named processes and of their states are of unequal length";
    case KEEPER_BAD_NAMED_PROCESS: return "a named process is N or above, or not above the one before it";
    case KEEPER_NAMED_STATE_TOO_HIGH: return "a named state is not below its process's count";
    case KEEPER_BAD_LIST:
        return "the list of a save or receipt has a position of M or above, or not above the one before it, "
               "or of a message not waiting for that process";
    case KEEPER_MESSAGE_PASSED_OVER:
        return "the list of a save or receipt passes over an older waiting message with the same sender and "
               "receiver";
    case KEEPER_TABLE_FULL: return "a send meets M = 4,096, or a save meets a count of 4,096";
    case KEEPER_MARKS_TOO_SHORT:
        return "the mark buffer is shorter than (sum of counts + N) / 8 bytes, rounded up";
    case KEEPER_SCRATCH_TOO_SHORT: return "the scratch is shorter than N * N numbers";
    case KEEPER_ANSWER_TOO_SHORT: return "the answer buffer is shorter than the answer";
    default: return run_table_refusal_words(refusal); /* the table's checks, 0, and what is not known */
    }
}

/* The limits of a table. */
#define KEEPER_MOST_PROCESSES 32
#define KEEPER_MOST_MESSAGES 4096
#define KEEPER_MOST_CHECKPOINTS 4096

/* The most sets that keeper_lines_of_sets takes. */
#define KEEPER_MOST_SETS 256

/* Room that is enough for every table, so that check 15, 16 or 19 never catches. */
#define KEEPER_LARGEST_TABLE 32836  /* bytes: the answer of a step */
#define KEEPER_LARGEST_LINE 64      /* bytes: a line */
#define KEEPER_LINES_ROOM 16384     /* bytes: the lines of 256 sets */
#define KEEPER_MARKS_ROOM 16388     /* bytes: the marks of keeper_marked_line */
#define KEEPER_SCRATCH_NUMBERS 1024 /* 16-bit numbers: the scratch of a keep sheet, and of lines of sets */
#define KEEPER_SHEET_ROOM 12292     /* bytes: a keep sheet, of at most 1,024 checkpoints and 4,096 messages */

/* Exact sizes, for n processes, m messages, s sets, the sum of the n counts, k kept checkpoints and q kept
   messages: in bytes, but KEEPER_SCRATCH_SIZE in 16-bit numbers. They are constants where their arguments
   are. */
#define KEEPER_TABLE_SIZE(n, m) (4 + 2 * (size_t)(n) + 8 * (size_t)(m))
#define KEEPER_LINE_SIZE(n) (2 * (size_t)(n))
#define KEEPER_LINES_SIZE(n, s) (2 * (size_t)(n) * (size_t)(s))
#define KEEPER_MARKS_SIZE(sum, n) (((size_t)(sum) + (size_t)(n) + 7) / 8)
#define KEEPER_SCRATCH_SIZE(n) ((size_t)(n) * (size_t)(n))
#define KEEPER_SHEET_SIZE(k, q) (4 + 4 * (size_t)(k) + 2 * (size_t)(q))

/* The 16-bit numbers of tables, lines and sheets, low byte first on every machine. `place` counts bytes, as
   the formats do: the low byte is bytes[place] and the high byte bytes[place + 1], which both have to be
   there. So the number of process p in a line is keeper_u16_at(line, 2 * p), and a first table, of two
   processes with one checkpoint each and no messages, is made by

       uint8_t table[KEEPER_TABLE_SIZE(2, 0)];
       keeper_put_u16(table, 0, 2);    N
       keeper_put_u16(table, 2, 0);    M
       keeper_put_u16(table, 4, 1);    the count of process 0
       keeper_put_u16(table, 6, 1);    the count of process 1 */

/* The number at a place. */
static inline uint16_t keeper_u16_at(const uint8_t *bytes, size_t place)
{
    return (uint16_t)(bytes[place] | (bytes[place + 1] << 8));
}

/* Puts a number at a place. */
static inline void keeper_put_u16(uint8_t *bytes, size_t place, uint16_t number)
{
    bytes[place] = (uint8_t)(number & 0xFF);
    bytes[place + 1] = (uint8_t)(number >> 8);
}

/* The refusal of a table. Checks: the table's. Nothing is written. Stack: 2136. */
uint32_t keeper_check_table(const uint8_t *table, size_t length);

/* Lines. A line is one number for each process: that of one of its checkpoints, or its count, which
   stands for what the process has become since its last one. A message sent after checkpoint y of j and
   received before checkpoint r of i (r not 0) is an orphan of a line where y is at or above the line at
   j and r at or below the line at i: received before the line, sent after it. A line without orphans is
   consistent. A message that is received and not saved yet has the count of i as its r: what i has become
   has received it, and no checkpoint of i has. So it can be an orphan just of lines that stand at the
   count of i.

   A ceiling is the highest number that a line may have at a process: that of a checkpoint, or the count.
   Of the consistent lines at or below a ceiling for each process one is the latest, at every process: the
   line under these ceilings. Lower ceilings never give a later line. A set of holding processes is one
   kind of ceilings: a holding process has its last checkpoint (its count less one), any other its count. */

/* The recovery line of the run: the latest consistent line at whose every process stands a checkpoint
   that the table has: the line under the last checkpoint of each. Checks: the table's, 16. The answer is N
   numbers by process, 2N bytes. Stack: 2344. */
uint32_t keeper_recovery_line(const uint8_t *table, size_t length, uint8_t *answer, size_t room,
                              size_t *written);

/* The line of a set of processes that hold (take no checkpoint now), process p being bit p of `set`:
   the line under the set's ceilings, with no holding process above its last checkpoint; the others may
   stand at their counts, with all that they have received. So where the processes of the set have failed and
   start again from a checkpoint, it says which of the others can go on as they are, and how far back the
   rest have to go. For the set of all N it is the recovery line, for the empty one it is the counts.
   Checks: the table's, 12, 16. The answer is N numbers by process, 2N bytes. Stack: 2344. */
uint32_t keeper_line_of_set(const uint8_t *table, size_t length, uint32_t set, uint8_t *answer,
                            size_t room, size_t *written);

/* The lines of many sets of processes that hold, in one call: what keeper_line_of_set answers for each of
   them, byte for byte, one line after another in the order of the list. So a plan of what to do when
   branches fail costs little more for 256 sets than for a few: the lines of the N sets of one process each
   are found once, the line of any other set is their minimum over its processes, place by place, and that
   of the empty set is the counts. The list has `sets_length` sets, KEEPER_MOST_SETS at most, each as
   keeper_line_of_set takes it; a set may stand twice. It may be empty, and then NULL: the answer has no
   bytes then, and fits any buffer.

   Under KEEPER_OK the first N * N numbers of the scratch are the lines of single processes, N numbers each,
   that of process 0 first, as numbers of this machine, where the list is empty too; those beyond are
   unchanged. Under a refusal, 16 included, the scratch is unchanged. `numbers` counts its 16-bit numbers.
   Checks: the table's, 25, 12, 15, 16. Check 12 is of the whole list. The answer is N numbers by process for each
   set, 2N bytes times `sets_length`: the number of process p on line k is at 2 * (k * N + p). Stack: 2472. */
uint32_t keeper_lines_of_sets(const uint8_t *table, size_t length, const uint32_t *sets, size_t sets_length,
                              uint16_t *scratch, size_t numbers, uint8_t *answer, size_t room,
                              size_t *written);

/* The line under a list of ceilings, one for each process, process 0 first: the latest consistent line with
   no process above its ceiling. A ceiling may be any number from 0 to the count. It is for taking up a run
   from before something was changed: the ceiling of a process is its last checkpoint before the change, or
   its count where the change does not matter to it. No step goes to this line; a fall back goes to the
   recovery line. Nor does the keep sheet protect it: whoever discards by sheets may no longer have its
   checkpoints, or the logs of messages that cross it. Under the ceilings of a set the answer is that of
   keeper_line_of_set, byte for byte. Checks: the table's, 17, 18, 16. The answer is N numbers by process,
   2N bytes. Stack: 2424. */
uint32_t keeper_line_under(const uint8_t *table, size_t length, const uint16_t *ceilings,
                           size_t ceilings_length, uint8_t *answer, size_t room, size_t *written);

/* The line under a list of ceilings by the published marking method: the rollback propagation algorithm,
   Figure 3 of Wang and Fuchs, "Optimal Message Log Reclamation for Uncoordinated Checkpointing". Its
   checkpoint graph has the checkpoints of all processes, and at the end of each process its virtual
   checkpoint, whose number is the count. An edge leads from each of them to the next of its process, and
   for each received message one from checkpoint y of its sender to checkpoint r of its receiver, y being
   its send number and r its receipt number: the virtual one, where the message is not saved yet. A waiting
   message has none.

   The root set has one of them for each process, at first the one at the ceiling. Nothing is marked at
   first. All that is strictly reachable from the root set, by one edge or more, is marked. While one of the
   roots is marked, each marked root gives way to the latest of its process that is not marked, and all that
   is strictly reachable from the new root set is marked too; marks stay. The root set is then the line.

   It is proved that this ends, and with the line of keeper_line_under, byte for byte, for every table and
   all ceilings: two methods, one answer. What is said there of ceilings and of what may be discarded holds
   here too.

   The marks stand in the buffer lent: one bit for each checkpoint, the virtual ones included, which is
   KEEPER_MARKS_SIZE(sum of the counts, N) bytes. The buffer may be longer. What stands in it before makes no
   difference. Under KEEPER_OK these first bytes are 0, and those beyond them are unchanged. Under a refusal,
   16 and 19 included, all are unchanged. Checks: the table's, 17, 18, 19, 16. The answer is N numbers by
   process, 2N bytes. Stack: 2984. */
uint32_t keeper_marked_line(const uint8_t *table, size_t length, const uint16_t *ceilings,
                            size_t ceilings_length, uint8_t *marks, size_t marks_length, uint8_t *answer,
                            size_t room, size_t *written);

/* Whether named checkpoints can stand together: the latest consistent line that has each of them, or a no.
   The two lists name checkpoint states[k] of processes[k], k from 0 on. They are of one length, the processes
   strictly rising, and each number is that of a checkpoint: below the count. Processes that are not named may
   stand anywhere up to their counts. Both lists may be empty, and then NULL: the answer is a yes, and the
   counts.

   A no is right just as a yes is. It is given exactly when a zigzag path leads from one of the named
   checkpoints to another of them, or to itself (Xu and Netzer, "Adaptive Independent Checkpointing for
   Reducing Rollback Propagation", Definition 1). That is a chain of received messages: the first is sent by
   the process of the first checkpoint and has a send number at or above its number; each next one is sent by
   the receiver of the one before, in the interval of that receipt or a later one, so that its send number is
   at or above that receipt number less one; the last is received by the process of the second checkpoint and
   has a receipt number at or below its number. A message may be sent before the one ahead of it is received,
   if that is in one interval: this sets a zigzag path apart from a chain of cause and effect, and lets one
   lead from a checkpoint to itself. Such a checkpoint is on no consistent line at all.

   Under KEEPER_OK `*written` tells the two apart. Yes: 2N, and the answer is N numbers by process, the latest
   of all consistent lines that have the named checkpoints. No: 0, and the answer buffer is unchanged, however
   short it is: check 16 is of a yes alone. What is said at keeper_line_under of what may be discarded holds
   here too. Checks: the table's, 20, 21, 22, 16. Stack: 2376. */
uint32_t keeper_stand_together(const uint8_t *table, size_t length, const uint16_t *processes,
                               size_t processes_length, const uint16_t *states, size_t states_length,
                               uint8_t *answer, size_t room, size_t *written);

/* Steps. The answer of each is an accepted table again. It is written to another buffer than the table
   is read from. */

/* The table after a send: one message more, at position M, sent by `from` at its latest checkpoint (its
   count less one) and waiting for `to`. Checks: the table's, 10, 11, 14, 16. The answer has 8 bytes more
   than the table. Stack: 2344. */
uint32_t keeper_send(const uint8_t *table, size_t length, uint16_t from, uint16_t to, uint8_t *answer,
                     size_t room, size_t *written);

/* The table after a save: `process` takes a checkpoint, having received the messages at the listed
   positions. Their receipt number becomes its old count, and its count grows by one. With them is saved
   what it received by keeper_receive since its last checkpoint: that has the old count as its receipt number
   already, is not listed, and stays as it is. The list has `list_length` positions, strictly rising, each of
   a message that waits for the process; it may be empty, and then NULL. A channel delivers in the order sent:
   with a message the list has every message at an earlier position from the same sender that waits for the
   process too. Checks: the table's, 10, 13, 24, 14, 16. The answer is as long as the table. Stack: 2424. */
uint32_t keeper_save(const uint8_t *table, size_t length, uint16_t process, const uint16_t *list,
                     size_t list_length, uint8_t *answer, size_t room, size_t *written);

/* The table after a receipt: `process` receives the messages at the listed positions, and takes no
   checkpoint. Their receipt number becomes its count, which says: received, and not saved yet. Nothing else
   changes; the next save of the process saves them. The list is as that of keeper_save; a message that is
   received and not saved yet waits no longer, and may not be listed again, neither here nor for a save.
   Where the list is empty the answer is the table, byte for byte. A process with 4,096 checkpoints receives
   too: there is no check 14. Checks: the table's, 10, 13, 24, 16. The answer is as long as the table.
   Stack: 2456. */
uint32_t keeper_receive(const uint8_t *table, size_t length, uint16_t process, const uint16_t *list,
                        size_t list_length, uint8_t *answer, size_t room, size_t *written);

/* The table after the run has fallen back to its recovery line L: each count becomes L + 1; a message
   stays where its send number is below L at its sender, and if its receipt number is above L at its
   receiver it waits again. What was received and not saved yet is always above L: it goes or waits again.
   Those that stay keep their order and move up. Checks: the table's, 16. The answer is as long as the table
   or shorter, by 8 bytes for each message that goes. Stack: 2520.

   Numbers and positions are used again afterwards: a number above L names another checkpoint than before,
   and a position another message, since messages have gone and others have moved up. Contents that are
   stored by number or by position would be mixed up then, those that the keep sheet protects too. So store
   them by an identity of your own that is never used twice, and carry it along, with L from
   keeper_recovery_line before this call: checkpoint c of i is still there, under the same number, where c is
   at or below L at i; a message is still there where its send number is below L at its sender, and its
   position is now the number of such messages before it. */
uint32_t keeper_fall_back(const uint8_t *table, size_t length, uint8_t *answer, size_t room,
                          size_t *written);

/* The keep sheet: the checkpoints and messages whose contents must be kept, since some future of the run
   (any list of sends, receipts, saves and fall backs in which each channel delivers in the order sent) needs
   them; the contents of all others can be discarded. No entry of the table may be dropped for that.

   The sheet is about the checkpoints and messages of this table. Those that come later are not on it, and
   their contents are kept until the next sheet. After a fall back make a new one: the numbers and positions
   of the old one may name others then.

   What is kept comes from the N lines with one holding process each. Checkpoint c of i is kept where it
   exists and one of these lines has c at i. A message is kept where it is waiting, and where its send
   number is below one of these lines at its sender and its receipt number above that line at its
   receiver. One that is received and not saved yet does not wait: it is kept by such a line or not at all.

   Checks: the table's, 15, 16. The answer has 4 + 4K + 2Q bytes:

       bytes from      what
       0               K, the number of kept checkpoints
       2               Q, the number of kept messages
       4               K processes
       4 + 2K          K checkpoint numbers, parallel to the processes; by process and then by number,
                       none twice
       4 + 4K          Q positions of messages, rising

   Under KEEPER_OK, and under KEEPER_ANSWER_TOO_SHORT too, the first N * N numbers of the scratch are the
   N lines, N numbers each, that of holding process 0 first, as numbers of this machine. Under any other
   refusal, and beyond N * N always, the scratch is unchanged. `numbers` counts its 16-bit numbers.
   Stack: 2536. */
uint32_t keeper_keep_sheet(const uint8_t *table, size_t length, uint16_t *scratch, size_t numbers,
                           uint8_t *answer, size_t room, size_t *written);

#ifdef __cplusplus
}
#endif

#endif
