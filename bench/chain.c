/* `chain N M` writes a table of N processes and M messages in which all channels are in turn, and which takes nearly as
   many passes as it has messages. Its messages are a chain, each of which makes the next one an orphan. The chain goes
   through all N * (N - 1) channels, then through all of them again, and so on. Passes go from the last message to the
   first, so a message behind the one that makes it an orphan is lowered in the next pass. All messages of one way
   through the channels stand so; those of the next way stand before them, because a channel's numbers fall along
   the chain. */
#include <stdio.h>
#include <stdlib.h>

enum { MOST_PROCESSES = 32, MOST_MESSAGES = 4096 };

static void put(unsigned number)
{
    putchar((int)(number % 256));
    putchar((int)(number / 256));
}

/* The processes of one way: 0 1 0 2 ... 0 n-1, 1 2 1 3 ... 1 n-1, and so on, and then from n-1 to 0 again. */
static unsigned way(unsigned n, unsigned *process)
{
    unsigned length = 0;
    for (unsigned p = 0; p + 1 < n; p++)
        for (unsigned q = p + 1; q < n; q++) {
            process[length++] = p;
            process[length++] = q;
        }
    return length;
}

int main(int argc, char **argv)
{
    static unsigned process[MOST_PROCESSES * (MOST_PROCESSES - 1)];
    static struct message {
        unsigned sender, sent, receiver, received;
    } chain[MOST_MESSAGES], table[MOST_MESSAGES];
    unsigned n = argc == 3 ? (unsigned)atoi(argv[1]) : 0, m = argc == 3 ? (unsigned)atoi(argv[2]) : 0;
    if (n < 2 || n > MOST_PROCESSES || m > MOST_MESSAGES) {
        fprintf(stderr, "usage: chain N M\n");
        return 2;
    }
    /* Each receipt puts its process back by one state, the last one perhaps to state 0. */
    unsigned length = way(n, process), count = 1, receipts[MOST_PROCESSES] = {0}, at[MOST_PROCESSES];
    for (unsigned k = 0; k < m; k++) {
        unsigned many = ++receipts[process[(k + 1) % length]];
        count = many + 1 > count ? many + 1 : count;
    }
    for (unsigned p = 0; p < n; p++)
        at[p] = count - 1;
    for (unsigned k = 0; k < m; k++) {
        unsigned from = process[k % length], to = process[(k + 1) % length];
        chain[k] = (struct message){from, at[from], to, at[to]};
        at[to]--;
    }
    /* The last way first. */
    unsigned place = 0;
    for (unsigned end = m; end > 0;) {
        unsigned first = (end - 1) / length * length;
        for (unsigned k = first; k < end; k++)
            table[place++] = chain[k];
        end = first;
    }
    put(n);
    put(m);
    for (unsigned p = 0; p < n; p++)
        put(count);
    for (unsigned k = 0; k < m; k++) {
        put(table[k].sender);
        put(table[k].sent);
    }
    for (unsigned k = 0; k < m; k++) {
        put(table[k].receiver);
        put(table[k].received);
    }
    return 0;
}
