/* Gives each file that is named to the fuzzer's target, with no fuzzer. A difference ends the program. */
#include <signal.h>
#include <stdint.h>
#include <stdio.h>
#include <stdlib.h>

int LLVMFuzzerTestOneInput(const uint8_t *data, size_t size);
extern unsigned long calls_compared;

static const char *now;

static void say_which(int number)
{
    fprintf(stderr, "signal %d in the replay of %s\n", number, now);
    _Exit(1);
}

int main(int words, char **word)
{
    static uint8_t data[1 << 17];
    signal(SIGABRT, say_which);
    signal(SIGSEGV, say_which);
    for (int at = 1; at < words; at++) {
        now = word[at];
        FILE *file = fopen(now, "rb");
        if (file == NULL) {
            fprintf(stderr, "%s can't be read\n", now);
            return 1;
        }
        size_t size = fread(data, 1, sizeof data, file);
        fclose(file);
        LLVMFuzzerTestOneInput(data, size);
    }
    if (words < 2) {
        fprintf(stderr, "no input is named\n");
        return 1;
    }
    printf("%d inputs of the fuzzer replayed, %lu calls: the archive and the model agree\n", words - 1, calls_compared);
    return 0;
}
