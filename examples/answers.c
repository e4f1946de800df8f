/* The answers of a log from standard input, and at the end whether each is settled.

       gcc -I include -o answers examples/answers.c target/staticlib/libthiraduan.a && ./answers <log */
#include <stdio.h>
#include <string.h>
#include <thiraduan.h>

enum { SLOTS = 4, LONGEST_LOG = 65536, MOST_ANSWERS = 1024 };

static uint8_t cache[SLOTS * THIRADUAN_SLOT_BYTES];
static uint8_t log_bytes[LONGEST_LOG];
static uint64_t epochs[MOST_ANSWERS];

int main(void)
{
    static const uint8_t set_key[] = "an office's key!";
    uint8_t state[THIRADUAN_STATE_BYTES];
    size_t length = fread(log_bytes, 1, sizeof log_bytes, stdin), answers = 0;

    if (thiraduan_open(set_key, cache, sizeof cache, state) != THIRADUAN_ACCEPTED)
        return 1;
    for (size_t at = 0; at < length;) {
        uint64_t told[2];
        uint32_t verdict = thiraduan_step(log_bytes + at, length - at, state, cache, sizeof cache, told);
        uint64_t used, numbers[THIRADUAN_NUMBERS];
        uint8_t key[THIRADUAN_KEY_BYTES], value[THIRADUAN_VALUE_BYTES];

        if (verdict != THIRADUAN_ACCEPTED)
            printf("byte %zu: refused with %u\n", at, (unsigned)verdict);
        if (verdict == THIRADUAN_NOT_WELL || verdict == THIRADUAN_SHORT)
            break;
        if (told[1] != 0 && answers < MOST_ANSWERS) {
            /* an answer, to be used at once by whoever takes provisional ones; its key begins behind two bytes of length */
            thiraduan_read(log_bytes + at, length - at, &used, numbers, key, value);
            printf("byte %zu: answer %zu, key %02x%02x%02x%02x.., ", at, answers, key[2], key[3], key[4], key[5]);
            if (value[0] == 1)
                printf("fingerprint %02x%02x%02x%02x.., ", value[1], value[2], value[3], value[4]);
            else
                printf("none, ");
            printf("epoch %llu, provisional\n", (unsigned long long)told[1]);
            epochs[answers++] = told[1];
        }
        at += told[0];
    }
    for (size_t i = 0; i < answers; i++) {
        uint8_t yes;
        if (thiraduan_settled(state, epochs[i], &yes) != THIRADUAN_ACCEPTED)
            return 1;
        printf("answer %zu: %s\n", i, yes ? "settled" : "still open");
    }
    return 0;
}
