/* A libFuzzer harness over the C interface. Input: a byte for the slot count, a byte for what is done, the set key, then a log; or, where the
   second byte is odd, a state's bytes and a cache in front of the log, as hostile as the fuzzer makes them. What is lent ends at a page that can't be
   touched, so that a stray read or write stops the run. Checked of every step and run:
   - a refusal leaves the state and the cache as they were, and used is 0 exactly with 28, 1 and 3;
   - an answer has the current epoch, which is not settled yet;
   - what is read is written as the same bytes;
   - a run is its steps: end state, cache, entries met and accepted, bytes used. */
#include <stdio.h>
#include <stdlib.h>
#include <string.h>
#include <sys/mman.h>
#include <unistd.h>
#include "../include/thiraduan.h"

#define CHECK(fact)                                                             \
    do {                                                                        \
        if (!(fact)) {                                                          \
            fprintf(stderr, "%s:%d: not so: %s\n", __FILE__, __LINE__, #fact); \
            abort();                                                            \
        }                                                                       \
    } while (0)

enum { MOST_SLOTS = 66, MOST_CACHE = MOST_SLOTS * THIRADUAN_SLOT_BYTES, MOST_LOG = 4096, VERDICTS = 31, TAGS = 12 };

/* Which verdict which tag met: libFuzzer takes these as coverage, since the library itself is not instrumented. */
#ifdef LIBFUZZER
__attribute__((section("__libfuzzer_extra_counters")))
#endif
static uint8_t met[VERDICTS * TAGS];

/* n bytes that end at a page without access. */
static uint8_t *fenced(size_t n)
{
    size_t page = sysconf(_SC_PAGESIZE), pages = (n + page - 1) / page + 1;
    uint8_t *room = mmap(NULL, (pages + 1) * page, PROT_READ | PROT_WRITE, MAP_PRIVATE | MAP_ANONYMOUS, -1, 0);
    CHECK(room != MAP_FAILED && mprotect(room + pages * page, page, PROT_NONE) == 0);
    return room + pages * page - n;
}

static uint64_t epoch_of(const uint8_t *state)
{
    uint64_t e = 0;
    for (int i = 24; i < 32; i++)
        e = e << 8 | state[i];
    return e;
}

static void check_codec(const uint8_t *log, size_t n)
{
    uint64_t used = 7, numbers[THIRADUAN_NUMBERS], again = 7;
    uint8_t key[THIRADUAN_KEY_BYTES], value[THIRADUAN_VALUE_BYTES], out[THIRADUAN_ENTRY_BYTES];
    uint32_t verdict = thiraduan_read(log, n, &used, numbers, key, value);
    CHECK(used <= n && (verdict == THIRADUAN_SHORT) == (used == 0));
    if (verdict != THIRADUAN_ACCEPTED)
        return;
    CHECK(used <= sizeof out && thiraduan_write(numbers, key, value, out, sizeof out, &again) == THIRADUAN_ACCEPTED);
    CHECK(again == used && memcmp(out, log, used) == 0);
    CHECK(thiraduan_write(numbers, key, value, out, used - 1, &again) == THIRADUAN_NO_ROOM && again == 0);
}

int LLVMFuzzerTestOneInput(const uint8_t *data, size_t size)
{
    static uint8_t *state, *cache_end, *log_end, *run_state, *run_cache_end;
    static uint8_t before[THIRADUAN_STATE_BYTES], cache_before[MOST_CACHE];
    if (!state) {
        state = fenced(THIRADUAN_STATE_BYTES), run_state = fenced(THIRADUAN_STATE_BYTES);
        cache_end = fenced(MOST_CACHE) + MOST_CACHE, run_cache_end = fenced(MOST_CACHE) + MOST_CACHE;
        log_end = fenced(MOST_LOG) + MOST_LOG;
    }
    if (size < 18)
        return 0;
    size_t slots = data[0] % MOST_SLOTS, cache_n = slots * THIRADUAN_SLOT_BYTES;
    int hostile = data[1] & 1;
    if (hostile && data[1] & 2 && cache_n > 0)
        cache_n--;
    uint8_t *cache = cache_end - cache_n, *run_cache = run_cache_end - cache_n;
    const uint8_t *at = data + 18;
    size_t left = size - 18;

    memset(cache, 0xaa, cache_n);
    uint32_t opened = thiraduan_open(data + 2, cache, cache_n, state);
    CHECK((opened == THIRADUAN_ACCEPTED) == (cache_n % THIRADUAN_SLOT_BYTES == 0 && 2 <= slots && slots <= 64));
    if (opened != THIRADUAN_ACCEPTED)
        CHECK(opened == THIRADUAN_WRONG_CACHE && (cache_n == 0 || cache[0] == 0xaa));
    if (hostile) {
        /* the state and the front of the cache are given, as far as there are bytes */
        size_t n = left < THIRADUAN_STATE_BYTES ? left : THIRADUAN_STATE_BYTES;
        memcpy(state, at, n), at += n, left -= n;
        n = left < cache_n ? left / 2 : cache_n / 2;
        memcpy(cache, at, n), at += n, left -= n;
    }
    size_t n = left < MOST_LOG ? left : MOST_LOG;
    uint8_t *log = log_end - n;
    memcpy(log, at, n);
    memcpy(run_state, state, THIRADUAN_STATE_BYTES), memcpy(run_cache, cache, cache_n);

    uint64_t entries = 0, accepted = 0, place = 0;
    while (place < n) {
        uint64_t told[2] = {7, 7};
        check_codec(log + place, n - place);
        memcpy(before, state, THIRADUAN_STATE_BYTES), memcpy(cache_before, cache, cache_n);
        uint32_t verdict = thiraduan_step(log + place, n - place, state, cache, cache_n, told);
        CHECK(verdict < VERDICTS);
        met[verdict * TAGS + (log[place] < TAGS ? log[place] : 0)]++;
        entries++;
        if (verdict != THIRADUAN_ACCEPTED)
            CHECK(memcmp(before, state, THIRADUAN_STATE_BYTES) == 0 && memcmp(cache_before, cache, cache_n) == 0);
        if (verdict == THIRADUAN_WRONG_CACHE || verdict == THIRADUAN_NOT_WELL || verdict == THIRADUAN_SHORT)
            break;
        accepted += verdict == THIRADUAN_ACCEPTED;
        CHECK(3 <= told[0] && told[0] <= n - place);
        if (told[1]) {
            uint8_t yes = 7;
            CHECK(verdict == THIRADUAN_ACCEPTED && told[1] == epoch_of(state));
            CHECK(thiraduan_settled(state, told[1], &yes) == THIRADUAN_ACCEPTED && yes == 0);
        }
        place += told[0];
    }
    uint64_t ran[4] = {7, 7, 7, 7};
    if (thiraduan_run(log, n, run_state, run_cache, cache_n, ran) == THIRADUAN_ACCEPTED)
        CHECK(ran[1] == entries && ran[2] == accepted && ran[3] == place);
    else
        CHECK(ran[0] == 7 && ran[1] == 7 && ran[2] == 7 && ran[3] == 7);
    CHECK(memcmp(state, run_state, THIRADUAN_STATE_BYTES) == 0 && memcmp(cache, run_cache, cache_n) == 0);
    return 0;
}

#ifndef LIBFUZZER
/* Without libFuzzer: each file named is one input. */
int main(int count, char **names)
{
    static uint8_t data[1 << 16];
    for (int i = 1; i < count; i++) {
        FILE *file = fopen(names[i], "rb");
        CHECK(file != NULL);
        size_t n = fread(data, 1, sizeof data, file);
        fclose(file);
        LLVMFuzzerTestOneInput(data, n);
    }
    return 0;
}
#endif
