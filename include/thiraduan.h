/* Thiraduan: a verified integrity checker for records on an untrusted host. C interface of libthiraduan.a.

   Every call is proved, in the language it is written in, to read and write nothing but what it is lent and to return, for every
   content of what it is lent; docs/promises.md says by which definition. A call allocates nothing, keeps nothing between calls, and may be
   used from any thread on buffers of its own. What is lent to be written must not overlap with anything else lent to the same call. A pointer to
   no bytes must still not be null.

   The result is a verdict: 0, or the number of the check that refused. A refusal leaves the state and the cache as they were.
   docs/verdicts.md says what a caller should do with each number, docs/protocol.md what the bytes are. */
#ifndef THIRADUAN_H
#define THIRADUAN_H

#include <stddef.h>
#include <stdint.h>

#ifdef __cplusplus
extern "C" {
#endif

enum {
    THIRADUAN_ACCEPTED = 0,           /* accepted */
    THIRADUAN_NOT_WELL = 1,           /* cache or state not well formed, or bytes that are no state */
    THIRADUAN_MALFORMED = 2,          /* whole entry, wrong tag, body length or content */
    THIRADUAN_SHORT = 3,              /* fewer bytes than head and body need */
    THIRADUAN_NO_SLOT = 4,            /* slot number not below the slot count */
    THIRADUAN_SLOT_TAKEN = 5,         /* slot taken */
    THIRADUAN_SLOT_EMPTY = 6,         /* slot empty */
    THIRADUAN_KEY_HELD = 7,           /* key already in the cache */
    THIRADUAN_WRONG_KIND = 8,         /* value's kind does not fit the key; p not a node; data slot holds a node */
    THIRADUAN_OTHER_KEY = 9,          /* slot holds another key */
    THIRADUAN_NO_ANCESTOR = 10,       /* p is no proper ancestor */
    THIRADUAN_NO_LINK = 11,           /* p's link is empty or names another key */
    THIRADUAN_OTHER_BRANCH = 12,      /* other branch */
    THIRADUAN_MARKED_DEFERRED = 13,   /* marked deferred */
    THIRADUAN_DIGEST_DIFFERS = 14,    /* digest differs */
    THIRADUAN_NOT_FIRST = 15,         /* not a first value */
    THIRADUAN_WRONG_ORIGIN = 16,      /* wrong origin */
    THIRADUAN_ROOT_SLOT = 17,         /* s is slot 0 */
    THIRADUAN_EPOCH_NOT_OPEN = 18,    /* epoch not open */
    THIRADUAN_TIME_OUT_OF_RANGE = 19, /* time out of range */
    THIRADUAN_COUNT_FULL = 20,        /* count at 1,000,000 */
    THIRADUAN_EPOCH_FULL = 21,        /* epoch at 1,000,000 */
    THIRADUAN_WRONG_MOMENT = 22,      /* advance with an old epoch open, or close with none */
    THIRADUAN_COUNTS_DIFFER = 23,     /* counts differ */
    THIRADUAN_SUMS_DIFFER = 24,       /* sums differ */
    THIRADUAN_VALUE_DIFFERS = 25,     /* value differs */
    THIRADUAN_ABSENCE_NOT_SHOWN = 26, /* absence not shown */
    THIRADUAN_NO_ROOM = 27,           /* writer's buffer shorter than the entry */
    THIRADUAN_WRONG_CACHE = 28,       /* cache length not 384 to 12,288 or not a multiple of 192 */
    THIRADUAN_BAD_TERM = 29,          /* bad code or term */
    THIRADUAN_TOO_LONG = 30           /* message over 65,536 bytes */
};

enum {
    THIRADUAN_STATE_BYTES = 129, /* a state's bytes: keep them as they are, trusted */
    THIRADUAN_SLOT_BYTES = 192,  /* a cache is 2 to 64 slots: keep it trusted too */
    THIRADUAN_KEY_BYTES = 34,    /* a length in bits, two bytes, and 32 bytes */
    THIRADUAN_VALUE_BYTES = 137, /* the longest value; a shorter one is followed by zeros */
    THIRADUAN_ENTRY_BYTES = 192  /* no entry is longer: 3 and the body of entry 2 with a node of two links */
};

/* The SHA-256 of m[0 .. n) to out. 30 and zeros: n is over 65,536. */
uint32_t thiraduan_digest(const uint8_t *m, size_t n, uint8_t out[32]);

/* The AES-CMAC of m under a set key to out. 30 and zeros: n is over 65,536. */
uint32_t thiraduan_tag(const uint8_t key[16], const uint8_t *m, size_t n, uint8_t out[16]);

/* The term key of a language code (2 to 8 bytes a to z) and a term (1 to 255 bytes) to out. 29 and zeros: they are not. */
uint32_t thiraduan_term_key(const uint8_t *code, size_t code_n, const uint8_t *term, size_t term_n, uint8_t out[32]);

/* Whether a sealed entry has the fingerprint: 1 or 0 to yes. 30 and 0: it has over 65,536 bytes. */
uint32_t thiraduan_fingerprint(const uint8_t *sealed, size_t n, const uint8_t fingerprint[32], uint8_t *yes);

/* A fresh state to state, the root to slot 0 of the cache, zeros behind. 28, zeros and an untouched cache: no cache has that length. */
uint32_t thiraduan_open(const uint8_t key[16], uint8_t *cache, size_t cache_n, uint8_t state[129]);

/* One step: the entry at the start of log is accepted (0) or refused, and state and cache are what they are after it.
   told[0]: bytes used, the entry's whole length, or 0 with 28, 1 and 3. told[1]: where an accepted entry answers, a get or an absence, the epoch of
   that answer; 0 where it is no answer. Bytes that are no state: 1, and nothing is written. */
uint32_t thiraduan_step(const uint8_t *log, size_t n, uint8_t state[129], uint8_t *cache, size_t cache_n, uint64_t told[2]);

/* A run: step after step, on after a refusal, to the end of the log or to 28, 1 or 3. 0, and told: the last epoch settled, entries met,
   entries accepted, bytes used. Bytes that are no state: 1, and nothing is written. */
uint32_t thiraduan_run(const uint8_t *log, size_t n, uint8_t state[129], uint8_t *cache, size_t cache_n, uint64_t told[4]);

/* Whether an epoch is settled, so that its answers are no longer provisional: 1 or 0 to yes. 1, and nothing is written: no well-formed state. */
uint32_t thiraduan_settled(const uint8_t state[129], uint64_t epoch, uint8_t *yes);

/* An entry's numbers, in this order. Entry 7, absent, has its slot in p. */
enum { THIRADUAN_TAG, THIRADUAN_S, THIRADUAN_P, THIRADUAN_EPOCH, THIRADUAN_TIME, THIRADUAN_NUMBERS };

/* The entry at the start of log: its whole length, or 0 with 3, to used; its fields to numbers, key and value. What an entry does not
   have is zero, which is the root key and the value none. 2 and 3 leave the fields as they were. */
uint32_t thiraduan_read(const uint8_t *log, size_t n, uint64_t *used, uint64_t numbers[5], uint8_t key[34], uint8_t value[137]);

/* The entry of these fields to the start of out, its length to used. 2: they are no entry; 27: out is too short; then used is 0 and out as it was. */
uint32_t thiraduan_write(const uint64_t numbers[5], const uint8_t key[34], const uint8_t value[137], uint8_t *out, size_t n, uint64_t *used);

/* For callers with many tags under one key: its expansion, made once; a tag with it; one block of AES-128 with it. */
void thiraduan_expand(const uint8_t key[16], uint8_t expanded[176]);
uint32_t thiraduan_tag_with(const uint8_t expanded[176], const uint8_t *m, size_t n, uint8_t out[16]);
void thiraduan_encrypt(const uint8_t expanded[176], const uint8_t block[16], uint8_t out[16]);

#ifdef __cplusplus
}
#endif

#endif
