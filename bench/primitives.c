/* Digests, AES blocks and tags: the proved library, plain C (gcc -O3) and OpenSSL, on the same input.
     primitives                  a line for each case: its name, then the time of a call in ns of each, the least of several turns
     primitives WHO CASE COUNT   so many calls of one (0 proved, 1 plain C, 2 OpenSSL), for a count of instructions */
#define OPENSSL_SUPPRESS_DEPRECATED
#include "../include/thiraduan.h"
#include "plain_aes.h"
#include <openssl/cmac.h>
#include <openssl/evp.h>
#include <openssl/sha.h>
#include <stdio.h>
#include <stdlib.h>
#include <string.h>
#include <time.h>

void plain_sha256(const uint8_t *m, size_t n, uint8_t *out);

enum { TURNS = 15, LONGEST = 65536 };

static uint8_t message[LONGEST], key[16], expanded[176];
static uint32_t words[44];
static CMAC_CTX *made, *ctx;
static EVP_CIPHER_CTX *ecb;

typedef void (*call)(size_t n, uint8_t out[32]);

static void own_digest(size_t n, uint8_t out[32]) { thiraduan_digest(message, n, out); }
static void plain_digest(size_t n, uint8_t out[32]) { plain_sha256(message, n, out); }
static void openssl_digest(size_t n, uint8_t out[32]) { SHA256(message, n, out); }

static void own_block(size_t n, uint8_t out[32]) { (void)n, thiraduan_encrypt(expanded, message, out); }
static void plain_block(size_t n, uint8_t out[32]) { (void)n, c_encrypt(words, message, out); }

static void openssl_block(size_t n, uint8_t out[32])
{
    int len;
    (void)n;
    EVP_EncryptUpdate(ecb, out, &len, message, 16);
}

static void own_tag(size_t n, uint8_t out[32]) { thiraduan_tag(key, message, n, out); }
static void plain_tag(size_t n, uint8_t out[32]) { c_tag(key, message, n, out); }

static void openssl_tag(size_t n, uint8_t out[32])
{
    size_t len;
    CMAC_Init(ctx, key, 16, EVP_aes_128_cbc(), NULL);
    CMAC_Update(ctx, message, n);
    CMAC_Final(ctx, out, &len);
}

static void own_tag_with(size_t n, uint8_t out[32]) { thiraduan_tag_with(expanded, message, n, out); }
static void plain_tag_with(size_t n, uint8_t out[32]) { c_tag_with(words, message, n, out); }

/* With the key already set; OpenSSL keeps the subkeys with it too. */
static void openssl_tag_with(size_t n, uint8_t out[32])
{
    size_t len;
    CMAC_Init(made, NULL, 0, NULL, NULL);
    CMAC_Update(made, message, n);
    CMAC_Final(made, out, &len);
}

static const struct {
    const char *name;
    size_t n;
    int repeats;
    call calls[3];
} cases[] = {
    {"digest of 64 bytes", 64, 50000, {own_digest, plain_digest, openssl_digest}},
    {"digest of 137 bytes", 137, 30000, {own_digest, plain_digest, openssl_digest}},
    {"digest of 65,536 bytes", 65536, 60, {own_digest, plain_digest, openssl_digest}},
    {"one AES block, expanded key", 16, 200000, {own_block, plain_block, openssl_block}},
    {"tag of 51 bytes, expanded key", 51, 60000, {own_tag_with, plain_tag_with, openssl_tag_with}},
    {"tag of 187 bytes, expanded key", 187, 20000, {own_tag_with, plain_tag_with, openssl_tag_with}},
    {"tag of 187 bytes, set key", 187, 20000, {own_tag, plain_tag, openssl_tag}},
    {"tag of 65,536 bytes, expanded key", 65536, 60, {own_tag_with, plain_tag_with, openssl_tag_with}},
};

enum { CASES = sizeof cases / sizeof cases[0] };

static double now(void)
{
    struct timespec t;
    clock_gettime(CLOCK_MONOTONIC, &t);
    return t.tv_sec + 1e-9 * t.tv_nsec;
}

static void measure(int c)
{
    double best[3] = {1e9, 1e9, 1e9};
    uint8_t out[3][32] = {{0}};
    for (int turn = 0; turn < TURNS; turn++)
        for (int i = 0; i < 3; i++) {
            double begin = now();
            for (int r = 0; r < cases[c].repeats; r++)
                cases[c].calls[i](cases[c].n, out[i]);
            double took = (now() - begin) / cases[c].repeats;
            best[i] = took < best[i] ? took : best[i];
        }
    if (memcmp(out[0], out[1], 32) || memcmp(out[0], out[2], 32)) {
        fprintf(stderr, "%s: results differ\n", cases[c].name);
        exit(1);
    }
    printf("%s\t%.1f\t%.1f\t%.1f\n", cases[c].name, best[0] * 1e9, best[1] * 1e9, best[2] * 1e9);
}

int main(int count, char **given)
{
    for (int i = 0; i < LONGEST; i++)
        message[i] = i * 7 + 3;
    for (int i = 0; i < 16; i++)
        key[i] = i * 11 + 1;
    thiraduan_expand(key, expanded);
    c_expand(key, words);
    ctx = CMAC_CTX_new();
    made = CMAC_CTX_new();
    CMAC_Init(made, key, 16, EVP_aes_128_cbc(), NULL);
    ecb = EVP_CIPHER_CTX_new();
    EVP_EncryptInit_ex(ecb, EVP_aes_128_ecb(), NULL, key, NULL);
    if (count == 4) {
        uint8_t out[32];
        int c = atoi(given[2]);
        for (int r = atoi(given[3]); r > 0; r--)
            cases[c].calls[atoi(given[1])](cases[c].n, out);
        return 0;
    }
    for (int c = 0; c < CASES; c++)
        measure(c);
    return 0;
}
