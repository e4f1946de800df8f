/* The plain C that primitives.c measures against. */
#include <stddef.h>
#include <stdint.h>

void c_expand(const uint8_t key[16], uint32_t k[44]);
void c_encrypt(const uint32_t k[44], const uint8_t block[16], uint8_t out[16]);
void c_tag_with(const uint32_t k[44], const uint8_t *m, size_t n, uint8_t out[16]);
void c_tag(const uint8_t key[16], const uint8_t *m, size_t n, uint8_t out[16]);
