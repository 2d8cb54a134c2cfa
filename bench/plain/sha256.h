/* SHA-256 in plain C. */
#ifndef SHA256_H
#define SHA256_H

#include <stddef.h>
#include <stdint.h>

struct sha256 {
    uint32_t state[8];
    uint64_t length;    /* bytes taken so far */
    uint8_t block[64];  /* the block being filled */
};

/* The state a hash starts from. */
extern const uint32_t sha256_start[8];

/* Takes one block, as sixteen words, into the state. */
void sha256_compress(uint32_t state[8], const uint32_t block[16]);

void sha256_init(struct sha256 *h);
void sha256_update(struct sha256 *h, const uint8_t *data, size_t len);
void sha256_final(struct sha256 *h, uint8_t digest[32]);

/* The three above in one call. */
void sha256(const uint8_t *data, size_t len, uint8_t digest[32]);

/* Big-endian reading and writing of words. */
static inline uint32_t load32(const uint8_t *p)
{
    return (uint32_t)p[0] << 24 | (uint32_t)p[1] << 16 |
           (uint32_t)p[2] << 8 | (uint32_t)p[3];
}

static inline void store32(uint8_t *p, uint32_t x)
{
    p[0] = (uint8_t)(x >> 24);
    p[1] = (uint8_t)(x >> 16);
    p[2] = (uint8_t)(x >> 8);
    p[3] = (uint8_t)x;
}

#endif
