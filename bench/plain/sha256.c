#include "sha256.h"

#include <string.h>

const uint32_t sha256_start[8] = {
    0x6a09e667, 0xbb67ae85, 0x3c6ef372, 0xa54ff53a,
    0x510e527f, 0x9b05688c, 0x1f83d9ab, 0x5be0cd19};

static const uint32_t K[64] = {
    0x428a2f98, 0x71374491, 0xb5c0fbcf, 0xe9b5dba5,
    0x3956c25b, 0x59f111f1, 0x923f82a4, 0xab1c5ed5,
    0xd807aa98, 0x12835b01, 0x243185be, 0x550c7dc3,
    0x72be5d74, 0x80deb1fe, 0x9bdc06a7, 0xc19bf174,
    0xe49b69c1, 0xefbe4786, 0x0fc19dc6, 0x240ca1cc,
    0x2de92c6f, 0x4a7484aa, 0x5cb0a9dc, 0x76f988da,
    0x983e5152, 0xa831c66d, 0xb00327c8, 0xbf597fc7,
    0xc6e00bf3, 0xd5a79147, 0x06ca6351, 0x14292967,
    0x27b70a85, 0x2e1b2138, 0x4d2c6dfc, 0x53380d13,
    0x650a7354, 0x766a0abb, 0x81c2c92e, 0x92722c85,
    0xa2bfe8a1, 0xa81a664b, 0xc24b8b70, 0xc76c51a3,
    0xd192e819, 0xd6990624, 0xf40e3585, 0x106aa070,
    0x19a4c116, 0x1e376c08, 0x2748774c, 0x34b0bcb5,
    0x391c0cb3, 0x4ed8aa4a, 0x5b9cca4f, 0x682e6ff3,
    0x748f82ee, 0x78a5636f, 0x84c87814, 0x8cc70208,
    0x90befffa, 0xa4506ceb, 0xbef9a3f7, 0xc67178f2};

static inline uint32_t ror(uint32_t x, int n)
{
    return x >> n | x << (32 - n);
}

#define BIG0(x) (ror(x, 2) ^ ror(x, 13) ^ ror(x, 22))
#define BIG1(x) (ror(x, 6) ^ ror(x, 11) ^ ror(x, 25))
#define SMALL0(x) (ror(x, 7) ^ ror(x, 18) ^ ((x) >> 3))
#define SMALL1(x) (ror(x, 17) ^ ror(x, 19) ^ ((x) >> 10))
#define CHOOSE(x, y, z) ((((y) ^ (z)) & (x)) ^ (z))
#define MAJORITY(x, y, z) (((x) & (y)) ^ ((z) & ((x) ^ (y))))

/* One round; the eight names turn by one place from round to round. */
#define ROUND(a, b, c, d, e, f, g, h, kw)                       \
    do {                                                        \
        uint32_t t = h + BIG1(e) + CHOOSE(e, f, g) + (kw);      \
        d += t;                                                 \
        h = t + BIG0(a) + MAJORITY(a, b, c);                    \
    } while (0)

/* Sixteen rounds with constants k[0..15] and words WORD(0) .. WORD(15). */
#define SIXTEEN(k, WORD)                                        \
    do {                                                        \
        ROUND(a, b, c, d, e, f, g, h, (k)[0] + WORD(0));        \
        ROUND(h, a, b, c, d, e, f, g, (k)[1] + WORD(1));        \
        ROUND(g, h, a, b, c, d, e, f, (k)[2] + WORD(2));        \
        ROUND(f, g, h, a, b, c, d, e, (k)[3] + WORD(3));        \
        ROUND(e, f, g, h, a, b, c, d, (k)[4] + WORD(4));        \
        ROUND(d, e, f, g, h, a, b, c, (k)[5] + WORD(5));        \
        ROUND(c, d, e, f, g, h, a, b, (k)[6] + WORD(6));        \
        ROUND(b, c, d, e, f, g, h, a, (k)[7] + WORD(7));        \
        ROUND(a, b, c, d, e, f, g, h, (k)[8] + WORD(8));        \
        ROUND(h, a, b, c, d, e, f, g, (k)[9] + WORD(9));        \
        ROUND(g, h, a, b, c, d, e, f, (k)[10] + WORD(10));      \
        ROUND(f, g, h, a, b, c, d, e, (k)[11] + WORD(11));      \
        ROUND(e, f, g, h, a, b, c, d, (k)[12] + WORD(12));      \
        ROUND(d, e, f, g, h, a, b, c, (k)[13] + WORD(13));      \
        ROUND(c, d, e, f, g, h, a, b, (k)[14] + WORD(14));      \
        ROUND(b, c, d, e, f, g, h, a, (k)[15] + WORD(15));      \
    } while (0)

/* The first sixteen words are the block; later ones replace it in place. */
#define GIVEN(i) w[i]
#define NEXT(i)                                                 \
    (w[i] += SMALL1(w[((i) + 14) & 15]) + w[((i) + 9) & 15] +   \
             SMALL0(w[((i) + 1) & 15]))

void sha256_compress(uint32_t state[8], const uint32_t block[16])
{
    uint32_t w[16];
    memcpy(w, block, sizeof w);

    uint32_t a = state[0], b = state[1], c = state[2], d = state[3];
    uint32_t e = state[4], f = state[5], g = state[6], h = state[7];

    SIXTEEN(K, GIVEN);
    for (const uint32_t *k = K + 16; k < K + 64; k += 16)
        SIXTEEN(k, NEXT);

    state[0] += a;
    state[1] += b;
    state[2] += c;
    state[3] += d;
    state[4] += e;
    state[5] += f;
    state[6] += g;
    state[7] += h;
}

static void take_block(uint32_t state[8], const uint8_t *bytes)
{
    uint32_t w[16];
    for (int i = 0; i < 16; i++)
        w[i] = load32(bytes + 4 * i);
    sha256_compress(state, w);
}

void sha256_init(struct sha256 *h)
{
    memcpy(h->state, sha256_start, sizeof h->state);
    h->length = 0;
}

void sha256_update(struct sha256 *h, const uint8_t *data, size_t len)
{
    size_t used = h->length % 64;
    h->length += len;
    if (used > 0) {
        size_t room = 64 - used;
        if (len < room) {
            memcpy(h->block + used, data, len);
            return;
        }
        memcpy(h->block + used, data, room);
        take_block(h->state, h->block);
        data += room;
        len -= room;
    }
    for (; len >= 64; data += 64, len -= 64)
        take_block(h->state, data);
    memcpy(h->block, data, len);
}

void sha256_final(struct sha256 *h, uint8_t digest[32])
{
    size_t used = h->length % 64;
    uint64_t bits = h->length * 8;
    h->block[used++] = 0x80;
    if (used > 56) {
        memset(h->block + used, 0, 64 - used);
        take_block(h->state, h->block);
        used = 0;
    }
    memset(h->block + used, 0, 56 - used);
    store32(h->block + 56, (uint32_t)(bits >> 32));
    store32(h->block + 60, (uint32_t)bits);
    take_block(h->state, h->block);
    for (int i = 0; i < 8; i++)
        store32(digest + 4 * i, h->state[i]);
}

void sha256(const uint8_t *data, size_t len, uint8_t digest[32])
{
    struct sha256 h;
    sha256_init(&h);
    sha256_update(&h, data, len);
    sha256_final(&h, digest);
}
