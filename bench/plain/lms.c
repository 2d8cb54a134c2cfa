#include "lms.h"
#include "sha256.h"

#include <stdlib.h>
#include <string.h>

#define D_PBLC 0x8080u
#define D_MESG 0x8181u
#define D_LEAF 0x8282u
#define D_INTR 0x8383u

/* The place of C among the values x(i). */
#define INDEX_C 0xfffdu

/* The first 22 bytes of every hash input: I, a number, a 16-bit mark. */
static void hash_begin(struct sha256 *h, const uint8_t I[16], uint32_t number,
                       unsigned mark)
{
    uint8_t head[22];
    memcpy(head, I, 16);
    store32(head + 16, number);
    head[20] = (uint8_t)(mark >> 8);
    head[21] = (uint8_t)mark;
    sha256_init(h);
    sha256_update(h, head, sizeof head);
}

/*
 * Chain steps and the values x(i) hash 55 bytes: I, q, i, one byte j, and 32
 * bytes t.  With padding they are exactly one block, kept here in words:
 *
 *   words 0-3   I
 *   word  4     q
 *   word  5     i (16 bits), j (8 bits), first byte of t
 *   words 6-12  t, shifted by one byte
 *   word  13    last three bytes of t, 0x80
 *   words 14-15 the length in bits, 440
 */
void chain_block(uint32_t block[16], const uint8_t I[16], uint32_t q,
                 unsigned i)
{
    for (int k = 0; k < 4; k++)
        block[k] = load32(I + 4 * k);
    block[4] = q;
    block[5] = (uint32_t)i << 16;
    block[14] = 0;
    block[15] = 440;
}

static inline void chain_step(uint32_t block[16], uint32_t t[8], unsigned j)
{
    block[5] = (block[5] & 0xffff0000u) | (uint32_t)j << 8 | t[0] >> 24;
    for (int k = 0; k < 7; k++)
        block[6 + k] = t[k] << 8 | t[k + 1] >> 24;
    block[13] = t[7] << 8 | 0x80;
    memcpy(t, sha256_start, 32);
    sha256_compress(t, block);
}

/* Steps from .. to - 1 of the chain whose block was prepared. */
void chain_walk(uint32_t block[16], uint32_t t[8], unsigned from, unsigned to)
{
    for (unsigned j = from; j < to; j++)
        chain_step(block, t, j);
}

static void load_words(uint32_t t[8], const uint8_t bytes[32])
{
    for (int k = 0; k < 8; k++)
        t[k] = load32(bytes + 4 * k);
}

static void store_words(uint8_t bytes[32], const uint32_t t[8])
{
    for (int k = 0; k < 8; k++)
        store32(bytes + 4 * k, t[k]);
}

/* Steps 0 .. to - 1 from x(i), into out. */
static void chain_from_seed(const uint8_t I[16], uint32_t q, unsigned i,
                            const uint32_t seed[8], unsigned to,
                            uint8_t out[32])
{
    uint32_t block[16], t[8];
    chain_block(block, I, q, i);
    memcpy(t, seed, sizeof t);
    chain_step(block, t, 0xff); /* x(i) */
    chain_walk(block, t, 0, to);
    store_words(out, t);
}

void lmots_key(const uint8_t I[16], uint32_t q, const uint8_t seed[32],
               uint8_t K[32])
{
    uint32_t seed_words[8];
    uint8_t y[LMOTS_P][32];
    struct sha256 h;

    load_words(seed_words, seed);
    for (unsigned i = 0; i < LMOTS_P; i++)
        chain_from_seed(I, q, i, seed_words, 255, y[i]);
    hash_begin(&h, I, q, D_PBLC);
    sha256_update(&h, y[0], sizeof y);
    sha256_final(&h, K);
}

/* The digits: the bytes of Q and of the checksum over them. */
static void digits(const uint8_t I[16], uint32_t q, const uint8_t C[32],
                   const uint8_t *msg, size_t len, uint8_t a[LMOTS_P])
{
    struct sha256 h;
    unsigned sum = 0;

    hash_begin(&h, I, q, D_MESG);
    sha256_update(&h, C, 32);
    sha256_update(&h, msg, len);
    sha256_final(&h, a);
    for (int i = 0; i < 32; i++)
        sum += 255u - a[i];
    a[32] = (uint8_t)(sum >> 8);
    a[33] = (uint8_t)sum;
}

void lmots_sign(const uint8_t I[16], uint32_t q, const uint8_t seed[32],
                const uint8_t *msg, size_t len, uint8_t sig[LMOTS_SIG_LEN])
{
    uint32_t seed_words[8];
    uint8_t a[LMOTS_P];
    uint8_t *C = sig + 4, *z = sig + 36;

    load_words(seed_words, seed);
    store32(sig, LMOTS_TYPE);
    chain_from_seed(I, q, INDEX_C, seed_words, 0, C);
    digits(I, q, C, msg, len, a);
    for (unsigned i = 0; i < LMOTS_P; i++)
        chain_from_seed(I, q, i, seed_words, a[i], z + 32 * i);
}

int lmots_recover(const uint8_t I[16], uint32_t q, const uint8_t *msg,
                  size_t len, const uint8_t sig[LMOTS_SIG_LEN], uint8_t K[32])
{
    uint8_t a[LMOTS_P], y[LMOTS_P][32];
    const uint8_t *C = sig + 4, *z = sig + 36;
    struct sha256 h;

    if (load32(sig) != LMOTS_TYPE)
        return 0;
    digits(I, q, C, msg, len, a);
    for (unsigned i = 0; i < LMOTS_P; i++) {
        uint32_t block[16], t[8];
        chain_block(block, I, q, i);
        load_words(t, z + 32 * i);
        chain_walk(block, t, a[i], 255);
        store_words(y[i], t);
    }
    hash_begin(&h, I, q, D_PBLC);
    sha256_update(&h, y[0], sizeof y);
    sha256_final(&h, K);
    return 1;
}

int lmots_check(const uint8_t I[16], uint32_t q, const uint8_t K[32],
                const uint8_t *msg, size_t len,
                const uint8_t sig[LMOTS_SIG_LEN])
{
    uint8_t found[32];
    return lmots_recover(I, q, msg, len, sig, found) &&
           memcmp(found, K, 32) == 0;
}

/* The height of a type, 0 for a type that is not known here. */
static unsigned height(uint32_t type)
{
    return type == 5 ? 5 : type == 6 ? 10 : 0;
}

static void leaf_node(const uint8_t I[16], uint32_t r, const uint8_t K[32],
                      uint8_t out[32])
{
    struct sha256 h;
    hash_begin(&h, I, r, D_LEAF);
    sha256_update(&h, K, 32);
    sha256_final(&h, out);
}

static void inner_node(const uint8_t I[16], uint32_t r, const uint8_t left[32],
                       const uint8_t right[32], uint8_t out[32])
{
    struct sha256 h;
    hash_begin(&h, I, r, D_INTR);
    sha256_update(&h, left, 32);
    sha256_update(&h, right, 32);
    sha256_final(&h, out);
}

int lms_make(struct lms_key *key, uint32_t type, const uint8_t I[16],
             const uint8_t seed[32])
{
    unsigned h = height(type);
    if (h == 0)
        return 0;
    uint32_t leaves = 1u << h;

    key->type = type;
    key->h = h;
    memcpy(key->I, I, 16);
    memcpy(key->seed, seed, 32);
    key->node = malloc(2 * leaves * sizeof key->node[0]);
    if (!key->node)
        return 0;
    for (uint32_t q = 0; q < leaves; q++) {
        uint8_t K[32];
        lmots_key(I, q, seed, K);
        leaf_node(I, leaves + q, K, key->node[leaves + q]);
    }
    for (uint32_t r = leaves - 1; r >= 1; r--)
        inner_node(I, r, key->node[2 * r], key->node[2 * r + 1], key->node[r]);
    return 1;
}

void lms_free(struct lms_key *key)
{
    free(key->node);
    key->node = NULL;
}

void lms_public(const struct lms_key *key, uint8_t public[LMS_PUBLIC_LEN])
{
    store32(public, key->type);
    store32(public + 4, LMOTS_TYPE);
    memcpy(public + 8, key->I, 16);
    memcpy(public + 24, key->node[1], 32);
}

size_t lms_sign(const struct lms_key *key, uint32_t q, const uint8_t *msg,
                size_t len, uint8_t sig[LMS_MAX_SIG_LEN])
{
    if (q >> key->h != 0)
        return 0;
    uint8_t *p = sig;
    store32(p, q);
    p += 4;
    lmots_sign(key->I, q, key->seed, msg, len, p);
    p += LMOTS_SIG_LEN;
    store32(p, key->type);
    p += 4;
    for (uint32_t r = (1u << key->h) + q; r > 1; r >>= 1) {
        memcpy(p, key->node[r ^ 1], 32);
        p += 32;
    }
    return (size_t)(p - sig);
}

int lms_check(const uint8_t public[LMS_PUBLIC_LEN], const uint8_t *msg,
              size_t len, const uint8_t *sig, size_t sig_len)
{
    uint32_t type = load32(public);
    unsigned h = height(type);
    const uint8_t *I = public + 8;

    if (h == 0 || load32(public + 4) != LMOTS_TYPE)
        return 0;
    if (sig_len != (size_t)LMS_SIG_LEN(h))
        return 0;
    uint32_t q = load32(sig);
    const uint8_t *path = sig + 4 + LMOTS_SIG_LEN + 4;
    if (q >> h != 0 || load32(path - 4) != type)
        return 0;

    uint8_t K[32], node[32];
    if (!lmots_recover(I, q, msg, len, sig + 4, K))
        return 0;
    uint32_t r = (1u << h) + q;
    leaf_node(I, r, K, node);
    for (; r > 1; r >>= 1, path += 32) {
        if (r & 1)
            inner_node(I, r >> 1, path, node, node);
        else
            inner_node(I, r >> 1, node, path, node);
    }
    return memcmp(node, public + 24, 32) == 0;
}
