/*
 * Measures SHA-256 of OpenSSL (libcrypto), and LM-OTS with W8 built on it.
 * Prints one line `PREFIX_NAME nanoseconds` for each measure; the prefix is
 * the first argument, `openssl_` if there is none.
 *
 * With the prefix `openssl_nosha_` the program is meant to be started with
 * OPENSSL_ia32cap=:~0x20000000, which takes the SHA instructions of x86 away
 * from libcrypto; it refuses to measure if they are still there.
 */
#define _POSIX_C_SOURCE 199309L
#define OPENSSL_SUPPRESS_DEPRECATED

#include "../measure.h"

#include <openssl/crypto.h>
#include <openssl/evp.h>
#include <openssl/sha.h>
#include <string.h>

#define P 34
#define SIG_LEN (4 + 32 + 32 * P)

static uint8_t message[MESSAGE_LEN];
static uint8_t short_input[55];
static uint8_t *long_input;
static uint8_t digest[32];
static uint8_t ots_K[32], ots_sig[SIG_LEN];

static EVP_MD *evp_md;
static EVP_MD_CTX *evp_ctx;
static SHA256_CTX start;
static int broken;

/* Three ways to one hash: the one call, EVP made ready, and the old calls. */

static void hash_call(const uint8_t *data, size_t len)
{
    broken |= SHA256(data, len, digest) == NULL;
}

static void hash_evp(const uint8_t *data, size_t len)
{
    unsigned out_len;
    broken |= !EVP_DigestInit_ex(evp_ctx, evp_md, NULL) ||
              !EVP_DigestUpdate(evp_ctx, data, len) ||
              !EVP_DigestFinal_ex(evp_ctx, digest, &out_len);
}

static void hash_steps(const uint8_t *data, size_t len)
{
    SHA256_CTX h;
    SHA256_Init(&h);
    SHA256_Update(&h, data, len);
    SHA256_Final(digest, &h);
}

#define HASH_WORK(name, hash, input, len)       \
    static void name(long n)                    \
    {                                           \
        while (n-- > 0) {                       \
            hash(input, len);                   \
            input[0] ^= digest[0];              \
        }                                       \
    }
HASH_WORK(work_call55, hash_call, short_input, 55)
HASH_WORK(work_evp55, hash_evp, short_input, 55)
HASH_WORK(work_steps55, hash_steps, short_input, 55)
HASH_WORK(work_call_long, hash_call, long_input, LONG_LEN)
HASH_WORK(work_evp_long, hash_evp, long_input, LONG_LEN)
HASH_WORK(work_steps_long, hash_steps, long_input, LONG_LEN)

/*
 * LM-OTS.  A chain step hashes 55 bytes, one block with its padding, so the
 * block is kept prepared and goes through one SHA256_Transform: the cheapest
 * way that libcrypto offers.
 */

static void store32(uint8_t *p, uint32_t x)
{
    p[0] = (uint8_t)(x >> 24);
    p[1] = (uint8_t)(x >> 16);
    p[2] = (uint8_t)(x >> 8);
    p[3] = (uint8_t)x;
}

static void chain_block(uint8_t block[64], uint32_t q, unsigned i)
{
    memset(block, 0, 64);
    memcpy(block, input_I, 16);
    store32(block + 16, q);
    block[20] = (uint8_t)(i >> 8);
    block[21] = (uint8_t)i;
    block[55] = 0x80;
    store32(block + 60, 440);
}

/* Replaces the 32 bytes from block[23] by the hash. */
static void chain_step(uint8_t block[64], SHA256_CTX *h, unsigned j)
{
    block[22] = (uint8_t)j;
    memcpy(h->h, start.h, sizeof h->h);
    SHA256_Transform(h, block);
    for (int k = 0; k < 8; k++)
        store32(block + 23 + 4 * k, h->h[k]);
}

static void chain_walk(uint8_t block[64], unsigned from, unsigned to)
{
    SHA256_CTX h = start;
    for (unsigned j = from; j < to; j++)
        chain_step(block, &h, j);
}

static void chain_from_seed(uint32_t q, unsigned i, unsigned to,
                            uint8_t out[32])
{
    uint8_t block[64];
    chain_block(block, q, i);
    memcpy(block + 23, input_seed, 32);
    chain_walk(block, 0xff, 0x100); /* x(i) */
    chain_walk(block, 0, to);
    memcpy(out, block + 23, 32);
}

static void hash_begin(SHA256_CTX *h, uint32_t number, unsigned mark)
{
    uint8_t head[22];
    memcpy(head, input_I, 16);
    store32(head + 16, number);
    head[20] = (uint8_t)(mark >> 8);
    head[21] = (uint8_t)mark;
    SHA256_Init(h);
    SHA256_Update(h, head, sizeof head);
}

static void hash_ends(uint32_t q, uint8_t y[P][32], uint8_t K[32])
{
    SHA256_CTX h;
    hash_begin(&h, q, 0x8080);
    SHA256_Update(&h, y[0], 32 * P);
    SHA256_Final(K, &h);
}

static void lmots_key(uint32_t q, uint8_t K[32])
{
    uint8_t y[P][32];
    for (unsigned i = 0; i < P; i++)
        chain_from_seed(q, i, 255, y[i]);
    hash_ends(q, y, K);
}

static void digits(uint32_t q, const uint8_t C[32], uint8_t a[P])
{
    SHA256_CTX h;
    unsigned sum = 0;
    hash_begin(&h, q, 0x8181);
    SHA256_Update(&h, C, 32);
    SHA256_Update(&h, message, MESSAGE_LEN);
    SHA256_Final(a, &h);
    for (int i = 0; i < 32; i++)
        sum += 255u - a[i];
    a[32] = (uint8_t)(sum >> 8);
    a[33] = (uint8_t)sum;
}

static void lmots_sign(uint32_t q, uint8_t sig[SIG_LEN])
{
    uint8_t a[P];
    store32(sig, 4);
    chain_from_seed(q, 0xfffd, 0, sig + 4);
    digits(q, sig + 4, a);
    for (unsigned i = 0; i < P; i++)
        chain_from_seed(q, i, a[i], sig + 36 + 32 * i);
}

static int lmots_check(uint32_t q, const uint8_t K[32],
                       const uint8_t sig[SIG_LEN])
{
    uint8_t a[P], y[P][32], found[32];
    if (memcmp(sig, "\0\0\0\4", 4) != 0)
        return 0;
    digits(q, sig + 4, a);
    for (unsigned i = 0; i < P; i++) {
        uint8_t block[64];
        chain_block(block, q, i);
        memcpy(block + 23, sig + 36 + 32 * i, 32);
        chain_walk(block, a[i], 255);
        memcpy(y[i], block + 23, 32);
    }
    hash_ends(q, y, found);
    return memcmp(found, K, 32) == 0;
}

/* Steps of one chain, each needing the one before. */
static void work_chain_step(long n)
{
    uint8_t block[64];
    chain_block(block, LEAF, 0);
    while (n > 0) {
        unsigned part = n > 255 ? 255 : (unsigned)n;
        chain_walk(block, 0, part);
        n -= part;
    }
    digest[0] = block[23];
}

static void work_lmots_key(long n)
{
    while (n-- > 0)
        lmots_key(LEAF, digest);
}

static void work_lmots_sign(long n)
{
    uint8_t sig[SIG_LEN];
    while (n-- > 0)
        lmots_sign(LEAF, sig);
}

static void work_lmots_check(long n)
{
    while (n-- > 0)
        broken |= !lmots_check(LEAF, ots_K, ots_sig);
}

/*
 * Whether libcrypto uses the SHA instructions of x86: bit 29 of its second
 * capability word.  The word is printed as 0xFIRST:0xSECOND.
 */
static int has_sha_instructions(void)
{
    const char *text = OpenSSL_version(OPENSSL_CPU_INFO);
    const char *colon = strstr(text, "=0x");
    colon = colon ? strchr(colon, ':') : NULL;
    return colon && (strtoull(colon + 1, NULL, 16) >> 29 & 1);
}

/* The three ways to hash come first, for 55 bytes and for the long input. */
static struct measure measures[] = {
    {"hash55_SHA256", work_call55, 1, 0, 0},
    {"hash55_EVP", work_evp55, 1, 0, 0},
    {"hash55_SHA256_Init", work_steps55, 1, 0, 0},
    {"hash_long_SHA256", work_call_long, LONG_LEN, 0, 0},
    {"hash_long_EVP", work_evp_long, LONG_LEN, 0, 0},
    {"hash_long_SHA256_Init", work_steps_long, LONG_LEN, 0, 0},
    {"chain_step", work_chain_step, 1, 0, 0},
    {"lmots_key", work_lmots_key, 1, 0, 0},
    {"lmots_sign", work_lmots_sign, 1, 0, 0},
    {"lmots_check", work_lmots_check, 1, 0, 0},
};
#define COUNT (sizeof measures / sizeof measures[0])

/* The best of three measures in a row. */
static double least(const struct measure *m)
{
    double best = m[0].best;
    for (int i = 1; i < 3; i++)
        if (m[i].best < best)
            best = m[i].best;
    return best;
}

int main(int argc, char **argv)
{
    const char *prefix = argc > 1 ? argv[1] : "openssl_";
    int nosha = strstr(prefix, "nosha") != NULL;

    fprintf(stderr, "%s\n%s\nSHA instructions: %s\n",
            OpenSSL_version(OPENSSL_VERSION),
            OpenSSL_version(OPENSSL_CPU_INFO),
            has_sha_instructions() ? "used" : "not used");
    if (nosha && has_sha_instructions())
        fail("the SHA instructions are not masked off");

    evp_md = EVP_MD_fetch(NULL, "SHA256", NULL);
    evp_ctx = EVP_MD_CTX_new();
    long_input = malloc(LONG_LEN);
    if (!evp_md || !evp_ctx || !long_input)
        fail("no memory or no SHA-256");
    SHA256_Init(&start);
    fill_counting(message, MESSAGE_LEN);
    fill_counting(short_input, sizeof short_input);
    fill_counting(long_input, LONG_LEN);

    lmots_key(LEAF, ots_K);
    lmots_sign(LEAF, ots_sig);
    if (!lmots_check(LEAF, ots_K, ots_sig))
        fail("a good LM-OTS signature was refused");
    for (size_t i = 0; i < SIG_LEN; i += 31) {
        ots_sig[i] ^= 1;
        if (lmots_check(LEAF, ots_K, ots_sig))
            fail("a damaged LM-OTS signature was taken");
        ots_sig[i] ^= 1;
    }
    print_hex(prefix, "otskey4", ots_K, 32);

    measure_all(measures, COUNT);
    print_ns(prefix, "hash55", least(measures));
    print_ns(prefix, "hash_long", least(measures + 3));
    for (size_t i = 0; i < COUNT; i++)
        print_ns(prefix, measures[i].name, measures[i].best);

    EVP_MD_CTX_free(evp_ctx);
    EVP_MD_free(evp_md);
    free(long_input);
    if (broken)
        fail("a hash or check went wrong while measuring");
    return 0;
}
