/*
 * Measures the plain C code.  Prints one line `NAME nanoseconds` for each
 * measure and a few lines `NAME hex` that let results be compared with those
 * of another implementation.  Before measuring it checks itself and ends with
 * status 1 if anything is wrong.
 */
#define _POSIX_C_SOURCE 199309L

#include "../measure.h"
#include "lms.h"
#include "sha256.h"

#include <string.h>

static uint8_t message[MESSAGE_LEN];
static uint8_t short_input[55];
static uint8_t *long_input;
static uint8_t digest[32];

static uint8_t ots_K[32], ots_sig[LMOTS_SIG_LEN];

/* A tree with a signature of the message by its leaf LEAF. */
struct tree {
    struct lms_key key;
    uint8_t public[LMS_PUBLIC_LEN];
    uint8_t sig[LMS_MAX_SIG_LEN];
    size_t sig_len;
};
static struct tree tree5, tree10;

/* A result that went wrong while measuring. */
static int broken;

static void work_hash55(long n)
{
    while (n-- > 0) {
        sha256(short_input, 55, digest);
        short_input[0] ^= digest[0];
    }
}

/* Steps of one chain, each needing the one before. */
static void work_chain_step(long n)
{
    uint32_t block[16], t[8];
    memcpy(t, sha256_start, sizeof t);
    chain_block(block, input_I, LEAF, 0);
    while (n > 0) {
        unsigned part = n > 255 ? 255 : (unsigned)n;
        chain_walk(block, t, 0, part);
        n -= part;
    }
    store32(digest, t[0]);
}

static void work_hash_long(long n)
{
    while (n-- > 0) {
        sha256(long_input, LONG_LEN, digest);
        long_input[0] ^= digest[0];
    }
}

static void work_lmots_key(long n)
{
    while (n-- > 0)
        lmots_key(input_I, LEAF, input_seed, digest);
}

static void work_lmots_sign(long n)
{
    uint8_t sig[LMOTS_SIG_LEN];
    while (n-- > 0)
        lmots_sign(input_I, LEAF, input_seed, message, MESSAGE_LEN, sig);
}

static void work_lmots_check(long n)
{
    while (n-- > 0)
        broken |= !lmots_check(input_I, LEAF, ots_K, message, MESSAGE_LEN,
                               ots_sig);
}

static void make(uint32_t type, long n)
{
    while (n-- > 0) {
        struct lms_key key;
        if (!lms_make(&key, type, input_I, input_seed))
            fail("no memory for a tree");
        lms_free(&key);
    }
}

static void sign(const struct tree *tree, long n)
{
    uint8_t sig[LMS_MAX_SIG_LEN];
    while (n-- > 0)
        broken |= !lms_sign(&tree->key, LEAF, message, MESSAGE_LEN, sig);
}

static void check(const struct tree *tree, long n)
{
    while (n-- > 0)
        broken |= !lms_check(tree->public, message, MESSAGE_LEN, tree->sig,
                             tree->sig_len);
}

static void work_lms5_key(long n) { make(5, n); }
static void work_lms5_sign(long n) { sign(&tree5, n); }
static void work_lms5_check(long n) { check(&tree5, n); }
static void work_lms10_key(long n) { make(6, n); }
static void work_lms10_sign(long n) { sign(&tree10, n); }
static void work_lms10_check(long n) { check(&tree10, n); }

static int hex_is(const uint8_t *bytes, size_t len, const char *hex)
{
    char pair[3];
    for (size_t i = 0; i < len; i++) {
        snprintf(pair, sizeof pair, "%02x", bytes[i]);
        if (memcmp(pair, hex + 2 * i, 2) != 0)
            return 0;
    }
    return hex[2 * len] == 0;
}

/* Fills a tree, and tries its signature whole and damaged. */
static void prepare(struct tree *tree, uint32_t type)
{
    if (!lms_make(&tree->key, type, input_I, input_seed))
        fail("no memory for a tree");
    lms_public(&tree->key, tree->public);
    tree->sig_len =
        lms_sign(&tree->key, LEAF, message, MESSAGE_LEN, tree->sig);

    if (tree->sig_len != (size_t)LMS_SIG_LEN(tree->key.h))
        fail("length of an LMS signature");
    if (!lms_check(tree->public, message, MESSAGE_LEN, tree->sig,
                   tree->sig_len))
        fail("a good LMS signature was refused");
    for (size_t i = 0; i < tree->sig_len; i += 31) {
        tree->sig[i] ^= 1;
        if (lms_check(tree->public, message, MESSAGE_LEN, tree->sig,
                      tree->sig_len))
            fail("a damaged LMS signature was taken");
        tree->sig[i] ^= 1;
    }
    if (lms_check(tree->public, message, MESSAGE_LEN - 1, tree->sig,
                  tree->sig_len))
        fail("an LMS signature was taken for another message");
    if (lms_check(tree->public, message, MESSAGE_LEN, tree->sig,
                  tree->sig_len - 1))
        fail("a shortened LMS signature was taken");
    if (lms_sign(&tree->key, 1u << tree->key.h, message, MESSAGE_LEN,
                 tree->sig) != 0)
        fail("signed with a leaf that does not exist");
}

/* The message of test case 2 of RFC 8554. */
static const char rfc_message[] =
    "The enumeration in the Constitution, of certain rights, shall not be "
    "construed to deny or disparage others retained by the people.\n";

static void check_self(void)
{
    uint8_t sig[LMS_MAX_SIG_LEN];
    size_t len;

    sha256((const uint8_t *)"abc", 3, digest);
    if (!hex_is(digest, 32, "ba7816bf8f01cfea414140de5dae2223"
                            "b00361a396177a9cb410ff61f20015ad"))
        fail("SHA-256 of abc");
    /* 119 bytes need a padding that spills over into a third block. */
    sha256(long_input, 119, digest);
    if (!hex_is(digest, 32, "da18797ed7c3a777f0847f429724a2d8"
                            "cd5138e6ed2895c3fa1a6d39d18f7ec6"))
        fail("SHA-256 of 119 bytes");

    lmots_key(input_I, LEAF, input_seed, ots_K);
    lmots_sign(input_I, LEAF, input_seed, message, MESSAGE_LEN, ots_sig);
    if (!lmots_check(input_I, LEAF, ots_K, message, MESSAGE_LEN, ots_sig))
        fail("a good LM-OTS signature was refused");
    for (size_t i = 0; i < LMOTS_SIG_LEN; i += 31) {
        ots_sig[i] ^= 1;
        if (lmots_check(input_I, LEAF, ots_K, message, MESSAGE_LEN, ots_sig))
            fail("a damaged LM-OTS signature was taken");
        ots_sig[i] ^= 1;
    }

    prepare(&tree5, 5);
    prepare(&tree10, 6);

    /* The lower tree of the test case and its published signature. */
    if (!hex_is(tree5.key.node[1], 32, "a1cd035833e0e90059603f26e07ad2aa"
                                       "d152338e7a5e5984bcd5f7bb4eba40b7"))
        fail("the root published in RFC 8554");
    len = lms_sign(&tree5.key, 4, (const uint8_t *)rfc_message,
                   sizeof rfc_message - 1, sig);
    sha256(sig, len, digest);
    if (!hex_is(digest, 32, "987a83f7670a93837c484888fde579ca"
                            "3653db8b66c9339b3c03b1e9b949d771"))
        fail("the signature published in RFC 8554");
}

static struct measure measures[] = {
    {"hash55", work_hash55, 1, 0, 0},
    {"chain_step", work_chain_step, 1, 0, 0},
    {"hash_long", work_hash_long, LONG_LEN, 0, 0},
    {"lmots_key", work_lmots_key, 1, 0, 0},
    {"lmots_sign", work_lmots_sign, 1, 0, 0},
    {"lmots_check", work_lmots_check, 1, 0, 0},
    {"lms5_key", work_lms5_key, 1, 0, 0},
    {"lms5_sign", work_lms5_sign, 1, 0, 0},
    {"lms5_check", work_lms5_check, 1, 0, 0},
    {"lms10_key", work_lms10_key, 1, 0, 0},
    {"lms10_sign", work_lms10_sign, 1, 0, 0},
    {"lms10_check", work_lms10_check, 1, 0, 0},
};
#define COUNT (sizeof measures / sizeof measures[0])

int main(void)
{
    long_input = malloc(LONG_LEN);
    if (!long_input)
        fail("no memory");
    fill_counting(message, MESSAGE_LEN);
    fill_counting(short_input, sizeof short_input);
    fill_counting(long_input, LONG_LEN);
    check_self();

    print_hex("", "otskey4", ots_K, 32);
    print_hex("", "root5", tree5.key.node[1], 32);
    sha256(tree5.sig, tree5.sig_len, digest);
    print_hex("", "sig5", digest, 32);
    print_hex("", "root10", tree10.key.node[1], 32);
    sha256(tree10.sig, tree10.sig_len, digest);
    print_hex("", "sig10", digest, 32);

    measure_all(measures, COUNT);
    for (size_t i = 0; i < COUNT; i++)
        print_ns("", measures[i].name, measures[i].best);

    lms_free(&tree5.key);
    lms_free(&tree10.key);
    free(long_input);
    if (broken)
        fail("a sign or check went wrong while measuring");
    return 0;
}
