/*
 * LM-OTS with SHA-256, n = 32, w = 8 (type 4) and LMS with heights 5 and 10
 * (types 5 and 6) of RFC 8554, in plain C.  Private keys come from a seed.
 */
#ifndef LMS_H
#define LMS_H

#include <stddef.h>
#include <stdint.h>

#define LMOTS_TYPE 4u
#define LMOTS_P 34
#define LMOTS_SIG_LEN (4 + 32 + 32 * LMOTS_P)

#define LMS_PUBLIC_LEN 56
#define LMS_MAX_H 10
#define LMS_SIG_LEN(h) (4 + LMOTS_SIG_LEN + 4 + 32 * (h))
#define LMS_MAX_SIG_LEN LMS_SIG_LEN(LMS_MAX_H)

/* The block of one chain step, in words; see lms.c. */
void chain_block(uint32_t block[16], const uint8_t I[16], uint32_t q,
                 unsigned i);
void chain_walk(uint32_t block[16], uint32_t t[8], unsigned from, unsigned to);

/* The public value K of leaf q. */
void lmots_key(const uint8_t I[16], uint32_t q, const uint8_t seed[32],
               uint8_t K[32]);

void lmots_sign(const uint8_t I[16], uint32_t q, const uint8_t seed[32],
                const uint8_t *msg, size_t len, uint8_t sig[LMOTS_SIG_LEN]);

/* The K that a signature leads to; 0 if the signature is ill-formed. */
int lmots_recover(const uint8_t I[16], uint32_t q, const uint8_t *msg,
                  size_t len, const uint8_t sig[LMOTS_SIG_LEN], uint8_t K[32]);

/* 1 if the signature is good for K, else 0. */
int lmots_check(const uint8_t I[16], uint32_t q, const uint8_t K[32],
                const uint8_t *msg, size_t len,
                const uint8_t sig[LMOTS_SIG_LEN]);

struct lms_key {
    uint32_t type;
    unsigned h;
    uint8_t I[16];
    uint8_t seed[32];
    uint8_t (*node)[32]; /* nodes 1 .. 2^(h+1) - 1; entry 0 is unused */
};

/* Makes the key with all nodes of its tree; 1 if it went well, else 0. */
int lms_make(struct lms_key *key, uint32_t type, const uint8_t I[16],
             const uint8_t seed[32]);
void lms_free(struct lms_key *key);
void lms_public(const struct lms_key *key, uint8_t public[LMS_PUBLIC_LEN]);

/*
 * Signs with leaf q and returns the length of the signature, 0 if there is no
 * such leaf.  Which leaves are used up is not kept: this is for measuring.
 */
size_t lms_sign(const struct lms_key *key, uint32_t q, const uint8_t *msg,
                size_t len, uint8_t sig[LMS_MAX_SIG_LEN]);

/* 1 if the signature is good, else 0. */
int lms_check(const uint8_t public[LMS_PUBLIC_LEN], const uint8_t *msg,
              size_t len, const uint8_t *sig, size_t sig_len);

#endif
