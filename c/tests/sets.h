/* The calls of each set as a row of a table, and what the tests share. */
#ifndef SETS_H
#define SETS_H

#include "mldsa.h"

#include <stdio.h>
#include <stdlib.h>
#include <string.h>

enum { LONGEST_KEY = MLDSA87_PRIVATE_KEY_LEN, LONGEST_SIGNATURE = MLDSA87_SIGNATURE_LEN };
enum { LONGEST_PREPARED_KEY = MLDSA87_PREPARED_PRIVATE_KEY_LEN, LONGEST_DER = MLDSA87_BOTH_DER_LEN };

typedef const uint8_t *in;
struct set {
    int number;
    size_t public_key_len, private_key_len, signature_len;
    size_t stack_keygen, stack_sign, stack_verify, stack_public_key, stack_check, stack_whole, stack_pair;
    uint32_t (*keygen)(in, size_t, uint8_t *, size_t, uint8_t *, size_t);
    uint32_t (*sign)(in, size_t, in, size_t, in, size_t, in, size_t, uint8_t *, size_t);
    uint32_t (*verify)(in, size_t, in, size_t, in, size_t, in, size_t);
    uint32_t (*accepts)(in, size_t, in, size_t, in, size_t, in, size_t);
    uint32_t (*hash_sign)(in, size_t, in, size_t, in, size_t, in, size_t, in, size_t, uint8_t *, size_t);
    uint32_t (*hash_verify)(in, size_t, in, size_t, in, size_t, in, size_t, in, size_t);
    uint32_t (*sign_mu)(in, size_t, in, size_t, in, size_t, uint8_t *, size_t);
    uint32_t (*verify_mu)(in, size_t, in, size_t, in, size_t);
    uint32_t (*public_key)(in, size_t, uint8_t *, size_t);
    uint32_t (*check_private_key)(in, size_t);
    uint32_t (*is_whole)(in, size_t);
    uint32_t (*is_pair)(in, size_t);
    uint32_t (*mu_begin)(in, size_t, in, size_t, uint8_t *, size_t);
    uint32_t (*mu_begin_private)(in, size_t, in, size_t, uint8_t *, size_t);
    size_t prepared_public_key_len, prepared_private_key_len;
    size_t stack_prepare_public_key, stack_verify_prepared, stack_prepare_private_key, stack_sign_prepared;
    uint32_t (*prepare_public_key)(in, size_t, uint8_t *, size_t);
    uint32_t (*verify_prepared)(in, size_t, in, size_t, in, size_t, in, size_t);
    uint32_t (*hash_verify_prepared)(in, size_t, in, size_t, in, size_t, in, size_t, in, size_t);
    uint32_t (*verify_mu_prepared)(in, size_t, in, size_t, in, size_t);
    uint32_t (*prepare_private_key)(in, size_t, uint8_t *, size_t);
    uint32_t (*sign_prepared)(in, size_t, in, size_t, in, size_t, in, size_t, uint8_t *, size_t);
    uint32_t (*hash_sign_prepared)(in, size_t, in, size_t, in, size_t, in, size_t, in, size_t, uint8_t *, size_t);
    uint32_t (*sign_mu_prepared)(in, size_t, in, size_t, in, size_t, uint8_t *, size_t);
    size_t public_key_der_len, private_key_der_len, both_der_len, stack_der, stack_pem;
    uint32_t (*public_key_to_der)(in, size_t, uint8_t *, size_t);
    uint32_t (*public_key_from_der)(in, size_t, uint8_t *, size_t);
    uint32_t (*seed_to_der)(in, size_t, uint8_t *, size_t);
    uint32_t (*private_key_to_der)(in, size_t, uint8_t *, size_t);
    uint32_t (*both_to_der)(in, size_t, uint8_t *, size_t);
    uint32_t (*private_key_from_der)(in, size_t, uint8_t *, size_t);
    uint32_t (*seed_from_der)(in, size_t, uint8_t *, size_t);
    uint32_t (*public_key_from_pem)(in, size_t, uint8_t *, size_t);
    uint32_t (*private_key_from_pem)(in, size_t, uint8_t *, size_t);
    uint32_t (*seed_from_pem)(in, size_t, uint8_t *, size_t);
};

#define SET(N)                                                                                                 \
    {                                                                                                          \
        N, MLDSA##N##_PUBLIC_KEY_LEN, MLDSA##N##_PRIVATE_KEY_LEN, MLDSA##N##_SIGNATURE_LEN,                    \
            MLDSA##N##_STACK_KEYGEN, MLDSA##N##_STACK_SIGN, MLDSA##N##_STACK_VERIFY,                           \
            MLDSA##N##_STACK_PUBLIC_KEY, MLDSA##N##_STACK_CHECK, MLDSA##N##_STACK_WHOLE,                       \
            MLDSA##N##_STACK_PAIR, mldsa##N##_keygen, mldsa##N##_sign, mldsa##N##_verify, mldsa##N##_accepts,  \
            mldsa##N##_hash_sign, mldsa##N##_hash_verify, mldsa##N##_sign_mu, mldsa##N##_verify_mu,            \
            mldsa##N##_public_key, mldsa##N##_check_private_key, mldsa##N##_is_whole, mldsa##N##_is_pair,      \
            mldsa##N##_mu_begin, mldsa##N##_mu_begin_private, MLDSA##N##_PREPARED_PUBLIC_KEY_LEN,              \
            MLDSA##N##_PREPARED_PRIVATE_KEY_LEN, MLDSA##N##_STACK_PREPARE_PUBLIC_KEY,                          \
            MLDSA##N##_STACK_VERIFY_PREPARED, MLDSA##N##_STACK_PREPARE_PRIVATE_KEY,                            \
            MLDSA##N##_STACK_SIGN_PREPARED, mldsa##N##_prepare_public_key, mldsa##N##_verify_prepared,         \
            mldsa##N##_hash_verify_prepared, mldsa##N##_verify_mu_prepared, mldsa##N##_prepare_private_key,    \
            mldsa##N##_sign_prepared, mldsa##N##_hash_sign_prepared, mldsa##N##_sign_mu_prepared,              \
            MLDSA##N##_PUBLIC_KEY_DER_LEN, MLDSA##N##_PRIVATE_KEY_DER_LEN, MLDSA##N##_BOTH_DER_LEN,            \
            MLDSA##N##_STACK_DER, MLDSA##N##_STACK_PEM, mldsa##N##_public_key_to_der,                          \
            mldsa##N##_public_key_from_der, mldsa##N##_seed_to_der, mldsa##N##_private_key_to_der,             \
            mldsa##N##_both_to_der, mldsa##N##_private_key_from_der, mldsa##N##_seed_from_der,                 \
            mldsa##N##_public_key_from_pem, mldsa##N##_private_key_from_pem, mldsa##N##_seed_from_pem          \
    }
static const struct set SETS[3] = {SET(44), SET(65), SET(87)};

/* The object identifier of SHA-256, written out; the header has it as MLDSA_OID_SHA2_256. */
static const uint8_t SHA256_OID[11] __attribute__((unused)) = {0x06, 0x09, 0x60, 0x86, 0x48, 0x01, 0x65, 0x03, 0x04, 0x02, 0x01};

static int failures __attribute__((unused));
/* Counts a result that is another one than wanted. */
#define WANT(got, wanted)                                                                                      \
    do {                                                                                                       \
        unsigned long got_ = (got), wanted_ = (wanted);                                                        \
        if (got_ != wanted_) {                                                                                 \
            printf("line %d: %s is %lu, wanted %lu\n", __LINE__, #got, got_, wanted_);                         \
            failures++;                                                                                        \
        }                                                                                                      \
    } while (0)

#endif
