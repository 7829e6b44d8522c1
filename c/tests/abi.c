/* What a program of 0.2.0 was compiled with: names, parameters, lengths and numbers. Within 0.2 no line of this is changed. */
#include "mldsa.h"

#include <stdio.h>
#include <string.h>

#define IS(name, value) _Static_assert((name) == (value), #name " is another number")
#define HAS(name, ...) _Static_assert(_Generic(&name, uint32_t (*)(__VA_ARGS__): 1, default: 0), #name " takes something else")
#define IN const uint8_t *, size_t
#define OUT uint8_t *, size_t

IS(MLDSA_DONE, 0);
IS(MLDSA_YES, 0);
IS(MLDSA_NO, 2);
IS(MLDSA_WRONG_LENGTH, 3);
IS(MLDSA_CONTEXT_TOO_LONG, 4);
IS(MLDSA_HASH_CONTEXT_TOO_LONG, 5);
IS(MLDSA_OID_EMPTY, 6);
IS(MLDSA_OID_NOT_DER, 7);
IS(MLDSA_DIGEST_TOO_LONG, 8);
IS(MLDSA_DIGEST_LENGTH, 9);
IS(MLDSA_TOO_MANY_ATTEMPTS, 10);
IS(MLDSA_KEY_RANGE, 11);
IS(MLDSA_SAMPLING_LIMIT, 12);
IS(MLDSA_BROKEN_STATE, 13);
IS(MLDSA_NOT_PREPARED, 14);
IS(MLDSA_DER_CUT_SHORT, 15);
IS(MLDSA_DER_TRAILING, 16);
IS(MLDSA_DER_DAMAGED, 17);
IS(MLDSA_DER_VERSION, 18);
IS(MLDSA_DER_ALGORITHM, 19);
IS(MLDSA_DER_KEY_LENGTH, 20);
IS(MLDSA_OTHER_SET, 21);
IS(MLDSA_INCONSISTENT, 22);
IS(MLDSA_NO_SEED, 23);
IS(MLDSA_PEM_MISSING, 24);
IS(MLDSA_PEM_ENCRYPTED, 25);
IS(MLDSA_PEM_CERTIFICATE, 26);
IS(MLDSA_PEM_OTHER_KIND, 27);
IS(MLDSA_PEM_OTHER_LABEL, 28);
IS(MLDSA_PEM_CUT_SHORT, 29);
IS(MLDSA_PEM_TRAILING, 30);
IS(MLDSA_PEM_DAMAGED, 31);

IS(MLDSA_SEED_LEN, 32);
IS(MLDSA_RANDOM_LEN, 32);
IS(MLDSA_MU_LEN, 64);
IS(MLDSA_STATE_LEN, 337);
IS(MLDSA_OID_LEN, 11);
IS(MLDSA_SEED_DER_LEN, 54);
IS(MLDSA_TEXT_LEN, 64);
IS(MLDSA_LENGTHS_LEN, 52);
IS(MLDSA_NAME_LEN, 16);

#define SET(n, public_key, private_key, signature, prepared_public_key, prepared_private_key)                  \
    IS(MLDSA##n##_PUBLIC_KEY_LEN, public_key);                                                                 \
    IS(MLDSA##n##_PRIVATE_KEY_LEN, private_key);                                                               \
    IS(MLDSA##n##_SIGNATURE_LEN, signature);                                                                   \
    IS(MLDSA##n##_PREPARED_PUBLIC_KEY_LEN, prepared_public_key);                                               \
    IS(MLDSA##n##_PREPARED_PRIVATE_KEY_LEN, prepared_private_key);                                             \
    HAS(mldsa##n##_keygen, IN, OUT, OUT);                                                                      \
    HAS(mldsa##n##_sign, IN, IN, IN, IN, OUT);                                                                 \
    HAS(mldsa##n##_verify, IN, IN, IN, IN);                                                                    \
    HAS(mldsa##n##_accepts, IN, IN, IN, IN);                                                                   \
    HAS(mldsa##n##_hash_sign, IN, IN, IN, IN, IN, OUT);                                                        \
    HAS(mldsa##n##_hash_verify, IN, IN, IN, IN, IN);                                                           \
    HAS(mldsa##n##_sign_mu, IN, IN, IN, OUT);                                                                  \
    HAS(mldsa##n##_verify_mu, IN, IN, IN);                                                                     \
    HAS(mldsa##n##_public_key, IN, OUT);                                                                       \
    HAS(mldsa##n##_check_private_key, IN);                                                                     \
    HAS(mldsa##n##_is_whole, IN);                                                                              \
    HAS(mldsa##n##_is_pair, IN);                                                                               \
    HAS(mldsa##n##_mu_begin, IN, IN, OUT);                                                                     \
    HAS(mldsa##n##_mu_begin_private, IN, IN, OUT);                                                             \
    HAS(mldsa##n##_prepare_public_key, IN, OUT);                                                               \
    HAS(mldsa##n##_prepare_private_key, IN, OUT);                                                              \
    HAS(mldsa##n##_sign_prepared, IN, IN, IN, IN, OUT);                                                        \
    HAS(mldsa##n##_verify_prepared, IN, IN, IN, IN);                                                           \
    HAS(mldsa##n##_hash_sign_prepared, IN, IN, IN, IN, IN, OUT);                                               \
    HAS(mldsa##n##_hash_verify_prepared, IN, IN, IN, IN, IN);                                                  \
    HAS(mldsa##n##_sign_mu_prepared, IN, IN, IN, OUT);                                                         \
    HAS(mldsa##n##_verify_mu_prepared, IN, IN, IN)
SET(44, 1312, 2560, 2420, 17760, 18944);
SET(65, 1952, 4032, 3309, 32736, 34752);
SET(87, 2592, 4896, 4627, 60000, 62240);

#define DER(n, public_key, private_key, both)                                                                  \
    IS(MLDSA##n##_PUBLIC_KEY_DER_LEN, public_key);                                                             \
    IS(MLDSA##n##_PRIVATE_KEY_DER_LEN, private_key);                                                           \
    IS(MLDSA##n##_BOTH_DER_LEN, both);                                                                         \
    HAS(mldsa##n##_public_key_to_der, IN, OUT);                                                                \
    HAS(mldsa##n##_public_key_from_der, IN, OUT);                                                              \
    HAS(mldsa##n##_seed_to_der, IN, OUT);                                                                      \
    HAS(mldsa##n##_private_key_to_der, IN, OUT);                                                               \
    HAS(mldsa##n##_both_to_der, IN, OUT);                                                                      \
    HAS(mldsa##n##_private_key_from_der, IN, OUT);                                                             \
    HAS(mldsa##n##_seed_from_der, IN, OUT)
DER(44, 1334, 2588, 2626);
DER(65, 1974, 4060, 4098);
DER(87, 2614, 4924, 4962);

#define PEM(n)                                                                                                 \
    HAS(mldsa##n##_public_key_from_pem, IN, OUT);                                                              \
    HAS(mldsa##n##_private_key_from_pem, IN, OUT);                                                             \
    HAS(mldsa##n##_seed_from_pem, IN, OUT)
PEM(44);
PEM(65);
PEM(87);

HAS(mldsa_mu_update, IN, OUT);
HAS(mldsa_mu_finish, IN, OUT);
HAS(mldsa_check_pre_hash, IN, IN);
HAS(mldsa_version, void);
HAS(mldsa_text_of, uint32_t, OUT);
HAS(mldsa_lengths, uint32_t, OUT);
HAS(mldsa_name, uint32_t, OUT);

IS(MLDSA_VERSION >> 8, 2);

int main(void)
{
    char text[32];
    snprintf(text, sizeof text, "%d.%d.%d", MLDSA_VERSION >> 16, MLDSA_VERSION >> 8 & 255, MLDSA_VERSION & 255);
    if (strcmp(text, MLDSA_VERSION_TEXT) || mldsa_version() != MLDSA_VERSION) {
        printf("%s, %s and %u differ\n", text, MLDSA_VERSION_TEXT, mldsa_version());
        return 1;
    }
    return 0;
}
