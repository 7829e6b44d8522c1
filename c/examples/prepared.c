/* prepare_public_key, prepare_private_key, verify_prepared, hash_verify_prepared, verify_mu_prepared, sign_prepared,
   hash_sign_prepared, sign_mu_prepared: many calls with one key. */
#include <mldsa.h>
#include <stdio.h>

int main(void)
{
    static uint8_t public_key[MLDSA65_PUBLIC_KEY_LEN], private_key[MLDSA65_PRIVATE_KEY_LEN];
    static uint8_t checks[MLDSA65_PREPARED_PUBLIC_KEY_LEN], signs[MLDSA65_PREPARED_PRIVATE_KEY_LEN];
    static uint8_t signature[MLDSA65_SIGNATURE_LEN], message[1];
    static const uint8_t seed[MLDSA_SEED_LEN] = {0};     /* stands for a seed, which is random */
    static const uint8_t random[MLDSA_RANDOM_LEN] = {0}; /* the deterministic variant */
    uint32_t answer = mldsa65_keygen(seed, sizeof seed, public_key, sizeof public_key, private_key, sizeof private_key);

    if (answer == MLDSA_DONE)
        answer = mldsa65_prepare_private_key(private_key, sizeof private_key, signs, sizeof signs);
    if (answer == MLDSA_DONE)
        answer = mldsa65_prepare_public_key(public_key, sizeof public_key, checks, sizeof checks);
    while (answer == MLDSA_DONE && message[0] < 3) {
        answer = mldsa65_sign_prepared(signs, sizeof signs, message, sizeof message, MLDSA_NOTHING, 0, random,
                                       sizeof random, signature, sizeof signature);
        if (answer == MLDSA_DONE)
            answer = mldsa65_verify_prepared(checks, sizeof checks, message, sizeof message, MLDSA_NOTHING, 0,
                                             signature, sizeof signature);
        message[0]++;
    }
    if (answer != MLDSA_YES)
        fprintf(stderr, "not signed and verified: %s\n", mldsa_text(answer));
    return answer == MLDSA_YES ? 0 : 1;
}
