/* Null pointers with length 0, which the library that cargo builds takes as empty arrays. */
#include "sets.h"

int main(void)
{
    static uint8_t seed[32], private_key[LONGEST_KEY], public_key[LONGEST_KEY], empty[LONGEST_SIGNATURE];
    static uint8_t null[LONGEST_SIGNATURE], state[MLDSA_STATE_LEN], other[MLDSA_STATE_LEN];
    const uint8_t *volatile nothing = NULL;
    for (const struct set *s = SETS; s < SETS + 3; s++) {
        size_t pk = s->public_key_len, sk = s->private_key_len, sig = s->signature_len;
        WANT(s->keygen(seed, 32, public_key, pk, private_key, sk), MLDSA_DONE);
        WANT(s->sign(private_key, sk, MLDSA_NOTHING, 0, MLDSA_NOTHING, 0, seed, 32, empty, sig), MLDSA_DONE);
        WANT(s->sign(private_key, sk, nothing, 0, nothing, 0, seed, 32, null, sig), MLDSA_DONE);
        WANT(memcmp(empty, null, sig), 0);
        WANT(s->verify(public_key, pk, nothing, 0, nothing, 0, null, sig), MLDSA_YES);
        WANT(s->verify(nothing, 0, nothing, 0, nothing, 0, nothing, 0), MLDSA_WRONG_LENGTH);
        WANT(s->keygen(nothing, 0, (uint8_t *)nothing, 0, (uint8_t *)nothing, 0), MLDSA_WRONG_LENGTH);
        WANT(s->public_key_from_der(nothing, 0, public_key, pk), MLDSA_DER_CUT_SHORT);
        WANT(s->public_key_from_pem(nothing, 0, public_key, pk), MLDSA_PEM_CUT_SHORT);
        WANT(s->mu_begin(public_key, pk, nothing, 0, state, sizeof state), MLDSA_DONE);
        memcpy(other, state, sizeof state);
        WANT(mldsa_mu_update(nothing, 0, state, sizeof state), MLDSA_DONE);
        WANT(memcmp(other, state, sizeof state), 0);
    }
    return failures != 0;
}
