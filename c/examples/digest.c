/* hash_sign, hash_verify, mldsa_check_pre_hash: a signature of a digest, under the empty context. */
#include <mldsa.h>
#include <stdio.h>
#include <sys/random.h>

int main(void)
{
    static const uint8_t digest[64] = {0}; /* stands for the SHA-512 of a message */
    static uint8_t public_key[MLDSA65_PUBLIC_KEY_LEN], private_key[MLDSA65_PRIVATE_KEY_LEN];
    static uint8_t signature[MLDSA65_SIGNATURE_LEN];
    uint8_t seed[MLDSA_SEED_LEN], random[MLDSA_RANDOM_LEN];
    uint32_t answer = mldsa_check_pre_hash(digest, sizeof digest, MLDSA_OID_SHA2_512, MLDSA_OID_LEN);

    if (getrandom(seed, sizeof seed, 0) != sizeof seed || getrandom(random, sizeof random, 0) != sizeof random)
        return 2;
    if (answer == MLDSA_DONE)
        answer = mldsa65_keygen(seed, sizeof seed, public_key, sizeof public_key, private_key, sizeof private_key);
    if (answer == MLDSA_DONE)
        answer = mldsa65_hash_sign(private_key, sizeof private_key, digest, sizeof digest, MLDSA_NOTHING, 0,
                                   MLDSA_OID_SHA2_512, MLDSA_OID_LEN, random, sizeof random, signature,
                                   sizeof signature);
    if (answer != MLDSA_DONE) {
        fprintf(stderr, "not signed: %s\n", mldsa_text(answer));
        return 1;
    }
    return mldsa65_hash_verify(public_key, sizeof public_key, digest, sizeof digest, MLDSA_NOTHING, 0,
                               MLDSA_OID_SHA2_512, MLDSA_OID_LEN, signature, sizeof signature) == MLDSA_YES ? 0 : 1;
}
