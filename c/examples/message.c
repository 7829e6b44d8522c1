/* keygen, sign, verify: a key pair, and a signature of a message under a context. */
#include <mldsa.h>
#include <stdio.h>
#include <sys/random.h>

int main(void)
{
    static const uint8_t message[] = {'h', 'e', 'l', 'l', 'o'}, context[] = {'g', 'r', 'e', 'e', 't'};
    static uint8_t public_key[MLDSA65_PUBLIC_KEY_LEN], private_key[MLDSA65_PRIVATE_KEY_LEN];
    static uint8_t signature[MLDSA65_SIGNATURE_LEN];
    uint8_t seed[MLDSA_SEED_LEN], random[MLDSA_RANDOM_LEN];
    uint32_t answer;

    if (getrandom(seed, sizeof seed, 0) != sizeof seed || getrandom(random, sizeof random, 0) != sizeof random)
        return 2;
    answer = mldsa65_keygen(seed, sizeof seed, public_key, sizeof public_key, private_key, sizeof private_key);
    if (answer == MLDSA_DONE)
        answer = mldsa65_sign(private_key, sizeof private_key, message, sizeof message, context, sizeof context,
                              random, sizeof random, signature, sizeof signature);
    if (answer != MLDSA_DONE) {
        fprintf(stderr, "not signed: %s\n", mldsa_text(answer));
        return 1;
    }
    return mldsa65_verify(public_key, sizeof public_key, message, sizeof message, context, sizeof context, signature,
                          sizeof signature) == MLDSA_YES ? 0 : 1;
}
