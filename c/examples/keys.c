/* public_key, check_private_key, is_pair, is_whole: a private key that comes from elsewhere. */
#include <mldsa.h>
#include <stdio.h>
#include <string.h>

int main(void)
{
    static uint8_t private_key[MLDSA65_PRIVATE_KEY_LEN], stored[MLDSA65_PUBLIC_KEY_LEN];
    static uint8_t public_key[MLDSA65_PUBLIC_KEY_LEN];
    static const uint8_t seed[MLDSA_SEED_LEN] = {0}; /* stands for where the key comes from */
    uint32_t answer = mldsa65_keygen(seed, sizeof seed, stored, sizeof stored, private_key, sizeof private_key);

    if (answer == MLDSA_DONE)
        answer = mldsa65_check_private_key(private_key, sizeof private_key);
    /* The question to ask of a key before it is used: if so, what it signs is accepted. */
    if (answer == MLDSA_DONE)
        answer = mldsa65_is_pair(private_key, sizeof private_key);
    /* Weaker, without a look at the hash of the public key that the private key has. */
    if (answer == MLDSA_YES)
        answer = mldsa65_is_whole(private_key, sizeof private_key);
    if (answer == MLDSA_YES)
        answer = mldsa65_public_key(private_key, sizeof private_key, public_key, sizeof public_key);
    if (answer != MLDSA_DONE) {
        fprintf(stderr, "no key to be used: %s\n", mldsa_text(answer));
        return 1;
    }
    return memcmp(public_key, stored, sizeof stored) == 0 ? 0 : 1;
}
