/* public_key_to_der, public_key_from_der, seed_to_der, private_key_to_der, both_to_der, private_key_from_der, seed_from_der: keys as
 * files have them. */
#include <mldsa.h>
#include <stdio.h>
#include <string.h>

int main(void)
{
    static uint8_t public_key[MLDSA65_PUBLIC_KEY_LEN], private_key[MLDSA65_PRIVATE_KEY_LEN];
    static uint8_t public_der[MLDSA65_PUBLIC_KEY_DER_LEN], expanded_der[MLDSA65_PRIVATE_KEY_DER_LEN];
    static uint8_t both_der[MLDSA65_BOTH_DER_LEN], seed_der[MLDSA_SEED_DER_LEN];
    static uint8_t public_read[MLDSA65_PUBLIC_KEY_LEN], private_read[MLDSA65_PRIVATE_KEY_LEN];
    static const uint8_t seed[MLDSA_SEED_LEN] = {0}; /* stands for secret random bytes */
    uint8_t seed_read[MLDSA_SEED_LEN];
    uint32_t status = mldsa65_keygen(seed, sizeof seed, public_key, sizeof public_key, private_key, sizeof private_key);

    if (status == MLDSA_DONE)
        status = mldsa65_public_key_to_der(public_key, sizeof public_key, public_der, sizeof public_der);
    if (status == MLDSA_DONE)
        status = mldsa65_public_key_from_der(public_der, sizeof public_der, public_read, sizeof public_read);
    /* A private key by its seed, which is all to store; or expanded; or both. */
    if (status == MLDSA_DONE)
        status = mldsa65_seed_to_der(seed, sizeof seed, seed_der, sizeof seed_der);
    if (status == MLDSA_DONE)
        status = mldsa65_private_key_to_der(private_key, sizeof private_key, expanded_der, sizeof expanded_der);
    if (status == MLDSA_DONE)
        status = mldsa65_both_to_der(seed, sizeof seed, both_der, sizeof both_der);
    if (status == MLDSA_DONE)
        status = mldsa65_seed_from_der(both_der, sizeof both_der, seed_read, sizeof seed_read);
    /* A private key may have no seed: then ask for its expanded key. */
    if (status == MLDSA_DONE)
        status = mldsa65_seed_from_der(expanded_der, sizeof expanded_der, seed_read, sizeof seed_read);
    if (status == MLDSA_NO_SEED)
        status = mldsa65_private_key_from_der(expanded_der, sizeof expanded_der, private_read, sizeof private_read);
    if (status != MLDSA_DONE) {
        fprintf(stderr, "no key: %s\n", mldsa_text(status));
        return 1;
    }
    return memcmp(public_read, public_key, sizeof public_key) || memcmp(private_read, private_key, sizeof private_key) ||
           memcmp(seed_read, seed, sizeof seed);
}
