/* Arrays that a call only reads may overlap: what it returns and writes is the same as with arrays apart. */
#include "sets.h"

static uint8_t public_key[LONGEST_KEY], private_key[LONGEST_KEY], copy[LONGEST_KEY];
static uint8_t apart[LONGEST_SIGNATURE], together[LONGEST_SIGNATURE];

int main(void)
{
    for (int which = 0; which < 3; which++) {
        const struct set *s = &SETS[which];
        size_t pk = s->public_key_len, sk = s->private_key_len, sig = s->signature_len;
        uint8_t seed[32] = {(uint8_t)which}, random_bytes[32], context[255];
        WANT(s->keygen(seed, 32, public_key, pk, private_key, sk), MLDSA_DONE);
        /* The message is the private key, the context and the random bytes are parts of it. */
        memcpy(copy, private_key, sk);
        memcpy(random_bytes, private_key + 16, 32);
        memcpy(context, private_key + 32, 255);
        WANT(s->sign(private_key, sk, copy, sk, context, 255, random_bytes, 32, apart, sig), MLDSA_DONE);
        WANT(s->sign(private_key, sk, private_key, sk, private_key + 32, 255, private_key + 16, 32, together, sig), MLDSA_DONE);
        WANT(memcmp(apart, together, sig), 0);
        WANT(s->verify(public_key, pk, copy, sk, context, 255, apart, sig), MLDSA_YES);
        WANT(s->verify(public_key, pk, private_key, sk, private_key + 32, 255, together, sig), MLDSA_YES);
        /* The message is the signature or the key that judges it. */
        WANT(s->verify(public_key, pk, together, sig, together + 1, 200, together, sig), MLDSA_NO);
        WANT(s->verify(public_key, pk, public_key, pk, public_key + pk - 255, 255, together, sig), MLDSA_NO);
        WANT(s->sign(private_key, sk, public_key, pk, public_key + pk - 255, 255, random_bytes, 32, apart, sig), MLDSA_DONE);
        WANT(s->verify(public_key, pk, public_key, pk, public_key + pk - 255, 255, apart, sig), MLDSA_YES);
        /* The digest and its identifier end in one another. */
        memcpy(copy, SHA256_OID, 11);
        WANT(s->hash_sign(private_key, sk, copy + 5, 32, copy, 16, copy, 11, copy, 32, apart, sig), MLDSA_DONE);
        WANT(s->hash_verify(public_key, pk, copy + 5, 32, copy, 16, copy, 11, apart, sig), MLDSA_YES);
    }
    return failures != 0;
}
