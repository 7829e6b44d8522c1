/* This library, through C. */
#include "mldsa.h"
#include "peer.h"

#include <sys/random.h>

static int set;

static int set_up(const char *name)
{
    set = atoi(name);
#define SIZES(S)                                        \
    if (set == S) {                                     \
        public_len = MLDSA##S##_PUBLIC_KEY_LEN;         \
        private_len = MLDSA##S##_PRIVATE_KEY_LEN;       \
        signature_len = MLDSA##S##_SIGNATURE_LEN;       \
        return 1;                                       \
    }
    SIZES(44) SIZES(65) SIZES(87)
    return 0;
}

/* What a call of the set gives. */
#define AT_SET(CALL) (set == 44 ? CALL(44) : set == 65 ? CALL(65) : CALL(87))

static int keygen(uint8_t *public_key, uint8_t *private_key)
{
    uint8_t seed[MLDSA_SEED_LEN];
    if (getrandom(seed, sizeof seed, 0) != sizeof seed)
        return 0;
#define KEYGEN(S) mldsa##S##_keygen(seed, sizeof seed, public_key, public_len, private_key, private_len)
    return AT_SET(KEYGEN) == MLDSA_DONE;
}

static int sign(const uint8_t *private_key, const uint8_t *message, uint8_t *signature)
{
    uint8_t random[MLDSA_RANDOM_LEN];
    if (getrandom(random, sizeof random, 0) != sizeof random)
        return 0;
#define SIGN(S) mldsa##S##_sign(private_key, private_len, message, MESSAGE, MLDSA_NOTHING, 0, random, sizeof random, \
                                signature, signature_len)
    return AT_SET(SIGN) == MLDSA_DONE;
}

static int verify(const uint8_t *public_key, const uint8_t *message, const uint8_t *signature)
{
#define VERIFY(S) mldsa##S##_verify(public_key, public_len, message, MESSAGE, MLDSA_NOTHING, 0, signature, signature_len)
    return AT_SET(VERIFY) == MLDSA_YES;
}

/* Of digests of SHA-512 in the place of messages: reads digests and signs each under a key of its own, or judges. */
static int of_digests(const char *mode)
{
    uint8_t digest[64], random[MLDSA_RANDOM_LEN];
    if (!strcmp(mode, "hash_judge")) {
        while (get(public_key, public_len) && get(digest, sizeof digest) && get(signature, signature_len)) {
#define HASH_VERIFY(S) mldsa##S##_hash_verify(public_key, public_len, digest, sizeof digest, MLDSA_NOTHING, 0, \
                                              MLDSA_OID_SHA2_512, MLDSA_OID_LEN, signature, signature_len)
            puts(AT_SET(HASH_VERIFY) == MLDSA_YES ? "1" : "0");
        }
        return 0;
    }
    while (get(digest, sizeof digest)) {
        if (!keygen(public_key, private_key) || getrandom(random, sizeof random, 0) != sizeof random)
            fail("making a key");
#define HASH_SIGN(S) mldsa##S##_hash_sign(private_key, private_len, digest, sizeof digest, MLDSA_NOTHING, 0, \
                                          MLDSA_OID_SHA2_512, MLDSA_OID_LEN, random, sizeof random, signature, \
                                          signature_len)
        if (AT_SET(HASH_SIGN) != MLDSA_DONE)
            fail("signing");
        put(public_key, public_len, ' ');
        put(signature, signature_len, '\n');
    }
    return 0;
}

int main(int argc, char **argv)
{
    if (argc > 2 && !strncmp(argv[2], "hash_", 5))
        return set_up(argv[1]) ? of_digests(argv[2]) : 2;
    return peer_main(argc, argv);
}
