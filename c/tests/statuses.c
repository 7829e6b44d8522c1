/* Each result of each call at each set, and what is in the arrays afterwards. */
#include "sets.h"

static uint8_t public_key[LONGEST_KEY + 1], private_key[LONGEST_KEY + 1], signature[LONGEST_SIGNATURE + 1];
static uint8_t was[LONGEST_KEY + 1], other[LONGEST_KEY + 1], damaged[LONGEST_KEY + 1];
static const uint8_t message[] = "a message", random_bytes[32];
static uint8_t seed[33], context[256] = "a context", digest[1025] = {7}, mu[65] = {9};
enum { M = sizeof message, C = 9 };

/* The first bytes of t1, and the last ones, of the public key of the seed 00 01 .. 1F: from OpenSSL 4.0.0. */
static const struct { uint8_t first[8], last[8]; } KNOWN[3] = {
    {{0x4F, 0xC9, 0x94, 0x6D, 0x42, 0xF1, 0x9B, 0x79}, {0x05, 0xC8, 0x30, 0xB3, 0x24, 0x2C, 0x83, 0x12}},
    {{0xD0, 0x5B, 0x38, 0xDB, 0xB2, 0xED, 0xF0, 0x1E}, {0x0A, 0x05, 0x1E, 0x02, 0xF2, 0xE8, 0x44, 0x4F}},
    {{0xA7, 0x3B, 0x32, 0x3B, 0x9B, 0xA2, 0x1A, 0xB6}, {0x31, 0x21, 0x2A, 0xEC, 0xE0, 0xA3, 0x4A, 0x60}},
};

static void keys(const struct set *s, int which)
{
    size_t pk = s->public_key_len, sk = s->private_key_len;
    size_t lengths[][3] = {{31, pk, sk}, {33, pk, sk}, {0, pk, sk}, {32, pk - 1, sk}, {32, pk + 1, sk}, {32, 0, sk},
                           {32, pk, sk - 1}, {32, pk, sk + 1}, {32, pk, 0}, {32, sk, pk}};
    for (size_t i = 0; i < 32; i++)
        seed[i] = (uint8_t)i;
    memset(public_key, 0xA5, sizeof public_key);
    memset(private_key, 0xA5, sizeof private_key);
    memset(was, 0xA5, sizeof was);
    for (size_t i = 0; i < sizeof lengths / sizeof *lengths; i++)
        WANT(s->keygen(seed, lengths[i][0], public_key, lengths[i][1], private_key, lengths[i][2]), MLDSA_WRONG_LENGTH);
    WANT(memcmp(public_key, was, sizeof was), 0);
    WANT(memcmp(private_key, was, sizeof was), 0);

    WANT(s->keygen(seed, 32, public_key, pk, private_key, sk), MLDSA_DONE);
    WANT(memcmp(public_key + 32, KNOWN[which].first, 8), 0);
    WANT(memcmp(public_key + pk - 8, KNOWN[which].last, 8), 0);
    WANT(public_key[pk], 0xA5);
    WANT(private_key[sk], 0xA5);
    WANT(memcmp(public_key, private_key, 32), 0);

    memset(other, 0xA5, sizeof other);
    WANT(s->public_key(private_key, sk - 1, other, pk), MLDSA_WRONG_LENGTH);
    WANT(s->public_key(private_key, sk, other, pk + 1), MLDSA_WRONG_LENGTH);
    WANT(s->public_key(private_key, 0, other, 0), MLDSA_WRONG_LENGTH);
    WANT(memcmp(other, was, sizeof was), 0);
    WANT(s->public_key(private_key, sk, other, pk), MLDSA_DONE);
    WANT(memcmp(other, public_key, pk), 0);
    WANT(other[pk], 0xA5);

    WANT(s->check_private_key(private_key, sk), MLDSA_DONE);
    WANT(s->check_private_key(private_key, sk + 1), MLDSA_WRONG_LENGTH);
    WANT(s->check_private_key(private_key, 0), MLDSA_WRONG_LENGTH);
    WANT(s->is_whole(private_key, sk), MLDSA_YES);
    WANT(s->is_whole(private_key, sk - 1), MLDSA_WRONG_LENGTH);

    memcpy(damaged, private_key, sk);
    damaged[sk - 1] ^= 1; /* of t0 */
    WANT(s->check_private_key(damaged, sk), MLDSA_DONE);
    WANT(s->is_whole(damaged, sk), MLDSA_NO);
    damaged[128] = 0xFF; /* a coefficient of s1 above eta */
    WANT(s->check_private_key(damaged, sk), MLDSA_KEY_RANGE);
    WANT(s->is_whole(damaged, sk), MLDSA_KEY_RANGE);
    memset(other, 0xA5, sizeof other);
    WANT(s->public_key(damaged, sk, other, pk), MLDSA_KEY_RANGE);
    WANT(memcmp(other, was, sizeof was), 0);
}

/* Signing that returns an error, and what it must leave. */
#define REFUSED(call, status)                                                                                  \
    do {                                                                                                       \
        WANT(call, status);                                                                                    \
        WANT(memcmp(signature, was, sizeof signature), 0);                                                     \
    } while (0)

/* verify, and accepts of the same. */
#define JUDGED(status, ...)                                                                                    \
    do {                                                                                                       \
        WANT(s->verify(__VA_ARGS__), status);                                                                  \
        WANT(s->accepts(__VA_ARGS__), (status) == MLDSA_YES ? 1 : 0);                                          \
    } while (0)

static void messages(const struct set *s)
{
    size_t pk = s->public_key_len, sk = s->private_key_len, sig = s->signature_len;
    memset(signature, 0xA5, sizeof signature);
    REFUSED(s->sign(private_key, sk - 1, message, M, context, C, random_bytes, 32, signature, sig), MLDSA_WRONG_LENGTH);
    REFUSED(s->sign(private_key, sk, message, M, context, C, random_bytes, 31, signature, sig), MLDSA_WRONG_LENGTH);
    REFUSED(s->sign(private_key, sk, message, M, context, C, random_bytes, 32, signature, sig - 1), MLDSA_WRONG_LENGTH);
    REFUSED(s->sign(private_key, sk, message, M, context, C, random_bytes, 32, signature, sig + 1), MLDSA_WRONG_LENGTH);
    REFUSED(s->sign(private_key, sk, message, M, context, C, random_bytes, 0, signature, 0), MLDSA_WRONG_LENGTH);
    REFUSED(s->sign(private_key, sk, message, M, context, 256, random_bytes, 32, signature, sig), MLDSA_CONTEXT_TOO_LONG);
    REFUSED(s->sign(damaged, sk, message, M, context, C, random_bytes, 32, signature, sig), MLDSA_KEY_RANGE);

    WANT(s->sign(private_key, sk, message, M, context, C, random_bytes, 32, signature, sig), MLDSA_DONE);
    WANT(signature[sig], 0xA5);
    JUDGED(MLDSA_YES, public_key, pk, message, M, context, C, signature, sig);
    JUDGED(MLDSA_NO, public_key, pk, message, M - 1, context, C, signature, sig);
    JUDGED(MLDSA_NO, public_key, pk, message, M, context, C - 1, signature, sig);
    JUDGED(MLDSA_NO, public_key, pk, context, C, message, M, signature, sig);
    JUDGED(MLDSA_NO, public_key, pk, message, M, context, 256, signature, sig);
    JUDGED(MLDSA_WRONG_LENGTH, public_key, pk - 1, message, M, context, C, signature, sig);
    JUDGED(MLDSA_WRONG_LENGTH, public_key, pk, message, M, context, C, signature, sig - 1);
    JUDGED(MLDSA_WRONG_LENGTH, public_key, pk, message, M, context, C, signature, 0);
    WANT(s->hash_verify(public_key, pk, message, M, context, C, SHA256_OID, 11, signature, sig), MLDSA_NO);
    for (size_t bit = 0; bit < 8 * sig; bit += 997) {
        signature[bit / 8] ^= (uint8_t)(1 << bit % 8);
        JUDGED(MLDSA_NO, public_key, pk, message, M, context, C, signature, sig);
        signature[bit / 8] ^= (uint8_t)(1 << bit % 8);
    }
    public_key[40] ^= 1;
    JUDGED(MLDSA_NO, public_key, pk, message, M, context, C, signature, sig);
    public_key[40] ^= 1;
    WANT(s->sign(private_key, sk, MLDSA_NOTHING, 0, MLDSA_NOTHING, 0, random_bytes, 32, signature, sig), MLDSA_DONE);
    JUDGED(MLDSA_YES, public_key, pk, MLDSA_NOTHING, 0, MLDSA_NOTHING, 0, signature, sig);
    WANT(s->sign(private_key, sk, message, M, context, 255, random_bytes, 32, signature, sig), MLDSA_DONE);
    JUDGED(MLDSA_YES, public_key, pk, message, M, context, 255, signature, sig);
}

/* hash_sign, and check_pre_hash of the same digest. */
#define DIGEST(digest_len, oid, oid_len, status)                                                               \
    do {                                                                                                       \
        memcpy(was, signature, sizeof signature);                                                              \
        REFUSED(s->hash_sign(private_key, sk, digest, digest_len, context, C, oid, oid_len, random_bytes, 32,  \
                             signature, sig), status);                                                         \
        WANT(s->hash_verify(public_key, pk, digest, digest_len, context, C, oid, oid_len, signature, sig),     \
             MLDSA_NO);                                                                                        \
        WANT(mldsa_check_pre_hash(digest, digest_len, oid, oid_len), status);                                  \
    } while (0)

static void digests(const struct set *s)
{
    static const uint8_t OTHER_OID[5] = {0x06, 0x03, 0x2A, 0x03, 0x04}, SHA1_OID[7] = {0x06, 0x05, 0x2B, 0x0E, 0x03, 0x02, 0x1A};
    size_t pk = s->public_key_len, sk = s->private_key_len, sig = s->signature_len;
    WANT(s->hash_sign(private_key, sk, digest, 32, context, C, SHA256_OID, 11, random_bytes, 32, signature, sig), MLDSA_DONE);
    WANT(s->hash_verify(public_key, pk, digest, 32, context, C, SHA256_OID, 11, signature, sig), MLDSA_YES);
    WANT(s->verify(public_key, pk, digest, 32, context, C, signature, sig), MLDSA_NO);
    WANT(s->hash_verify(public_key, pk, digest, 32, context, C, SHA256_OID, 11, signature, sig + 1), MLDSA_WRONG_LENGTH);
    WANT(s->hash_verify(public_key, pk + 1, digest, 32, context, C, SHA256_OID, 11, signature, sig), MLDSA_WRONG_LENGTH);
    WANT(mldsa_check_pre_hash(digest, 32, SHA256_OID, 11), MLDSA_DONE);
    DIGEST(31, SHA256_OID, 11, MLDSA_DIGEST_LENGTH);
    DIGEST(0, SHA256_OID, 11, MLDSA_DIGEST_LENGTH);
    DIGEST(32, SHA256_OID, 10, MLDSA_OID_NOT_DER);
    DIGEST(32, SHA256_OID, 2, MLDSA_OID_NOT_DER);
    DIGEST(32, MLDSA_NOTHING, 0, MLDSA_OID_EMPTY);
    DIGEST(1025, OTHER_OID, 5, MLDSA_DIGEST_TOO_LONG);
    WANT(mldsa_check_pre_hash(digest, 20, SHA1_OID, 7), MLDSA_DONE);
    memcpy(was, signature, sizeof signature);
    REFUSED(s->hash_sign(private_key, sk, digest, 32, context, 256, SHA256_OID, 11, random_bytes, 32, signature, sig),
            MLDSA_HASH_CONTEXT_TOO_LONG);
    REFUSED(s->hash_sign(damaged, sk, digest, 32, context, C, SHA256_OID, 11, random_bytes, 32, signature, sig),
            MLDSA_KEY_RANGE);
    REFUSED(s->hash_sign(private_key, sk, digest, 32, context, C, SHA256_OID, 11, random_bytes, 33, signature, sig),
            MLDSA_WRONG_LENGTH);
    WANT(s->hash_sign(private_key, sk, digest, 1024, context, C, OTHER_OID, 5, random_bytes, 32, signature, sig), MLDSA_DONE);
    WANT(s->hash_verify(public_key, pk, digest, 1024, context, C, OTHER_OID, 5, signature, sig), MLDSA_YES);
}

static void hashes(const struct set *s)
{
    size_t pk = s->public_key_len, sk = s->private_key_len, sig = s->signature_len;
    memcpy(was, signature, sizeof signature);
    REFUSED(s->sign_mu(private_key, sk, mu, 63, random_bytes, 32, signature, sig), MLDSA_WRONG_LENGTH);
    REFUSED(s->sign_mu(private_key, sk, mu, 65, random_bytes, 32, signature, sig), MLDSA_WRONG_LENGTH);
    REFUSED(s->sign_mu(private_key, sk - 1, mu, 64, random_bytes, 32, signature, sig), MLDSA_WRONG_LENGTH);
    REFUSED(s->sign_mu(private_key, sk, mu, 64, random_bytes, 31, signature, sig), MLDSA_WRONG_LENGTH);
    REFUSED(s->sign_mu(damaged, sk, mu, 64, random_bytes, 32, signature, sig), MLDSA_KEY_RANGE);
    WANT(s->sign_mu(private_key, sk, mu, 64, random_bytes, 32, signature, sig), MLDSA_DONE);
    WANT(s->verify_mu(public_key, pk, mu, 64, signature, sig), MLDSA_YES);
    WANT(s->verify_mu(public_key, pk, mu, 63, signature, sig), MLDSA_WRONG_LENGTH);
    WANT(s->verify_mu(public_key, pk, mu, 64, signature, sig - 1), MLDSA_WRONG_LENGTH);
    WANT(s->verify_mu(public_key, pk + 1, mu, 64, signature, sig), MLDSA_WRONG_LENGTH);
    mu[0] ^= 1;
    WANT(s->verify_mu(public_key, pk, mu, 64, signature, sig), MLDSA_NO);
    mu[0] ^= 1;
}

/* The header's identifiers: each ends in the number that the standard's list has, and takes digests of one length. */
static void identifiers(void)
{
    static const uint8_t bytes[64] = {0};
    const struct { const uint8_t *oid; uint8_t last; size_t digest_len; } NAMED[12] = {
        {MLDSA_OID_SHA2_256, 1, 32}, {MLDSA_OID_SHA2_384, 2, 48}, {MLDSA_OID_SHA2_512, 3, 64}, {MLDSA_OID_SHA2_224, 4, 28},
        {MLDSA_OID_SHA2_512_224, 5, 28}, {MLDSA_OID_SHA2_512_256, 6, 32}, {MLDSA_OID_SHA3_224, 7, 28}, {MLDSA_OID_SHA3_256, 8, 32},
        {MLDSA_OID_SHA3_384, 9, 48}, {MLDSA_OID_SHA3_512, 10, 64}, {MLDSA_OID_SHAKE128, 11, 32}, {MLDSA_OID_SHAKE256, 12, 64}};
    for (int i = 0; i < 12; i++) {
        WANT(memcmp(NAMED[i].oid, SHA256_OID, MLDSA_OID_LEN - 1), 0);
        WANT(NAMED[i].oid[MLDSA_OID_LEN - 1], NAMED[i].last);
        for (size_t length = 0; length <= 64; length++)
            WANT(mldsa_check_pre_hash(bytes, length, NAMED[i].oid, MLDSA_OID_LEN),
                 length == NAMED[i].digest_len ? MLDSA_DONE : MLDSA_DIGEST_LENGTH);
    }
}

/* The text of each number is the header's, with zeros behind it; and an array of another length stays as it is. */
static void texts(void)
{
    uint8_t text[MLDSA_TEXT_LEN + 1], old[sizeof text];
    char wanted[MLDSA_TEXT_LEN];
    memset(old, 0xA5, sizeof old);
    for (uint32_t number = 0; number <= 300; number++) {
        uint32_t told = number == 300 ? UINT32_MAX : number;
        memset(text, 0xA5, sizeof text);
        memset(wanted, 0, sizeof wanted);
        WANT(strlen(mldsa_text(told)) < sizeof wanted, 1);
        memcpy(wanted, mldsa_text(told), strlen(mldsa_text(told)));
        for (size_t length = 0; length <= sizeof text; length++) {
            if (length == MLDSA_TEXT_LEN)
                continue;
            WANT(mldsa_text_of(told, text, length), MLDSA_WRONG_LENGTH);
            WANT(memcmp(text, old, sizeof old), 0);
        }
        WANT(mldsa_text_of(told, text, MLDSA_TEXT_LEN), MLDSA_DONE);
        WANT(memcmp(text, wanted, sizeof wanted), 0);
        WANT(text[MLDSA_TEXT_LEN], 0xA5);
    }
}

/* Each length of a set, and its name, are the header's. An array of another length, or for another number, stays as it is. */
static void sets(void)
{
    uint8_t found[MLDSA_LENGTHS_LEN + 1], old[sizeof found];
    memset(old, 0xA5, sizeof old);
    for (uint32_t number = 0; number <= 300; number++) {
        uint32_t told = number == 300 ? UINT32_MAX : number, status = MLDSA_NO;
        for (const struct set *s = SETS; s < SETS + 3; s++) {
            const size_t wanted[] = {s->public_key_len, s->private_key_len, s->signature_len, MLDSA_SEED_LEN, MLDSA_RANDOM_LEN,
                                     MLDSA_MU_LEN, MLDSA_STATE_LEN, s->prepared_public_key_len, s->prepared_private_key_len,
                                     s->public_key_der_len, MLDSA_SEED_DER_LEN, s->private_key_der_len, s->both_der_len};
            char name[MLDSA_NAME_LEN] = {0};
            if ((uint32_t)s->number != told)
                continue;
            status = MLDSA_DONE;
            memset(found, 0xA5, sizeof found);
            WANT(mldsa_lengths(told, found, MLDSA_LENGTHS_LEN), MLDSA_DONE);
            for (size_t i = 0; i < sizeof wanted / sizeof *wanted; i++)
                WANT(found[4 * i] | found[4 * i + 1] << 8 | found[4 * i + 2] << 16 | (uint32_t)found[4 * i + 3] << 24, wanted[i]);
            WANT(sizeof wanted / sizeof *wanted, MLDSA_LENGTHS_LEN / 4);
            WANT(wanted[MLDSA_LENGTH_BOTH_DER], s->both_der_len);
            WANT(found[MLDSA_LENGTHS_LEN], 0xA5);
            memset(found, 0xA5, sizeof found);
            snprintf(name, sizeof name, "ML-DSA-%d", s->number);
            WANT(mldsa_name(told, found, MLDSA_NAME_LEN), MLDSA_DONE);
            WANT(memcmp(found, name, sizeof name), 0);
            WANT(found[MLDSA_NAME_LEN], 0xA5);
        }
        memset(found, 0xA5, sizeof found);
        for (size_t length = 0; length <= sizeof found; length++) {
            if (status != MLDSA_DONE || length != MLDSA_LENGTHS_LEN)
                WANT(mldsa_lengths(told, found, length), length == MLDSA_LENGTHS_LEN ? status : MLDSA_WRONG_LENGTH);
            if (status != MLDSA_DONE || length != MLDSA_NAME_LEN)
                WANT(mldsa_name(told, found, length), length == MLDSA_NAME_LEN ? status : MLDSA_WRONG_LENGTH);
            WANT(memcmp(found, old, sizeof old), 0);
        }
    }
}

int main(void)
{
    texts();
    sets();
    identifiers();
    for (int which = 0; which < 3; which++) {
        keys(&SETS[which], which);
        messages(&SETS[which]);
        digests(&SETS[which]);
        hashes(&SETS[which]);
    }
    return failures != 0;
}
