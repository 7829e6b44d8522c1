/* Prepared keys: each call returns what the plain one does; what is rejected; and keys of any bytes.
 *
 *   prepared [COUNT]    so many keys of random bytes at each set, 1000 without it
 *
 * Each array is a block of its own, so that valgrind sees what is read or written beside it. */
#include "sets.h"

/* How many entries the matrix of each set has. */
static const int ENTRIES[3] = {16, 30, 56};

/* Of the public key of bytes 0, 7, 14 ..: the sum of (n + 1) x, modulo 2^32, over all values x of the matrix, n from 0 on, and the
 * first eight bytes of tr. By Python's hashlib and Algorithm 32 of FIPS 204. */
static const uint32_t KNOWN_SUMS[3] = {771393395, 2057068674, 1814194061};
static const char *const KNOWN_HASHES[3] = {"3f977b8a6ee0784c", "b0a6ae82821df16e", "6851b2daff59d46a"};

enum { Q = 8380417, MESSAGE = 100, CONTEXT = 9 };
static uint8_t message[MESSAGE], context[256], seed[32], random_bytes[32], mu[64];
static uint32_t drawn = 1;

static uint8_t *block(size_t size)
{
    uint8_t *made = malloc(size);
    if (!made)
        exit(2);
    memset(made, 0xA5, size);
    return made;
}

static int untouched(const uint8_t *at, size_t size)
{
    for (size_t i = 0; i < size; i++)
        if (at[i] != 0xA5)
            return 0;
    return 1;
}

static uint8_t draw(void)
{
    drawn = drawn * 1664525 + 1013904223;
    return (uint8_t)(drawn >> 24);
}

static uint32_t word(const uint8_t *at)
{
    return at[0] | (uint32_t)at[1] << 8 | (uint32_t)at[2] << 16 | (uint32_t)at[3] << 24;
}

static void put_word(uint8_t *at, uint32_t value)
{
    for (int i = 0; i < 4; i++)
        at[i] = (uint8_t)(value >> 8 * i);
}

/* What preparing writes, by another computation of the matrix and of tr. */
static void contents(const struct set *s, int entries, int which)
{
    size_t pk = s->public_key_len;
    uint8_t *public_key = block(pk), *prepared = block(s->prepared_public_key_len);
    uint32_t sum = 0;
    char text[17];
    for (size_t i = 0; i < pk; i++)
        public_key[i] = (uint8_t)(7 * i);
    WANT(s->prepare_public_key(public_key, pk, prepared, s->prepared_public_key_len), MLDSA_DONE);
    WANT(s->prepared_public_key_len, pk + 64 + 1024 * (size_t)entries);
    WANT(memcmp(prepared, public_key, pk), 0);
    for (int j = 0; j < 8; j++)
        snprintf(text + 2 * j, 3, "%02x", prepared[pk + (size_t)j]);
    WANT(strcmp(text, KNOWN_HASHES[which]), 0);
    for (int n = 0; n < 256 * entries; n++)
        sum += (uint32_t)(n + 1) * word(prepared + pk + 64 + 4 * n);
    WANT(sum, KNOWN_SUMS[which]);
    free(public_key);
    free(prepared);
}

struct keys {
    uint8_t *public_key, *private_key, *prepared_public, *prepared_private, *signature, *other;
};

static struct keys keys_of(const struct set *s, int entries)
{
    struct keys k = {block(s->public_key_len), block(s->private_key_len), block(s->prepared_public_key_len), block(s->prepared_private_key_len),
                     block(s->signature_len), block(s->signature_len)};
    WANT(s->keygen(seed, 32, k.public_key, s->public_key_len, k.private_key, s->private_key_len), MLDSA_DONE);
    WANT(s->prepare_public_key(k.public_key, s->public_key_len, k.prepared_public, s->prepared_public_key_len), MLDSA_DONE);
    WANT(s->prepare_private_key(k.private_key, s->private_key_len, k.prepared_private, s->prepared_private_key_len), MLDSA_DONE);
    WANT(memcmp(k.prepared_private, k.private_key, s->private_key_len), 0);
    /* Both have the same hash and the same matrix. */
    WANT(memcmp(k.prepared_public + s->public_key_len, k.private_key + 64, 64), 0);
    WANT(memcmp(k.prepared_public + s->public_key_len + 64, k.prepared_private + s->private_key_len, 1024 * (size_t)entries), 0);
    return k;
}

static void release(struct keys k)
{
    free(k.public_key), free(k.private_key), free(k.prepared_public), free(k.prepared_private), free(k.signature), free(k.other);
}

/* Signatures are those of the plain calls, and so are verdicts, of these signatures and of others. */
static void answers(const struct set *s, int entries)
{
    struct keys k = keys_of(s, entries);
    size_t pk = s->public_key_len, sk = s->private_key_len, sig = s->signature_len;
    WANT(s->sign(k.private_key, sk, message, MESSAGE, context, CONTEXT, random_bytes, 32, k.other, sig), MLDSA_DONE);
    WANT(s->sign_prepared(k.prepared_private, s->prepared_private_key_len, message, MESSAGE, context, CONTEXT, random_bytes, 32, k.signature, sig), MLDSA_DONE);
    WANT(memcmp(k.signature, k.other, sig), 0);
    WANT(s->sign_prepared(k.prepared_private, s->prepared_private_key_len, message, MESSAGE, context, CONTEXT, seed, 32, k.other, sig), MLDSA_DONE);
    WANT(memcmp(k.signature, k.other, sig) != 0, 1); /* other random bytes */
    WANT(s->verify_prepared(k.prepared_public, s->prepared_public_key_len, message, MESSAGE, context, CONTEXT, k.other, sig), MLDSA_YES);
    WANT(s->verify_prepared(k.prepared_public, s->prepared_public_key_len, message, MESSAGE, context, CONTEXT, k.signature, sig), MLDSA_YES);
    WANT(s->verify_prepared(k.prepared_public, s->prepared_public_key_len, message, MESSAGE - 1, context, CONTEXT, k.signature, sig), MLDSA_NO);
    WANT(s->verify_prepared(k.prepared_public, s->prepared_public_key_len, message, MESSAGE, context, CONTEXT - 1, k.signature, sig), MLDSA_NO);
    WANT(s->verify_prepared(k.prepared_public, s->prepared_public_key_len, message, MESSAGE, context, 256, k.signature, sig), MLDSA_NO);
    WANT(s->verify_mu_prepared(k.prepared_public, s->prepared_public_key_len, mu, 64, k.signature, sig), MLDSA_NO);
    for (size_t at = 0; at < sig; at += 97) {
        k.signature[at] ^= 1;
        WANT(s->verify_prepared(k.prepared_public, s->prepared_public_key_len, message, MESSAGE, context, CONTEXT, k.signature, sig),
             s->verify(k.public_key, pk, message, MESSAGE, context, CONTEXT, k.signature, sig));
        k.signature[at] ^= 1;
    }
    /* A digest. */
    WANT(s->hash_sign(k.private_key, sk, message, 32, context, CONTEXT, SHA256_OID, 11, random_bytes, 32, k.other, sig), MLDSA_DONE);
    WANT(s->hash_sign_prepared(k.prepared_private, s->prepared_private_key_len, message, 32, context, CONTEXT, SHA256_OID, 11, random_bytes, 32, k.signature, sig), MLDSA_DONE);
    WANT(memcmp(k.signature, k.other, sig), 0);
    WANT(s->hash_verify_prepared(k.prepared_public, s->prepared_public_key_len, message, 32, context, CONTEXT, SHA256_OID, 11, k.signature, sig), MLDSA_YES);
    WANT(s->hash_verify_prepared(k.prepared_public, s->prepared_public_key_len, message + 1, 32, context, CONTEXT, SHA256_OID, 11, k.signature, sig), MLDSA_NO);
    WANT(s->verify_prepared(k.prepared_public, s->prepared_public_key_len, message, 32, context, CONTEXT, k.signature, sig), MLDSA_NO);
    /* A hash mu. */
    WANT(s->sign_mu(k.private_key, sk, mu, 64, random_bytes, 32, k.other, sig), MLDSA_DONE);
    WANT(s->sign_mu_prepared(k.prepared_private, s->prepared_private_key_len, mu, 64, random_bytes, 32, k.signature, sig), MLDSA_DONE);
    WANT(memcmp(k.signature, k.other, sig), 0);
    WANT(s->verify_mu_prepared(k.prepared_public, s->prepared_public_key_len, mu, 64, k.signature, sig), MLDSA_YES);
    mu[0] ^= 1;
    WANT(s->verify_mu_prepared(k.prepared_public, s->prepared_public_key_len, mu, 64, k.signature, sig), MLDSA_NO);
    mu[0] ^= 1;
    /* What an input is rejected for. */
    memset(k.other, 0xA5, sig);
    WANT(s->sign_prepared(k.prepared_private, s->prepared_private_key_len, message, MESSAGE, context, 256, random_bytes, 32, k.other, sig), MLDSA_CONTEXT_TOO_LONG);
    WANT(s->hash_sign_prepared(k.prepared_private, s->prepared_private_key_len, message, 31, context, CONTEXT, SHA256_OID, 11, random_bytes, 32, k.other, sig), MLDSA_DIGEST_LENGTH);
    WANT(untouched(k.other, sig), 1);
    release(k);
}

/* Wrong lengths are errors, and nothing is written. */
static void lengths(const struct set *s, int entries)
{
    struct keys k = keys_of(s, entries);
    size_t pk = s->public_key_len, sk = s->private_key_len, sig = s->signature_len, p = s->prepared_public_key_len, q = s->prepared_private_key_len;
    uint8_t *out = block(q + 1);
    WANT(s->sign_mu_prepared(k.prepared_private, q, mu, 64, random_bytes, 32, k.signature, sig), MLDSA_DONE);
    WANT(s->prepare_public_key(k.public_key, pk - 1, out, p), MLDSA_WRONG_LENGTH);
    WANT(s->prepare_public_key(k.public_key, 0, out, p), MLDSA_WRONG_LENGTH);
    WANT(s->prepare_public_key(k.public_key, pk, out, p - 1), MLDSA_WRONG_LENGTH);
    WANT(s->prepare_public_key(k.public_key, pk, out, p + 1), MLDSA_WRONG_LENGTH);
    WANT(s->prepare_private_key(k.private_key, sk - 1, out, q), MLDSA_WRONG_LENGTH);
    WANT(s->prepare_private_key(k.private_key, sk, out, q - 1), MLDSA_WRONG_LENGTH);
    WANT(s->prepare_private_key(k.private_key, sk, out, q + 1), MLDSA_WRONG_LENGTH);
    WANT(s->verify_mu_prepared(k.prepared_public, p - 1, mu, 64, k.signature, sig), MLDSA_WRONG_LENGTH);
    WANT(s->verify_mu_prepared(k.prepared_public, 0, mu, 64, k.signature, sig), MLDSA_WRONG_LENGTH);
    WANT(s->verify_mu_prepared(k.prepared_public, p, mu, 63, k.signature, sig), MLDSA_WRONG_LENGTH);
    WANT(s->verify_mu_prepared(k.prepared_public, p, mu, 64, k.signature, sig - 1), MLDSA_WRONG_LENGTH);
    WANT(s->verify_prepared(k.prepared_public, p - 1, message, MESSAGE, context, CONTEXT, k.signature, sig), MLDSA_WRONG_LENGTH);
    WANT(s->hash_verify_prepared(k.prepared_public, p - 4, message, 32, context, CONTEXT, SHA256_OID, 11, k.signature, sig), MLDSA_WRONG_LENGTH);
    WANT(s->sign_mu_prepared(k.prepared_private, q - 1, mu, 64, random_bytes, 32, out, sig), MLDSA_WRONG_LENGTH);
    WANT(s->sign_mu_prepared(k.prepared_private, q, mu, 63, random_bytes, 32, out, sig), MLDSA_WRONG_LENGTH);
    WANT(s->sign_mu_prepared(k.prepared_private, q, mu, 64, random_bytes, 31, out, sig), MLDSA_WRONG_LENGTH);
    WANT(s->sign_mu_prepared(k.prepared_private, q, mu, 64, random_bytes, 32, out, sig - 1), MLDSA_WRONG_LENGTH);
    WANT(s->sign_prepared(k.prepared_private, q, message, MESSAGE, context, CONTEXT, random_bytes, 0, out, sig), MLDSA_WRONG_LENGTH);
    WANT(s->hash_sign_prepared(k.prepared_private, q - 4, message, 32, context, CONTEXT, SHA256_OID, 11, random_bytes, 32, out, sig), MLDSA_WRONG_LENGTH);
    WANT(untouched(out, q + 1), 1);
    free(out);
    release(k);
}

/* A word of q or more is rejected, wherever it stands, and q - 1 isn't. */
static void ranges(const struct set *s, int entries)
{
    struct keys k = keys_of(s, entries);
    size_t pk = s->public_key_len, sk = s->private_key_len, sig = s->signature_len;
    const int places[] = {0, 1, 255, 256, 128 * entries, 256 * entries - 1};
    const uint32_t words[] = {Q, Q + 1, 1u << 23, 1u << 31, 0xFFFFFFFF, (uint32_t)-Q};
    WANT(s->sign_mu_prepared(k.prepared_private, s->prepared_private_key_len, mu, 64, random_bytes, 32, k.signature, sig), MLDSA_DONE);
    for (int i = 0; i < 6; i++) {
        uint8_t *public_at = k.prepared_public + pk + 64 + 4 * places[i], *private_at = k.prepared_private + sk + 4 * places[i];
        uint32_t was = word(public_at);
        memset(k.other, 0xA5, sig);
        for (int j = 0; j < 6; j++) {
            put_word(public_at, words[j]);
            put_word(private_at, words[j]);
            WANT(s->verify_mu_prepared(k.prepared_public, s->prepared_public_key_len, mu, 64, k.signature, sig), MLDSA_NOT_PREPARED);
            WANT(s->sign_mu_prepared(k.prepared_private, s->prepared_private_key_len, mu, 64, random_bytes, 32, k.other, sig), MLDSA_NOT_PREPARED);
        }
        WANT(untouched(k.other, sig), 1);
        put_word(public_at, was == Q - 1 ? 0 : Q - 1);
        put_word(private_at, was);
        WANT(s->verify_mu_prepared(k.prepared_public, s->prepared_public_key_len, mu, 64, k.signature, sig), MLDSA_NO);
        put_word(public_at, was);
        WANT(s->verify_mu_prepared(k.prepared_public, s->prepared_public_key_len, mu, 64, k.signature, sig), MLDSA_YES);
    }
    k.prepared_private[128] = 0xFF; /* a coefficient of s1 above eta */
    WANT(s->sign_mu_prepared(k.prepared_private, s->prepared_private_key_len, mu, 64, random_bytes, 32, k.other, sig), MLDSA_NOT_PREPARED);
    k.private_key[128] = 0xFF;
    memset(k.prepared_private, 0xA5, s->prepared_private_key_len);
    WANT(s->prepare_private_key(k.private_key, sk, k.prepared_private, s->prepared_private_key_len), MLDSA_KEY_RANGE);
    WANT(untouched(k.prepared_private, s->prepared_private_key_len), 1);
    release(k);
}

/* Keys of any bytes: a result. In every second one the words are below q, so that it is used. */
static void any_bytes(const struct set *s, int entries, int count)
{
    struct keys k = keys_of(s, entries);
    size_t pk = s->public_key_len, sk = s->private_key_len, sig = s->signature_len;
    WANT(s->sign_mu_prepared(k.prepared_private, s->prepared_private_key_len, mu, 64, random_bytes, 32, k.signature, sig), MLDSA_DONE);
    for (int round = 0; round < count; round++) {
        uint32_t verdict, status;
        for (size_t i = 0; i < s->prepared_public_key_len; i++)
            k.prepared_public[i] = draw();
        /* Random bytes are no s1, so the private key stays before the matrix in a key whose words are in range. */
        for (size_t i = round % 2 ? sk : 0; i < s->prepared_private_key_len; i++)
            k.prepared_private[i] = draw();
        for (int n = 0; round % 2 && n < 256 * entries; n++) {
            uint8_t *public_at = k.prepared_public + pk + 64 + 4 * n, *private_at = k.prepared_private + sk + 4 * n;
            put_word(public_at, word(public_at) % Q);
            put_word(private_at, word(private_at) % Q);
        }
        memset(k.other, 0xA5, sig);
        verdict = s->verify_mu_prepared(k.prepared_public, s->prepared_public_key_len, mu, 64, k.signature, sig);
        WANT(verdict, round % 2 ? MLDSA_NO : MLDSA_NOT_PREPARED);
        /* Each attempt of such a key may be rejected; few of these signatures are made, since 814 attempts take long. */
        if (round % 2 && round % 64 != 1)
            continue;
        status = s->sign_mu_prepared(k.prepared_private, s->prepared_private_key_len, mu, 64, random_bytes, 32, k.other, sig);
        if (round % 2)
            WANT(status == MLDSA_DONE || status == MLDSA_TOO_MANY_ATTEMPTS, 1);
        else
            WANT(status, MLDSA_NOT_PREPARED);
        WANT(status == MLDSA_DONE || untouched(k.other, sig), 1);
        memcpy(k.prepared_private, k.private_key, sk);
    }
    release(k);
}

int main(int count, char **words)
{
    int rounds = count > 1 ? atoi(words[1]) : 1000;
    for (int i = 0; i < MESSAGE; i++)
        message[i] = (uint8_t)(3 * i + 1);
    for (int i = 0; i < 64; i++)
        mu[i] = (uint8_t)(5 * i + 2);
    memset(random_bytes, 7, sizeof random_bytes);
    for (int i = 0; i < 3; i++) {
        contents(&SETS[i], ENTRIES[i], i);
        answers(&SETS[i], ENTRIES[i]);
        lengths(&SETS[i], ENTRIES[i]);
        ranges(&SETS[i], ENTRIES[i]);
        any_bytes(&SETS[i], ENTRIES[i], rounds);
    }
    return failures != 0;
}
