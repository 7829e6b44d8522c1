/* Messages in pieces: every cut about the ends of blocks, states that no call wrote, and lengths. */
#include "sets.h"

enum { SIZES = 8, LONGEST = 300, STATE = MLDSA_STATE_LEN };
static const size_t SIZE[SIZES] = {0, 59, 60, 61, 195, 196, 197, LONGEST};
static const uint8_t CONTEXT[] = "a context";

/* The first eight bytes of mu, for a public key of bytes 0, 7, 14 .. and a message of bytes 1, 4, 7 .., by Python's hashlib. */
static const char *const KNOWN[3][SIZES] = {
    {"3a7a0b6da77b827d", "4c9384ab2914a9ba", "fa12b7cb27b4cf39", "2956b635333a060c", "0b3618fab026a70d", "8426b2921ee343f3", "2d2cd0f4a34c309e", "939c3114de7b8035"},
    {"029361ac82145c0e", "ae0740d105d6ae31", "5972a6b430b9192e", "79da80f65a3d031d", "a0daa17becffb0ae", "44052145f3569685", "b89d73e213df3024", "64f546aa396348f1"},
    {"ebdd9e42216d173a", "b2af5f9f4cdb54bb", "9ef2c8f9c06f0b7f", "8bdf705362da8c46", "952c988938e13ef3", "7a3784b44bf37e4e", "954f0321a9ab589a", "3b876ebef6d44386"},
};
static uint8_t public_key[LONGEST_KEY], private_key[LONGEST_KEY], signature[LONGEST_SIGNATURE], other[LONGEST_SIGNATURE];
static uint8_t message[LONGEST], state[STATE + 1], begun[STATE], mu[65], whole[64], was[65], seed[32], long_context[256];

static void cuts(const struct set *s, int which)
{
    size_t pk = s->public_key_len;
    char text[17];
    for (size_t i = 0; i < pk; i++)
        public_key[i] = (uint8_t)(7 * i);
    WANT(s->mu_begin(public_key, pk, CONTEXT, 9, begun, STATE), MLDSA_DONE);
    for (int i = 0; i < SIZES; i++)
        for (size_t cut = 0; cut <= SIZE[i]; cut++) {
            memcpy(state, begun, STATE);
            WANT(mldsa_mu_update(message, cut, state, STATE), MLDSA_DONE);
            WANT(mldsa_mu_update(MLDSA_NOTHING, 0, state, STATE), MLDSA_DONE);
            WANT(mldsa_mu_update(message + cut, SIZE[i] - cut, state, STATE), MLDSA_DONE);
            WANT(mldsa_mu_finish(state, STATE, mu, 64), MLDSA_DONE);
            for (int j = 0; j < 8; j++)
                snprintf(text + 2 * j, 3, "%02x", mu[j]);
            WANT(strcmp(text, KNOWN[which][i]), 0);
            if (cut == 0)
                memcpy(whole, mu, 64);
            WANT(memcmp(mu, whole, 64), 0);
        }
    /* Byte by byte. */
    memcpy(state, begun, STATE);
    for (size_t i = 0; i < LONGEST; i++)
        WANT(mldsa_mu_update(message + i, 1, state, STATE), MLDSA_DONE);
    WANT(mldsa_mu_finish(state, STATE, mu, 64), MLDSA_DONE);
    WANT(memcmp(mu, whole, 64), 0);
}

/* What mu of pieces signs is what sign signs, and verify accepts it. */
static void signatures(const struct set *s)
{
    size_t pk = s->public_key_len, sk = s->private_key_len, sig = s->signature_len;
    WANT(s->keygen(seed, 32, public_key, pk, private_key, sk), MLDSA_DONE);
    WANT(s->sign(private_key, sk, message, LONGEST, CONTEXT, 9, seed, 32, signature, sig), MLDSA_DONE);
    WANT(s->mu_begin_private(private_key, sk, CONTEXT, 9, state, STATE), MLDSA_DONE);
    WANT(mldsa_mu_update(message, 100, state, STATE), MLDSA_DONE);
    WANT(mldsa_mu_finish(state, STATE, mu, 64), MLDSA_DONE);
    WANT(mldsa_mu_update(message + 100, LONGEST - 100, state, STATE), MLDSA_DONE);
    WANT(mldsa_mu_finish(state, STATE, mu, 64), MLDSA_DONE);
    WANT(s->sign_mu(private_key, sk, mu, 64, seed, 32, other, sig), MLDSA_DONE);
    WANT(memcmp(signature, other, sig), 0);
    WANT(s->mu_begin(public_key, pk, CONTEXT, 9, state, STATE), MLDSA_DONE);
    WANT(mldsa_mu_update(message, LONGEST, state, STATE), MLDSA_DONE);
    WANT(mldsa_mu_finish(state, STATE, whole, 64), MLDSA_DONE);
    WANT(memcmp(mu, whole, 64), 0);
    WANT(s->verify_mu(public_key, pk, mu, 64, signature, sig), MLDSA_YES);
    WANT(s->is_pair(private_key, sk), MLDSA_YES);
    WANT(s->is_pair(private_key, sk - 1), MLDSA_WRONG_LENGTH);
    private_key[64] ^= 1; /* of tr */
    WANT(s->is_whole(private_key, sk), MLDSA_YES);
    WANT(s->is_pair(private_key, sk), MLDSA_NO);
    private_key[64] ^= 1;
    private_key[sk - 1] ^= 1; /* of t0 */
    WANT(s->is_pair(private_key, sk), MLDSA_NO);
    private_key[128] = 0xFF; /* a coefficient of s1 above eta */
    WANT(s->is_pair(private_key, sk), MLDSA_KEY_RANGE);
}

/* What is rejected, and left as it was. */
static void refusals(const struct set *s)
{
    size_t pk = s->public_key_len, sk = s->private_key_len;
    const size_t wrong[] = {0, STATE - 1, STATE + 1};
    memset(state, 0xA5, sizeof state);
    memset(was, 0xA5, sizeof was);
    memset(mu, 0xA5, sizeof mu);
    for (int i = 0; i < 3; i++) {
        WANT(s->mu_begin(public_key, pk, CONTEXT, 9, state, wrong[i]), MLDSA_WRONG_LENGTH);
        WANT(s->mu_begin_private(private_key, sk, CONTEXT, 9, state, wrong[i]), MLDSA_WRONG_LENGTH);
        WANT(mldsa_mu_update(message, 1, state, wrong[i]), MLDSA_WRONG_LENGTH);
        WANT(mldsa_mu_finish(state, wrong[i], mu, 64), MLDSA_WRONG_LENGTH);
    }
    WANT(s->mu_begin(public_key, pk - 1, CONTEXT, 9, state, STATE), MLDSA_WRONG_LENGTH);
    WANT(s->mu_begin_private(private_key, sk + 1, CONTEXT, 9, state, STATE), MLDSA_WRONG_LENGTH);
    WANT(s->mu_begin(public_key, pk, long_context, 256, state, STATE), MLDSA_CONTEXT_TOO_LONG);
    WANT(s->mu_begin_private(private_key, sk, long_context, 256, state, STATE), MLDSA_CONTEXT_TOO_LONG);
    for (size_t i = 0; i < sizeof state; i++)
        WANT(state[i], 0xA5);
    WANT(mldsa_mu_update(message, LONGEST, state, STATE), MLDSA_BROKEN_STATE);
    WANT(mldsa_mu_finish(state, STATE, mu, 64), MLDSA_BROKEN_STATE);
    for (size_t i = 0; i < sizeof state; i++)
        WANT(state[i], 0xA5);
    /* What a forgotten mu_begin leaves. */
    memset(state, 0, sizeof state);
    WANT(mldsa_mu_update(message, LONGEST, state, STATE), MLDSA_BROKEN_STATE);
    WANT(mldsa_mu_finish(state, STATE, mu, 64), MLDSA_BROKEN_STATE);
    for (size_t i = 0; i < sizeof state; i++)
        WANT(state[i], 0);
    WANT(s->mu_begin(public_key, pk, long_context, 255, state, STATE), MLDSA_DONE);
    WANT(mldsa_mu_finish(state, STATE, mu, 63), MLDSA_WRONG_LENGTH);
    WANT(mldsa_mu_finish(state, STATE, mu, 65), MLDSA_WRONG_LENGTH);
    WANT(memcmp(mu, was, sizeof was), 0);
}

/* States of any bytes: a result, and nothing beside the state is written. */
static void any_bytes(void)
{
    uint32_t drawn = 1;
    for (int round = 0; round < 20000; round++) {
        uint32_t wanted;
        for (int i = 0; i < STATE; i++) {
            drawn = drawn * 1664525 + 1013904223;
            state[i] = (uint8_t)(drawn >> 24);
        }
        state[STATE] = 0xA5;
        mu[64] = 0xA5;
        wanted = state[STATE - 1] >= 1 && state[STATE - 1] <= 136 ? MLDSA_DONE : MLDSA_BROKEN_STATE;
        WANT(mldsa_mu_update(message, drawn >> 16 & 255, state, STATE), wanted);
        WANT(mldsa_mu_finish(state, STATE, mu, 64), wanted);
        WANT(state[STATE], 0xA5);
        WANT(mu[64], 0xA5);
    }
}

int main(void)
{
    for (int i = 0; i < LONGEST; i++)
        message[i] = (uint8_t)(3 * i + 1);
    WANT(mldsa_version(), MLDSA_VERSION);
    for (int i = 0; i < 3; i++) {
        cuts(&SETS[i], i);
        signatures(&SETS[i]);
        refusals(&SETS[i]);
    }
    any_bytes();
    return failures != 0;
}
