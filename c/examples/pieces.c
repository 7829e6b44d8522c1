/* mu_begin, mu_begin_private, mldsa_mu_update, mldsa_mu_finish, sign_mu, verify_mu: a message that comes in pieces. */
#include <mldsa.h>
#include <stdio.h>
#include <sys/random.h>

static const uint8_t PIECES[2][4] = {{'a', ' ', 'l', 'o'}, {'n', 'g', '.', '.'}};

/* Adds the message to a state, and writes mu of it. */
static uint32_t hash(uint8_t state[MLDSA_STATE_LEN], uint8_t mu[MLDSA_MU_LEN])
{
    uint32_t answer = mldsa_mu_update(PIECES[0], sizeof PIECES[0], state, MLDSA_STATE_LEN);
    if (answer == MLDSA_DONE)
        answer = mldsa_mu_update(PIECES[1], sizeof PIECES[1], state, MLDSA_STATE_LEN);
    return answer == MLDSA_DONE ? mldsa_mu_finish(state, MLDSA_STATE_LEN, mu, MLDSA_MU_LEN) : answer;
}

int main(void)
{
    static uint8_t public_key[MLDSA65_PUBLIC_KEY_LEN], private_key[MLDSA65_PRIVATE_KEY_LEN];
    static uint8_t signature[MLDSA65_SIGNATURE_LEN];
    uint8_t seed[MLDSA_SEED_LEN], random[MLDSA_RANDOM_LEN], state[MLDSA_STATE_LEN], mu[MLDSA_MU_LEN];
    uint32_t answer;

    if (getrandom(seed, sizeof seed, 0) != sizeof seed || getrandom(random, sizeof random, 0) != sizeof random)
        return 2;
    answer = mldsa65_keygen(seed, sizeof seed, public_key, sizeof public_key, private_key, sizeof private_key);
    if (answer == MLDSA_DONE)
        answer = mldsa65_mu_begin_private(private_key, sizeof private_key, MLDSA_NOTHING, 0, state, sizeof state);
    if (answer == MLDSA_DONE)
        answer = hash(state, mu);
    if (answer == MLDSA_DONE)
        answer = mldsa65_sign_mu(private_key, sizeof private_key, mu, sizeof mu, random, sizeof random, signature,
                                 sizeof signature);
    /* Whoever verifies makes mu of the message anew, with the public key. */
    if (answer == MLDSA_DONE)
        answer = mldsa65_mu_begin(public_key, sizeof public_key, MLDSA_NOTHING, 0, state, sizeof state);
    if (answer == MLDSA_DONE)
        answer = hash(state, mu);
    if (answer != MLDSA_DONE) {
        fprintf(stderr, "not signed: %s\n", mldsa_text(answer));
        return 1;
    }
    return mldsa65_verify_mu(public_key, sizeof public_key, mu, sizeof mu, signature, sizeof signature) == MLDSA_YES
               ? 0 : 1;
}
