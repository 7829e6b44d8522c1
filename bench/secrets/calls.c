/* Makes each call that touches secrets, with the secrets marked as undefined, so that memcheck reports each branch and each
 * address that depends on one: calls SET
 *
 * Secret are the seed of a pair, the random bytes, and of a private key all but rho and tr. What the standard makes public is
 * declared so where the library has handed it out: public keys, signatures, and the results. */
#include "../../c/tests/pem.h"

#include <valgrind/memcheck.h>

enum { ROUNDS = 4, MESSAGE = 300, RHO = 32, TR = 64, TR_LEN = 64 };

#define SECRET(array, length) VALGRIND_MAKE_MEM_UNDEFINED(array, length)
#define PUBLIC(array, length) VALGRIND_MAKE_MEM_DEFINED(array, length)

static uint8_t seed[32], random_bytes[32], public_key[LONGEST_KEY], private_key[LONGEST_KEY], signature[LONGEST_SIGNATURE];
static uint8_t message[MESSAGE], digest[32], mu[64], prepared[LONGEST_PREPARED_KEY], state[MLDSA_STATE_LEN];
static uint8_t file[LONGEST_DER], text[LONGEST_PEM], read_key[LONGEST_KEY], read_seed[32];

/* Results are public. */
static void done(const char *call, uint32_t status)
{
    PUBLIC(&status, sizeof status);
    if (status != MLDSA_DONE)
        printf("%s answered %u\n", call, (unsigned)status);
}

static void key_is_secret(const struct set *s)
{
    SECRET(private_key, s->private_key_len);
    PUBLIC(private_key, RHO);
    PUBLIC(private_key + TR, TR_LEN);
}

/* What a file of a key holds of it is secret, and its frame is not. So are the symbols of its text, and not its lines. */
static void read_again(const struct set *s, size_t length, int has_seed)
{
    size_t text_length = pem_of("PRIVATE KEY", file, length, text);
    if (has_seed) {
        done("seed_from_der", s->seed_from_der(file, length, read_seed, 32));
        done("seed_from_pem", s->seed_from_pem(text, text_length, read_seed, 32));
    }
    done("private_key_from_der", s->private_key_from_der(file, length, read_key, s->private_key_len));
    done("private_key_from_pem", s->private_key_from_pem(text, text_length, read_key, s->private_key_len));
}

static void files(const struct set *s)
{
    size_t sk = s->private_key_len;
    done("seed_to_der", s->seed_to_der(seed, 32, file, MLDSA_SEED_DER_LEN));
    read_again(s, MLDSA_SEED_DER_LEN, 1);
    done("both_to_der", s->both_to_der(seed, 32, file, s->both_der_len));
    PUBLIC(file + s->both_der_len - sk, RHO);
    PUBLIC(file + s->both_der_len - sk + TR, TR_LEN);
    read_again(s, s->both_der_len, 1);
    done("private_key_to_der", s->private_key_to_der(private_key, sk, file, s->private_key_der_len));
    read_again(s, s->private_key_der_len, 0);
}

int main(int count, char **words)
{
    const struct set *s = count == 2 ? SETS : SETS + 3;
    while (s < SETS + 3 && s->number != atoi(words[1]))
        s++;
    if (s == SETS + 3)
        return 2;
    for (int i = 0; i < ROUNDS; i++) {
        size_t pk = s->public_key_len, sk = s->private_key_len, sig = s->signature_len;
        memset(seed, i, 32);
        SECRET(seed, 32);
        done("keygen", s->keygen(seed, 32, public_key, pk, private_key, sk));
        PUBLIC(public_key, pk);
        key_is_secret(s);
        done("check_private_key", s->check_private_key(private_key, sk));
        done("public_key", s->public_key(private_key, sk, public_key, pk));
        PUBLIC(public_key, pk);
        done("is_whole", s->is_whole(private_key, sk));
        done("is_pair", s->is_pair(private_key, sk));
        done("mu_begin_private", s->mu_begin_private(private_key, sk, digest, 9, state, sizeof state));
        files(s);
        memset(random_bytes, i, 32);
        SECRET(random_bytes, 32);
        done("sign", s->sign(private_key, sk, message, MESSAGE, digest, 9, random_bytes, 32, signature, sig));
        PUBLIC(signature, sig);
        done("verify", s->verify(public_key, pk, message, MESSAGE, digest, 9, signature, sig));
        done("hash_sign", s->hash_sign(private_key, sk, digest, 32, message, 9, SHA256_OID, 11, random_bytes, 32, signature, sig));
        PUBLIC(signature, sig);
        done("hash_verify", s->hash_verify(public_key, pk, digest, 32, message, 9, SHA256_OID, 11, signature, sig));
        done("sign_mu", s->sign_mu(private_key, sk, mu, 64, random_bytes, 32, signature, sig));
        PUBLIC(signature, sig);
        done("verify_mu", s->verify_mu(public_key, pk, mu, 64, signature, sig));
        done("prepare_private_key", s->prepare_private_key(private_key, sk, prepared, s->prepared_private_key_len));
        /* The matrix follows from rho. */
        PUBLIC(prepared + sk, s->prepared_private_key_len - sk);
        done("sign_prepared", s->sign_prepared(prepared, s->prepared_private_key_len, message, MESSAGE, digest, 9, random_bytes, 32, signature, sig));
        PUBLIC(signature, sig);
        done("hash_sign_prepared", s->hash_sign_prepared(prepared, s->prepared_private_key_len, digest, 32, message, 9, SHA256_OID, 11, random_bytes, 32, signature, sig));
        PUBLIC(signature, sig);
        done("sign_mu_prepared", s->sign_mu_prepared(prepared, s->prepared_private_key_len, mu, 64, random_bytes, 32, signature, sig));
        PUBLIC(signature, sig);
    }
    return 0;
}
