/* OpenSSL 3.5 and later. Keys are bytes before each call, as with the other peers. */
#include "peer.h"

#include <openssl/core_names.h>
#include <openssl/evp.h>

static char name[16];

static int set_up(const char *set)
{
    snprintf(name, sizeof name, "ML-DSA-%s", set);
    int place = !strcmp(set, "44") ? 0 : !strcmp(set, "65") ? 1 : 2;
    public_len = (size_t[]){1312, 1952, 2592}[place];
    private_len = (size_t[]){2560, 4032, 4896}[place];
    signature_len = (size_t[]){2420, 3309, 4627}[place];
    return 1;
}

static int keygen(uint8_t *public_key, uint8_t *private_key)
{
    EVP_PKEY *key = EVP_PKEY_Q_keygen(NULL, NULL, name);
    size_t len = public_len;
    int done = key && EVP_PKEY_get_raw_public_key(key, public_key, &len);
    len = private_len;
    done = done && EVP_PKEY_get_raw_private_key(key, private_key, &len);
    EVP_PKEY_free(key);
    return done;
}

static int sign(const uint8_t *private_key, const uint8_t *message, uint8_t *signature)
{
    EVP_PKEY *key = EVP_PKEY_new_raw_private_key_ex(NULL, name, NULL, private_key, private_len);
    EVP_MD_CTX *context = EVP_MD_CTX_new();
    size_t len = signature_len;
    int done = key && context && EVP_DigestSignInit_ex(context, NULL, NULL, NULL, NULL, key, NULL) > 0
               && EVP_DigestSign(context, signature, &len, message, MESSAGE) > 0;
    EVP_MD_CTX_free(context);
    EVP_PKEY_free(key);
    return done;
}

static int verify(const uint8_t *public_key, const uint8_t *message, const uint8_t *signature)
{
    EVP_PKEY *key = EVP_PKEY_new_raw_public_key_ex(NULL, name, NULL, public_key, public_len);
    EVP_MD_CTX *context = EVP_MD_CTX_new();
    int done = key && context && EVP_DigestVerifyInit_ex(context, NULL, NULL, NULL, NULL, key, NULL) > 0
               && EVP_DigestVerify(context, signature, signature_len, message, MESSAGE) > 0;
    EVP_MD_CTX_free(context);
    EVP_PKEY_free(key);
    return done;
}

int main(int argc, char **argv)
{
    return peer_main(argc, argv);
}
