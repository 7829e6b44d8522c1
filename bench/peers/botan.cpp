// Botan 3. A private key is its seed there, so that signing makes the key anew.
#include "peer.h"

#include <botan/auto_rng.h>
#include <botan/ml_dsa.h>
#include <botan/pubkey.h>

#include <memory>
#include <span>
#include <string>

static Botan::AutoSeeded_RNG rng;
static std::unique_ptr<Botan::ML_DSA_Mode> mode;

static int set_up(const char *set)
{
    int place = !strcmp(set, "44") ? 0 : !strcmp(set, "65") ? 1 : 2;
    const size_t publics[] = {1312, 1952, 2592}, signatures[] = {2420, 3309, 4627};
    const Botan::ML_DSA_Mode::Mode modes[] = {Botan::ML_DSA_Mode::ML_DSA_4x4, Botan::ML_DSA_Mode::ML_DSA_6x5,
                                              Botan::ML_DSA_Mode::ML_DSA_8x7};
    mode = std::make_unique<Botan::ML_DSA_Mode>(modes[place]);
    public_len = publics[place];
    private_len = 32;
    signature_len = signatures[place];
    return 1;
}

static int keygen(uint8_t *public_key, uint8_t *private_key)
{
    Botan::ML_DSA_PrivateKey key(rng, *mode);
    auto seed = key.raw_private_key_bits();
    auto bytes = key.raw_public_key_bits();
    memcpy(private_key, seed.data(), private_len);
    memcpy(public_key, bytes.data(), public_len);
    return seed.size() == private_len && bytes.size() == public_len;
}

static int sign(const uint8_t *private_key, const uint8_t *message, uint8_t *signature)
{
    Botan::ML_DSA_PrivateKey key(std::span(private_key, private_len), *mode);
    auto made = Botan::PK_Signer(key, rng, "Randomized").sign_message(message, MESSAGE, rng);
    memcpy(signature, made.data(), signature_len);
    return made.size() == signature_len;
}

static int verify(const uint8_t *public_key, const uint8_t *message, const uint8_t *signature)
{
    Botan::ML_DSA_PublicKey key(std::span(public_key, public_len), *mode);
    return Botan::PK_Verifier(key, "").verify_message(message, MESSAGE, signature, signature_len);
}

int main(int argc, char **argv)
{
    return peer_main(argc, argv);
}
