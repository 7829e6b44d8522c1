// The header from C++: makes a pair, signs and verifies.
#include "mldsa.h"

#include <array>
#include <cstdio>
#include <string>

int main()
{
    std::array<uint8_t, MLDSA_SEED_LEN> seed{}, random{};
    std::array<uint8_t, MLDSA44_PUBLIC_KEY_LEN> public_key;
    std::array<uint8_t, MLDSA44_PRIVATE_KEY_LEN> private_key;
    std::array<uint8_t, MLDSA44_SIGNATURE_LEN> signature;
    const std::string message = "a message";
    const auto *bytes = reinterpret_cast<const uint8_t *>(message.data());
    uint32_t status = mldsa44_keygen(seed.data(), seed.size(), public_key.data(), public_key.size(), private_key.data(), private_key.size());
    if (status == MLDSA_DONE)
        status = mldsa44_sign(private_key.data(), private_key.size(), bytes, message.size(), MLDSA_NOTHING, 0, random.data(), random.size(),
                              signature.data(), signature.size());
    if (status == MLDSA_DONE)
        status = mldsa44_verify(public_key.data(), public_key.size(), bytes, message.size(), MLDSA_NOTHING, 0, signature.data(), signature.size());
    if (status != MLDSA_YES)
        std::printf("%s\n", mldsa_text(status));
    return status != MLDSA_YES;
}
