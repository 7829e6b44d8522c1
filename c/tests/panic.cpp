/* A call in which a panic is planted, below a frame with a destructor and one that catches everything: neither runs. */
#include "mldsa.h"

#include <cstdio>

struct Frame {
    ~Frame() { std::puts("unwound"); }
};

int main()
{
    static const uint8_t bytes[1] = {0};
    std::setvbuf(stdout, nullptr, _IONBF, 0);
    std::puts(mldsa_check_pre_hash(bytes, 1, bytes, 1) == MLDSA_OID_NOT_DER ? "not DER" : "another result");
    try {
        Frame frame;
        std::printf("%u\n", static_cast<unsigned>(mldsa_check_pre_hash(bytes, 0, bytes, 1)));
    } catch (...) {
        std::puts("caught");
    }
    return 0;
}
