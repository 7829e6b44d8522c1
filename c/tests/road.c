/* What mldsa_x86_64.h declares, for the library that cargo builds: its calls take the code that every processor runs with 1, that
 * for SSE4.2 with 2, for AVX2 with 3, for AVX-512VL with 4, and for AVX-512VBMI2 too with 5, as far as the processor has them.
 * c/test names the variable in which the library keeps what it found `known`: 0 before it has asked, then one of these. With
 * -DLEVEL=1 to 5 a program takes that code from its beginning to its end. */
#include "mldsa.h"
#include "mldsa_x86_64.h"

#include <stdlib.h>

extern volatile unsigned char known;

int mldsa_x86_64_level(int most)
{
    static unsigned char found;
    if (most > 4 && !found) {
        static uint8_t seed[32], public_key[MLDSA44_PUBLIC_KEY_LEN], private_key[MLDSA44_PRIVATE_KEY_LEN];
        known = 0;
        if (mldsa44_keygen(seed, 32, public_key, sizeof public_key, private_key, sizeof private_key) || !known)
            abort();
        found = known;
    }
    __builtin_cpu_init();
    if (most > 4)
        known = found;
    else if (most > 3 && __builtin_cpu_supports("avx512vl"))
        known = 4;
    else if (most > 2 && __builtin_cpu_supports("avx2") && __builtin_cpu_supports("bmi") && __builtin_cpu_supports("bmi2"))
        known = 3;
    else
        known = most > 1 && __builtin_cpu_supports("sse4.2") ? 2 : 1;
    return known;
}

#ifdef LEVEL
__attribute__((constructor)) static void choose(void)
{
    if (mldsa_x86_64_level(LEVEL) != LEVEL)
        abort();
}

__attribute__((destructor)) static void look(void)
{
    if (known != LEVEL)
        abort();
}
#endif
