/* The library with the code of two levels of x86-64: each call of mldsa.h goes to the code of the highest one that the
 * processor has. `scripts/archive x86-64` compiles this file; calls.h, which it makes of mldsa.h, has a line for each call. */
#include "mldsa.h"
#include "mldsa_x86_64.h"

#include <cpuid.h>

/* Whether the processor has what the code of x86-64-v3 needs, and the system saves the registers of 256 bits. */
static int has_v3(void)
{
    const unsigned first = bit_FMA | bit_MOVBE | bit_OSXSAVE | bit_AVX | bit_F16C, seventh = bit_BMI | bit_AVX2 | bit_BMI2;
    unsigned a, b, c, d, saved;
    if (!__get_cpuid(1, &a, &b, &c, &d) || (c & first) != first)
        return 0;
    __asm__("xgetbv" : "=a"(saved), "=d"(d) : "c"(0));
    return (saved & 6) == 6
        && __get_cpuid_count(7, 0, &a, &b, &c, &d) && (b & seventh) == seventh
        && __get_cpuid(0x80000001, &a, &b, &c, &d) && (c & bit_LZCNT);
}

static int highest(int most)
{
    return most >= 3 && has_v3() ? 3 : 2;
}

/* The level whose code is taken, or 0 before anyone has asked. */
static int level;

int mldsa_x86_64_level(int most)
{
    int found = highest(most);
    __atomic_store_n(&level, found, __ATOMIC_RELAXED);
    return found;
}

static int taken(void)
{
    int known = __atomic_load_n(&level, __ATOMIC_RELAXED), found;
    if (known)
        return known;
    found = highest(3);
    /* What another thread has set meanwhile stays. */
    __atomic_compare_exchange_n(&level, &known, found, 0, __ATOMIC_RELAXED, __ATOMIC_RELAXED);
    return known ? known : found;
}

#define PASS_ON(result, name, parameters, arguments)                                                           \
    __attribute__((visibility("hidden"))) result name##_v2 parameters;                                         \
    __attribute__((visibility("hidden"))) result name##_v3 parameters;                                         \
    result name parameters                                                                                     \
    {                                                                                                          \
        return taken() == 3 ? name##_v3 arguments : name##_v2 arguments;                                       \
    }
#include "calls.h"
