/* Each call of the library with the code of two levels hands every argument on in its place, to the level that is taken, and
 * gives back the result. Functions that note what they are given stand in for the code of both levels; stubs.h, which c/test
 * makes of mldsa.h, has a line for each call. */
#include "sets.h"
#include "mldsa_x86_64.h"

enum { MOST = 64 };
static struct {
    const char *called;
    int at_level, count;
    uintptr_t given[MOST];
} noted;

static uintptr_t note(const char *name, int level, int count)
{
    noted.called = name;
    noted.at_level = level;
    noted.count = count;
    return (uintptr_t)(10 * strlen(name) + (size_t)level);
}

/* The value of an argument: another one at each place, which the compiler does not know, since it is no array's. */
static volatile uintptr_t first = 101;
#define VALUE(type, place) ((type)(first + (place)))
#define NOTE(place, argument) noted.given[place] = (uintptr_t)(argument);

#define STUB(result, name, parameters, notes, values, size)                                                    \
    result name##_v2 parameters;                                                                               \
    result name##_v3 parameters;                                                                               \
    result name##_v2 parameters                                                                                \
    {                                                                                                          \
        notes return (result)note(#name, 2, size);                                                             \
    }                                                                                                          \
    result name##_v3 parameters                                                                                \
    {                                                                                                          \
        notes return (result)note(#name, 3, size);                                                             \
    }                                                                                                          \
    static void try_##name(int level)                                                                          \
    {                                                                                                          \
        result answer;                                                                                         \
        memset(&noted, 0, sizeof noted);                                                                       \
        answer = name values;                                                                                  \
        WANT(noted.at_level, level);                                                                              \
        WANT(noted.called && strcmp(noted.called, #name) == 0, 1);                                                 \
        WANT(noted.count, size);                                                                               \
        for (int place = 0; place < MOST; place++)                                                             \
            WANT(noted.given[place], place < size ? 101 + (uintptr_t)place : 0);                              \
        WANT((uintptr_t)answer, (uintptr_t)(result)(10 * strlen(#name) + (size_t)level));                      \
    }
#include "stubs.h"
#undef STUB

int main(void)
{
    for (int level = 2; level <= 3; level++) {
        WANT(mldsa_x86_64_level(level), level);
#define STUB(result, name, parameters, notes, values, size) try_##name(level);
#include "stubs.h"
    }
    return failures != 0;
}
