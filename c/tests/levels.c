/* Each call at the levels of x86-64, 2 and 3, or from LOWEST to HIGHEST: equal results, and equal bytes in every array
 * afterwards.
 *
 *   levels SET COUNT        so many cases of a set, 44, 65 or 87; each call with an array also with something changed, and each
 *                           of these has to be done, or yes, at least once
 *   levels SET COUNT LEVEL  the calls at one level alone
 *   levels                  prints the level of this processor, after a call
 *
 * cases.h, which c/test makes of mldsa.h, has each array that a call takes, and each call. A case fills the arrays with random
 * bytes and makes the calls in the order of mldsa.h, so that what one writes is what the next reads. */
#include "arrays.h"
#include "mldsa_x86_64.h"

#ifndef LOWEST
#define LOWEST 2
#endif
#ifndef HIGHEST
#define HIGHEST 3
#endif
#define LEVELS (HIGHEST + 1 - LOWEST)

/* What a case has in its arrays at each level, the lowest first, and what it has in them changed. */
static struct array plain[LEVELS][ARRAYS], changed[LEVELS][ARRAYS];

static void make_room(struct array pools[LEVELS][ARRAYS])
{
    for (int k = 0; k < LEVELS; k++)
        for (int i = 0; i < ARRAYS; i++)
            if (!(pools[k][i].at = calloc(1, KINDS[i].room)))
                exit(2);
}

static void copy(struct array *to, const struct array *from)
{
    for (int i = 0; i < ARRAYS; i++) {
        to[i].len = from[i].len;
        memcpy(to[i].at, from[i].at, KINDS[i].room);
    }
}

/* Random bytes, and lengths that fit. */
static void fill(struct array *pool, int which)
{
    for (int i = 0; i < ARRAYS; i++) {
        pool[i].len = length_of(i, which);
        for (size_t k = 0; k < KINDS[i].room; k++)
            pool[i].at[k] = (uint8_t)draw();
    }
    fit_oid(pool);
}

/* Makes an array that the call takes a byte longer or shorter, or changes a bit of it. */
static void change(struct array pools[LEVELS][ARRAYS], const struct export *call)
{
    int i = call->arrays[draw() % (uint64_t)call->count];
    uint64_t how = draw() % 4;
    size_t len = pools[0][i].len, bit = len ? draw() % (8 * len) : 0;
    for (int k = 0; k < LEVELS; k++)
        if (how < 2)
            pools[k][i].len = how == 0 || !len ? len + 1 : len - 1;
        else
            pools[k][i].at[bit / 8] ^= (uint8_t)(1 << bit % 8);
}

/* Makes the call at each level, or at one, and gives its result. */
static uint32_t call_at(int level, const struct export *call, struct array pools[LEVELS][ARRAYS], const char *how)
{
    uint32_t answer, another, number = (uint32_t)(draw() % 32);
    number = call->is_of_set ? (uint32_t)SETS[number % 3].number : number;
    WANT(mldsa_x86_64_level(level ? level : LOWEST), level ? level : LOWEST);
    answer = call->call(pools[0], number);
    for (int k = 1; k < LEVELS && !level; k++) {
        WANT(mldsa_x86_64_level(LOWEST + k), LOWEST + k);
        another = call->call(pools[k], number);
        if (answer != another) {
            printf("%s%s: %u at level %d, %u at level %d\n", call->name, how, answer, LOWEST, another, LOWEST + k);
            failures++;
        }
        for (int i = 0; i < ARRAYS; i++)
            if (memcmp(pools[0][i].at, pools[k][i].at, KINDS[i].room)) {
                printf("%s%s: %s differs at level %d\n", call->name, how, KINDS[i].name, LOWEST + k);
                failures++;
            }
    }
    return answer;
}

int main(int count, char **words)
{
    int number = count > 2 ? atoi(words[1]) : 0, cases = count > 2 ? atoi(words[2]) : 0, level = count > 3 ? atoi(words[3]) : 0;
    int which = number == 44 ? 0 : number == 65 ? 1 : 2;
    int done[EXPORTS] = {0};
    if (count == 1) {
        static uint8_t public_key[LONGEST_KEY], private_key[LONGEST_KEY], seed[32];
        WANT(mldsa44_keygen(seed, 32, public_key, MLDSA44_PUBLIC_KEY_LEN, private_key, MLDSA44_PRIVATE_KEY_LEN), MLDSA_DONE);
        printf("%d\n", mldsa_x86_64_level(HIGHEST));
        return failures != 0;
    }
    make_room(plain), make_room(changed);
    for (int i = 0; i < cases && !failures; i++) {
        state = 0x9E3779B97F4A7C15 ^ ((uint64_t)number << 32) ^ (uint64_t)(i + 1);
        fill(plain[0], which);
        for (int l = 1; l < LEVELS; l++)
            copy(plain[l], plain[0]);
        for (int k = 0; k < EXPORTS; k++) {
            if (CALLS[k].set && CALLS[k].set != number)
                continue;
            for (int l = 0; l < LEVELS; l++)
                fit_texts(plain[l], &CALLS[k]);
            done[k] += call_at(level, &CALLS[k], plain, "") == CALLS[k].done;
            if (CALLS[k].count == 0)
                continue;
            for (int l = 0; l < LEVELS; l++)
                copy(changed[l], plain[0]);
            change(changed, &CALLS[k]);
            call_at(level, &CALLS[k], changed, ", changed");
        }
    }
    for (int k = 0; k < EXPORTS; k++)
        if (cases && CALLS[k].count && !done[k] && (!CALLS[k].set || CALLS[k].set == number)) {
            printf("%s was only refused\n", CALLS[k].name);
            failures++;
        }
    return failures != 0;
}
