/* What the tests that other libraries taught make of a signature of zeros, which no key accepts, and of a good one. Two of them
 * accept the bad one, and no compiler warns about them: `if (verify(..))`, and `accepts(..) == MLDSA_YES`. */
#include "sets.h"

#include <stdbool.h>

static uint8_t public_key[MLDSA87_PUBLIC_KEY_LEN], private_key[LONGEST_KEY];
static const uint8_t seed[32] = {7}, zeros[LONGEST_SIGNATURE];
static uint8_t good[LONGEST_SIGNATURE];

#define HABIT(name, test, call)                                                                               \
    static int name(const struct set *s, const uint8_t *signature, size_t length)                              \
    {                                                                                                          \
        if (test(s->call(public_key, s->public_key_len, seed, 32, MLDSA_NOTHING, 0, signature, length)))       \
            return 1;                                                                                          \
        return 0;                                                                                              \
    }
#define IS_YES(x) (x) == MLDSA_YES
#define IS_NOT(x) !(x)
#define IS_1(x) (x) == 1
#define IS_TRUE(x) (x) == true
#define IS(x) (x)
HABIT(yes, IS_YES, verify)
HABIT(negated, IS_NOT, verify)
HABIT(one, IS_1, verify)
HABIT(equals_true, IS_TRUE, verify)
HABIT(bare, IS, verify)
HABIT(accepts_bare, IS, accepts)
HABIT(accepts_one, IS_1, accepts)
HABIT(accepts_true, IS_TRUE, accepts)
HABIT(accepts_yes, IS_YES, accepts)

/* Whether a habit accepts the bad signature, and the good one. */
static const struct { const char *name; int (*accepts)(const struct set *, const uint8_t *, size_t), bad, fine; } HABITS[] = {
    {"verify(..) == MLDSA_YES", yes, 0, 1},
    {"!verify(..)", negated, 0, 1},
    {"verify(..) == 1", one, 0, 0},
    {"verify(..) == true", equals_true, 0, 0},
    {"if (verify(..))", bare, 1, 0},
    {"if (accepts(..))", accepts_bare, 0, 1},
    {"accepts(..) == 1", accepts_one, 0, 1},
    {"accepts(..) == true", accepts_true, 0, 1},
    {"accepts(..) == MLDSA_YES", accepts_yes, 1, 0},
};

int main(void)
{
    for (const struct set *s = SETS; s < SETS + 3; s++) {
        size_t sig = s->signature_len;
        WANT(s->keygen(seed, 32, public_key, s->public_key_len, private_key, s->private_key_len), MLDSA_DONE);
        WANT(s->sign(private_key, s->private_key_len, seed, 32, MLDSA_NOTHING, 0, seed, 32, good, sig), MLDSA_DONE);
        for (size_t i = 0; i < sizeof HABITS / sizeof *HABITS; i++) {
            int bad = HABITS[i].accepts(s, zeros, sig), cut = HABITS[i].accepts(s, good, sig - 1), fine = HABITS[i].accepts(s, good, sig);
            if (bad != HABITS[i].bad || cut != HABITS[i].bad || fine != HABITS[i].fine) {
                printf("%s: %d of zeros, %d of one that is cut, %d of a good one\n", HABITS[i].name, bad, cut, fine);
                failures++;
            }
        }
    }
    return failures != 0;
}
