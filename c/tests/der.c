/* Keys in DER: the three forms as RFC 9881 has them, what is rejected and why, and that nothing is written then. */
#include "sets.h"

static uint8_t public_key[LONGEST_KEY], private_key[LONGEST_KEY], seed[32], other_seed[32];
static uint8_t file[LONGEST_DER + 1], changed[LONGEST_DER + 1], read[LONGEST_KEY + 1], was[LONGEST_KEY + 1];

/* The element with this tag around the last bytes of an array: what it begins with is put before them. Gives its length. */
static size_t element(uint8_t *end, size_t len, uint8_t tag)
{
    uint8_t *at = end - len;
    if (len >= 256)
        *--at = (uint8_t)(len & 255), *--at = (uint8_t)(len >> 8), *--at = 130;
    else
        *--at = (uint8_t)len;
    *--at = tag;
    return (size_t)(end - at);
}

static size_t before(uint8_t *end, size_t len, const void *bytes, size_t count)
{
    memcpy(end - len - count, bytes, count);
    return len + count;
}

/* The AlgorithmIdentifier of a set, 2.16.840.1.101.3.4.3.17 to .19, before the last bytes. */
static size_t algorithm(uint8_t *end, size_t len, int which)
{
    uint8_t oid[] = {0x30, 11, 6, 9, 0x60, 0x86, 0x48, 1, 0x65, 3, 4, 3, (uint8_t)(17 + which)};
    return before(end, len, oid, sizeof oid);
}

/* The two files, made from their ends; each gives where it begins. */
static const uint8_t *public_file(const struct set *s, int which, uint8_t *end, size_t *len)
{
    *len = before(end, 0, public_key, s->public_key_len);
    *len = algorithm(end, element(end, before(end, *len, "", 1), 3), which);
    *len = element(end, *len, 0x30);
    return end - *len;
}

static const uint8_t *private_file(const struct set *s, int which, int form, uint8_t *end, size_t *len)
{
    *len = 0;
    if (form > 0)
        *len = element(end, before(end, *len, private_key, s->private_key_len), 4);
    if (form != 1) {
        uint8_t front[34] = {form == 0 ? 0x80 : 4, 32};
        memcpy(front + 2, seed, 32);
        *len = before(end, *len, front, 34);
    }
    if (form == 2)
        *len = element(end, *len, 0x30);
    *len = element(end, *len, 4);
    *len = before(end, algorithm(end, *len, which), "\2\1\0", 3);
    *len = element(end, *len, 0x30);
    return end - *len;
}

/* A call that returns an error, and what it must leave. */
#define REFUSED(call, status)                                                                                  \
    do {                                                                                                       \
        WANT(call, status);                                                                                    \
        WANT(memcmp(read, was, sizeof read), 0);                                                               \
    } while (0)

static uint32_t private_of(const struct set *s, const uint8_t *der, size_t len)
{
    return s->private_key_from_der(der, len, read, s->private_key_len);
}

static void public_files(const struct set *s, int which)
{
    uint8_t room[LONGEST_DER + 8];
    size_t len;
    const uint8_t *wanted = public_file(s, which, room + sizeof room, &len);
    WANT(len, s->public_key_der_len);
    WANT(s->public_key_to_der(public_key, s->public_key_len, file, len), MLDSA_DONE);
    WANT(memcmp(file, wanted, len), 0);
    WANT(s->public_key_to_der(public_key, s->public_key_len, file, len + 1), MLDSA_WRONG_LENGTH);
    WANT(s->public_key_to_der(public_key, s->public_key_len - 1, file, len), MLDSA_WRONG_LENGTH);
    WANT(s->public_key_from_der(file, len, read, s->public_key_len), MLDSA_DONE);
    WANT(memcmp(read, public_key, s->public_key_len), 0);
    memcpy(read, was, sizeof read);
    REFUSED(s->public_key_from_der(file, len, read, s->public_key_len + 1), MLDSA_WRONG_LENGTH);
    for (size_t end = 0; end < len; end++)
        REFUSED(s->public_key_from_der(file, end, read, s->public_key_len), MLDSA_DER_CUT_SHORT);
    file[len] = 0;
    REFUSED(s->public_key_from_der(file, len + 1, read, s->public_key_len), MLDSA_DER_TRAILING);
    for (int other = 0; other < 3; other++)
        if (other != which)
            REFUSED(SETS[other].public_key_from_der(file, len, read, SETS[other].public_key_len), MLDSA_OTHER_SET);
    for (size_t at = 0; at < 22; at++)
        for (int value = 0; value < 256; value++)
            if (value != file[at]) {
                memcpy(changed, file, len);
                changed[at] = (uint8_t)value;
                WANT(s->public_key_from_der(changed, len, read, s->public_key_len) != MLDSA_DONE, 1);
            }
    WANT(memcmp(read, was, sizeof read), 0);
    memcpy(changed, file, len);
    changed[16] = 20;
    REFUSED(s->public_key_from_der(changed, len, read, s->public_key_len), MLDSA_DER_ALGORITHM);
    changed[16] = (uint8_t)(17 + (which + 1) % 3);
    REFUSED(s->public_key_from_der(changed, len, read, s->public_key_len), MLDSA_DER_KEY_LENGTH);
    changed[16] = file[16], changed[21] = 1;
    REFUSED(s->public_key_from_der(changed, len, read, s->public_key_len), MLDSA_DER_DAMAGED);
}

static void private_files(const struct set *s, int which)
{
    static const size_t frame[3] = {22, 28, 66};
    uint8_t room[LONGEST_DER + 8];
    size_t sk = s->private_key_len, lengths[3] = {MLDSA_SEED_DER_LEN, s->private_key_der_len, s->both_der_len};
    for (int form = 0; form < 3; form++) {
        size_t len, head = form == 0 ? 22 : form == 1 ? 28 : 30;
        const uint8_t *wanted = private_file(s, which, form, room + sizeof room, &len);
        uint32_t done = form == 0 ? s->seed_to_der(seed, 32, file, len)
            : form == 1 ? s->private_key_to_der(private_key, sk, file, len) : s->both_to_der(seed, 32, file, len);
        WANT(done, MLDSA_DONE);
        WANT(len, lengths[form]);
        WANT(len, frame[form] + (form ? sk : 32));
        WANT(memcmp(file, wanted, len), 0);
        WANT(s->seed_to_der(seed, 31, changed, 54), MLDSA_WRONG_LENGTH);
        WANT(s->both_to_der(seed, 32, changed, len + 1), MLDSA_WRONG_LENGTH);
        WANT(s->private_key_to_der(private_key, sk, changed, len - 1), MLDSA_WRONG_LENGTH);

        WANT(private_of(s, file, len), MLDSA_DONE);
        WANT(memcmp(read, private_key, sk), 0);
        memcpy(read, was, sizeof read);
        WANT(s->seed_from_der(file, len, read, 32), form == 1 ? MLDSA_NO_SEED : MLDSA_DONE);
        WANT(memcmp(read, form == 1 ? was : seed, 32), 0);
        memcpy(read, was, sizeof read);
        REFUSED(s->private_key_from_der(file, len, read, sk - 1), MLDSA_WRONG_LENGTH);
        REFUSED(s->seed_from_der(file, len, read, 33), MLDSA_WRONG_LENGTH);
        for (size_t end = 0; end < len; end += end < 80 ? 1 : 97) {
            REFUSED(private_of(s, file, end), MLDSA_DER_CUT_SHORT);
            REFUSED(s->seed_from_der(file, end, read, 32), MLDSA_DER_CUT_SHORT);
        }
        file[len] = 0;
        REFUSED(private_of(s, file, len + 1), MLDSA_DER_TRAILING);
        for (int other = 0; other < 3; other++)
            if (other != which)
                REFUSED(private_of(&SETS[other], file, len), MLDSA_OTHER_SET);
        for (size_t at = 0; at < head; at++)
            for (int value = 0; value < 256; value += value < 24 ? 1 : 13)
                if (value != file[at]) {
                    memcpy(changed, file, len);
                    changed[at] = (uint8_t)value;
                    WANT(private_of(s, changed, len) != MLDSA_DONE, 1);
                }
        WANT(memcmp(read, was, sizeof read), 0);
        memcpy(changed, file, len);
        changed[form == 0 ? 4 : 6] = 1;
        REFUSED(private_of(s, changed, len), MLDSA_DER_VERSION);
        changed[form == 0 ? 4 : 6] = 0, changed[form == 0 ? 17 : 19] = 20;
        REFUSED(private_of(s, changed, len), MLDSA_DER_ALGORITHM);
        if (form) {
            changed[form == 0 ? 17 : 19] = (uint8_t)(17 + (which + 1) % 3);
            REFUSED(private_of(s, changed, len), MLDSA_DER_KEY_LENGTH);
            memcpy(changed, file, len);
            changed[len - 1] ^= 1; /* of t0 */
            REFUSED(private_of(s, changed, len), MLDSA_INCONSISTENT);
            REFUSED(s->seed_from_der(changed, len, read, 32), form == 1 ? MLDSA_NO_SEED : MLDSA_INCONSISTENT);
            memcpy(changed, file, len);
            changed[len - sk + 128] = 0xFF; /* a coefficient of s1 above eta */
            REFUSED(private_of(s, changed, len), MLDSA_INCONSISTENT);
        }
        if (form == 2) {
            memcpy(changed, file, len);
            memcpy(changed + head, other_seed, 32);
            REFUSED(private_of(s, changed, len), MLDSA_INCONSISTENT);
        }
    }
    memcpy(changed, private_key, sk);
    changed[sk - 1] ^= 1;
    memcpy(file, was, 100);
    WANT(s->private_key_to_der(changed, sk, file, s->private_key_der_len), MLDSA_INCONSISTENT);
    changed[128] = 0xFF;
    WANT(s->private_key_to_der(changed, sk, file, s->private_key_der_len), MLDSA_INCONSISTENT);
    WANT(memcmp(file, was, 100), 0);
}

int main(void)
{
    for (int i = 0; i < 32; i++)
        seed[i] = (uint8_t)i, other_seed[i] = (uint8_t)(i + 1);
    memset(was, 0xA5, sizeof was);
    memset(read, 0xA5, sizeof read);
    for (int which = 0; which < 3; which++) {
        const struct set *s = &SETS[which];
        WANT(s->keygen(seed, 32, public_key, s->public_key_len, private_key, s->private_key_len), MLDSA_DONE);
        public_files(s, which);
        private_files(s, which);
    }
    return failures != 0;
}
