/* Keys in PEM: what is read is what the DER of the text has, in the lax form of RFC 7468 too; what is rejected, and why; and that
 * nothing is written then. */
#include "pem.h"

#define PUBLIC "PUBLIC KEY"
#define PRIVATE "PRIVATE KEY"

static uint8_t public_key[LONGEST_KEY], private_key[LONGEST_KEY], seed[32];
static uint8_t file[LONGEST_DER + 1], text[LONGEST_PEM], changed[3 * LONGEST_PEM], read[LONGEST_KEY + 1], was[LONGEST_KEY + 1];

/* A call that returns an error, and what it must leave. */
#define REFUSED(call, status)                                                                                  \
    do {                                                                                                       \
        WANT(call, status);                                                                                    \
        WANT(memcmp(read, was, sizeof read), 0);                                                               \
    } while (0)

/* A call that is done, and what it must write. */
#define READS(call, key, len)                                                                                  \
    do {                                                                                                       \
        WANT(call, MLDSA_DONE);                                                                                \
        WANT(memcmp(read, key, len), 0);                                                                       \
        WANT(memcmp(read + (len), was + (len), sizeof read - (len)), 0);                                       \
        memcpy(read, was, sizeof read);                                                                        \
    } while (0)

/* The same text with something before it and behind it. Gives its length. */
static size_t around(const char *before, size_t len, const char *after)
{
    size_t first = strlen(before), last = strlen(after);
    memcpy(changed, before, first);
    memcpy(changed + first, text, len);
    memcpy(changed + first + len, after, last);
    return first + len + last;
}

/* The same text with each LF, or what stands behind each, replaced. Gives its length. */
static size_t with_ends(size_t len, const char *end)
{
    uint8_t *to = changed;
    for (size_t i = 0; i < len; i++)
        if (text[i] == '\n')
            for (const char *it = end; *it; it++)
                *to++ = (uint8_t)*it;
        else
            *to++ = text[i];
    return (size_t)(to - changed);
}

/* Each text that spells the key beside the strict one, and each that spells none, by a call. */
static void texts(uint32_t (*call)(in, size_t, uint8_t *, size_t), size_t len, const uint8_t *key, size_t key_len)
{
    static const char *const ENDS[] = {"\r\n", "\n\n", "\n  \t", " \f\n", "\r"};
    size_t second;
    READS(call(text, len, read, key_len), key, key_len);
    READS(call(text, len - 1, read, key_len), key, key_len);
    READS(call(changed, around("\xEF\xBB\xBFof a friend\n\n", len, "with regards\n"), read, key_len), key, key_len);
    for (size_t i = 0; i < sizeof ENDS / sizeof *ENDS; i++)
        READS(call(changed, with_ends(len, ENDS[i]), read, key_len), key, key_len);
    REFUSED(call(text, len, read, key_len - 1), MLDSA_WRONG_LENGTH);
    REFUSED(call(text, len, read, key_len + 1), MLDSA_WRONG_LENGTH);
    REFUSED(call(text, 0, read, 0), MLDSA_WRONG_LENGTH);
    for (size_t end = 0; end < len - 1; end += end < 80 || end > len - 80 ? 1 : 97)
        REFUSED(call(text, end, read, key_len), MLDSA_PEM_CUT_SHORT);
    second = around("", len, "\n");
    memcpy(changed + second, text, len);
    REFUSED(call(changed, second + len, read, key_len), MLDSA_PEM_TRAILING);
    REFUSED(call(text + 1, len - 1, read, key_len), MLDSA_PEM_MISSING);
    around("", len, "");
    changed[30] = '*';
    REFUSED(call(changed, len, read, key_len), MLDSA_PEM_DAMAGED);
    changed[30] = '-';
    REFUSED(call(changed, len, read, key_len), MLDSA_PEM_DAMAGED);
}

static void labels(uint32_t (*call)(in, size_t, uint8_t *, size_t), size_t len, size_t key_len, const char *other)
{
    size_t made = pem_of(other, file, len, changed);
    REFUSED(call(changed, made, read, key_len), MLDSA_PEM_OTHER_KIND);
    made = pem_of("ENCRYPTED PRIVATE KEY", file, len, changed);
    REFUSED(call(changed, made, read, key_len), MLDSA_PEM_ENCRYPTED);
    made = pem_of("CERTIFICATE", file, len, changed);
    REFUSED(call(changed, made, read, key_len), MLDSA_PEM_CERTIFICATE);
    made = pem_of("RSA PRIVATE KEY", file, len, changed);
    REFUSED(call(changed, made, read, key_len), MLDSA_PEM_OTHER_LABEL);
}

/* A text that spells other bytes has the fault of its DER, or spells too many. */
static void of_der(uint32_t (*call)(in, size_t, uint8_t *, size_t), const char *label, size_t len, size_t key_len)
{
    static uint8_t longer[LONGEST_DER + 1];
    size_t made = pem_of(label, file, len - 1, changed);
    REFUSED(call(changed, made, read, key_len), MLDSA_DER_CUT_SHORT);
    file[0] ^= 1;
    made = pem_of(label, file, len, changed);
    file[0] ^= 1;
    REFUSED(call(changed, made, read, key_len), MLDSA_DER_DAMAGED);
    made = pem_of(label, longer, sizeof longer, changed);
    REFUSED(call(changed, made, read, key_len), MLDSA_DER_KEY_LENGTH);
}

static void public_texts(const struct set *s)
{
    size_t pk = s->public_key_len, der = s->public_key_der_len, len;
    WANT(s->public_key_to_der(public_key, pk, file, der), MLDSA_DONE);
    len = pem_of(PUBLIC, file, der, text);
    texts(s->public_key_from_pem, len, public_key, pk);
    labels(s->public_key_from_pem, der, pk, PRIVATE);
    of_der(s->public_key_from_pem, PUBLIC, der, pk);
    for (const struct set *other = SETS; other < SETS + 3; other++)
        if (other != s)
            REFUSED(other->public_key_from_pem(text, len, read, other->public_key_len), MLDSA_OTHER_SET);
}

static void private_texts(const struct set *s)
{
    size_t sk = s->private_key_len, lengths[3] = {MLDSA_SEED_DER_LEN, s->private_key_der_len, s->both_der_len};
    for (int form = 0; form < 3; form++) {
        size_t der = lengths[form], len;
        uint32_t done = form == 0 ? s->seed_to_der(seed, 32, file, der)
            : form == 1 ? s->private_key_to_der(private_key, sk, file, der) : s->both_to_der(seed, 32, file, der);
        WANT(done, MLDSA_DONE);
        len = pem_of(PRIVATE, file, der, text);
        texts(s->private_key_from_pem, len, private_key, sk);
        labels(s->private_key_from_pem, der, sk, PUBLIC);
        labels(s->seed_from_pem, der, 32, PUBLIC);
        of_der(s->private_key_from_pem, PRIVATE, der, sk);
        of_der(s->seed_from_pem, PRIVATE, der, 32);
        if (form == 1)
            REFUSED(s->seed_from_pem(text, len, read, 32), MLDSA_NO_SEED);
        else
            texts(s->seed_from_pem, len, seed, 32);
        for (const struct set *other = SETS; other < SETS + 3; other++)
            if (other != s) {
                REFUSED(other->private_key_from_pem(text, len, read, other->private_key_len), MLDSA_OTHER_SET);
                REFUSED(other->seed_from_pem(text, len, read, 32), MLDSA_OTHER_SET);
            }
        if (form) {
            file[der - 1] ^= 1; /* of t0 */
            len = pem_of(PRIVATE, file, der, text);
            REFUSED(s->private_key_from_pem(text, len, read, sk), MLDSA_INCONSISTENT);
        }
    }
}

int main(void)
{
    for (int i = 0; i < 32; i++)
        seed[i] = (uint8_t)i;
    memset(was, 0xA5, sizeof was);
    memset(read, 0xA5, sizeof read);
    for (const struct set *s = SETS; s < SETS + 3; s++) {
        WANT(s->keygen(seed, 32, public_key, s->public_key_len, private_key, s->private_key_len), MLDSA_DONE);
        public_texts(s);
        private_texts(s);
    }
    return failures != 0;
}
