/* What the tests share that are made of mldsa.h. cases.h, which c/test makes, has each array that a call takes, and each call. */
#ifndef ARRAYS_H
#define ARRAYS_H

#include "pem.h"

struct array {
    size_t len;
    uint8_t *at;
};
#include "cases.h"

static uint64_t state;
static uint64_t draw(void)
{
    state ^= state << 13;
    state ^= state >> 7;
    state ^= state << 17;
    return state;
}

/* A length that fits: of some arrays the set's, of others any. */
static size_t length_of(int kind, int which)
{
    return KINDS[kind].lengths[which] ? KINDS[kind].lengths[which] : draw() % 256;
}

/* Makes the object identifier that of SHA-256, SHA-384 or SHA-512, and the digest one of its length. Both have room for that. */
static void fit_oid(struct array *pool)
{
#ifdef ARRAY_oid
    static const uint8_t lengths_of_digests[] = {32, 48, 64};
    pool[ARRAY_oid].len = 11;
    memcpy(pool[ARRAY_oid].at, SHA256_OID, 11);
    pool[ARRAY_oid].at[10] = (uint8_t)(1 + draw() % 3);
    pool[ARRAY_digest].len = lengths_of_digests[pool[ARRAY_oid].at[10] - 1];
#else
    (void)pool;
#endif
}

/* Makes each text that a call reads that of the DER which a call before it wrote: no call writes PEM. */
static void fit_texts(struct array *pool, const struct export *call)
{
    for (int k = 0; k < call->count; k++) {
        const char *name = KINDS[call->arrays[k]].name, *form = strstr(name, "_pem");
        for (int i = 0; i < ARRAYS && form; i++)
            if (!strncmp(KINDS[i].name, name, (size_t)(form - name)) && !strcmp(KINDS[i].name + (form - name), "_der"))
                pool[call->arrays[k]].len = pem_of(name[1] == 'u' ? "PUBLIC KEY" : "PRIVATE KEY", pool[i].at, pool[i].len,
                                                   pool[call->arrays[k]].at);
    }
}

#endif
