/* Makes a key pair, signs a file, and verifies the signature: sign_file FILE */
#include "mldsa.h"

#include <stdio.h>
#include <stdlib.h>
#include <string.h>

static const uint8_t CONTEXT[] = "sign_file";

/* Fills an array from the system's generator. */
static int draw(uint8_t *out, size_t length)
{
    FILE *generator = fopen("/dev/urandom", "rb");
    size_t got = generator ? fread(out, 1, length, generator) : 0;
    if (generator)
        fclose(generator);
    return got == length;
}

/* The bytes of a file, or NULL if not all of them can be read. */
static uint8_t *read_file(const char *name, size_t *length)
{
    FILE *file = fopen(name, "rb");
    uint8_t *bytes = NULL, *more;
    size_t room = 1 << 16;
    *length = 0;
    while (file && (more = realloc(bytes, room))) {
        bytes = more;
        *length += fread(bytes + *length, 1, room - *length, file);
        if (*length < room)
            break;
        room *= 2;
    }
    /* A short read is the end of the file or an error; a full one is followed by another. */
    if (file && feof(file) && !ferror(file)) {
        fclose(file);
        return bytes;
    }
    if (file)
        fclose(file);
    free(bytes);
    return NULL;
}

int main(int count, char **words)
{
    static uint8_t public_key[MLDSA65_PUBLIC_KEY_LEN], private_key[MLDSA65_PRIVATE_KEY_LEN];
    static uint8_t signature[MLDSA65_SIGNATURE_LEN], seed[MLDSA_SEED_LEN], random[MLDSA_RANDOM_LEN];
    size_t length;
    uint8_t *message;
    uint32_t status;
    if (count != 2) {
        fprintf(stderr, "usage: sign_file FILE\n");
        return 2;
    }
    message = read_file(words[1], &length);
    if (!message) {
        fprintf(stderr, "%s: not read\n", words[1]);
        return 2;
    }
    if (!draw(seed, sizeof seed) || !draw(random, sizeof random)) {
        fprintf(stderr, "no random bytes\n");
        return 2;
    }
    status = mldsa65_keygen(seed, sizeof seed, public_key, sizeof public_key, private_key, sizeof private_key);
    if (status == MLDSA_DONE)
        status = mldsa65_sign(private_key, sizeof private_key, message, length, CONTEXT, sizeof CONTEXT - 1, random,
                              sizeof random, signature, sizeof signature);
    if (status != MLDSA_DONE) {
        fprintf(stderr, "not signed: %s\n", mldsa_text(status));
        return 1;
    }
    printf("signed %zu bytes, signature of %zu bytes\n", length, sizeof signature);
    status = mldsa65_verify(public_key, sizeof public_key, message, length, CONTEXT, sizeof CONTEXT - 1, signature,
                            sizeof signature);
    printf("verified: %s\n", status == MLDSA_YES ? "yes" : mldsa_text(status));
    free(message);
    return status == MLDSA_YES ? 0 : 1;
}
