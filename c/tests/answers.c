/* Key pairs and signatures of what standard input says. A line has the number of a set, and in hex a seed, random bytes, a
 * context and a message, with a tab between; or in place of the message a digest, and then the object identifier of its hash
 * function. For each the public key, the private key and the signature are printed in hex, and 1 if verifying says yes. */
#include "sets.h"

enum { LONGEST_LINE = 1 << 16 };
static char line[LONGEST_LINE];
static uint8_t bytes[5][LONGEST_LINE / 2];

/* Reads the digits up to the next tab or the end of the line, and gives the number of bytes. */
static size_t read_hex(const char **at, uint8_t *out)
{
    size_t length = 0;
    unsigned byte;
    while (sscanf(*at, "%2x", &byte) == 1 && **at != '\t') {
        out[length++] = (uint8_t)byte;
        *at += 2;
    }
    if (**at == '\t')
        ++*at;
    return length;
}

static void print_hex(const uint8_t *from, size_t length)
{
    for (size_t i = 0; i < length; i++)
        printf("%02x", from[i]);
    putchar('\t');
}

int main(void)
{
    static uint8_t public_key[LONGEST_KEY], private_key[LONGEST_KEY], signature[LONGEST_SIGNATURE];
    while (fgets(line, sizeof line, stdin)) {
        const struct set *s = SETS;
        const char *at = line + 3;
        size_t lengths[5], pk, sk, sig;
        while (s->number != atoi(line))
            if (++s == SETS + 3)
                return 2;
        pk = s->public_key_len, sk = s->private_key_len, sig = s->signature_len;
        for (int i = 0; i < 5; i++)
            lengths[i] = read_hex(&at, bytes[i]);
        WANT(s->keygen(bytes[0], lengths[0], public_key, pk, private_key, sk), MLDSA_DONE);
        if (lengths[4])
            WANT(s->hash_sign(private_key, sk, bytes[3], lengths[3], bytes[2], lengths[2], bytes[4], lengths[4], bytes[1],
                              lengths[1], signature, sig), MLDSA_DONE);
        else
            WANT(s->sign(private_key, sk, bytes[3], lengths[3], bytes[2], lengths[2], bytes[1], lengths[1], signature, sig),
                 MLDSA_DONE);
        print_hex(public_key, pk);
        print_hex(private_key, sk);
        print_hex(signature, sig);
        if (lengths[4])
            WANT(s->hash_verify(public_key, pk, bytes[3], lengths[3], bytes[2], lengths[2], bytes[4], lengths[4], signature, sig),
                 MLDSA_YES);
        else
            WANT(s->verify(public_key, pk, bytes[3], lengths[3], bytes[2], lengths[2], signature, sig), MLDSA_YES);
        printf("%d\n", failures == 0);
    }
    return failures != 0;
}
