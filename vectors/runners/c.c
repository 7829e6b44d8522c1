/* Makes the calls that standard input asks for, a line each: the number of a set, the name of a call, and its arrays in hex, with a tab between.
 * Prints a line for each: what was written in hex, with a tab between; yes or no; or the text of another result. */
#define _POSIX_C_SOURCE 200809L
#include "../../c/tests/sets.h"

enum { MOST = 6 };
static uint8_t *arrays[MOST];
static size_t lengths[MOST], rooms[MOST];

static int digit(char c)
{
    return c >= '0' && c <= '9' ? c - '0' : c >= 'a' && c <= 'f' ? c - 'a' + 10 : -1;
}

/* Reads the digits up to the next tab or the end of the line into an array. */
static const char *read_hex(const char *at, int i)
{
    size_t digits = strcspn(at, "\t\n");
    if (!arrays[i] || rooms[i] < digits) {
        rooms[i] = digits + 1024;
        arrays[i] = realloc(arrays[i], rooms[i]);
        if (!arrays[i])
            exit(2);
    }
    for (size_t n = 0; n + 1 < digits; n += 2)
        arrays[i][n / 2] = (uint8_t)(digit(at[n]) << 4 | digit(at[n + 1]));
    lengths[i] = digits / 2;
    return at[digits] == '\t' ? at + digits + 1 : NULL;
}

static void print_hex(const uint8_t *from, size_t length)
{
    for (size_t i = 0; i < length; i++)
        printf("%02x", from[i]);
}

/* Prints a verdict, or what was written, or why nothing was. */
static void answer(uint32_t status, const uint8_t *first, size_t first_len, const uint8_t *second, size_t second_len)
{
    if (status == MLDSA_DONE && first) {
        print_hex(first, first_len);
        if (second) {
            putchar('\t');
            print_hex(second, second_len);
        }
        putchar('\n');
    } else {
        puts(status == MLDSA_YES ? "yes" : mldsa_text(status));
    }
}

#define ARRAY(i) arrays[i], lengths[i]

int main(void)
{
    static uint8_t public_key[LONGEST_KEY], private_key[LONGEST_KEY], signature[LONGEST_SIGNATURE], file[LONGEST_DER];
    char *line = NULL, call[32];
    size_t room = 0;
    int number;
    while (getline(&line, &room, stdin) > 0) {
        const struct set *s = SETS;
        const char *at;
        if (sscanf(line, "%d %31s", &number, call) != 2)
            return 2;
        while (s->number != number)
            if (++s == SETS + 3)
                return 2;
        at = strchr(strchr(line, '\t') + 1, '\t');
        at = at ? at + 1 : NULL;
        for (int i = 0; i < MOST; i++)
            lengths[i] = 0;
        for (int i = 0; at && i < MOST; i++)
            at = read_hex(at, i);
        for (int i = 0; i < MOST; i++)
            if (!arrays[i])
                (void)read_hex("", i);
        size_t pk = s->public_key_len, sk = s->private_key_len, sig = s->signature_len, der = s->public_key_der_len;
        if (strcmp(call, "keygen") == 0)
            answer(s->keygen(ARRAY(0), public_key, pk, private_key, sk), public_key, pk, private_key, sk);
        else if (strcmp(call, "sign") == 0)
            answer(s->sign(ARRAY(0), ARRAY(1), ARRAY(2), ARRAY(3), signature, sig), signature, sig, NULL, 0);
        else if (strcmp(call, "verify") == 0)
            answer(s->verify(ARRAY(0), ARRAY(1), ARRAY(2), ARRAY(3)), NULL, 0, NULL, 0);
        else if (strcmp(call, "hash_sign") == 0)
            answer(s->hash_sign(ARRAY(0), ARRAY(1), ARRAY(2), ARRAY(3), ARRAY(4), signature, sig), signature, sig, NULL, 0);
        else if (strcmp(call, "hash_verify") == 0)
            answer(s->hash_verify(ARRAY(0), ARRAY(1), ARRAY(2), ARRAY(3), ARRAY(4)), NULL, 0, NULL, 0);
        else if (strcmp(call, "sign_mu") == 0)
            answer(s->sign_mu(ARRAY(0), ARRAY(1), ARRAY(2), signature, sig), signature, sig, NULL, 0);
        else if (strcmp(call, "verify_mu") == 0)
            answer(s->verify_mu(ARRAY(0), ARRAY(1), ARRAY(2)), NULL, 0, NULL, 0);
        else if (strcmp(call, "public_key_from_der") == 0)
            answer(s->public_key_from_der(ARRAY(0), public_key, pk), public_key, pk, NULL, 0);
        else if (strcmp(call, "public_key_to_der") == 0)
            answer(s->public_key_to_der(ARRAY(0), file, der), file, der, NULL, 0);
        else if (strcmp(call, "private_key_from_der") == 0)
            answer(s->private_key_from_der(ARRAY(0), private_key, sk), private_key, sk, NULL, 0);
        else if (strcmp(call, "seed_from_der") == 0)
            answer(s->seed_from_der(ARRAY(0), private_key, MLDSA_SEED_LEN), private_key, MLDSA_SEED_LEN, NULL, 0);
        else if (strcmp(call, "private_key_to_der") == 0)
            answer(s->private_key_to_der(ARRAY(0), file, s->private_key_der_len), file, s->private_key_der_len, NULL, 0);
        else if (strcmp(call, "seed_to_der") == 0)
            answer(s->seed_to_der(ARRAY(0), file, MLDSA_SEED_DER_LEN), file, MLDSA_SEED_DER_LEN, NULL, 0);
        else if (strcmp(call, "both_to_der") == 0)
            answer(s->both_to_der(ARRAY(0), file, s->both_der_len), file, s->both_der_len, NULL, 0);
        else
            return 2;
    }
    free(line);
    return 0;
}
