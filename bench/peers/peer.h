/* What the peers in C and C++ share: arrays in hex, the clock, and the modes of a program (see `run`).
 *
 * A program defines keygen, sign and verify over the sizes that `set_up` gives, and its `main` calls `peer_main`. */
#include <stdint.h>
#include <stdio.h>
#include <stdlib.h>
#include <string.h>
#include <time.h>

enum { MESSAGE = 8, MOST = 8192 };

static size_t public_len, private_len, signature_len;

/* These give 1 where it was done, or where the signature is accepted. */
static int set_up(const char *set);
static int keygen(uint8_t *public_key, uint8_t *private_key);
static int sign(const uint8_t *private_key, const uint8_t *message, uint8_t *signature);
static int verify(const uint8_t *public_key, const uint8_t *message, const uint8_t *signature);

static uint8_t public_key[MOST], private_key[MOST], signature[MOST];

static void fail(const char *what)
{
    fprintf(stderr, "%s failed\n", what);
    exit(2);
}

static void number(uint8_t *message, unsigned long i)
{
    for (int place = 0; place < MESSAGE; place++)
        message[place] = (uint8_t)(i >> 8 * place);
}

static void put(const uint8_t *bytes, size_t len, char end)
{
    for (size_t place = 0; place < len; place++)
        printf("%02x", bytes[place]);
    putchar(end);
}

static int get(uint8_t *bytes, size_t len)
{
    for (size_t place = 0; place < len; place++) {
        unsigned value;
        if (scanf("%2x", &value) != 1)
            return 0;
        bytes[place] = (uint8_t)value;
    }
    return 1;
}

static long long now(void)
{
    struct timespec at;
    clock_gettime(CLOCK_MONOTONIC, &at);
    return at.tv_sec * 1000000000LL + at.tv_nsec;
}

static int peer_main(int argc, char **argv)
{
    uint8_t message[MESSAGE];
    unsigned long count = argc > 3 ? strtoul(argv[3], NULL, 10) : 0;
    if (argc < 3 || !set_up(argv[1]))
        fail("the set");
    if (!strcmp(argv[2], "make")) {
        for (unsigned long i = 0; i < count; i++) {
            number(message, i);
            if (!keygen(public_key, private_key) || !sign(private_key, message, signature))
                fail("signing");
            put(public_key, public_len, ' ');
            put(message, MESSAGE, ' ');
            put(signature, signature_len, '\n');
        }
    } else if (!strcmp(argv[2], "judge")) {
        while (get(public_key, public_len) && get(message, MESSAGE) && get(signature, signature_len))
            puts(verify(public_key, message, signature) ? "1" : "0");
    } else {
        for (int call = 0; call < 3; call++) {
            for (unsigned long i = 0; i < count; i++) {
                number(message, call == 2 ? count - 1 : i);
                long long start = now();
                int done = call == 0   ? keygen(public_key, private_key)
                           : call == 1 ? sign(private_key, message, signature)
                                       : verify(public_key, message, signature);
                printf("%lld%c", now() - start, i + 1 < count ? ' ' : '\n');
                if (!done)
                    fail("a call");
            }
        }
    }
    return 0;
}
