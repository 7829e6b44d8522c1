/* The text of a key for the tests: PEM (RFC 7468) in its strict form, over base64 (RFC 4648). */
#ifndef PEM_H
#define PEM_H

#include "sets.h"

/* Four symbols spell three bytes, and a line of 64 ends in LF. */
enum { LONGEST_PEM = (LONGEST_DER + 2) / 3 * 4 + LONGEST_DER / 48 + 1 + 64 };

/* The symbol of a number, by arithmetic alone: a byte of a secret decides no branch and no address here. */
static uint8_t symbol(int value)
{
    int made = value + 'A';
    made += ((25 - value) >> 8) & 6;
    made -= ((51 - value) >> 8) & 75;
    made -= ((61 - value) >> 8) & 15;
    return (uint8_t)(made + (((62 - value) >> 8) & 3));
}

/* Writes the text of these bytes with a label, and gives its length. */
static size_t pem_of(const char *label, const uint8_t *bytes, size_t len, uint8_t *text)
{
    uint8_t *to = text + sprintf((char *)text, "-----BEGIN %s-----\n", label);
    for (size_t at = 0; at < len; at += 3) {
        size_t some = len - at < 3 ? len - at : 3;
        uint32_t group = (uint32_t)bytes[at] << 16;
        group |= some > 1 ? (uint32_t)bytes[at + 1] << 8 : 0;
        group |= some > 2 ? bytes[at + 2] : 0;
        for (size_t place = 0; place < 4; place++)
            *to++ = place > some ? '=' : symbol((int)(group >> (18 - 6 * place) & 63));
        if (at % 48 == 45 || at + some == len)
            *to++ = '\n';
    }
    to += sprintf((char *)to, "-----END %s-----\n", label);
    return (size_t)(to - text);
}

#endif
