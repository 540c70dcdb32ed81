/* Lent buffers with guard bytes around them, for the tests of the C interface. */
#ifndef LENT_H
#define LENT_H

#include <stddef.h>
#include <stdint.h>
#include <string.h>

enum { GUARD = 64, ROOM = 70000 };

/* A lent buffer, with guard bytes on both sides, and what it must hold after the call. */
struct lent {
    uint8_t raw[GUARD + ROOM + GUARD];
    uint8_t wanted[GUARD + ROOM + GUARD];
    size_t length;
};

static inline int digit(char c)
{
    const char *digits = "0123456789ABCDEF", *found = strchr(digits, c);
    return c != '\0' && found != NULL ? (int)(found - digits) : -1;
}

/* Writes the bytes that the hex digits stand for, and returns how many; else is skipped. */
static inline size_t bytes_of(const char *hex, uint8_t *to)
{
    size_t digits = 0;
    for (; *hex != '\0'; hex++) {
        int value = digit(*hex);
        if (value < 0)
            continue;
        to[digits / 2] = (uint8_t)(digits % 2 == 0 ? value << 4 : to[digits / 2] | value);
        digits++;
    }
    return digits / 2;
}

/* Fills a buffer and its guards with a pattern that no text repeats. */
static inline void fill(struct lent *lent, size_t length)
{
    size_t i;
    for (i = 0; i < sizeof lent->raw; i++)
        lent->raw[i] = (uint8_t)(i * 167 + i / 256 + 29);
    lent->length = length;
}

/* Asks that the call leave every byte as it is now. */
static inline void want_as_is(struct lent *lent)
{
    memcpy(lent->wanted, lent->raw, sizeof lent->raw);
}

/* Says whether the whole buffer, guards included, is what it must be. */
static inline int kept(const struct lent *lent)
{
    return memcmp(lent->raw, lent->wanted, sizeof lent->raw) == 0;
}

#endif
