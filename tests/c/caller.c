/*
 * Makes calls for a program that cannot link the library itself, until input ends.
 *
 * Reads for each call five numbers of 4 bytes, high byte first: which call, its number, and the
 * lengths of three buffers. Then guard bytes and the first buffer, guard bytes and the second,
 * guard bytes and the third, and guard bytes again. Writes back the answer, 8 bytes, and all
 * lent and guard bytes after it.
 */
#include "mersclund.h"

#include <stdio.h>

enum { GUARD = 64, ROOM = 1 << 21, BUFFERS = 3 };

/* The calls: a load lends book, storage and nothing; an assembly source, work area and output. */
enum { LOAD = 1, ASSEMBLE = 2 };

static uint32_t number(const uint8_t *bytes)
{
    return (uint32_t)bytes[0] << 24 | (uint32_t)bytes[1] << 16 |
           (uint32_t)bytes[2] << 8 | bytes[3];
}

/* Makes the call on buffers of these lengths; the first has guard bytes before it. */
static uint64_t made(uint32_t call, uint32_t argument, uint8_t *lent, const size_t length[BUFFERS])
{
    uint8_t *first = lent + GUARD;
    uint8_t *second = first + length[0] + GUARD;
    uint8_t *third = second + length[1] + GUARD;

    if (call == LOAD)
        return mersclund_load(first, length[0], (uint16_t)argument, second, length[1]);
    return mersclund_assemble(argument, first, length[0], second, length[1], third, length[2]);
}

/* Writes the answer and the bytes; returns 0 if that fails. */
static int reply(uint64_t answer, const uint8_t *lent, size_t length)
{
    uint8_t bytes[8];
    int i;
    for (i = 0; i < 8; i++)
        bytes[i] = (uint8_t)(answer >> (56 - 8 * i));
    return fwrite(bytes, 1, sizeof bytes, stdout) == sizeof bytes &&
           fwrite(lent, 1, length, stdout) == length && fflush(stdout) == 0;
}

int main(void)
{
    static uint8_t lent[ROOM];
    uint8_t head[4 * (2 + BUFFERS)];

    while (fread(head, 1, sizeof head, stdin) == sizeof head) {
        uint32_t call = number(head);
        size_t length[BUFFERS], all = GUARD;
        int i;

        for (i = 0; i < BUFFERS; i++) {
            length[i] = number(head + 8 + 4 * i);
            all += length[i] + GUARD;
        }
        if ((call != LOAD && call != ASSEMBLE) || all > ROOM ||
            fread(lent, 1, all, stdin) != all)
            return 1;
        if (!reply(made(call, number(head + 4), lent, length), lent, all))
            return 1;
    }
    return 0;
}
