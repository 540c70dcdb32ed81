#include "book.h"

/* Where the first record stands, and what stands where in a record. */
enum { HEADER = 8, CARD = 2, ADDRESS = 4, FIELDS = 6, OFFSETS = 7 };

static unsigned word(const uint8_t *at)
{
    return (unsigned)at[0] << 8 | at[1];
}

static void write_hex(FILE *to, const uint8_t *bytes, size_t length)
{
    size_t i;

    for (i = 0; i < length; i++)
        fprintf(to, "%02X", bytes[i]);
}

/* The bytes of a record, its length field included. */
static size_t size_of(const uint8_t *record)
{
    return CARD + (size_t)word(record);
}

static void write_record(FILE *to, const uint8_t *record)
{
    size_t offsets = record[FIELDS], text = OFFSETS + offsets;

    fprintf(to, "%04X %04X %04X %02X ", word(record), word(record + CARD),
            word(record + ADDRESS), record[FIELDS]);
    if (offsets == 0)
        fputc('-', to);
    write_hex(to, record + OFFSETS, offsets);
    fputc(' ', to);
    write_hex(to, record + text, size_of(record) - text);
    fputc('\n', to);
}

void write_book(FILE *to, const uint8_t *book, size_t length)
{
    size_t at;

    fprintf(to, "%04X%04X %02X %02X %04X\n", word(book), word(book + 2), book[4], book[5],
            word(book + 6));
    for (at = HEADER; at < length; at += size_of(book + at))
        write_record(to, book + at);
}

void write_record_of(FILE *to, const uint8_t *book, size_t length, unsigned card)
{
    size_t at;

    for (at = HEADER; at < length; at += size_of(book + at))
        if (word(book + at + CARD) == card)
            write_record(to, book + at);
}
