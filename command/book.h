/* A book in hex, as the book printer prints it. */
#ifndef BOOK_H
#define BOOK_H

#include <stddef.h>
#include <stdint.h>
#include <stdio.h>

/*
 * The longest book: a header of 8 bytes, and 4,000 records of 2 + 5 bytes, 128 offsets and 256
 * bytes of text.
 */
enum { LONGEST_BOOK = 8 + 4000 * (2 + 5 + 128 + 256), STORAGE = 65536 };

/* Writes the lines of a book; the library has accepted its layout. */
void write_book(FILE *to, const uint8_t *book, size_t length);

/* Writes the line of a card's record, if there is one, of such a book. */
void write_record_of(FILE *to, const uint8_t *book, size_t length, unsigned card);

#endif
