/* The cards of a deck, from the bytes of its file. */
#ifndef DECK_H
#define DECK_H

#include "files.h"

enum { MOST_CARDS = 4000, WIDEST = 96, LONGEST_DECK = 1 << 20 };

/* Whole cards without line ends, as the library takes them. */
struct deck {
    uint32_t width;
    const uint8_t *cards;
    size_t length;
    int lines;            /* the file has a card a line */
};

/* Reads --width; NULL stands for 80. */
enum status read_width(uint32_t *width, const char *given);

/*
 * Takes the file's bytes as cards. A file with a line end (LF) anywhere has a card a line;
 * one without is whole cards as it stands, and the library judges whether it is.
 * Of more than 4,000 lines, 4,001 are taken: the library refuses them.
 */
enum status read_deck(struct deck *deck, const struct input *file, uint32_t width);

#endif
