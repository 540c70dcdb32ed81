#include "deck.h"

#include <string.h>

enum { LF = 0x0A, CR = 0x0D, TAB = 0x09 };

enum status read_width(uint32_t *width, const char *given)
{
    *width = given != NULL && strcmp(given, "96") == 0 ? 96 : 80;
    if (given == NULL || *width == 96 || strcmp(given, "80") == 0)
        return DONE;
    return fail("mersclund assemble: --width is 80 or 96, the columns of a card, not %s", given);
}

/* A line of the file, without its line end. */
struct line {
    const char *file;
    size_t number;
    const uint8_t *bytes;
    size_t length;
};

/* Refuses bytes that would put what follows them into a column that nobody can tell. */
static enum status check_bytes(const struct line *line)
{
    size_t at;

    for (at = 0; at < line->length; at++) {
        unsigned byte = line->bytes[at];
        if (byte == TAB)
            return fail("%s:%zu: column %zu is a TAB, which is no character of a card\n"
                        "Put blanks in its place; the program expand does that for a whole file.",
                        line->file, line->number, at + 1);
        if (byte == CR)
            return fail("%s:%zu: column %zu is a carriage return that ends no line\n"
                        "Let every line end with LF, or with CR and LF.",
                        line->file, line->number, at + 1);
        if (byte > 0x7F)
            return fail("%s:%zu: column %zu is byte %02X, which is not ASCII\n"
                        "Write A to Z without accents and plain ' and \", and save the file as "
                        "ASCII, without a byte order mark.",
                        line->file, line->number, at + 1, byte);
    }
    return DONE;
}

static enum status check_length(const struct line *line, uint32_t width)
{
    if (line->length <= width)
        return DONE;
    return fail("%s:%zu: the line has %zu characters, and a card has %u\n"
                "Shorten it%s. (A line end anywhere in a file makes it a file with a card a line.)",
                line->file, line->number, line->length, width,
                width < WIDEST ? ", or give --width 96 if the cards have 96 columns" : "");
}

/* Takes each line as a card, filled with blanks on the right. */
static enum status read_lines(struct deck *deck, const struct input *file)
{
    static uint8_t cards[(MOST_CARDS + 1) * WIDEST];
    const uint8_t *at = file->bytes, *end = file->bytes + file->length;
    struct line line = {file->name, 0, NULL, 0};

    memset(cards, ' ', sizeof cards);
    while (at < end && line.number <= MOST_CARDS) {
        const uint8_t *lf = memchr(at, LF, (size_t)(end - at));
        line.bytes = at;
        line.length = (size_t)((lf == NULL ? end : lf) - at);
        if (lf != NULL && line.length > 0 && at[line.length - 1] == CR)
            line.length--;
        line.number++;
        if (check_bytes(&line) != DONE || check_length(&line, deck->width) != DONE)
            return FAILED;
        memcpy(cards + deck->length, line.bytes, line.length);
        deck->length += deck->width;
        at = lf == NULL ? end : lf + 1;
    }
    deck->cards = cards;
    return DONE;
}

/*
 * Says whether a file with line ends could be whole cards as well, and other ones: each line
 * end stands in a column that is never looked at, and not all of them in the last.
 */
static int could_be_cards(const struct input *file, uint32_t width)
{
    const size_t statement = width == WIDEST ? 87 : 71;
    size_t at, behind = 0;

    if (file->length % width != 0)
        return 0;
    for (at = 0; at < file->length; at++) {
        size_t column = at % width + 1;
        if (file->bytes[at] != LF)
            continue;
        if (column <= statement)
            return 0;
        behind += column < width;
    }
    return behind > 0;
}

enum status read_deck(struct deck *deck, const struct input *file, uint32_t width)
{
    deck->width = width;
    deck->length = 0;
    deck->lines = memchr(file->bytes, LF, file->length) != NULL;
    if (file->length > LONGEST_DECK)
        return fail("%s: longer than %d bytes, and no deck of 4,000 cards is\n"
                    "Check that it is a deck; if it is, part it into several.",
                    file->name, (int)LONGEST_DECK);
    if (deck->lines && could_be_cards(file, width))
        return fail("%s: can be read as a card a line and as whole cards of %u columns, and they "
                    "differ\nTake the line ends out of the columns behind the statement, or end "
                    "every card with one.", file->name, width);
    if (deck->lines)
        return read_lines(deck, file);
    deck->cards = file->bytes;
    deck->length = file->length;
    return DONE;
}
