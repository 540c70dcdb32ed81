#include "book.h"
#include "commands.h"
#include "deck.h"
#include "refusals.h"
#include "words.h"

#include "mersclund.h"

#include <stdio.h>

static const char help[] =
    "mersclund assemble DECK [-o BOOK] [--width 80|96]\n"
    "\n"
    "Assembles the cards of DECK into a book, and says the book's length and the count of names.\n"
    "\n"
    "  DECK         a file with a card a line (line ends LF or CRLF; short lines are filled with\n"
    "               blanks), or a file of whole cards without any line end; - is standard input.\n"
    "               A file with a line end anywhere is read as a card a line.\n"
    "  -o BOOK      where the book goes; - is standard output. Without it the deck is only\n"
    "               checked. A file is replaced once all of the book is written.\n"
    "  --width N    80 or 96, the columns of a card; 80 if not given. Columns 1 to 71 of 80, or\n"
    "               1 to 87 of 96, are the statement; the others are never looked at.\n"
    "\n"
    "A refusal is told as DECK:CARD: refused NUMBER: why, with the card and what to do under it.\n"
    "Card 0 stands for a refusal of no one card. Exit status: 0 assembled, 1 refused, 2 misuse or\n"
    "a file that can't be read or written.\n";

/* What an assembly writes: the library zeroes the work area. */
static uint8_t work[8192], book[LONGEST_BOOK];

static enum status tell(const struct input *file, const struct deck *deck, uint64_t answer)
{
    unsigned number = mersclund_refusal(answer), card = mersclund_card(answer);

    tell_refusal(file->name, number, card);
    if (card > 0 && (size_t)card * deck->width <= deck->length)
        tell_card(deck->cards + (size_t)(card - 1) * deck->width, deck->width);
    if (deck->length == 0)
        fprintf(stderr, "The deck is empty.\n");
    return tell_advice(number, card);
}

/* Says what was made; on standard error where the book itself goes to standard output. */
static enum status say(const struct input *file, const struct deck *deck, uint64_t answer,
                       const char *out)
{
    FILE *to = out != NULL && is_standard(out) ? stderr : stdout;
    unsigned names = mersclund_names(answer);

    fprintf(to, "%s: %zu cards of %u columns, %s: a book of %u bytes, %u name%s\n", file->name,
            deck->length / deck->width, deck->width,
            deck->lines ? "a card a line" : "whole cards without line ends",
            mersclund_length(answer), names, names == 1 ? "" : "s");
    if (out == NULL)
        fprintf(to, "Nothing is written: give -o BOOK to keep the book.\n");
    return all_said();
}

static enum status assemble(const struct input *file, uint32_t width, const char *out)
{
    struct deck deck;
    uint64_t answer;

    if (read_deck(&deck, file, width) != DONE)
        return FAILED;
    answer = mersclund_assemble(deck.width, deck.cards, deck.length, work, sizeof work,
                                book, sizeof book);
    if (mersclund_refusal(answer) != MERSCLUND_ACCEPTED)
        return tell(file, &deck, answer);
    if (out != NULL && write_output(out, book, mersclund_length(answer), file) != DONE)
        return FAILED;
    return say(file, &deck, answer, out);
}

enum status assemble_command(char **given)
{
    struct option options[] = {{"-o", "BOOK", NULL}, {"--width", "80|96", NULL}, {NULL, NULL, NULL}};
    struct words words = {"assemble", help, "DECK", options, NULL, 0};
    struct input file;
    uint32_t width = 80;
    enum status status = read_words(&words, given);

    if (status != DONE || words.helped)
        return status;
    if (read_width(&width, options[1].given) != DONE ||
        read_input(&file, words.file, LONGEST_DECK) != DONE)
        return FAILED;
    return assemble(&file, width, options[0].given);
}
