#include "book.h"
#include "commands.h"
#include "files.h"
#include "refusals.h"
#include "words.h"

#include "mersclund.h"

#include <stdio.h>

static const char help[] =
    "mersclund print BOOK\n"
    "\n"
    "Prints BOOK in hex, as the book printer does: a line with length, version, entry flag and\n"
    "entry, then a line for each record: length, card, address, count of relocatable fields,\n"
    "their offsets or -, text.\n"
    "\n"
    "  BOOK         what mersclund assemble wrote, at most 65,536 bytes; - is standard input.\n"
    "\n"
    "A refusal is told as BOOK:0: refused NUMBER: why, with what to do under it; nothing is\n"
    "printed then. Exit status: 0 printed, 1 refused, 2 misuse or a file that can't be read or\n"
    "written.\n";

enum { LONGEST_PRINTED = 65536 };

/* The number of refusal: loading where it was assembled judges nothing but the layout. */
static unsigned refusal_of(const struct input *book)
{
    static uint8_t storage[STORAGE];

    if (book->length > LONGEST_PRINTED)
        return MERSCLUND_REFUSED_INPUT;
    return mersclund_refusal(
        mersclund_load(book->bytes, book->length, 0, storage, sizeof storage));
}

enum status print_command(char **given)
{
    struct words words = {"print", help, "BOOK", NULL, NULL, 0};
    struct input book;
    enum status status = read_words(&words, given);
    unsigned number;

    if (status != DONE || words.helped)
        return status;
    if (read_input(&book, words.file, LONGEST_PRINTED) != DONE)
        return FAILED;
    number = refusal_of(&book);
    if (number != MERSCLUND_ACCEPTED) {
        tell_refusal(book.name, number, 0);
        return tell_advice(number, 0);
    }
    write_book(stdout, book.bytes, book.length);
    return all_said();
}
