#include "book.h"
#include "commands.h"
#include "files.h"
#include "refusals.h"
#include "words.h"

#include "mersclund.h"

#include <stdio.h>
#include <string.h>

static const char help[] =
    "mersclund load BOOK --at HEX [--storage FILE] [-o FILE]\n"
    "\n"
    "Loads BOOK into storage, moved by a displacement, and says how many bytes were stored and\n"
    "the entry.\n"
    "\n"
    "  BOOK              what mersclund assemble wrote; - is standard input.\n"
    "  --at HEX          the displacement, 1 to 4 hex digits; --at 0 loads the program where it\n"
    "                    was assembled, --at 0200 512 bytes higher.\n"
    "  --storage FILE    the storage before loading, address 0 first; - is standard input.\n"
    "                    Without it: 65,536 zero bytes. It may be shorter; of a longer one only\n"
    "                    the first 65,536 bytes count, and the others stay.\n"
    "  -o FILE           where the whole storage goes after loading; - is standard output.\n"
    "                    Without it nothing is written. It may be the file of --storage: a file\n"
    "                    is replaced once all of the new one is written.\n"
    "\n"
    "A refusal is told as BOOK:CARD: refused NUMBER: why, with the card's record as mersclund\n"
    "print prints it and what to do under it. Card 0 stands for a refusal of no one card.\n"
    "Exit status: 0 loaded, 1 refused, 2 misuse or a file that can't be read or written.\n";

enum { LONGEST_STORAGE = 1 << 24 };

/* Reads 1 to 4 hex digits. */
static enum status read_displacement(uint16_t *displacement, const char *given)
{
    static const char digits[] = "0123456789ABCDEFabcdef";
    unsigned value = 0;
    size_t at;

    if (given == NULL)
        return fail("mersclund load: --at HEX is missing, the displacement to load at\n"
                    "--at 0 loads the program where it was assembled, --at 0200 512 bytes higher.");
    for (at = 0; given[at] != '\0' && strchr(digits, given[at]) != NULL; at++) {
        unsigned digit = (unsigned)(strchr(digits, given[at]) - digits);
        value = (value & 0xFFF) << 4 | (digit < 16 ? digit : digit - 6);
    }
    if (at < 1 || at > 4 || given[at] != '\0')
        return fail("mersclund load: --at takes 1 to 4 hex digits and nothing else, as --at 0200 "
                    "or --at FF00, not %s", given);
    *displacement = (uint16_t)value;
    return DONE;
}

static enum status read_storage(struct input *storage, const char *path)
{
    static uint8_t zeros[STORAGE];

    if (path == NULL) {
        *storage = (struct input){"storage", zeros, sizeof zeros, 0, 0, 0};
        return DONE;
    }
    if (read_input(storage, path, LONGEST_STORAGE) != DONE)
        return FAILED;
    if (storage->length > LONGEST_STORAGE)
        return fail("%s: longer than %d bytes, and storage counts up to 65,536\n"
                    "Check that it holds the storage of a machine.", path, (int)LONGEST_STORAGE);
    return DONE;
}

static enum status tell(const struct input *book, uint64_t answer)
{
    unsigned number = mersclund_refusal(answer), card = mersclund_card(answer);

    tell_refusal(book->name, number, card);
    if (card > 0)
        write_record_of(stderr, book->bytes, book->length, card);
    return tell_advice(number, card);
}

/* Says what was loaded; on standard error where storage itself goes to standard output. */
static enum status say(const struct input *book, uint16_t displacement, uint64_t answer,
                       const char *out)
{
    FILE *to = out != NULL && is_standard(out) ? stderr : stdout;
    unsigned stored = mersclund_stored(answer);

    fprintf(to, "%s: loaded at %04X: %u byte%s stored, ", book->name, displacement, stored,
            stored == 1 ? "" : "s");
    if (mersclund_has_entry(answer))
        fprintf(to, "entry %04X\n", mersclund_entry(answer));
    else
        fprintf(to, "no entry\n");
    if (out == NULL)
        fprintf(to, "Nothing is written: give -o FILE to keep the storage.\n");
    return all_said();
}

static enum status load(const struct input *book, uint16_t displacement,
                        const struct input *storage, const char *out)
{
    uint64_t answer = mersclund_load(book->bytes, book->length, displacement,
                                     storage->bytes, storage->length);

    if (mersclund_refusal(answer) != MERSCLUND_ACCEPTED)
        return tell(book, answer);
    if (out != NULL && write_output(out, storage->bytes, storage->length, book) != DONE)
        return FAILED;
    return say(book, displacement, answer, out);
}

enum status load_command(char **given)
{
    struct option options[] = {
        {"--at", "HEX", NULL}, {"--storage", "FILE", NULL}, {"-o", "FILE", NULL}, {NULL, NULL, NULL}};
    struct words words = {"load", help, "BOOK", options, NULL, 0};
    struct input book, storage;
    uint16_t displacement = 0;
    enum status status = read_words(&words, given);
    const char *path = options[1].given;

    if (status != DONE || words.helped)
        return status;
    if (read_displacement(&displacement, options[0].given) != DONE)
        return FAILED;
    if (path != NULL && is_standard(path) && is_standard(words.file))
        return fail("mersclund load: BOOK and --storage can't both be standard input\n"
                    "Give one of them as a file.");
    /* A longer file has no book's layout, and one byte more of it shows that. */
    if (read_input(&book, words.file, LONGEST_BOOK) != DONE || read_storage(&storage, path) != DONE)
        return FAILED;
    return load(&book, displacement, &storage, options[2].given);
}
