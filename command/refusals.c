#include "refusals.h"

#include "mersclund.h"

#include <string.h>

enum { LINE = 80 };

/* A number: its sentence, what else belongs to the sentence, and what to do about it. */
struct refusal {
    unsigned number;
    const char *sentence;
    const char *more;
    const char *advice;
};

/* The only number with two meanings: on a card, and on none. */
static const struct refusal no_end = {
    MERSCLUND_REFUSED_END, "no END", "", "Put an END card behind the last card."};

static const struct refusal refusals[] = {
    {MERSCLUND_REFUSED_WIDTH, "width not 80 or 96, or source not whole cards", "",
     "Give --width 96 for cards of 96 columns; or keep a card a line, each with a line end."},
    {MERSCLUND_REFUSED_CARDS, "over 4,000 cards", "",
     "Part the deck into several, each with its own START and END."},
    {MERSCLUND_REFUSED_WORK, "work area under 8,192 bytes", "",
     "Lend the call 8,192 bytes or more; this command always does."},
    {MERSCLUND_REFUSED_END, "a card after END", "; or no END (card 0)",
     "Take out what stands behind END, blank lines and comments too; or put an END card last."},
    {MERSCLUND_REFUSED_BYTE, "byte not accepted", "",
     "Use A to Z, 0 to 9, blank and . < ( + | & ! $ * ) ; - / , % _ > ? : # @ ' = \" only; "
     "comments and remarks too."},
    {MERSCLUND_REFUSED_NAME, "bad name", "",
     "A name has 1 to 6 characters: a letter or $ # @ in column 1, then these or digits. "
     "Leave column 1 blank for no name."},
    {MERSCLUND_REFUSED_OPERATION, "operation absent or unknown", "",
     "Write an operation of docs/MANUAL.md behind the name or a blank column 1; "
     "a comment has * in column 1."},
    {MERSCLUND_REFUSED_START, "START missing first, or again", "",
     "Make START the first card that is no comment, and the only START."},
    {MERSCLUND_REFUSED_NAMING, "name needed or forbidden", "",
     "Give EQU a name in column 1; leave column 1 blank on ORG, USING, DROP and END."},
    {MERSCLUND_REFUSED_FORM, "operand not of its form", "",
     "Write the operand as docs/MANUAL.md has it for this operation; it ends at the first "
     "blank outside apostrophes."},
    {MERSCLUND_REFUSED_AGAIN, "name already defined", "",
     "Give this card or the earlier one another name."},
    {MERSCLUND_REFUSED_NAMES, "513th name", "",
     "Take out names that no card uses, or part the deck."},
    {MERSCLUND_REFUSED_UNDEFINED, "name not defined", " (EQU, ORG: not earlier)",
     "Mend the spelling, or define the name on a card; for EQU and ORG, on an earlier card."},
    {MERSCLUND_REFUSED_KIND, "wrong kind", "",
     "A label is relocatable, a number or a label minus a label absolute. Lengths, Qs and "
     "registers are absolute; the operands of ORG, END and jumps are relocatable; a label is "
     "never multiplied."},
    {MERSCLUND_REFUSED_VALUE, "value out of range", ", a name's value over 65535 included",
     "Keep an expression in -65536 to 65535, a label and a relocatable one in 0 to 65535, and "
     "each step in -16777216 to 16777215."},
    {MERSCLUND_REFUSED_LENGTH, "length, copies or Q out of range", "",
     "Lengths are 1 to 256 (address constants 1 to 3), DC's copies 0 to 256 and its text at most "
     "256 bytes, Qs 0 to 255, LA's 1 or 2; L1 of ZAZ, AZ, SZ is L2 to L2+15, L2 1 to 16."},
    {MERSCLUND_REFUSED_REGISTER, "register not 1 or 2, or no fitting base", "",
     "Write register 1 or 2, and put a USING with a relocatable base for it before this card."},
    {MERSCLUND_REFUSED_REACH, "displacement or jump out of reach", "",
     "An indexed operand lies 0 to 255 bytes behind its base; a jump goes 0 to 255 bytes beyond "
     "the next instruction. Move the base or the data, or write a branch."},
    {MERSCLUND_REFUSED_COUNTER, "counter past 65536", "",
     "Lower START or ORG, or reserve less: the program runs over the end of storage."},
    {MERSCLUND_REFUSED_OUTPUT, "book longer than the output", "",
     "Lend the call a longer output; this command always lends enough."},
    {MERSCLUND_REFUSED_LAYOUT, "book breaks its layout", "",
     "The file is no book, or not whole: assemble the deck again with -o."},
    {MERSCLUND_REFUSED_OUTSIDE, "text outside storage", "",
     "Load at a lower displacement, or give a longer --storage (65,536 bytes at most)."},
    {MERSCLUND_REFUSED_OVER, "field or entry plus displacement over 65535", "",
     "Load at a lower displacement."},
    {MERSCLUND_REFUSED_INPUT, "input over 65,536 bytes", " (printing only, before 50)",
     "A longer book can be loaded but not printed: part its deck to print it."},
};

enum { COUNT = sizeof refusals / sizeof refusals[0] };

static const struct refusal *refusal_of(unsigned number, unsigned card)
{
    static const struct refusal unknown = {0, "a number that this command doesn't know", "",
                                           "Build the command again with the library's header."};
    size_t i;

    if (number == MERSCLUND_REFUSED_END && card == 0)
        return &no_end;
    for (i = 0; i < COUNT; i++)
        if (refusals[i].number == number)
            return &refusals[i];
    return &unknown;
}

/* Writes the text in lines of at most 80 characters, each with blanks before it. */
static void write_wrapped(FILE *to, const char *text, size_t blanks)
{
    while (*text != '\0') {
        size_t end = strlen(text);
        if (end > LINE - blanks)
            for (end = LINE - blanks; end > 1 && text[end] != ' '; end--)
                ;
        fprintf(to, "%*s%.*s\n", (int)blanks, "", (int)end, text);
        text += end;
        text += *text == ' ';
    }
}

void write_numbers(FILE *to)
{
    size_t i;

    for (i = 0; i < COUNT; i++) {
        fprintf(to, "%2u  %s%s\n", refusals[i].number, refusals[i].sentence, refusals[i].more);
        write_wrapped(to, refusals[i].advice, 4);
    }
}

void tell_refusal(const char *file, unsigned number, unsigned card)
{
    fprintf(stderr, "%s:%u: refused %u: %s\n", file, card, number,
            refusal_of(number, card)->sentence);
}

void tell_card(const uint8_t *bytes, size_t length)
{
    size_t at;

    while (length > 0 && bytes[length - 1] == ' ')
        length--;
    for (at = 0; at < length; at++) {
        if (bytes[at] >= 0x20 && bytes[at] <= 0x7E)
            fputc(bytes[at], stderr);
        else
            fprintf(stderr, "\\x%02X", bytes[at]);
    }
    fputc('\n', stderr);
}

enum status tell_advice(unsigned number, unsigned card)
{
    write_wrapped(stderr, refusal_of(number, card)->advice, 0);
    return REFUSED;
}
