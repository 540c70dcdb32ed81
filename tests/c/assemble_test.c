/* Assembles decks through the C interface, compares each answer and every lent byte, and loads. */
#include "lent.h"
#include "mersclund.h"

#include <inttypes.h>
#include <stdio.h>

enum { WORK = 8192, CARDS = 7 };

struct test {
    const char *name;
    uint32_t width;
    size_t work;
    size_t out;
    unsigned refusal;
    uint16_t card;
    uint16_t names;
    const char *book; /* in hex, blanks between; none for a refusal */
    const char *cards[CARDS];
};

#define REFUSED(number, card) (number), (card), 0, ""
#define ACCEPTED(names, book) MERSCLUND_ACCEPTED, 0, (names), (book)

#define PAY "PAY START X'0100'", "GO MVC OUT(2),KEY", " B GO", "KEY DC XL2'0A0B'", \
            "OUT DS CL2", " END GO"
#define PAY_BOOK "00000028 01 01 0100" \
                 "000D 0002 0100 02 0204 0C01010D010B" \
                 "000A 0003 0106 01 02 C0870100" \
                 "0007 0004 010A 00 0A0B"

static const struct test accepted[] = {
    { "80 columns", 80, WORK, 1000, ACCEPTED(4, PAY_BOOK), { PAY } },
    { "96 columns", 96, WORK, 1000, ACCEPTED(4, PAY_BOOK), { PAY } },
    { "an output exactly long enough", 80, WORK, 44, ACCEPTED(4, PAY_BOOK), { PAY } },
    { "a longer work area", 80, WORK + 100, 44, ACCEPTED(4, PAY_BOOK), { PAY } },
    { "no record and no entry", 80, WORK, 8, ACCEPTED(0, "00000004 01 00 0000"),
      { " START", " END" } },
};

static const struct test refused[] = {
    { "a width of 81", 81, WORK, 1000, REFUSED(MERSCLUND_REFUSED_WIDTH, 0), { PAY } },
    { "a short work area", 80, WORK - 1, 1000, REFUSED(MERSCLUND_REFUSED_WORK, 0), { PAY } },
    { "no cards", 80, WORK, 1000, REFUSED(MERSCLUND_REFUSED_END, 0), { NULL } },
    { "a card after END", 80, WORK, 1000, REFUSED(MERSCLUND_REFUSED_END, 3),
      { " START", " END", "* BEHIND" } },
    { "an unknown operation", 80, WORK, 1000, REFUSED(MERSCLUND_REFUSED_OPERATION, 2),
      { " START", " HPL 1,2", " END" } },
    { "a name not defined", 80, WORK, 1000, REFUSED(MERSCLUND_REFUSED_UNDEFINED, 3),
      { " START", " DC C'A'", " B NOWHER", " END" } },
    { "a short output", 80, WORK, 43, REFUSED(MERSCLUND_REFUSED_OUTPUT, 0), { PAY } },
    { "no output", 80, WORK, 0, REFUSED(MERSCLUND_REFUSED_OUTPUT, 0), { " START", " END" } },
};

/* Punches the cards, blanks on the right, and returns how many bytes they are. */
static size_t punch(const char *const cards[CARDS], size_t width, uint8_t *to)
{
    size_t i;
    for (i = 0; i < CARDS && cards[i] != NULL; i++) {
        memset(to + i * width, ' ', width);
        memcpy(to + i * width, cards[i], strlen(cards[i]));
    }
    return i * width;
}

/* Says whether the functions of the header take the answer apart as they should. */
static int taken_apart(const struct test *test, size_t length, uint64_t answer)
{
    if (mersclund_refusal(answer) != test->refusal)
        return 0;
    if (test->refusal != MERSCLUND_ACCEPTED)
        return mersclund_card(answer) == test->card &&
               answer == ((uint64_t)test->refusal << 56 | test->card);
    return mersclund_length(answer) == length && mersclund_names(answer) == test->names &&
           answer == ((uint64_t)test->names << 32 | length);
}

/* Says whether loading the book of the example at 4096 gives its bytes there. */
static int loads(const uint8_t *book, size_t length)
{
    static uint8_t storage[65536];
    uint8_t wanted[12];
    uint64_t answer = mersclund_load(book, length, 0x1000, storage, sizeof storage);
    bytes_of("0C01110D110B C0871100 0A0B", wanted);
    return mersclund_refusal(answer) == MERSCLUND_ACCEPTED && mersclund_entry(answer) == 0x1100 &&
           memcmp(storage + 0x1100, wanted, sizeof wanted) == 0;
}

/* Runs one test; prints a line and returns 0 if it fails. */
static int passes(const struct test *test)
{
    static struct lent source, work, out;
    size_t length;
    uint64_t answer;
    int right;

    fill(&source, 0);
    source.length = punch(test->cards, test->width, source.raw + GUARD);
    want_as_is(&source);
    fill(&work, test->work);
    want_as_is(&work);
    if (test->refusal == MERSCLUND_ACCEPTED || test->refusal > MERSCLUND_REFUSED_WORK)
        memset(work.wanted + GUARD, 0, WORK);
    fill(&out, test->out);
    want_as_is(&out);
    length = bytes_of(test->book, out.wanted + GUARD);

    answer = mersclund_assemble(test->width, source.raw + GUARD, source.length,
                                work.raw + GUARD, work.length, out.raw + GUARD, out.length);
    right = taken_apart(test, length, answer) && kept(&source) && kept(&work) && kept(&out);
    if (right && (length < 44 || loads(out.raw + GUARD, length)))
        return 1;
    printf("%s: got %016" PRIX64 "%s%s%s\n", test->name, answer,
           kept(&source) ? "" : ", source or its guards changed",
           kept(&work) ? "" : ", work area or its guards wrong",
           kept(&out) ? "" : ", output or its guards wrong");
    return 0;
}

#include "tally.h"

int main(void)
{
    return tally("assembling");
}
