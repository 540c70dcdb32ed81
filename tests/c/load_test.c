/* Loads books through the C interface, and compares each answer and every lent byte. */
#include "lent.h"
#include "mersclund.h"

#include <inttypes.h>
#include <stdio.h>

enum { CHANGES = 3 };

/* Bytes that loading must have put into storage, in hex. */
struct change {
    size_t at;
    const char *bytes;
};

struct test {
    const char *name;
    const char *book; /* in hex, blanks between */
    uint16_t displacement;
    size_t storage;
    unsigned refusal;
    uint16_t card;
    uint32_t stored;
    int has_entry;
    uint16_t entry;
    struct change changes[CHANGES];
};

#define REFUSED(number, card) (number), (card), 0, 0, 0, UNCHANGED
#define ACCEPTED(stored) MERSCLUND_ACCEPTED, 0, (stored), 0, 0
#define ENTERED(stored, entry) MERSCLUND_ACCEPTED, 0, (stored), 1, (entry)
#define UNCHANGED { { 0, NULL } }
#define CHANGED(at, bytes) { { (at), (bytes) } }

/* The three records of the printer's example: GO MVC OUT(2),KEY; B GO; KEY DC XL2'0A0B'. */
#define PAY "00000028 01 01 0100" \
            "000D 0002 0100 02 0204 0C01010D010B" \
            "000A 0003 0106 01 02 C0870100" \
            "0007 0004 010A 00 0A0B"
#define EMPTY "00000004 01 00 0000"
#define TOP_BYTE "0000000C 01 00 0000  0006 0007 FFFF 00 C1"
#define TOP_ENTRY "0000000E 01 01 FFFF  0008 0003 0000 01 00 "
#define APART "0000001D 01 00 0000  0006 0002 0010 00 C1" \
              "0006 0003 0020 00 C2  0007 0004 0030 00 C3C4"

static const struct test accepted[] = {
    { "displacement 0", PAY, 0, 1024, ENTERED(12, 0x0100),
      CHANGED(0x0100, "0C01010D010B C0870100 0A0B") },
    { "every record is moved", PAY, 0x1000, 65536, ENTERED(12, 0x1100),
      CHANGED(0x1100, "0C01110D110B C0871100 0A0B") },
    { "storage exactly long enough", PAY, 0x1000, 0x110C, ENTERED(12, 0x1100),
      CHANGED(0x1100, "0C01110D110B C0871100 0A0B") },
    { "an overlaid field does not move", "00000017 01 00 0000"
      "0008 0002 0000 01 00 0001  0007 0004 0000 00 00FF", 256, 1024, ACCEPTED(4),
      CHANGED(256, "00FF") },
    { "52 looks at the book, not at storage", "00000017 01 00 0000"
      "0007 0001 0000 00 FFFF  0008 0002 0000 01 00 0001", 2, 100, ACCEPTED(4),
      CHANGED(2, "0003") },
    { "records apart", APART, 1, 100, ACCEPTED(4),
      { { 0x11, "C1" }, { 0x21, "C2" }, { 0x31, "C3C4" } } },
    { "a field and an entry of 65535",
      "0000000E 01 01 FFFE  0008 0003 0000 01 00 FFFE", 1, 100, ENTERED(2, 0xFFFF),
      CHANGED(1, "FFFF") },
    { "the last byte that counts", TOP_BYTE, 0, 70000, ACCEPTED(1), CHANGED(65535, "C1") },
    { "an entry outside the texts", "0000000E 01 01 9999  0008 0001 0000 01 00 FFFF",
      0, 100, ENTERED(2, 0x9999), CHANGED(0, "FFFF") },
    { "no record, no entry, no storage", EMPTY, 65535, 0, ACCEPTED(0), UNCHANGED },
    { "an entry alone", "00000004 01 01 0000", 65535, 0, ENTERED(0, 0xFFFF), UNCHANGED },
};

static const struct test refused[] = {
    { "no bytes", "", 0, 100, REFUSED(MERSCLUND_REFUSED_LAYOUT, 0) },
    { "no header", "00000000", 0, 100, REFUSED(MERSCLUND_REFUSED_LAYOUT, 0) },
    { "a byte follows", EMPTY "00", 0, 100, REFUSED(MERSCLUND_REFUSED_LAYOUT, 0) },
    { "a record follows", EMPTY "0006 0001 0000 00 C1", 0, 100,
      REFUSED(MERSCLUND_REFUSED_LAYOUT, 0) },
    { "a byte lacks", "00000005 01 00 0000", 0, 100, REFUSED(MERSCLUND_REFUSED_LAYOUT, 0) },
    { "version 2", "00000004 02 00 0000", 0, 100, REFUSED(MERSCLUND_REFUSED_LAYOUT, 0) },
    { "flag 2", "00000004 01 02 0000", 0, 100, REFUSED(MERSCLUND_REFUSED_LAYOUT, 0) },
    { "an entry with flag 0", "00000004 01 00 0001", 0, 100,
      REFUSED(MERSCLUND_REFUSED_LAYOUT, 0) },
    { "a card twice", "00000014 01 00 0000  0006 0001 0000 00 C1  0006 0001 0000 00 C1",
      0, 100, REFUSED(MERSCLUND_REFUSED_LAYOUT, 0) },
    { "card 4,001", "0000000C 01 00 0000  0006 0FA1 0000 00 C1", 0, 100,
      REFUSED(MERSCLUND_REFUSED_LAYOUT, 0) },
    { "a text of no bytes", "0000000B 01 00 0000  0005 0001 0000 00", 0, 100,
      REFUSED(MERSCLUND_REFUSED_LAYOUT, 0) },
    { "a field outside its text", "0000000E 01 00 0000  0008 0001 0000 01 01 0000", 0, 100,
      REFUSED(MERSCLUND_REFUSED_LAYOUT, 0) },
    { "fields too close", "00000010 01 00 0000  000A 0001 0000 02 0001 000000", 0, 100,
      REFUSED(MERSCLUND_REFUSED_LAYOUT, 0) },
    { "a text past 65536", "0000000D 01 00 0000  0007 0001 FFFF 00 C1C2", 0, 70000,
      REFUSED(MERSCLUND_REFUSED_LAYOUT, 0) },
    { "the last record is bad", "00000014 01 00 0000"
      "0006 0001 0000 00 C1  0006 0002 0001 01 C1", 0, 100,
      REFUSED(MERSCLUND_REFUSED_LAYOUT, 0) },
    { "storage a byte short", PAY, 0x1000, 0x110B, REFUSED(MERSCLUND_REFUSED_OUTSIDE, 4) },
    { "the first text outside", APART, 0, 0x20, REFUSED(MERSCLUND_REFUSED_OUTSIDE, 3) },
    { "no storage", TOP_BYTE, 0, 0, REFUSED(MERSCLUND_REFUSED_OUTSIDE, 7) },
    { "no address wraps", TOP_BYTE, 1, 65536, REFUSED(MERSCLUND_REFUSED_OUTSIDE, 7) },
    { "storage past 65,536", TOP_BYTE, 1, 70000, REFUSED(MERSCLUND_REFUSED_OUTSIDE, 7) },
    { "51 goes before 52", "00000016 01 00 0000"
      "0008 0003 0000 01 00 FFFF  0006 0005 0064 00 C1", 1, 100,
      REFUSED(MERSCLUND_REFUSED_OUTSIDE, 5) },
    { "a field over", "00000017 01 00 0000"
      "0007 0008 0000 00 FFFF  0008 0009 0000 01 00 FF00", 256, 1024,
      REFUSED(MERSCLUND_REFUSED_OVER, 9) },
    { "the entry alone over", TOP_ENTRY "0000", 1, 100, REFUSED(MERSCLUND_REFUSED_OVER, 0) },
    { "field and entry over", TOP_ENTRY "FFFF", 1, 100, REFUSED(MERSCLUND_REFUSED_OVER, 3) },
};

static uint64_t packed(const struct test *test)
{
    if (test->refusal != MERSCLUND_ACCEPTED)
        return (uint64_t)test->refusal << 56 | test->card;
    return (uint64_t)test->has_entry << 48 | (uint64_t)test->entry << 32 | test->stored;
}

/* Says whether the functions of the header take the answer apart as they should. */
static int taken_apart(const struct test *test, uint64_t answer)
{
    if (mersclund_refusal(answer) != test->refusal)
        return 0;
    if (test->refusal != MERSCLUND_ACCEPTED)
        return mersclund_card(answer) == test->card;
    return mersclund_stored(answer) == test->stored &&
           mersclund_has_entry(answer) == test->has_entry &&
           mersclund_entry(answer) == test->entry;
}

/* Runs one test; prints a line and returns 0 if it fails. */
static int passes(const struct test *test)
{
    static struct lent book, storage;
    uint64_t answer;
    int i, right;

    fill(&book, 0);
    book.length = bytes_of(test->book, book.raw + GUARD);
    want_as_is(&book);
    fill(&storage, test->storage);
    want_as_is(&storage);
    for (i = 0; i < CHANGES && test->changes[i].bytes != NULL; i++)
        bytes_of(test->changes[i].bytes, storage.wanted + GUARD + test->changes[i].at);

    answer = mersclund_load(book.raw + GUARD, book.length, test->displacement,
                            storage.raw + GUARD, storage.length);
    right = answer == packed(test) && taken_apart(test, answer);
    if (right && kept(&book) && kept(&storage))
        return 1;
    printf("%s: wanted %016" PRIX64 ", got %016" PRIX64 "%s%s\n", test->name,
           packed(test), answer, kept(&book) ? "" : ", book or its guards changed",
           kept(&storage) ? "" : ", storage or its guards wrong");
    return 0;
}

#include "tally.h"

int main(void)
{
    return tally("loading");
}
