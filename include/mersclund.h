/*
 * Mersclund: the assembler and loader for the IBM System/3.
 * Link with libmersclund.a, which is for every x86-64 processor.
 *
 * Lent buffers. Every buffer is a pointer and a length in bytes, and stays the caller's.
 *  - The pointer is never null, not even for length 0: any other pointer will do there,
 *    and nothing is read or written through it.
 *  - The buffers of one call do not overlap.
 *  - A call reads and writes no byte outside its buffers, and changes only those bytes
 *    that its description names.
 *
 * Answers. Every call takes whatever it is lent and answers one packed number. Its bits
 * 63..56 are the number of refusal, 0 for accepted; the functions below take it apart.
 */
#ifndef MERSCLUND_H
#define MERSCLUND_H

#include <stddef.h>
#include <stdint.h>

#ifdef __cplusplus
extern "C" {
#endif

/* The numbers of refusal, and the card that each gives. */
enum mersclund_refused {
    MERSCLUND_ACCEPTED = 0,
    /* The width is not 80 or 96, or the source is not whole cards. Card 0. */
    MERSCLUND_REFUSED_WIDTH = 1,
    /* Over 4,000 cards. Card 0. */
    MERSCLUND_REFUSED_CARDS = 2,
    /* The work area is under 8,192 bytes. Card 0. */
    MERSCLUND_REFUSED_WORK = 3,
    /* A card after END: that card. No END: card 0. */
    MERSCLUND_REFUSED_END = 9,
    /* A byte that is not accepted. This and all up to 24 give the card they hold on. */
    MERSCLUND_REFUSED_BYTE = 10,
    /* A bad name. */
    MERSCLUND_REFUSED_NAME = 11,
    /* The operation is absent or unknown. */
    MERSCLUND_REFUSED_OPERATION = 12,
    /* START is missing first, or there again. */
    MERSCLUND_REFUSED_START = 13,
    /* A name is needed or forbidden. */
    MERSCLUND_REFUSED_NAMING = 14,
    /* The operand is not of its form. */
    MERSCLUND_REFUSED_FORM = 15,
    /* The name is already defined. */
    MERSCLUND_REFUSED_AGAIN = 16,
    /* The 513th name. */
    MERSCLUND_REFUSED_NAMES = 17,
    /* A name that is not defined; on EQU and ORG, not on an earlier card. */
    MERSCLUND_REFUSED_UNDEFINED = 18,
    /* A value of the wrong kind, absolute or relocatable. */
    MERSCLUND_REFUSED_KIND = 19,
    /* A value out of range. */
    MERSCLUND_REFUSED_VALUE = 20,
    /* A length, a count of copies or a Q code out of range. */
    MERSCLUND_REFUSED_LENGTH = 21,
    /* A register that is not 1 or 2, or has no fitting base. */
    MERSCLUND_REFUSED_REGISTER = 22,
    /* A displacement or a jump out of reach. */
    MERSCLUND_REFUSED_REACH = 23,
    /* The counter is past 65536. */
    MERSCLUND_REFUSED_COUNTER = 24,
    /* The book is longer than the output. Card 0. */
    MERSCLUND_REFUSED_OUTPUT = 30,
    /* The book breaks its layout. Card 0. */
    MERSCLUND_REFUSED_LAYOUT = 50,
    /* Text outside storage. The card of the first such record. */
    MERSCLUND_REFUSED_OUTSIDE = 51,
    /* A field or the entry, plus the displacement, is over 65535.
       The card of the first record with such a field; 0 for the entry alone. */
    MERSCLUND_REFUSED_OVER = 52,
    /* Input over 65,536 bytes. Only the book printer gives it, no call does. */
    MERSCLUND_REFUSED_INPUT = 57
};

/*
 * Of any answer.
 */

/* The number of refusal, or MERSCLUND_ACCEPTED: bits 63..56. */
static inline unsigned mersclund_refusal(uint64_t answer)
{
    return (unsigned)(answer >> 56);
}

/*
 * Of a refusal. Bits 23..16 are kept for a column and are 0; so are bits 55..24.
 */

/* The card, 0 where the refusal gives none: bits 15..0. */
static inline uint16_t mersclund_card(uint64_t answer)
{
    return (uint16_t)(answer & 0xFFFF);
}

/*
 * Of an accepted assembly. Bits 55..48 are 0.
 */

/* The book's length in bytes: bits 31..0. */
static inline uint32_t mersclund_length(uint64_t answer)
{
    return (uint32_t)(answer & 0xFFFFFFFF);
}

/* The count of names: bits 47..32. */
static inline uint16_t mersclund_names(uint64_t answer)
{
    return (uint16_t)(answer >> 32 & 0xFFFF);
}

/*
 * Of an accepted load. Bits 55..49 are 0, and so are bits 47..32 where there is no entry.
 */

/* The bytes stored, overlaid ones counted each time: bits 31..0. */
static inline uint32_t mersclund_stored(uint64_t answer)
{
    return (uint32_t)(answer & 0xFFFFFFFF);
}

/* 1 where the book has an entry, else 0: bit 48. */
static inline int mersclund_has_entry(uint64_t answer)
{
    return (int)(answer >> 48 & 1);
}

/* The entry plus the displacement; 0 where there is no entry: bits 47..32. */
static inline uint16_t mersclund_entry(uint64_t answer)
{
    return (uint16_t)(answer >> 32 & 0xFFFF);
}

/*
 * Assembles cards into a book.
 *
 * width                   80 or 96, the bytes of a card.
 * source, source_len      the cards, in ASCII, without line ends. Never changed.
 * work, work_len          a work area of 8,192 bytes or more. What it holds before does not
 *                         matter. After every answer but 1, 2 and 3 its first 8,192 bytes are
 *                         zero; after those it is as before. Bytes behind them never change.
 * out, out_len            where the book goes. A book is 8 bytes or longer.
 *
 * Accepted: the book is in the first bytes of the output; those behind it are as before.
 *
 * Refused: 1, 2, 3, 9 to 24 or 30. Every byte of the output is as before.
 */
uint64_t mersclund_assemble(uint32_t width,
                            const uint8_t *source, size_t source_len,
                            uint8_t *work, size_t work_len,
                            uint8_t *out, size_t out_len);

/*
 * Loads a book into storage.
 *
 * book, book_len          the book: all of its bytes and no others. Never changed.
 * displacement            added to the address of each record, to each relocatable field
 *                         and to the entry. No sum wraps: it is refused.
 * storage, storage_len    the machine's storage, address 0 first. Of a longer storage only
 *                         the first 65,536 bytes count; those behind them never change.
 *
 * Accepted: the records are taken in order. The displacement is added to the listed fields
 * of a record's text, and the text is stored at its address plus the displacement, over
 * what earlier records stored there. All other bytes of storage are as before.
 *
 * Refused: 50, 51 or 52, each looked for in the whole book before the next. Every byte of
 * storage is as before.
 */
uint64_t mersclund_load(const uint8_t *book, size_t book_len,
                        uint16_t displacement,
                        uint8_t *storage, size_t storage_len);

#ifdef __cplusplus
}
#endif

#endif
