/*
 * Prints the stack that a call of the library uses: the call is made by a thread on a stack of
 * known bytes, and so is a call of an empty function; the difference is the call's own.
 */
#include "mersclund.h"

#include <pthread.h>
#include <stdio.h>
#include <string.h>

enum { STACK = 1 << 18, MARK = 0xC3, WIDTH = 80, WORK = 8192, OUT = 4096 };

/* A card of each kind, so that the deepest way through the call is taken. */
static const char *const cards[] = {
    "* EVERY KIND OF CARD",
    "PROG  START X'0100'",
    "      USING PROG,1",
    "      USING TABLE,2",
    "GO    ZAZ   TABLE+2*3-1(5),TABEND(3)",
    "      MVC   TABLE(SIZE-5,2),GO(,1)",
    "      MVX   TABLE(1),GO",
    "      MZZ   TABLE(,2),GO",
    "      MVI   TABLE(2),C''''",
    "      LA    TABLE,1",
    "      BC    GO(1),X'87'",
    "      BE    GO",
    "      JC    NEXT,X'01'",
    "NEXT  J     BEHIND",
    "BEHIND DC   3AL2(TABLE+SIZE)",
    "      DC    AL1(SIZE)",
    "      DC    2CL8'LEDGER'",
    "      DC    XL4'0A0B0'",
    "      DC    DL5'123'",
    "TABLE DS    5CL6",
    "TABEND DS   0C",
    "SIZE  EQU   TABEND-TABLE+2*3-X'01'",
    "      ORG   *+SIZE",
    "      DROP  1",
    "      END   GO",
};

enum { CARDS = sizeof cards / sizeof cards[0] };

static uint8_t stack[STACK] __attribute__((aligned(4096)));
static uint8_t source[WIDTH * CARDS], work[WORK], out[OUT];
static uint64_t answer;

static void *nothing(void *unused)
{
    return unused;
}

static void *call(void *unused)
{
    answer = mersclund_assemble(WIDTH, source, sizeof source, work, sizeof work, out, sizeof out);
    return unused;
}

/* The bytes of the stack that a thread has changed, from its deepest one on; 0 if it can't run. */
static size_t used_by(void *(*body)(void *))
{
    pthread_attr_t attributes;
    pthread_t thread;
    size_t depth = 0;

    memset(stack, MARK, sizeof stack);
    if (pthread_attr_init(&attributes) != 0 ||
        pthread_attr_setstack(&attributes, stack, sizeof stack) != 0 ||
        pthread_create(&thread, &attributes, body, NULL) != 0 || pthread_join(thread, NULL) != 0)
        return 0;
    while (depth < sizeof stack && stack[depth] == MARK)
        depth++;
    return sizeof stack - depth;
}

int main(void)
{
    size_t without, with, i;

    memset(source, ' ', sizeof source);
    for (i = 0; i < CARDS; i++)
        memcpy(source + WIDTH * i, cards[i], strlen(cards[i]));
    without = used_by(nothing);
    with = used_by(call);
    if (mersclund_refusal(answer) != MERSCLUND_ACCEPTED || with <= without) {
        fprintf(stderr, "stack: answer %016llX\n", (unsigned long long)answer);
        return 1;
    }
    printf("a call uses %zu bytes of stack\n", with - without);
    return 0;
}
