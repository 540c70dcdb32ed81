/* Runs the tables `accepted` and `refused` of a test program by its `passes`, and tells how many pass. */
#ifndef TALLY_H
#define TALLY_H

#include <stddef.h>
#include <stdio.h>

/* Runs the tests and returns how many pass. */
static size_t passing(const struct test *tests, size_t count)
{
    size_t i, passed = 0;
    for (i = 0; i < count; i++)
        passed += (size_t)passes(&tests[i]);
    return passed;
}

/* The program's exit status. */
static int tally(const char *what)
{
    size_t count_accepted = sizeof accepted / sizeof *accepted;
    size_t count_refused = sizeof refused / sizeof *refused;
    size_t passed = passing(accepted, count_accepted) + passing(refused, count_refused);
    size_t failed = count_accepted + count_refused - passed;

    printf("c, %s: %zu passed, %zu failed\n", what, passed, failed);
    return failed == 0 ? 0 : 1;
}

#endif
