/* Answers compared with those worked out by hand: each that is another is told, and `failed` is then 1. */
#ifndef EXPECT_H
#define EXPECT_H

#include "refusals.h"

#include <inttypes.h>
#include <stdio.h>

static int failed = 0;

static inline void print_answer(uint64_t answer)
{
    if (STRIP_REFUSED(answer) && answer <= REFUSED(STRIP_CONFLICT))
        printf("refused %d", (int)STRIP_REFUSAL(answer));
    else
        printf("%" PRIu64, answer);
}

static inline void expect(const char *what, uint64_t answer, uint64_t expected)
{
    if (answer == expected)
        return;
    printf("%s: ", what);
    print_answer(answer);
    printf(", expected ");
    print_answer(expected);
    putchar('\n');
    failed = 1;
}

#define EXPECT(call, expected) expect(#call, call, expected)

/* A reading of v at a position that the judge does not allow is told; the label is 0 where there is none. */
static inline void hold(const char *what, int allowed, uint64_t label, uint64_t v, uint64_t i)
{
    if (allowed)
        return;
    printf("%s: another answer for label %" PRIu64 ", v %" PRIu64 ", at %" PRIu64 "\n", what, label, v, i);
    failed = 1;
}

#endif
