/* The calls on two strips, from C: strip A beside another, every refusal beside every other, bits past the length, the
 * borders of words and blocks against the judge, and the largest strips. */
#include "strips.h"

#include "expect.h"
#include "judge.h"

/* A strip over these words. */
static struct strip over(uint64_t capacity, uint64_t length, const uint64_t *words, size_t words_len)
{
    return (struct strip){{capacity, length, 0}, (const uint8_t *)words, words_len};
}

/* The four counts, each with what it counts. */
static const struct {
    const char *name;
    uint64_t (*call)(uint64_t, uint64_t, uint64_t, const uint64_t *, size_t, uint64_t, uint64_t, uint64_t,
                     const uint64_t *, size_t, uint64_t);
    enum judged_so so;
} counts[] = {{"pair both", strip_pair_both, BOTH_MARK},
              {"pair either", strip_pair_either, EITHER_MARKS},
              {"pair only first", strip_pair_only_first, ONLY_FIRST_MARKS},
              {"pair differ", strip_pair_differ, JUDGED_DIFFERENTLY}};

static void expect_span(const char *what, int64_t answer, int64_t expected)
{
    if (answer == expected)
        return;
    printf("%s: %" PRId64 ", expected %" PRId64 "\n", what, answer, expected);
    failed = 1;
}

#define EXPECT_SPAN(call, expected) expect_span(#call, call, expected)

static void hold_at(struct strip s, struct strip t, uint64_t i)
{
    for (size_t c = 0; c < COUNT_OF(counts); c++)
        expect(counts[c].name, counts[c].call(OF(s), OF(t), i), pair_count_answer(counts[c].so, s, t, i));
    expect("pair find", strip_pair_find(OF(s), OF(t), i), pair_find_answer(s, t, i));
}

static void hold_span(struct strip s, struct strip t, uint64_t a, uint64_t b)
{
    expect_span("pair span", strip_pair_span(OF(s), OF(t), a, b), pair_span_answer(s, t, a, b));
}

/* Every call on a pair, at the borders and far past. */
static void hold_pair(struct strip s, struct strip t)
{
    static const uint64_t at[] = {0,   1,   2,   62,  63,   64,   65,   127,        128,  129,
                                  510, 511, 512, 513, 4095, 4096, 4097, UINT32_MAX, WIDE, UINT64_MAX};
    for (size_t a = 0; a < COUNT_OF(at); a++) {
        hold_at(s, t, at[a]);
        for (size_t b = 0; b < COUNT_OF(at); b++)
            hold_span(s, t, at[a], at[b]);
    }
}

/* Strip A, 01101101010101110, beside 01001101011101100: they differ at 2, 10 and 15. */
static void expect_example(void)
{
    static const uint64_t a[8] = {0xeab6}, p[8] = {0x6eb2};
    struct strip s = over(512, 17, a, 8), t = over(512, 17, p, 8);
    EXPECT(strip_pair_both(OF(s), OF(t), 17), 8);
    EXPECT(strip_pair_both(OF(s), OF(t), 8), 4);
    EXPECT(strip_pair_either(OF(s), OF(t), 17), 11);
    EXPECT(strip_pair_either(OF(s), OF(t), 8), 5);
    EXPECT(strip_pair_only_first(OF(s), OF(t), 17), 2);
    EXPECT(strip_pair_only_first(OF(t), OF(s), 17), 1);
    EXPECT(strip_pair_differ(OF(s), OF(t), 0), 0);
    EXPECT(strip_pair_differ(OF(s), OF(t), 10), 1);
    EXPECT(strip_pair_differ(OF(s), OF(t), 11), 2);
    EXPECT(strip_pair_differ(OF(s), OF(t), 17), 3);
    EXPECT(strip_pair_differ(OF(s), OF(t), 18), REFUSED(STRIP_POSITION));
    EXPECT(strip_pair_find(OF(s), OF(t), 0), 2);
    EXPECT(strip_pair_find(OF(s), OF(t), 1), 10);
    EXPECT(strip_pair_find(OF(s), OF(t), 2), 15);
    EXPECT(strip_pair_find(OF(s), OF(t), 3), REFUSED(STRIP_NOT_FOUND));
    EXPECT(strip_pair_find(OF(s), OF(t), UINT64_MAX), REFUSED(STRIP_NOT_FOUND));
    EXPECT_SPAN(strip_pair_span(OF(s), OF(t), 0, 17), 1);
    EXPECT_SPAN(strip_pair_span(OF(s), OF(t), 8, 12), -1);
    EXPECT_SPAN(strip_pair_span(OF(t), OF(s), 8, 12), 1);
    EXPECT_SPAN(strip_pair_span(OF(s), OF(t), 17, 17), 0);
    EXPECT_SPAN(strip_pair_span(OF(s), OF(t), 18, 17), REFUSED(STRIP_SPAN));
    EXPECT_SPAN(strip_pair_span(OF(s), OF(t), 18, 18), REFUSED(STRIP_POSITION));
    EXPECT_SPAN(strip_pair_span(OF(s), OF(t), 19, 18), REFUSED(STRIP_SPAN));
    hold_pair(s, t);
    hold_pair(t, s);

    /* The macros on a span's answer: a negative value is no refusal. */
    expect("a negative value", STRIP_REFUSED(strip_pair_span(OF(s), OF(t), 8, 12)), 0);
    expect("a refused span", STRIP_REFUSED(strip_pair_span(OF(s), OF(t), 12, 8)), 1);
    expect("its refusal", STRIP_REFUSAL(strip_pair_span(OF(s), OF(t), 12, 8)), STRIP_SPAN);
}

/* Good strips, and strips that get 1 or 2, each beside each. Those of the second hold the same bits in words of their
 * own, so that no stroke is judged differently. */
static void expect_refusals(void)
{
    static const uint64_t words[16] = {0xeab6, 7}, same[16] = {0xeab6, 7};
    const struct {
        struct handle handle;
        size_t count;
    } strips[] = {{{512, 17, 10}, 8},         {{512, 17, 17}, 8},                        {{512, 16, 0}, 8},
                  {{512, 512, 512}, 8},       {{512, 0, 0}, 8},                          {{1024, 17, 0}, 16},
                  {{1024, 16, 16}, 16},       {{513, 17, 0}, 8},                         {{512, 513, 0}, 8},
                  {{0, 0, 0}, 0},             {{0, 17, 0}, 8},                           {{WIDE + 512, 17, 0}, 8},
                  {{512, 17, 18}, 8},         {{512, 17, 18}, 7},                        {{512, 0, 1}, 8},
                  {{512, 16, UINT64_MAX}, 8}, {{1024, 17, WIDE + 17}, 16},               {{512, 17, 17}, 7},
                  {{512, 17, 0}, 9},          {{512, 17, 0}, 0},                         {{1024, 17, 0}, 8},
                  {{512, 17, 0}, 16},         {{UINT64_MAX, UINT64_MAX, UINT64_MAX}, 8}};
    for (size_t f = 0; f < COUNT_OF(strips); f++)
        for (size_t g = 0; g < COUNT_OF(strips); g++) {
            const uint64_t *first = strips[f].count == 0 ? NULL : words, *second = strips[g].count == 0 ? NULL : same;
            hold_pair((struct strip){strips[f].handle, (const uint8_t *)first, strips[f].count},
                      (struct strip){strips[g].handle, (const uint8_t *)second, strips[g].count});
        }

    EXPECT(strip_pair_both(512, 17, 0, words, 7, 513, 17, 0, same, 8, 18), REFUSED(STRIP_BAD_WORDS));
    EXPECT(strip_pair_both(512, 17, 0, words, 7, 512, 17, 18, same, 8, 18), REFUSED(STRIP_BAD_WORDS));
    EXPECT(strip_pair_either(513, 17, 0, words, 8, 512, 17, 0, same, 7, 18), REFUSED(STRIP_BAD_HANDLE));
    EXPECT(strip_pair_either(512, 17, 18, words, 7, 512, 17, 0, same, 7, 18), REFUSED(STRIP_BAD_HANDLE));
    EXPECT(strip_pair_only_first(512, 17, 0, words, 8, 512, 17, 0, same, 7, 18), REFUSED(STRIP_BAD_WORDS));
    EXPECT(strip_pair_differ(1024, 17, 0, words, 16, 512, 17, 0, same, 7, 18), REFUSED(STRIP_BAD_WORDS));
    EXPECT(strip_pair_differ(512, 17, 10, words, 8, 512, 16, 10, same, 8, 18), REFUSED(STRIP_UNEQUAL));
    EXPECT(strip_pair_differ(512, 17, 10, words, 8, 512, 16, 17, same, 8, 18), REFUSED(STRIP_BAD_HANDLE));
    EXPECT(strip_pair_differ(512, 17, 0, words, 8, 512, 17, 17, same, 8, 17), 0);
    EXPECT(strip_pair_find(512, 17, 0, words, 8, 1024, 17, 0, same, 16, UINT64_MAX), REFUSED(STRIP_UNEQUAL));
    EXPECT_SPAN(strip_pair_span(512, 17, 0, words, 8, 1024, 17, 0, same, 16, 18, 17), REFUSED(STRIP_UNEQUAL));
}

/* Random strips of every border's length, with bits past it. */
static void expect_borders(void)
{
    enum { CAPACITY = 4608 };
    static uint64_t words[2][CAPACITY / 64];
    uint64_t state = 1;
    for (size_t w = 0; w < 2 * (CAPACITY / 64); w++) {
        state = state * UINT64_C(6364136223846793005) + UINT64_C(1442695040888963407);
        words[w % 2][w / 2] = state ^ state >> 32;
    }
    for (size_t l = 0; l < COUNT_OF(small); l++) {
        struct strip s = over(CAPACITY, small[l], words[0], CAPACITY / 64);
        struct strip t = over(CAPACITY, small[l], words[1], CAPACITY / 64);
        uint64_t differ = pair_count_answer(JUDGED_DIFFERENTLY, s, t, small[l]);
        hold_pair(s, t);
        for (uint64_t k = differ < 3 ? 0 : differ - 3; k < differ + 3; k++)
            hold_at(s, t, k);
    }
}

/* Ones beside zeros at the largest capacity. */
static void expect_largest(void)
{
    static uint64_t ones[LARGEST / 64], zeros[LARGEST / 64];
    memset(ones, 0xff, sizeof ones);
    struct strip s = over(LARGEST, LARGEST, ones, LARGEST / 64), t = over(LARGEST, LARGEST, zeros, LARGEST / 64);
    EXPECT(strip_pair_both(OF(s), OF(t), LARGEST), 0);
    EXPECT(strip_pair_either(OF(s), OF(t), LARGEST), LARGEST);
    EXPECT(strip_pair_only_first(OF(s), OF(t), LARGEST), LARGEST);
    EXPECT(strip_pair_only_first(OF(t), OF(s), LARGEST), 0);
    EXPECT(strip_pair_differ(OF(s), OF(t), LARGEST), LARGEST);
    EXPECT(strip_pair_differ(OF(s), OF(t), LARGEST + 1), REFUSED(STRIP_POSITION));
    EXPECT(strip_pair_find(OF(s), OF(t), LARGEST - 1), LARGEST - 1);
    EXPECT(strip_pair_find(OF(s), OF(t), LARGEST), REFUSED(STRIP_NOT_FOUND));
    EXPECT_SPAN(strip_pair_span(OF(s), OF(t), 0, LARGEST), LARGEST);
    EXPECT_SPAN(strip_pair_span(OF(t), OF(s), 0, LARGEST), -LARGEST);
    EXPECT_SPAN(strip_pair_span(OF(t), OF(s), 1, LARGEST - 1), 2 - LARGEST);
}

int main(void)
{
    expect_example();
    expect_refusals();
    expect_borders();
    expect_largest();
    return failed;
}
