/* The call that seeks a burst, from C: strip A, every refusal beside every other, windows and ones at the borders of
 * words against the judge, the last window of all, and the largest strip. */
#include "strips.h"

#include "expect.h"
#include "judge.h"

/* burst(w, m) of a strip over these words, held to the judge. */
static void hold_burst(struct handle h, const uint64_t *words, size_t count, uint64_t w, uint64_t m)
{
    struct row room;
    struct opened strip = open_strip(&room, h, words, count);
    uint64_t told = strip_burst(OF_HANDLE(h), words, count, w, m);
    if (burst_allowed(strip, w, m, told))
        return;
    printf("burst(%" PRIu64 ", %" PRIu64 ") of %" PRIu64 " strokes: ", w, m, h.length);
    print_answer(told);
    putchar('\n');
    failed = 1;
}

/* Strip A, 01101101010101110: three ones in a row at 13 alone, ten ones in the fifteen strokes from 1 on alone. */
static void expect_example(void)
{
    static const uint64_t a[8] = {0xeab6};
    EXPECT(strip_burst(512, 17, 10, a, 8, 3, 3), 13);
    EXPECT(strip_burst(512, 17, 10, a, 8, 15, 10), 1);
    EXPECT(strip_burst(512, 17, 10, a, 8, 17, 10), 0);
    EXPECT(strip_burst(512, 17, 10, a, 8, 17, 11), REFUSED(STRIP_NOT_FOUND));
    EXPECT(strip_burst(512, 17, 10, a, 8, 4, 4), REFUSED(STRIP_NOT_FOUND));
    EXPECT(strip_burst(512, 17, 10, a, 8, 18, 1), REFUSED(STRIP_NOT_FOUND));
    EXPECT(strip_burst(512, 15, 9, a, 8, 3, 3), REFUSED(STRIP_NOT_FOUND));
    EXPECT(strip_burst(512, 16, 10, a, 8, 3, 3), 13);
    EXPECT(a[0], 0xeab6);
}

/* 1 before 2, 2 before 17, 17 before 6; no words at all. */
static void expect_refusals(void)
{
    static const uint64_t words[16] = {0xeab6, 7};
    EXPECT(strip_burst(513, 17, 0, words, 7, 0, 1), REFUSED(STRIP_BAD_HANDLE));
    EXPECT(strip_burst(512, 513, 0, words, 8, 3, 3), REFUSED(STRIP_BAD_HANDLE));
    EXPECT(strip_burst(512, 17, 18, words, 7, 0, 1), REFUSED(STRIP_BAD_HANDLE));
    EXPECT(strip_burst(512, 17, 17, words, 7, 0, 1), REFUSED(STRIP_BAD_WORDS));
    EXPECT(strip_burst(512, 17, 0, words, 7, 0, 1), REFUSED(STRIP_BAD_WORDS));
    EXPECT(strip_burst(512, 17, 0, words, 9, 18, 1), REFUSED(STRIP_BAD_WORDS));
    EXPECT(strip_burst(512, 17, 0, words, 8, 0, 1), REFUSED(STRIP_BAD_WINDOW));
    EXPECT(strip_burst(512, 17, 0, words, 8, 18, 19), REFUSED(STRIP_BAD_WINDOW));
    EXPECT(strip_burst(512, 17, 0, words, 8, 65537, 1), REFUSED(STRIP_BAD_WINDOW));
    EXPECT(strip_burst(512, 17, 0, words, 8, 65536, 1), REFUSED(STRIP_NOT_FOUND));
    EXPECT(strip_burst(512, 17, 0, words, 8, WIDE + 3, 3), REFUSED(STRIP_BAD_WINDOW));
    EXPECT(strip_burst(512, 17, 0, words, 8, 3, WIDE + 3), REFUSED(STRIP_BAD_WINDOW));
    EXPECT(strip_burst(512, 0, 0, words, 8, 1, 1), REFUSED(STRIP_NOT_FOUND));
    EXPECT(strip_burst(0, 0, 0, NULL, 0, 1, 1), REFUSED(STRIP_BAD_HANDLE));
    EXPECT(strip_burst(512, 0, 0, NULL, 0, 0, 0), REFUSED(STRIP_BAD_WORDS));

    static const struct {
        struct handle handle;
        size_t count;
    } strips[] = {{{512, 17, 10}, 8},        {{512, 17, 17}, 8},         {{512, 0, 0}, 8},
                  {{512, 512, 512}, 8},      {{1024, 17, 0}, 16},        {{513, 17, 0}, 8},
                  {{512, 513, 0}, 8},        {{0, 17, 0}, 8},            {{WIDE + 512, 17, 0}, 8},
                  {{512, 17, 18}, 8},        {{512, 17, 18}, 9},         {{512, 0, 1}, 8},
                  {{512, 17, WIDE + 10}, 8}, {{512, 17, UINT64_MAX}, 8}, {{512, 17, 0}, 7},
                  {{512, 17, 0}, 9},         {{512, 17, 0}, 0},          {{1024, 17, 0}, 8},
                  {{512, 513, 0}, 7},        {{UINT64_MAX, 0, 0}, 8},    {{512, WIDE + 17, 0}, 8},
                  {{0, 0, 0}, 0},            {{512, UINT64_MAX, 0}, 9}};
    static const uint64_t windows[] = {0, 1, 2, 3, 17, 18, 64, 65535, 65536, 65537, WIDE, WIDE + 3, UINT64_MAX};
    for (size_t s = 0; s < COUNT_OF(strips); s++)
        for (size_t w = 0; w < COUNT_OF(windows); w++)
            for (size_t m = 0; m < COUNT_OF(windows); m++)
                hold_burst(strips[s].handle, strips[s].count == 0 ? NULL : words, strips[s].count, windows[w],
                           windows[m]);
}

/* Random strips of every border's length with bits past it, and windows of every border's width. */
static void expect_borders(void)
{
    enum { CAPACITY = 4608 };
    static uint64_t words[CAPACITY / 64];
    uint64_t state = 1;
    for (size_t w = 0; w < COUNT_OF(words); w++) {
        state = state * UINT64_C(6364136223846793005) + UINT64_C(1442695040888963407);
        words[w] = state ^ state >> 32;
    }
    for (size_t l = 0; l < COUNT_OF(small); l++)
        for (size_t k = 0; k < COUNT_OF(small); k++) {
            uint64_t w = small[k];
            struct handle h = {CAPACITY, small[l], small[l] / 2};
            struct row room;
            struct opened strip = open_strip(&room, h, words, CAPACITY / 64);
            uint64_t most = w < 1 || w > small[l] ? 1 : most_ones(strip.row, w);
            for (uint64_t m = most == 0 ? 0 : most - 1; m <= most + 1; m++)
                hold_burst(h, words, CAPACITY / 64, w, m);
            hold_burst(h, words, CAPACITY / 64, w, w);
            hold_burst(h, words, CAPACITY / 64, w, w + 1);
        }
}

/* A window of w strokes with ones at its ends alone, at every start; past the length all are ones. */
static void expect_every_start(uint64_t w)
{
    enum { CAPACITY = 1024, LENGTH = 1000 };
    for (uint64_t s = 0; s + w <= LENGTH; s++) {
        uint64_t words[CAPACITY / 64] = {0}, copy[CAPACITY / 64], end = s + w - 1;
        words[LENGTH / 64] = UINT64_MAX << (LENGTH % 64);
        words[s / 64] |= UINT64_C(1) << (s % 64);
        words[end / 64] |= UINT64_C(1) << (end % 64);
        memcpy(copy, words, sizeof copy);
        expect("a burst at its start", strip_burst(CAPACITY, LENGTH, 2, words, CAPACITY / 64, w, 2), s);
        expect("three ones", strip_burst(CAPACITY, LENGTH, 2, words, CAPACITY / 64, w, 3),
               REFUSED(w < 3 ? STRIP_BAD_WINDOW : STRIP_NOT_FOUND));
        expect("the words as they were", memcmp(copy, words, sizeof copy) != 0, 0);
    }
}

/* A one at the last stroke alone: of the windows of w strokes the last alone holds it. */
static void expect_last_start(uint64_t w)
{
    enum { CAPACITY = 1024, LENGTH = 1000 };
    static const uint64_t words[CAPACITY / 64] = {[LENGTH / 64] = UINT64_MAX << ((LENGTH - 1) % 64)};
    expect("the last start", strip_burst(CAPACITY, LENGTH, 2, words, CAPACITY / 64, w, 1), LENGTH - w);
    expect("past the length", strip_burst(CAPACITY, LENGTH - 1, 0, words, CAPACITY / 64, w, 1),
           REFUSED(STRIP_NOT_FOUND));
}

/* The greatest length: ones in the last strokes alone, the widest window of them, and one too wide. */
static void expect_largest(void)
{
    static uint64_t words[LARGEST / 64];
    EXPECT(strip_burst(LARGEST, LARGEST, WIDEST, words, LARGEST / 64, WIDEST, 1), REFUSED(STRIP_NOT_FOUND));
    memset(words + (LARGEST - WIDEST) / 64, 0xff, WIDEST / 8);
    EXPECT(strip_burst(LARGEST, LARGEST, WIDEST, words, LARGEST / 64, WIDEST, WIDEST), LARGEST - WIDEST);
    EXPECT(strip_burst(LARGEST, LARGEST - 1, 0, words, LARGEST / 64, WIDEST, WIDEST), REFUSED(STRIP_NOT_FOUND));
    EXPECT(strip_burst(LARGEST, LARGEST, WIDEST, words, LARGEST / 64, WIDEST + 1, WIDEST), REFUSED(STRIP_BAD_WINDOW));
}

int main(void)
{
    expect_example();
    expect_refusals();
    expect_borders();
    for (uint64_t w = 2; w <= 200; w++)
        expect_every_start(w);
    for (uint64_t w = 1; w <= 1000; w++)
        expect_last_start(w);
    expect_largest();
    return failed;
}
