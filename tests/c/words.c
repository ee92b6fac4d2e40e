/* Fixed cases of the calls on words, called from C. */
#include "strips.h"

#include "expect.h"
#include "judge.h"
#include "testing.h"

/* Strip A, 01101101010101110: 17 bits, capacity 512. */
static const uint64_t a[8] = {0xeab6};

/* A full strip of that capacity. */
#define ONES UINT64_MAX
static const uint64_t full[8] = {ONES, ONES, ONES, ONES, ONES, ONES, ONES, ONES};

/* look, next and prior of a strip at each position and far past, held to the judge. */
static void hold_strip(struct handle h, const uint64_t *words)
{
    struct row room;
    struct opened strip = open_strip(&room, h, words, 8);
    for (size_t k = 0; k < 600 + COUNT_OF(far); k++) {
        uint64_t i = k < 600 ? k : far[k - 600];
        hold("look", strip_get(OF_HANDLE(h), words, 8, i) == get_answer(strip, i), 0, 0, i);
        for (size_t b = 0; b < COUNT_OF(values); b++) {
            uint64_t v = values[b], next = strip_successor(OF_HANDLE(h), words, 8, v, i);
            hold("next", next == successor_answer(strip, v, i), 0, v, i);
            uint64_t prior = strip_predecessor(OF_HANDLE(h), words, 8, v, i);
            hold("prior", prior == predecessor_answer(strip, v, i), 0, v, i);
        }
    }
}

/* The word select of a word at each k and far past, held to the judge. */
static void hold_word(uint64_t x)
{
    for (size_t n = 0; n < 70 + COUNT_OF(far); n++) {
        uint64_t k = n < 70 ? n : far[n - 70];
        hold("select in a word", strip_select_in_word(x, k) == word_select_answer(x, k), 0, x, k);
    }
}

int main(void)
{
    EXPECT(strip_get(512, 17, 10, a, 8, 0), 0);
    EXPECT(strip_get(512, 17, 10, a, 8, 15), 1);
    EXPECT(strip_get(512, 17, 10, a, 8, 17), REFUSED(STRIP_POSITION));
    EXPECT(strip_get(512, 512, 512, full, 8, 511), 1);

    EXPECT(strip_successor(512, 17, 10, a, 8, 1, 8), 9);
    EXPECT(strip_successor(512, 17, 10, a, 8, 0, 13), 16);
    EXPECT(strip_successor(512, 17, 10, a, 8, 1, 16), REFUSED(STRIP_NOT_FOUND));
    EXPECT(strip_successor(512, 17, 10, a, 8, 1, 18), REFUSED(STRIP_POSITION));
    EXPECT(strip_successor(512, 511, 511, full, 8, 1, 510), 510);
    EXPECT(strip_successor(512, 512, 512, full, 8, 0, 0), REFUSED(STRIP_NOT_FOUND));

    EXPECT(strip_predecessor(512, 17, 10, a, 8, 1, 17), 15);
    EXPECT(strip_predecessor(512, 17, 10, a, 8, 0, 16), 12);
    EXPECT(strip_predecessor(512, 17, 10, a, 8, 1, 1), REFUSED(STRIP_NOT_FOUND));
    EXPECT(strip_predecessor(512, 17, 10, a, 8, 2, 18), REFUSED(STRIP_BAD_VALUE));

    /* 1 before 2, 2 before the rest; no words at all */
    EXPECT(strip_get(513, 17, 10, a, 8, 0), REFUSED(STRIP_BAD_HANDLE));
    EXPECT(strip_get(512, 513, 10, a, 8, 0), REFUSED(STRIP_BAD_HANDLE));
    EXPECT(strip_get(512, 17, 18, a, 7, 17), REFUSED(STRIP_BAD_HANDLE));
    EXPECT(strip_successor(512, 17, 18, a, 7, 2, 18), REFUSED(STRIP_BAD_HANDLE));
    EXPECT(strip_predecessor(512, 0, 1, a, 7, 2, 1), REFUSED(STRIP_BAD_HANDLE));
    EXPECT(strip_get(512, 17, 10, a, 7, 17), REFUSED(STRIP_BAD_WORDS));
    EXPECT(strip_get(0, 0, 0, NULL, 0, 0), REFUSED(STRIP_BAD_HANDLE));
    EXPECT(strip_get(512, 0, 0, NULL, 0, 0), REFUSED(STRIP_BAD_WORDS));
    EXPECT(strip_successor(512, 0, 0, NULL, 0, 2, 1), REFUSED(STRIP_BAD_WORDS));
    EXPECT(strip_predecessor(UINT64_MAX, 0, 0, NULL, 0, 1, 0), REFUSED(STRIP_BAD_HANDLE));

    EXPECT(strip_select_in_word(a[0], 7), 13);
    EXPECT(strip_select_in_word(a[0], 10), 64);
    EXPECT(strip_select_in_word(ONES, 63), 63);
    EXPECT(strip_select_in_word(ONES, UINT64_MAX), 64);

    /* under the right total, and under others; above the length all is refused */
    static const struct handle of_a[] = {{512, 17, 10}, {512, 17, 0}, {512, 17, 17}, {512, 17, 18}, {512, 17, WIDE}};
    for (size_t k = 0; k < COUNT_OF(of_a); k++)
        hold_strip(of_a[k], a);
    hold_strip((struct handle){512, 0, 0}, full);
    hold_strip((struct handle){512, 0, 1}, full);
    hold_strip((struct handle){512, 511, 511}, full);
    hold_strip((struct handle){512, 512, 512}, full);
    hold_strip((struct handle){512, 512, 0}, full);
    hold_word(0);
    hold_word(a[0]);
    hold_word(ONES);
    return failed;
}
