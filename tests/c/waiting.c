/* The calls on a strip with strokes that wait, from C: strip A with four of them, short strips with each outcome made
 * and read, every refusal beside every other, an `out` that is too short, bits and marks past the length, words that
 * both strips share, and the largest strips. */
#include "strips.h"

#include "expect.h"
#include "judge.h"

/* A strip over these words. */
static struct strip over(uint64_t capacity, uint64_t length, const uint64_t *words, size_t words_len)
{
    return (struct strip){{capacity, length, 0}, (const uint8_t *)words, words_len};
}

/* ---- What the calls tell, and no more than that. */

/* Places of `out`, and what stands in each before a call. */
enum { COUNT_OUT = STRIP_WAITING_COUNT_OUT, FIND_OUT = STRIP_WAITING_FIND_OUT, ROOM = 6 };
static const uint64_t stale[ROOM] = {11, 22, 33, 44, 55, 66};

/* The call's numbers, with exactly as many places lent as it writes and with more. */
static struct waiting_answer told(void (*call)(uint64_t, uint64_t, uint64_t, const uint64_t *, size_t, uint64_t,
                                               uint64_t, uint64_t, const uint64_t *, size_t, uint64_t, uint64_t *,
                                               size_t),
                                  size_t numbers, struct strip s, struct strip t, uint64_t at)
{
    uint64_t out[ROOM], more[ROOM];
    memcpy(out, stale, sizeof stale);
    memcpy(more, stale, sizeof stale);
    call(OF(s), OF(t), at, out, numbers);
    call(OF(s), OF(t), at, more, ROOM);
    expect("with more places lent", memcmp(out, more, sizeof out) != 0, 0);
    expect("past the last number", memcmp(out + numbers, stale + numbers, (ROOM - numbers) * sizeof *out) != 0, 0);
    return (struct waiting_answer){{out[0], out[1], out[2], numbers == FIND_OUT ? out[3] : 0}};
}

static struct waiting_answer count(struct strip s, struct strip t, uint64_t i)
{
    return told(strip_waiting_count, COUNT_OUT, s, t, i);
}

static struct waiting_answer find(struct strip s, struct strip t, uint64_t k)
{
    return told(strip_waiting_find, FIND_OUT, s, t, k);
}

static void hold_told(const char *what, uint64_t at, struct waiting_answer is, struct waiting_answer wanted)
{
    if (memcmp(is.numbers, wanted.numbers, sizeof is.numbers) == 0)
        return;
    printf("%s(%" PRIu64 "):", what, at);
    for (size_t n = 0; n < COUNT_OF(is.numbers); n++)
        printf(" %" PRIu64, is.numbers[n]);
    printf(", expected");
    for (size_t n = 0; n < COUNT_OF(wanted.numbers); n++)
        printf(" %" PRIu64, wanted.numbers[n]);
    putchar('\n');
    failed = 1;
}

/* What is expected: the least and the most; from the earliest to the latest; from the earliest on, without a latest; a
 * refusal. */
#define BETWEEN(least, most) ((struct waiting_answer){{0, least, most, 0}})
#define FROM_TO(earliest, latest) ((struct waiting_answer){{0, earliest, 1, latest}})
#define FROM(earliest) ((struct waiting_answer){{0, earliest, 0, 0}})
#define NUMBER(refusal) ((struct waiting_answer){{refusal, 0, 0, 0}})

#define EXPECT_COUNT(s, t, i, wanted) hold_told("waiting count", i, count(s, t, i), wanted)
#define EXPECT_FIND(s, t, k, wanted) hold_told("waiting find", k, find(s, t, k), wanted)

/* ---- Held to the judge. */

static void hold_at(struct strip s, struct strip t, uint64_t at)
{
    EXPECT_COUNT(s, t, at, waiting_count_answer(s, t, at));
    EXPECT_FIND(s, t, at, waiting_find_answer(s, t, at));
}

/* Both calls at the borders and far past. */
static void hold_pair(struct strip s, struct strip t)
{
    for (size_t a = 0; a < COUNT_OF(small); a++)
        hold_at(s, t, small[a]);
    for (size_t a = 0; a < COUNT_OF(far); a++)
        hold_at(s, t, far[a]);
}

/* ---- Each outcome made and read, with no law about them. */

enum { CAPACITY = 512, WORDS = CAPACITY / 64, MOST_OUTCOMES = 256 };

static uint64_t outcomes[MOST_OUTCOMES][WORDS];
static size_t outcome_count;

/* All strips that agree with the strip wherever no mark stands below the length. */
static void make_outcomes(const uint64_t *words, const uint64_t *marks, uint64_t length)
{
    memcpy(outcomes[0], words, sizeof outcomes[0]);
    outcome_count = 1;
    for (uint64_t p = 0; p < length; p++) {
        if (bit((const uint8_t *)marks, p) == 0)
            continue;
        for (size_t o = 0; o < outcome_count; o++) {
            uint64_t *other = outcomes[outcome_count + o];
            memcpy(other, outcomes[o], sizeof outcomes[o]);
            other[p / 64] ^= UINT64_C(1) << (p % 64);
        }
        outcome_count *= 2;
    }
}

/* Every number that some outcome counts before i, and no other, is from the least to the most. */
static void hold_count(struct strip s, struct strip t, uint64_t i)
{
    struct waiting_answer is = count(s, t, i);
    unsigned char counted[CAPACITY + 1] = {0};
    for (size_t o = 0; o < outcome_count; o++) {
        uint64_t ones = 0;
        for (uint64_t p = 0; p < i; p++)
            ones += bit((const uint8_t *)outcomes[o], p);
        counted[ones] = 1;
    }
    expect("a count refused", is.numbers[0], 0);
    for (uint64_t n = 0; n <= CAPACITY; n++)
        expect("a number counted", is.numbers[1] <= n && n <= is.numbers[2], counted[n]);
}

/* The earliest and the latest position of the k-th one, over the outcomes that have one. */
static void hold_find(struct strip s, struct strip t, uint64_t k)
{
    uint64_t earliest = UINT64_MAX, latest = 0;
    size_t without = 0;
    for (size_t o = 0; o < outcome_count; o++) {
        uint64_t left = k, p = 0;
        while (p < s.handle.length && (bit((const uint8_t *)outcomes[o], p) == 0 || left-- != 0))
            p++;
        without += p == s.handle.length;
        if (p < s.handle.length && p < earliest)
            earliest = p;
        if (p < s.handle.length && p > latest)
            latest = p;
    }
    EXPECT_FIND(s, t, k,
                without == outcome_count ? NUMBER(STRIP_NOT_FOUND)
                : without > 0            ? FROM(earliest)
                                         : FROM_TO(earliest, latest));
}

/* A strip and marks of it, at most eight below the length; then with the other bits under the marks. */
static void hold_outcomes(uint64_t length, const uint64_t *words, const uint64_t *marks)
{
    uint64_t others[WORDS];
    for (size_t w = 0; w < WORDS; w++)
        others[w] = words[w] ^ marks[w];
    make_outcomes(words, marks, length);
    for (int turned = 0; turned < 2; turned++) {
        struct strip s = over(CAPACITY, length, turned ? others : words, WORDS);
        struct strip t = over(CAPACITY, length, marks, WORDS);
        for (uint64_t at = 0; at <= length; at++) {
            hold_count(s, t, at);
            hold_find(s, t, at);
            hold_at(s, t, at);
        }
        hold_at(s, t, length + 1);
    }
}

static void expect_outcomes(void)
{
    static const uint64_t lengths[] = {0, 1, 2, 63, 64, 65, 130};
    static const uint64_t bits[][WORDS] = {
        {0}, {UINT64_MAX, UINT64_MAX, UINT64_MAX, UINT64_MAX}, {0x8421000000000003, 0x8000000000000001, 2, 7}};
    static const uint64_t marks[][WORDS] = {{0},
                                            {0, 0, 0xf0, UINT64_MAX},
                                            {1, 0, 0, 1},
                                            {0x8000000000000000, 1, UINT64_MAX - 3},
                                            {0xe000000000000002, 0x8000000000000001, 3}};
    static const uint64_t all[WORDS] = {0xff};
    for (size_t b = 0; b < COUNT_OF(bits); b++) {
        for (size_t l = 0; l < COUNT_OF(lengths); l++)
            for (size_t m = 0; m < COUNT_OF(marks); m++)
                hold_outcomes(lengths[l], bits[b], marks[m]);
        hold_outcomes(8, bits[b], all);
    }
}

/* ---- Fixed cases. */

/* Strip A, 01101101010101110, of which 2, 3, 13 and 16 wait: 00110000000001001. */
static const uint64_t a[WORDS] = {0xeab6}, w[WORDS] = {0x1200c};

static void expect_example(void)
{
    struct strip s = over(CAPACITY, 17, a, WORDS), t = over(CAPACITY, 17, w, WORDS);
    EXPECT_COUNT(s, t, 0, BETWEEN(0, 0));
    EXPECT_COUNT(s, t, 2, BETWEEN(1, 1));
    EXPECT_COUNT(s, t, 3, BETWEEN(1, 2));
    EXPECT_COUNT(s, t, 4, BETWEEN(1, 3));
    EXPECT_COUNT(s, t, 8, BETWEEN(4, 6));
    EXPECT_COUNT(s, t, 17, BETWEEN(8, 12));
    EXPECT_COUNT(s, t, 18, NUMBER(STRIP_POSITION));
    EXPECT_COUNT(s, t, UINT64_MAX, NUMBER(STRIP_POSITION));
    EXPECT_FIND(s, t, 0, FROM_TO(1, 1));
    EXPECT_FIND(s, t, 1, FROM_TO(2, 4));
    EXPECT_FIND(s, t, 7, FROM_TO(11, 15));
    EXPECT_FIND(s, t, 8, FROM(13));
    EXPECT_FIND(s, t, 11, FROM(16));
    EXPECT_FIND(s, t, 12, NUMBER(STRIP_NOT_FOUND));
    EXPECT_FIND(s, t, 17, NUMBER(STRIP_NOT_FOUND));
    EXPECT_FIND(s, t, WIDE, NUMBER(STRIP_NOT_FOUND));
    EXPECT_FIND(s, t, UINT64_MAX, NUMBER(STRIP_NOT_FOUND));
    hold_outcomes(17, a, w);

    /* the two exchanged: the marks are the strip, and its ones wait */
    EXPECT_COUNT(t, s, 17, BETWEEN(2, 12));
    EXPECT_FIND(t, s, 1, FROM_TO(2, 16));

    /* no stroke waits, and each does */
    static const uint64_t none[WORDS] = {0}, each[WORDS] = {UINT64_MAX};
    EXPECT_COUNT(s, over(CAPACITY, 17, none, WORDS), 17, BETWEEN(10, 10));
    EXPECT_FIND(s, over(CAPACITY, 17, none, WORDS), 9, FROM_TO(15, 15));
    EXPECT_FIND(s, over(CAPACITY, 17, none, WORDS), 10, NUMBER(STRIP_NOT_FOUND));
    EXPECT_COUNT(s, over(CAPACITY, 17, each, WORDS), 17, BETWEEN(0, 17));
    EXPECT_FIND(s, over(CAPACITY, 17, each, WORDS), 0, FROM(0));
    EXPECT_FIND(s, over(CAPACITY, 17, each, WORDS), 16, FROM(16));
    EXPECT_FIND(s, over(CAPACITY, 17, each, WORDS), 17, NUMBER(STRIP_NOT_FOUND));
}

/* Good strips, and strips that get 1 or 2, each beside each. */
static void expect_refusals(void)
{
    static const uint64_t words[16] = {0xeab6, 7}, marks[16] = {0x1200c, 4};
    const struct {
        struct handle handle;
        size_t count;
    } strips[] = {{{512, 17, 10}, 8},         {{512, 17, 17}, 8},                        {{512, 16, 0}, 8},
                  {{512, 512, 512}, 8},       {{512, 0, 0}, 8},                          {{1024, 17, 0}, 16},
                  {{1024, 16, 16}, 16},       {{513, 17, 0}, 8},                         {{512, 513, 0}, 8},
                  {{0, 0, 0}, 0},             {{0, 17, 0}, 8},                           {{WIDE + 512, 17, 0}, 8},
                  {{512, 17, 18}, 8},         {{512, 17, 18}, 7},                        {{512, 0, 1}, 8},
                  {{512, 16, UINT64_MAX}, 8}, {{1024, 17, WIDE + 17}, 16},               {{512, 17, 17}, 7},
                  {{512, 17, 0}, 9},          {{512, 17, 0}, 0},                         {{1024, 17, 0}, 8},
                  {{512, 17, 0}, 16},         {{UINT64_MAX, UINT64_MAX, UINT64_MAX}, 8}};
    for (size_t f = 0; f < COUNT_OF(strips); f++)
        for (size_t g = 0; g < COUNT_OF(strips); g++) {
            const uint64_t *strip = strips[f].count == 0 ? NULL : words, *mark = strips[g].count == 0 ? NULL : marks;
            hold_pair((struct strip){strips[f].handle, (const uint8_t *)strip, strips[f].count},
                      (struct strip){strips[g].handle, (const uint8_t *)mark, strips[g].count});
        }

    EXPECT_COUNT(over(512, 17, words, 7), over(513, 17, marks, 8), 18, NUMBER(STRIP_BAD_WORDS));
    EXPECT_COUNT(over(513, 17, words, 8), over(512, 17, marks, 7), 18, NUMBER(STRIP_BAD_HANDLE));
    EXPECT_COUNT(over(1024, 17, words, 16), over(512, 17, marks, 7), 18, NUMBER(STRIP_BAD_WORDS));
    EXPECT_COUNT(over(1024, 17, words, 16), over(512, 513, marks, 8), 18, NUMBER(STRIP_BAD_HANDLE));
    EXPECT_COUNT(over(512, 17, words, 8), over(512, 16, marks, 8), 18, NUMBER(STRIP_UNEQUAL));
    EXPECT_FIND(over(512, 17, words, 7), over(513, 17, marks, 8), 0, NUMBER(STRIP_BAD_WORDS));
    EXPECT_FIND(over(512, 17, words, 8), over(512, 17, marks, 7), UINT64_MAX, NUMBER(STRIP_BAD_WORDS));
    EXPECT_FIND(over(512, 17, words, 8), over(1024, 17, marks, 16), UINT64_MAX, NUMBER(STRIP_UNEQUAL));
    EXPECT_FIND(over(512, 16, words, 8), over(512, 17, marks, 8), 0, NUMBER(STRIP_UNEQUAL));
}

/* Too few places, and none: accepted or refused, nothing is written. */
static void expect_short_out(void)
{
    struct strip good = over(CAPACITY, 17, a, WORDS), bad = over(513, 17, a, WORDS), t = over(CAPACITY, 17, w, WORDS);
    uint64_t out[ROOM];
    memcpy(out, stale, sizeof stale);
    for (size_t lent = 0; lent < FIND_OUT; lent++) {
        if (lent < COUNT_OUT) {
            strip_waiting_count(OF(good), OF(t), 17, out, lent);
            strip_waiting_count(OF(bad), OF(t), 17, out, lent);
        }
        strip_waiting_find(OF(good), OF(t), 0, out, lent);
        strip_waiting_find(OF(bad), OF(t), 0, out, lent);
        expect("a short out", memcmp(out, stale, sizeof out) != 0, 0);
    }
    strip_waiting_count(OF(good), OF(t), 17, NULL, 0);
    strip_waiting_find(OF(good), OF(t), 0, NULL, 0);
}

/* Random strips of every border's length, with bits and marks past it; words that the two share, all and some. */
static void expect_borders(void)
{
    enum { BITS = 4608, COUNT = BITS / 64 };
    static uint64_t words[2 * COUNT];
    uint64_t state = 1;
    for (size_t n = 0; n < 2 * COUNT; n++) {
        state = state * UINT64_C(6364136223846793005) + UINT64_C(1442695040888963407);
        words[n] = state ^ state >> 32;
    }
    for (size_t l = 0; l < COUNT_OF(small); l++) {
        struct strip s = over(BITS, small[l], words, COUNT);
        static const size_t from[] = {COUNT, COUNT / 2, 1, 0};
        for (size_t f = 0; f < COUNT_OF(from); f++) {
            struct strip t = over(BITS, small[l], words + from[f], COUNT);
            struct waiting_answer all = waiting_count_answer(s, t, small[l]);
            hold_pair(s, t);
            for (size_t e = 1; e <= 2; e++)
                for (uint64_t k = all.numbers[e] < 2 ? 0 : all.numbers[e] - 2; k < all.numbers[e] + 2; k++)
                    hold_at(s, t, k);
        }
    }
}

/* The largest capacity: all ones or none, all waiting or none. */
static void expect_largest(void)
{
    static uint64_t ones[LARGEST / 64], zeros[LARGEST / 64];
    memset(ones, 0xff, sizeof ones);
    struct strip s = over(LARGEST, LARGEST, ones, LARGEST / 64), t = over(LARGEST, LARGEST, zeros, LARGEST / 64);
    EXPECT_COUNT(s, t, LARGEST, BETWEEN(LARGEST, LARGEST));
    EXPECT_COUNT(s, t, LARGEST + 1, NUMBER(STRIP_POSITION));
    EXPECT_COUNT(t, s, LARGEST, BETWEEN(0, LARGEST));
    EXPECT_COUNT(s, s, LARGEST - 1, BETWEEN(0, LARGEST - 1));
    EXPECT_COUNT(t, t, LARGEST, BETWEEN(0, 0));
    EXPECT_FIND(s, t, LARGEST - 1, FROM_TO(LARGEST - 1, LARGEST - 1));
    EXPECT_FIND(s, t, LARGEST, NUMBER(STRIP_NOT_FOUND));
    EXPECT_FIND(t, s, LARGEST - 1, FROM(LARGEST - 1));
    EXPECT_FIND(s, s, 0, FROM(0));
    EXPECT_FIND(t, t, 0, NUMBER(STRIP_NOT_FOUND));

    /* one stroke waits at the start; the last one is the latest place of the last misfire but one */
    zeros[0] = 1;
    EXPECT_COUNT(s, t, LARGEST, BETWEEN(LARGEST - 1, LARGEST));
    EXPECT_FIND(s, t, LARGEST - 2, FROM_TO(LARGEST - 2, LARGEST - 1));
    EXPECT_FIND(s, t, LARGEST - 1, FROM(LARGEST - 1));
}

int main(void)
{
    expect_example();
    expect_outcomes();
    expect_refusals();
    expect_short_out();
    expect_borders();
    expect_largest();
    return failed;
}
