/* Fixed cases of the calls on a record, called from C. */
#include "strips.h"

#include "borders.h"
#include "expect.h"
#include "judge.h"

#include <stdlib.h>
#include <string.h>

/* Strip A, 01101101010101110: 17 bits. */
static const char a[] = "01101101010101110";

/* A record, the handle to go on with, and the last six numbers, with one past them. */
static uint64_t *words;
static uint32_t *counters;
static size_t words_len, counters_len;
static uint64_t capacity, length, total, out[STRIP_OUT + 1];

#define HANDLE capacity, length, total
#define RECORD words, words_len, counters, counters_len
#define OUT out, STRIP_OUT

/* After a change: the handle that it gives, unless laying gave none; the value asked for, or the refusal. */
static uint64_t changed(int value)
{
    if (out[3] != 0) {
        capacity = out[3];
        length = out[4];
        total = out[5];
    }
    expect("the number past the sixth", out[STRIP_OUT], 77);
    return out[0] != 0 ? REFUSED(out[0]) : out[value];
}

/* The two values of a change by numbers 1 and 2. */
static uint64_t create(uint64_t c, int value) { strip_create(c, RECORD, OUT); return changed(value); }
static uint64_t push(uint64_t v, int value) { strip_push(HANDLE, RECORD, v, OUT); return changed(value); }
static uint64_t flip(uint64_t i, int value) { strip_flip(HANDLE, RECORD, i, OUT); return changed(value); }
static uint64_t truncate_to(uint64_t n) { strip_truncate(HANDLE, RECORD, n, OUT); return changed(1); }
static uint64_t rank_of(uint64_t v, uint64_t i) { return strip_rank(HANDLE, RECORD, v, i); }
static uint64_t select_of(uint64_t v, uint64_t k) { return strip_select(HANDLE, RECORD, v, k); }
static uint64_t verify(void) { return strip_verify(HANDLE, RECORD); }

static uint64_t fill(uint64_t from, uint64_t to, uint64_t v)
{
    strip_fill(HANDLE, RECORD, from, to, v, OUT);
    return changed(1);
}

/* Room for a record of that capacity with so many counters, full of junk. */
static void room(uint64_t c, size_t n)
{
    free(words);
    free(counters);
    words_len = c / 64;
    counters_len = n;
    words = malloc(words_len * sizeof *words);
    counters = malloc(counters_len * sizeof *counters);
    if (words == NULL || counters == NULL)
        exit(2);
    memset(words, 0xa5, words_len * sizeof *words);
    memset(counters, 0x5a, counters_len * sizeof *counters);
    out[STRIP_OUT] = 77;
}

/* A full strip of ones: the length is the capacity, and an empty span lays the counters. */
static void full_strip(uint64_t c, size_t n)
{
    room(c, n);
    memset(words, 0xff, words_len * sizeof *words);
    capacity = length = c;
    total = 0;
    EXPECT(fill(0, 0, 0), c);
    EXPECT(total, c);
}

/* The number of counters: at each capacity of one and two levels, around the largest, and refused. */
static void count_counters(void)
{
    for (size_t k = 0; k < COUNT_OF(capacities); k++)
        EXPECT(strip_counter_count(capacities[k][0]), capacities[k][1]);
    for (uint64_t c = 512; c <= THREE_LEVELS + 512; c += 512)
        EXPECT(strip_counter_count(c), counter_count_answer(c));
    for (uint64_t c = LARGEST - 70000; c <= LARGEST + 70000; c += 8)
        EXPECT(strip_counter_count(c), counter_count_answer(c));
    for (size_t k = 0; k < COUNT_OF(bad_capacities); k++)
        EXPECT(strip_counter_count(bad_capacities[k]), REFUSED(STRIP_BAD_HANDLE));
}

int main(void)
{
    count_counters();

    /* strip A, stroke by stroke; P1, P2, P4, P5 */
    room(512, 72);
    EXPECT(create(512, 1), 72);
    for (size_t p = 0; p < strlen(a); p++)
        EXPECT(push(a[p] == '1', 1), p);
    EXPECT(length, 17);
    EXPECT(total, 10);
    EXPECT(words[0], 0xeab6);
    EXPECT(rank_of(1, 8), 5);
    EXPECT(rank_of(1, 7), 4);
    EXPECT(select_of(1, 7), 13);
    EXPECT(rank_of(1, 17), 10);
    EXPECT(rank_of(1, 18), REFUSED(STRIP_POSITION));
    EXPECT(select_of(1, 9), 15);
    EXPECT(select_of(1, 10), REFUSED(STRIP_NOT_FOUND));
    EXPECT(rank_of(0, 17), 7);
    EXPECT(select_of(0, 6), 16);
    EXPECT(verify(), 10);

    /* P7: keys 0 to 7 and summaries 1 to 7 are 10 */
    for (size_t x = 0; x < 72; x++)
        EXPECT(counters[x], x >= 1 && x < 16 ? 10 : 0);

    /* P8, P3 */
    EXPECT(flip(3, 2), 15);
    EXPECT(flip(6, 1), 1);
    EXPECT(total, 12);
    EXPECT(rank_of(1, 8), 7);
    EXPECT(select_of(1, 7), 9);
    EXPECT(fill(2, 9, 0), 6);
    EXPECT(total, 6);
    EXPECT(truncate_to(12), 3);
    EXPECT(length, 12);
    EXPECT(total, 3);
    EXPECT(verify(), 3);

    /* refusals in order: they give back the handle, and two numbers 0 */
    EXPECT(push(2, 1), REFUSED(STRIP_BAD_VALUE));
    EXPECT(fill(9, 3, 2), REFUSED(STRIP_BAD_VALUE));
    EXPECT(fill(14, 13, 1), REFUSED(STRIP_SPAN));
    EXPECT(fill(3, 13, 1), REFUSED(STRIP_POSITION));
    EXPECT(flip(12, 1), REFUSED(STRIP_POSITION));
    EXPECT(truncate_to(13), REFUSED(STRIP_POSITION));
    EXPECT(out[1] + out[2], 0);
    EXPECT(out[3], 512);
    EXPECT(out[4], 12);
    EXPECT(out[5], 3);

    /* a wrong total: check tells it, find goes by it, turn stays in its range, and an empty span sets it right */
    EXPECT(strip_verify(512, 12, 4, RECORD), REFUSED(STRIP_UNFIT));
    EXPECT(strip_verify(512, 12, 2, RECORD), REFUSED(STRIP_UNFIT));
    EXPECT(strip_verify(512, 12, 13, RECORD), REFUSED(STRIP_BAD_HANDLE));
    EXPECT(strip_select(512, 12, 2, RECORD, 1, 2), REFUSED(STRIP_NOT_FOUND));
    EXPECT(strip_select(512, 12, 4, RECORD, 0, 8), REFUSED(STRIP_NOT_FOUND));
    total = 0;
    EXPECT(flip(1, 1), REFUSED(STRIP_UNFIT));
    EXPECT(out[5], 0);
    total = 12;
    EXPECT(flip(0, 1), REFUSED(STRIP_UNFIT));
    EXPECT(out[5], 12);
    EXPECT(words[0], 0xa02);
    EXPECT(fill(0, 0, 0), 3);
    EXPECT(total, 3);

    /* a wrong counter is found, and an empty span lays it right */
    counters[40]++;
    EXPECT(verify(), REFUSED(STRIP_UNFIT));
    EXPECT(fill(12, 12, 1), 3);
    EXPECT(verify(), 3);

    /* P6; 1, 2, 3, and no handle; no buffers at all */
    EXPECT(create(512, 1), 72);
    EXPECT(rank_of(0, 0), 0);
    EXPECT(select_of(0, 0), REFUSED(STRIP_NOT_FOUND));
    EXPECT(create(513, 1), REFUSED(STRIP_BAD_HANDLE));
    EXPECT(create(1024, 1), REFUSED(STRIP_BAD_WORDS));
    counters_len = 71;
    EXPECT(create(512, 1), REFUSED(STRIP_BAD_COUNTERS));
    EXPECT(out[3] + out[4] + out[5], 0);
    counters_len = 72;
    EXPECT(strip_rank(512, 0, 0, NULL, 0, NULL, 0, 2, 1), REFUSED(STRIP_BAD_WORDS));
    EXPECT(strip_verify(0, 0, 0, NULL, 0, NULL, 0), REFUSED(STRIP_BAD_HANDLE));

    /* too short an `out`, or none: nothing happens */
    EXPECT(push(1, 1), 0);
    out[0] = 5;
    strip_push(512, 1, 1, RECORD, 1, out, STRIP_OUT - 1);
    strip_create(512, RECORD, NULL, 0);
    EXPECT(out[0], 5);
    EXPECT(verify(), 1);

    /* P9, P10 */
    full_strip(ONE_LEVEL, 72);
    EXPECT(push(1, 1), REFUSED(STRIP_FULL));
    EXPECT(push(2, 1), REFUSED(STRIP_BAD_VALUE));
    EXPECT(flip(32767, 2), 1);
    EXPECT(rank_of(1, 32768), 32767);
    full_strip(TWO_LEVELS, 216);
    EXPECT(flip(32768, 2), 29);
    EXPECT(select_of(0, 0), 32768);
    EXPECT(select_of(1, 33278), 33279);

    /* P11 */
    for (size_t k = 0; k < COUNT_OF(capacities); k++) {
        room(capacities[k][0], capacities[k][1]);
        EXPECT(create(capacities[k][0], 1), capacities[k][1]);
        EXPECT(verify(), 0);
    }
    free(words);
    free(counters);
    return failed;
}
