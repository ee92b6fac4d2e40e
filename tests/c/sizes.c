/* The sizes that the macros give, held to what the library tells and asks for, at every capacity and at the edges of
 * every record size; and the refusals by name. */
#include "expect.h"
#include "strips.h"

#include <inttypes.h>
#include <stdio.h>

/* ---- Constant expressions. */

#define SMALLEST 512
#define LARGEST 134217728

_Static_assert(STRIP_BAD_HANDLE == 1, "refusal 1");
_Static_assert(STRIP_BAD_WORDS == 2, "refusal 2");
_Static_assert(STRIP_BAD_COUNTERS == 3, "refusal 3");
_Static_assert(STRIP_POSITION == 4, "refusal 4");
_Static_assert(STRIP_SPAN == 5, "refusal 5");
_Static_assert(STRIP_NOT_FOUND == 6, "refusal 6");
_Static_assert(STRIP_FULL == 7, "refusal 7");
_Static_assert(STRIP_BAD_VALUE == 8, "refusal 8");
_Static_assert(STRIP_UNFIT == 9, "refusal 9");
_Static_assert(STRIP_UNSOUND == 10, "refusal 10");
_Static_assert(STRIP_BAD_LABEL == 11, "refusal 11");
_Static_assert(STRIP_LABEL_PRESENT == 12, "refusal 12");
_Static_assert(STRIP_NO_ROOM == 13, "refusal 13");
_Static_assert(STRIP_LABEL_ABSENT == 14, "refusal 14");
_Static_assert(STRIP_WRONG_ROW == 15, "refusal 15");
_Static_assert(STRIP_UNEQUAL == 16, "refusal 16");
_Static_assert(STRIP_BAD_WINDOW == 17, "refusal 17");
_Static_assert(STRIP_CONFLICT == 18, "refusal 18");

_Static_assert(!STRIP_REFUSED(0) && !STRIP_REFUSED(UINT32_MAX), "values");
_Static_assert(STRIP_REFUSED((UINT64_C(1) << 32) + 1) && STRIP_REFUSED(UINT64_MAX), "refusals");
_Static_assert(STRIP_REFUSAL((UINT64_C(1) << 32) + 15) == STRIP_WRONG_ROW, "a refusal");
_Static_assert(STRIP_REFUSAL((UINT64_C(1) << 32) + 17) == STRIP_BAD_WINDOW, "a refusal");
_Static_assert(STRIP_REFUSAL((UINT64_C(1) << 32) + 18) == STRIP_CONFLICT, "a refusal");

/* Of a signed answer: a negative value is no refusal. */
_Static_assert(!STRIP_REFUSED(INT64_C(-1)) && !STRIP_REFUSED(-(int64_t)LARGEST) && !STRIP_REFUSED(INT64_MIN), "values");
_Static_assert(!STRIP_REFUSED(INT64_C(0)) && !STRIP_REFUSED((int64_t)LARGEST), "values");
_Static_assert(STRIP_REFUSED((INT64_C(1) << 32) + 1) && STRIP_REFUSED((INT64_C(1) << 32) + 16), "refusals");
_Static_assert(STRIP_REFUSAL((INT64_C(1) << 32) + 16) == STRIP_UNEQUAL, "a refusal");

_Static_assert(STRIP_OUT == 6 && IMAGE_HEADER_BYTES == 16, "fixed sizes");
_Static_assert(STRIP_WAITING_COUNT_OUT == 3 && STRIP_WAITING_FIND_OUT == 4, "fixed sizes");
_Static_assert(STRIP_WORDS(SMALLEST) == 8 && STRIP_WORDS(LARGEST) == 2097152, "words");
_Static_assert(STRIP_COUNTERS(32768) == 72 && STRIP_COUNTERS(33280) == 216, "counters of one level and of two");
_Static_assert(STRIP_COUNTERS(2097152) == 4680 && STRIP_COUNTERS(2097664) == 4896, "counters of two and of three");
_Static_assert(STRIP_COUNTERS(SMALLEST) == 72 && STRIP_COUNTERS(LARGEST) == 299592, "counters, least and most");
_Static_assert(IMAGE_RECORD_BYTES(0) == 16 && IMAGE_RECORD_BYTES(LARGEST) == 17301520, "records, least and most");

/* Operators around an argument, and around a macro, bind as they look. */
_Static_assert(STRIP_WORDS(512 + 512) == 16 && 2 * STRIP_WORDS(512) == 16 && 64 / STRIP_WORDS(512) == 8, "words");
_Static_assert(STRIP_COUNTERS(32768 + 512) == 216 && 144 / STRIP_COUNTERS(512) == 2, "counters");
_Static_assert(IMAGE_RECORD_BYTES(1 ? 1 : 0) == 544 && 1088 / IMAGE_RECORD_BYTES(1) == 2, "records");

/* Room for the largest record, and one element more of each; for the largest row, and one byte more. */
static uint64_t words[STRIP_WORDS(LARGEST) + 1];
static uint32_t counters[STRIP_COUNTERS(LARGEST) + 1];
static uint8_t image[IMAGE_HEADER_BYTES + IMAGE_RECORD_BYTES(LARGEST) + 1];

/* ---- Runs. */

/* What a call answers at this capacity or length. */
static void expect_at(const char *what, uint64_t argument, uint64_t answer, uint64_t expected)
{
    char name[64];
    if (answer == expected)
        return;
    snprintf(name, sizeof name, "%s at %" PRIu64, what, argument);
    expect(name, answer, expected);
}

/* A capacity that is allowed: the words and counters that the macros give are accepted, one less and one more not. */
static void expect_allowed(uint64_t capacity)
{
    size_t w = STRIP_WORDS(capacity), c = STRIP_COUNTERS(capacity);
    expect_at("counters told", capacity, strip_counter_count(capacity), c);
    expect_at("words and counters", capacity, strip_rank(capacity, 0, 0, words, w, counters, c, 1, 0), 0);
    expect_at("a word less", capacity, strip_rank(capacity, 0, 0, words, w - 1, counters, c, 1, 0),
              REFUSED(STRIP_BAD_WORDS));
    expect_at("a word more", capacity, strip_rank(capacity, 0, 0, words, w + 1, counters, c, 1, 0),
              REFUSED(STRIP_BAD_WORDS));
    expect_at("a counter less", capacity, strip_rank(capacity, 0, 0, words, w, counters, c - 1, 1, 0),
              REFUSED(STRIP_BAD_COUNTERS));
    expect_at("a counter more", capacity, strip_rank(capacity, 0, 0, words, w, counters, c + 1, 1, 0),
              REFUSED(STRIP_BAD_COUNTERS));
}

static void expect_barred(uint64_t capacity)
{
    expect_at("counters told", capacity, strip_counter_count(capacity), REFUSED(STRIP_BAD_HANDLE));
}

static void expect_record(uint64_t length)
{
    expect_at("bytes of a record", length, image_record_size(length), IMAGE_RECORD_BYTES(length));
}

/* A row ends with an image of the size that the macros give, and not inside one of a byte less. */
static void expect_row(uint64_t length)
{
    size_t size = IMAGE_HEADER_BYTES + IMAGE_RECORD_BYTES(length);
    expect_at("clear", length, image_clear(image, size), IMAGE_HEADER_BYTES);
    expect_at("a byte less", length, image_freeze(LARGEST, length, 0, words, STRIP_WORDS(LARGEST), image, size - 1, 1),
              REFUSED(STRIP_NO_ROOM));
    expect_at("room for a row", length, image_freeze(LARGEST, length, 0, words, STRIP_WORDS(LARGEST), image, size, 1),
              1);
    expect_at("the byte after it", length, image[size], 0xa5);
}

int main(void)
{
    for (uint64_t capacity = SMALLEST; capacity <= LARGEST; capacity += 512) {
        expect_allowed(capacity);
        for (uint64_t off = 1; off < 512; off *= 2) {
            expect_barred(capacity - off);
            expect_barred(capacity + off);
        }
        expect_barred(capacity - 511);
        expect_barred(capacity + 511);
    }
    static const uint64_t barred[] = {0,
                                      LARGEST + 512,
                                      2 * (uint64_t)LARGEST,
                                      UINT64_C(1) << 32,
                                      (UINT64_C(1) << 32) + SMALLEST,
                                      (UINT64_C(1) << 32) + LARGEST,
                                      UINT64_C(1) << 63,
                                      (UINT64_C(1) << 63) + SMALLEST,
                                      UINT64_MAX - 511,
                                      UINT64_MAX};
    for (size_t k = 0; k < sizeof barred / sizeof *barred; k++)
        expect_barred(barred[k]);

    for (uint64_t length = 0; length <= 20000; length++)
        expect_record(length);
    for (uint64_t length = 4096; length < LARGEST; length += 4096) {
        expect_record(length - 1);
        expect_record(length);
        expect_record(length + 1);
    }
    expect_record(LARGEST - 1);
    expect_record(LARGEST);
    static const uint64_t longer[] = {LARGEST + 1,
                                      LARGEST + 4096,
                                      UINT32_MAX,
                                      UINT64_C(1) << 32,
                                      (UINT64_C(1) << 32) + 1,
                                      UINT64_C(1) << 63,
                                      UINT64_MAX - 4095,
                                      UINT64_MAX};
    for (size_t k = 0; k < sizeof longer / sizeof *longer; k++)
        expect_at("bytes of a record", longer[k], image_record_size(longer[k]), REFUSED(STRIP_POSITION));

    static const uint64_t rows[] = {0, 1, 512, 4095, 4096, 4097, 8192, 8193, LARGEST - 4096, LARGEST - 1, LARGEST};
    for (size_t k = 0; k < sizeof rows / sizeof *rows; k++) {
        for (size_t b = 0; b < sizeof image; b++)
            image[b] = 0xa5;
        expect_row(rows[k]);
    }
    return failed;
}
