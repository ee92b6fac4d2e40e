/* The display's six functions, from C, with its own library alone: on the image of strip 01010 as label 3, on shorter,
 * empty and wrong images, and on two rows that are written here. */
#include "display.h"

#include "expect.h"
#include "judge.h"

/* 01010 as label 3: 560 bytes, zero past these. */
static const uint8_t example[560] = {1, 0, 0, 0, 1, 0, 0,  0, 0, 0,  0, 0, 0,  0, 0, 0,  0, 0, 0,  0, 3, 0, 0, 0, 5,
                                     0, 0, 0, 2, 0, 0, 0,  0, 0, 0,  0, 0, 32, 0, 2, 32, 0, 2, 32, 0, 2, 32, 0, 10};

/* The three readings of a label's row at a position, held to the judge. */
static void hold_readings(const char *name, const uint8_t *image, size_t image_len, struct opened o, uint64_t label,
                          uint64_t i)
{
    expect(name, image_row_get(image, image_len, label, i), get_answer(o, i));
    for (size_t k = 0; k < COUNT_OF(values); k++) {
        uint64_t v = values[k];
        hold(name, rank_allowed(o, v, i, image_row_rank(image, image_len, label, v, i)), label, v, i);
        hold(name, select_allowed(o, v, i, image_row_select(image, image_len, label, v, i)), label, v, i);
    }
}

/* All six functions at all borders of labels, values and positions. */
static void hold_image(const char *name, const uint8_t *image, size_t image_len)
{
    static struct judged j;
    judge(&j, image, image_len);
    expect(name, image_inspect(image, image_len), inspect_answer(&j));
    for (size_t k = 0; k < COUNT_OF(small); k++)
        expect(name, image_row_label(image, image_len, small[k]), label_answer(&j, small[k]));
    for (size_t k = 0; k < COUNT_OF(far); k++)
        expect(name, image_row_label(image, image_len, far[k]), label_answer(&j, far[k]));
    for (size_t l = 0; l < COUNT_OF(labels); l++) {
        struct opened o = open_row(&j, labels[l]);
        expect(name, image_row_length(image, image_len, labels[l]), length_answer(o));
        for (size_t k = 0; k < COUNT_OF(small); k++)
            hold_readings(name, image, image_len, o, labels[l], small[k]);
        for (size_t k = 0; k < COUNT_OF(far); k++)
            hold_readings(name, image, image_len, o, labels[l], far[k]);
    }
}

static void expect_row(void)
{
    static const uint64_t bits[5] = {0, 1, 0, 1, 0}, ones[6] = {0, 0, 1, 1, 2, 2};
    expect("inspect", image_inspect(example, 560), 1);
    expect("label of row 0", image_row_label(example, 560, 0), 3);
    expect("length", image_row_length(example, 560, 3), 5);
    for (uint64_t i = 0; i < 5; i++)
        expect("look(i)", image_row_get(example, 560, 3, i), bits[i]);
    for (uint64_t i = 0; i < 6; i++) {
        expect("count(1, i)", image_row_rank(example, 560, 3, 1, i), ones[i]);
        expect("count(0, i)", image_row_rank(example, 560, 3, 0, i), i - ones[i]);
    }
    expect("find(1, 0)", image_row_select(example, 560, 3, 1, 0), 1);
    expect("find(1, 1)", image_row_select(example, 560, 3, 1, 1), 3);
    expect("find(0, 0)", image_row_select(example, 560, 3, 0, 0), 0);
    expect("find(0, 2)", image_row_select(example, 560, 3, 0, 2), 4);
}

/* 11, 14, 8, 4 and 6, the first of them that applies; numbers are not cut to 32 bits. */
static void expect_refusals(void)
{
    expect("label of row 1", image_row_label(example, 560, 1), REFUSED(STRIP_LABEL_ABSENT));
    expect("label of row 2^32", image_row_label(example, 560, WIDE), REFUSED(STRIP_LABEL_ABSENT));
    expect("label of row UINT64_MAX", image_row_label(example, 560, UINT64_MAX), REFUSED(STRIP_LABEL_ABSENT));
    expect("length, label 0", image_row_length(example, 560, 0), REFUSED(STRIP_BAD_LABEL));
    expect("length, label 2^32 + 3", image_row_length(example, 560, WIDE + 3), REFUSED(STRIP_BAD_LABEL));
    expect("length, label 4", image_row_length(example, 560, 4), REFUSED(STRIP_LABEL_ABSENT));
    expect("look, label 0", image_row_get(example, 560, 0, 9), REFUSED(STRIP_BAD_LABEL));
    expect("look, label 65", image_row_get(example, 560, 65, 9), REFUSED(STRIP_BAD_LABEL));
    expect("look, label 2^32 + 3", image_row_get(example, 560, WIDE + 3, 0), REFUSED(STRIP_BAD_LABEL));
    expect("look, label 4", image_row_get(example, 560, 4, 9), REFUSED(STRIP_LABEL_ABSENT));
    expect("look(5)", image_row_get(example, 560, 3, 5), REFUSED(STRIP_POSITION));
    expect("look(2^32)", image_row_get(example, 560, 3, WIDE), REFUSED(STRIP_POSITION));
    expect("count, label 65", image_row_rank(example, 560, 65, 2, 9), REFUSED(STRIP_BAD_LABEL));
    expect("count, label 64", image_row_rank(example, 560, 64, 2, 9), REFUSED(STRIP_LABEL_ABSENT));
    expect("count(2, 9)", image_row_rank(example, 560, 3, 2, 9), REFUSED(STRIP_BAD_VALUE));
    expect("count(2^32 + 1, 0)", image_row_rank(example, 560, 3, WIDE + 1, 0), REFUSED(STRIP_BAD_VALUE));
    expect("count(1, 6)", image_row_rank(example, 560, 3, 1, 6), REFUSED(STRIP_POSITION));
    expect("count(0, UINT64_MAX)", image_row_rank(example, 560, 3, 0, UINT64_MAX), REFUSED(STRIP_POSITION));
    expect("find, label 0", image_row_select(example, 560, 0, 2, 9), REFUSED(STRIP_BAD_LABEL));
    expect("find, label 1", image_row_select(example, 560, 1, 2, 9), REFUSED(STRIP_LABEL_ABSENT));
    expect("find(2, 9)", image_row_select(example, 560, 3, 2, 9), REFUSED(STRIP_BAD_VALUE));
    expect("find(1, 2)", image_row_select(example, 560, 3, 1, 2), REFUSED(STRIP_NOT_FOUND));
    expect("find(0, 3)", image_row_select(example, 560, 3, 0, 3), REFUSED(STRIP_NOT_FOUND));
    expect("find(1, UINT64_MAX)", image_row_select(example, 560, 3, 1, UINT64_MAX), REFUSED(STRIP_NOT_FOUND));
}

/* All six functions, where the chain is not sound. */
static void expect_unsound(const char *name, const uint8_t *image, size_t image_len)
{
    expect(name, image_inspect(image, image_len), REFUSED(STRIP_UNSOUND));
    expect(name, image_row_rank(image, image_len, 0, 2, 9), REFUSED(STRIP_UNSOUND));
    expect(name, image_row_select(image, image_len, 0, 2, 9), REFUSED(STRIP_UNSOUND));
    expect(name, image_row_get(image, image_len, 0, 9), REFUSED(STRIP_UNSOUND));
    expect(name, image_row_length(image, image_len, 0), REFUSED(STRIP_UNSOUND));
    expect(name, image_row_label(image, image_len, 9), REFUSED(STRIP_UNSOUND));
    hold_image(name, image, image_len);
}

/* The example with one byte changed. */
static const uint8_t *changed(size_t byte, uint8_t value)
{
    static uint8_t image[560];
    memcpy(image, example, sizeof image);
    image[byte] = value;
    return image;
}

static void expect_others(void)
{
    const uint8_t *empty = changed(0, 0);
    expect("inspect of an empty chain", image_inspect(empty, 16), 0);
    expect("count in an empty chain", image_row_rank(empty, 16, 3, 1, 0), REFUSED(STRIP_LABEL_ABSENT));
    expect("find in an empty chain", image_row_select(empty, 16, 3, 1, 0), REFUSED(STRIP_LABEL_ABSENT));
    expect("look in an empty chain", image_row_get(empty, 16, 3, 0), REFUSED(STRIP_LABEL_ABSENT));
    expect("length in an empty chain", image_row_length(empty, 16, 3), REFUSED(STRIP_LABEL_ABSENT));
    expect("label in an empty chain", image_row_label(empty, 16, 0), REFUSED(STRIP_LABEL_ABSENT));
    expect_unsound("no bytes", NULL, 0);
    expect_unsound("15 bytes", example, 15);
    expect_unsound("559 bytes", example, 559);
    expect_unsound("kind 2", changed(4, 2), 560);
    expect_unsound("label 65", changed(20, 65), 560);
    expect_unsound("a next that leads back", changed(16, 1), 560);
    expect("inspect, a wrong entry", image_inspect(changed(37, 33), 560), REFUSED(STRIP_WRONG_ROW));
    expect("inspect, a one past the length", image_inspect(changed(48, 10 + 32), 560), REFUSED(STRIP_WRONG_ROW));
    expect("inspect, a wrong number of ones", image_inspect(changed(28, 6), 560), REFUSED(STRIP_WRONG_ROW));
    expect("find, a wrong number of ones", image_row_select(changed(28, 6), 560, 3, 1, 0), REFUSED(STRIP_WRONG_ROW));
    expect("look, a wrong number of ones", image_row_get(changed(28, 6), 560, 3, 1), 1);
    expect("length, a wrong number of ones", image_row_length(changed(28, 6), 560, 3), 5);
    expect("label, a wrong number of ones", image_row_label(changed(28, 6), 560, 0), 3);
    hold_image("the example", example, 560);
    for (size_t byte = 0; byte < 64; byte++)
        hold_image("the example, a byte changed", changed(byte, example[byte] ^ 1), 560);
}

/* Two rows of 5,000 and of 0 bits: all positions against a plain count, and one row wrong beside the other. */
static void expect_rows(void)
{
    enum { SECOND = 16 + 16 + 528 * 2 };
    static uint8_t image[SECOND + 16 + 7];
    static uint64_t words[80];
    uint64_t state = 1, seen[2] = {0, 0};
    for (size_t w = 0; w < 80; w++)
        words[w] = state = state * UINT64_C(6364136223846793005) + UINT64_C(1442695040888963407);
    write_header(image, 1);
    write_record(image + 16, SECOND / 16, 64, 5000, words);
    write_record(image + SECOND, 0, 1, 0, words);
    expect("inspect of two rows", image_inspect(image, sizeof image), 2);
    expect("label of the first", image_row_label(image, sizeof image, 0), 64);
    expect("label of the second", image_row_label(image, sizeof image, 1), 1);
    expect("label of a third", image_row_label(image, sizeof image, 2), REFUSED(STRIP_LABEL_ABSENT));
    expect("length of the first", image_row_length(image, sizeof image, 64), 5000);
    expect("length of the second", image_row_length(image, sizeof image, 1), 0);
    for (uint64_t i = 0; i < 5000; i++) {
        uint64_t bit = words[i / 64] >> (i % 64) & 1;
        expect("look", image_row_get(image, sizeof image, 64, i), bit);
        expect("count of ones", image_row_rank(image, sizeof image, 64, 1, i), seen[1]);
        expect("count of zeros", image_row_rank(image, sizeof image, 64, 0, i), seen[0]);
        expect("find", image_row_select(image, sizeof image, 64, bit, seen[bit]), i);
        seen[bit]++;
    }
    expect("count at the length", image_row_rank(image, sizeof image, 64, 1, 5000), seen[1]);
    expect("count above it", image_row_rank(image, sizeof image, 64, 1, 5001), REFUSED(STRIP_POSITION));
    expect("find past the last", image_row_select(image, sizeof image, 64, 1, seen[1]), REFUSED(STRIP_NOT_FOUND));
    expect("look in an empty row", image_row_get(image, sizeof image, 1, 0), REFUSED(STRIP_POSITION));
    expect("count in an empty row", image_row_rank(image, sizeof image, 1, 0, 0), 0);
    expect("find in an empty row", image_row_select(image, sizeof image, 1, 0, 0), REFUSED(STRIP_NOT_FOUND));
    hold_image("two rows", image, sizeof image);
    image[SECOND + 12] = 1;
    hold_image("two rows, one wrong", image, sizeof image);
    expect("inspect, the second row wrong", image_inspect(image, sizeof image), REFUSED(STRIP_WRONG_ROW));
    expect("find in the first", image_row_select(image, sizeof image, 64, 1, seen[1]), REFUSED(STRIP_NOT_FOUND));
    expect("count in the first", image_row_rank(image, sizeof image, 64, 1, 5000), seen[1]);
    expect("length of the second, wrong", image_row_length(image, sizeof image, 1), 0);
    expect("label of the second, wrong", image_row_label(image, sizeof image, 1), 1);
}

int main(void)
{
    expect_row();
    expect_refusals();
    expect_others();
    expect_rows();
    if (!failed)
        puts("display: passed");
    return failed;
}
