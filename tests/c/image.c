/* The calls on an image, from C: the strip 01010 frozen as label 3, and read by its label and from its own part; two
 * more rows frozen; the sizes of records. */
#include "strips.h"

#include "expect.h"
#include "judge.h"
#include "testing.h"

/* 01010 as label 3: 560 bytes, all zero past these. */
static const uint8_t written[49] = {1, 0, 0, 0, 1, 0, 0, 0, 0, 0, 0, 0, 0, 0, 0, 0,  0,
                                    0, 0, 0, 3, 0, 0, 0, 5, 0, 0, 0, 2, 0, 0, 0, 0, 0,
                                    0, 0, 0, 32, 0, 2, 32, 0, 2, 32, 0, 2, 32, 0, 10};

static void expect_bytes(const char *what, const uint8_t *image, const uint8_t *start, size_t count) {
    uint8_t wanted[560];
    memset(wanted, 0, sizeof wanted);
    memcpy(wanted, start, count);
    expect(what, memcmp(image, wanted, sizeof wanted) == 0, 1);
}

static void freeze(uint8_t *image) {
    const uint8_t empty[5] = {0, 0, 0, 0, 1};
    const uint64_t words[8] = {10 + (1 << 5), 0, 0, 0, 0, 0, 0, UINT64_MAX};
    memset(image, 0, 560);
    expect("clear of 15 bytes", image_clear(image, 15), REFUSED(STRIP_NO_ROOM));
    expect("clear", image_clear(image, 560), 16);
    expect("open of an empty chain", image_open(image, 560, 3), REFUSED(STRIP_LABEL_ABSENT));
    expect("freeze, capacity 513", image_freeze(513, 5, 2, words, 8, image, 560, 3), REFUSED(STRIP_BAD_HANDLE));
    expect("freeze, total 6", image_freeze(512, 5, 6, words, 7, image, 560, 3), REFUSED(STRIP_BAD_HANDLE));
    expect("freeze, seven words", image_freeze(512, 5, 2, words, 7, image, 560, 3), REFUSED(STRIP_BAD_WORDS));
    expect("freeze, no words", image_freeze(512, 5, 2, NULL, 0, image, 560, 3), REFUSED(STRIP_BAD_WORDS));
    expect("freeze on no bytes", image_freeze(512, 5, 2, words, 8, NULL, 0, 3), REFUSED(STRIP_UNSOUND));
    expect("freeze, label 65", image_freeze(512, 5, 2, words, 8, image, 560, 65), REFUSED(STRIP_BAD_LABEL));
    expect("freeze on 559 bytes", image_freeze(512, 5, 2, words, 8, image, 559, 3), REFUSED(STRIP_NO_ROOM));
    expect_bytes("bytes after refused calls", image, empty, sizeof empty);
    expect("freeze", image_freeze(512, 5, 2, words, 8, image, 560, 3), 1);
    expect_bytes("bytes after freeze", image, written, sizeof written);
    expect("freeze again", image_freeze(512, 5, 2, words, 8, image, 560, 3), REFUSED(STRIP_LABEL_PRESENT));
    expect("freeze without room", image_freeze(512, 0, 0, words, 8, image, 560, 4), REFUSED(STRIP_NO_ROOM));
    expect_bytes("bytes in the end", image, written, sizeof written);
}

static void read_row(const uint8_t *image) {
    expect("open", image_open(image, 560, 3), 16);
    expect("open of label 65", image_open(image, 560, 65), REFUSED(STRIP_BAD_LABEL));
    expect("open of 559 bytes", image_open(image, 559, 3), REFUSED(STRIP_UNSOUND));
    expect("inspect", image_inspect(image, 560), 1);
    expect("inspect of 559 bytes", image_inspect(image, 559), REFUSED(STRIP_UNSOUND));
    expect("label of row 0", image_row_label(image, 560, 0), 3);
    expect("label of row 1", image_row_label(image, 560, 1), REFUSED(STRIP_LABEL_ABSENT));
    expect("label of row 0 of 559 bytes", image_row_label(image, 559, 0), REFUSED(STRIP_UNSOUND));
    expect("length of row 3", image_row_length(image, 560, 3), 5);
    expect("length of row 4", image_row_length(image, 560, 4), REFUSED(STRIP_LABEL_ABSENT));
    expect("length of row 65", image_row_length(image, 560, 65), REFUSED(STRIP_BAD_LABEL));
    expect("length, no bytes", image_row_length(NULL, 0, 65), REFUSED(STRIP_UNSOUND));
    expect("row look(3)", image_row_get(image, 560, 3, 3), 1);
    expect("row look(5)", image_row_get(image, 560, 3, 5), REFUSED(STRIP_POSITION));
    expect("row count(1, 5)", image_row_rank(image, 560, 3, 1, 5), 2);
    expect("row count(0, 6)", image_row_rank(image, 560, 3, 0, 6), REFUSED(STRIP_POSITION));
    expect("row find(1, 1)", image_row_select(image, 560, 3, 1, 1), 3);
    expect("row find(0, 3)", image_row_select(image, 560, 3, 0, 3), REFUSED(STRIP_NOT_FOUND));
    expect("row find(2, 0)", image_row_select(image, 560, 3, 2, 0), REFUSED(STRIP_BAD_VALUE));
    expect("row look, no bytes", image_row_get(NULL, 0, 3, 3), REFUSED(STRIP_UNSOUND));
    expect("row count, label 0", image_row_rank(image, 560, 0, 1, 5), REFUSED(STRIP_BAD_LABEL));
    expect("row find, label 4", image_row_select(image, 560, 4, 1, 1), REFUSED(STRIP_LABEL_ABSENT));
    expect("look(3) on the opened row", image_opened_get(image, 560, 3, 3), 1);
    expect("look(5) on the opened row", image_opened_get(image, 560, 3, 5), REFUSED(STRIP_POSITION));
    expect("count(1, 5) on the opened row", image_opened_rank(image, 560, 3, 1, 5), 2);
    expect("find(0, 2) on the opened row", image_opened_select(image, 560, 3, 0, 2), 4);
    expect("look, label 4 not opened", image_opened_get(image, 560, 4, 9), REFUSED(STRIP_LABEL_ABSENT));
    expect("count, label 65 not opened", image_opened_rank(image, 560, 65, 2, 9), REFUSED(STRIP_BAD_LABEL));
    expect("find, 559 bytes not opened", image_opened_select(image, 559, 65, 2, 9), REFUSED(STRIP_UNSOUND));
}

static void read_part(const uint8_t *part) {
    expect("look(3)", image_part_get(part, 544, 5, 3), 1);
    expect("look(5)", image_part_get(part, 544, 5, 5), REFUSED(STRIP_POSITION));
    expect("count(1, 5)", image_part_rank(part, 544, 5, 1, 5), 2);
    expect("count(0, 4)", image_part_rank(part, 544, 5, 0, 4), 2);
    expect("find(1, 1)", image_part_select(part, 544, 5, 1, 1), 3);
    expect("find(0, 2)", image_part_select(part, 544, 5, 0, 2), 4);
    expect("find(0, 3)", image_part_select(part, 544, 5, 0, 3), REFUSED(STRIP_NOT_FOUND));
    expect("find(2, 0)", image_part_select(part, 544, 5, 2, 0), REFUSED(STRIP_BAD_VALUE));
    expect("a length not the row's", image_part_get(part, 544, 4, 0), REFUSED(STRIP_UNSOUND));
}

/* Every reading of a label's row at a position, held to the judge: by label, and on the row opened. */
static void hold_readings(const char *what, const uint8_t *image, struct opened o, uint64_t label, uint64_t i) {
    expect(what, image_row_get(image, 560, label, i), get_answer(o, i));
    expect(what, image_opened_get(image, 560, label, i), get_answer(o, i));
    for (size_t k = 0; k < COUNT_OF(values); k++) {
        uint64_t v = values[k];
        hold(what, rank_allowed(o, v, i, image_row_rank(image, 560, label, v, i)), label, v, i);
        hold(what, select_allowed(o, v, i, image_row_select(image, 560, label, v, i)), label, v, i);
        hold(what, rank_allowed(o, v, i, image_opened_rank(image, 560, label, v, i)), label, v, i);
        hold(what, select_allowed(o, v, i, image_opened_select(image, 560, label, v, i)), label, v, i);
    }
}

/* Every reading of a part with a length held. */
static void hold_part(const char *what, const uint8_t *part, size_t size, uint64_t n) {
    static struct judged one;
    struct opened o = open_part(&one, part, size, n);
    for (uint64_t k = 0; k < 8; k++) {
        expect(what, image_part_get(part, size, n, k), get_answer(o, k));
        for (size_t b = 0; b < COUNT_OF(values); b++) {
            uint64_t v = values[b];
            hold(what, rank_allowed(o, v, k, image_part_rank(part, size, n, v, k)), 0, v, k);
            hold(what, select_allowed(o, v, k, image_part_select(part, size, n, v, k)), 0, v, k);
        }
    }
}

/* Inspect, the labels and lengths of rows, opening, a freeze and every reading, at the borders of labels and positions;
 * the image is of 560 bytes. */
static void hold_image(const char *what, const uint8_t *image) {
    static const uint64_t words[8] = {10};
    static struct judged j;
    uint8_t copy[560];
    judge(&j, image, 560);
    expect(what, image_inspect(image, 560), inspect_answer(&j));
    for (size_t k = 0; k < COUNT_OF(small); k++)
        expect(what, image_row_label(image, 560, small[k]), label_answer(&j, small[k]));
    for (size_t k = 0; k < COUNT_OF(far); k++)
        expect(what, image_row_label(image, 560, far[k]), label_answer(&j, far[k]));
    for (size_t l = 0; l < COUNT_OF(labels); l++) {
        struct opened o = open_row(&j, labels[l]);
        memcpy(copy, image, 560);
        expect(what, image_open(image, 560, labels[l]), open_answer(o));
        expect(what, image_row_length(image, 560, labels[l]), length_answer(o));
        expect(what, image_freeze(512, 5, 2, words, 8, copy, 560, labels[l]), freeze_answer(&j, 560, 5, labels[l]));
        for (size_t k = 0; k < COUNT_OF(small); k++)
            hold_readings(what, image, o, labels[l], small[k]);
        for (size_t k = 0; k < COUNT_OF(far); k++)
            hold_readings(what, image, o, labels[l], far[k]);
    }
    for (uint64_t n = 4; n < 7; n++)
        for (size_t size = 543; size < 545; size++)
            hold_part(what, image + 16, size, n);
}

/* Rows of 5,000 and of 0 bits: frozen, every byte is as the layout has it. */
static void freeze_rows(void) {
    enum { SECOND = 16 + 16 + 528 * 2, SIZE = SECOND + 16 + 7 };
    static uint8_t image[SIZE], wanted[SIZE];
    uint64_t words[80], state = 1;
    for (size_t w = 0; w < 80; w++)
        words[w] = state = state * UINT64_C(6364136223846793005) + UINT64_C(1442695040888963407);
    memset(image, 0xa5, SIZE);
    memset(wanted, 0xa5, SIZE);
    write_header(wanted, 1);
    write_record(wanted + 16, SECOND / 16, 64, 5000, words);
    write_record(wanted + SECOND, 0, 1, 0, words);
    expect("clear", image_clear(image, SIZE), 16);
    expect("freeze of 5,000 bits", image_freeze(5120, 5000, 17, words, 80, image, SIZE, 64), 1);
    expect("freeze of no bits", image_freeze(5120, 0, 0, words, 80, image, SIZE, 1), SECOND / 16);
    expect("bytes of two rows", memcmp(image, wanted, SIZE) == 0, 1);
}

/* The size of a record at each number of superblocks up to some, and around the greatest length. */
static void record_sizes(void) {
    expect("size of no bits", image_record_size(0), 16);
    expect("size of 5 bits", image_record_size(5), 544);
    expect("size of 4,097 bits", image_record_size(4097), 16 + 528 * 2);
    expect("size of the longest", image_record_size(LARGEST), 16 + 528 * 32768);
    expect("size of one bit more", image_record_size(LARGEST + 1), REFUSED(STRIP_POSITION));
    for (uint64_t length = 0; length < 70000; length++)
        EXPECT(image_record_size(length), record_size_answer(length));
    for (uint64_t length = LARGEST - 5000; length < LARGEST + 5000; length++)
        EXPECT(image_record_size(length), record_size_answer(length));
    for (size_t k = 0; k < COUNT_OF(far); k++)
        EXPECT(image_record_size(far[k]), REFUSED(STRIP_POSITION));
}

int main(void) {
    uint8_t image[560];
    freeze(image);
    read_row(image);
    read_part(image + 16);
    hold_image("the example", image);
    image[28] = 6;
    expect("a wrong number of ones", image_part_select(image + 16, 544, 5, 1, 0), REFUSED(STRIP_WRONG_ROW));
    expect("a wrong number of ones, by label", image_row_select(image, 560, 3, 1, 0), REFUSED(STRIP_WRONG_ROW));
    hold_image("a wrong number of ones", image);
    image[28] = 2;
    image[20] = 65;
    hold_image("a wrong label", image);
    image_clear(image, 560);
    hold_image("an empty chain", image);
    for (size_t k = 0; k < COUNT_OF(sizes); k++)
        expect("clear", image_clear(image, sizes[k]), clear_answer(sizes[k]));
    freeze_rows();
    record_sizes();
    if (!failed) {
        puts("image: passed");
    }
    return failed;
}
