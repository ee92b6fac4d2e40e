/* The merge of two images, from C: 01010 as label 3 beside an empty row, byte by byte; every refusal beside every
 * other; rows of every border's length, equal and unequal, against the judge. */
#include "strips.h"

#include "expect.h"
#include "judge.h"

/* Room for three rows of 4,097 bits, and 7 bytes more. */
enum { ROOM = 16 + 3 * (16 + 528 * 2) + 7 };

struct image {
    uint8_t bytes[ROOM];
    size_t size;
};

static const uint64_t zeros[8], alternating[8] = {10}, moved[8] = {12};

/* An image with no row. */
static struct image empty(size_t size)
{
    struct image image = {{0}, size};
    expect("clear", image_clear(image.bytes, size), IMAGE_HEADER_BYTES);
    return image;
}

/* An image with one row more. */
static struct image with(struct image image, uint64_t label, uint64_t length, uint64_t capacity, const uint64_t *words)
{
    uint64_t told = image_freeze(capacity, length, 0, words, STRIP_WORDS(capacity), image.bytes, image.size, label);
    expect("freeze", STRIP_REFUSED(told), 0);
    return image;
}

/* A merge, held to the judge: its answer, every byte of the third buffer and the byte after it, and both images. */
static void hold_merge(const char *what, const struct image *first, const struct image *second, size_t room)
{
    static struct judged judged[3];
    struct image x = *first, y = *second;
    uint8_t third[ROOM + 1];
    struct merged m;
    judge(&judged[0], x.bytes, x.size);
    judge(&judged[1], y.bytes, y.size);
    memset(third, 0xa5, sizeof third);
    uint64_t wanted = merge_answer(&m, &judged[0], &judged[1], room);
    expect(what, image_merge(x.bytes, x.size, y.bytes, y.size, room == 0 ? NULL : third, room), wanted);
    judge(&judged[2], third, room);
    expect(what, STRIP_REFUSED(wanted) || merge_written(&m, &judged[2]), 1);
    for (size_t b = STRIP_REFUSED(wanted) ? 0 : m.size; b < sizeof third; b++)
        expect("a byte kept", third[b], 0xa5);
    expect("the first image as it was", memcmp(x.bytes, first->bytes, ROOM) == 0, 1);
    expect("the second image as it was", memcmp(y.bytes, second->bytes, ROOM) == 0, 1);
}

/* 01010 as label 3 in both images, in the second after an empty row of label 64. */
static void expect_example(void)
{
    enum { END = IMAGE_HEADER_BYTES + IMAGE_RECORD_BYTES(5) + IMAGE_RECORD_BYTES(0) };
    struct image first = with(empty(ROOM), 3, 5, 512, alternating);
    struct image second = with(with(empty(ROOM), 64, 0, 512, zeros), 3, 5, 512, alternating);
    uint8_t third[END + 1], wanted[END + 1];
    memset(third, 0xa5, sizeof third);
    memset(wanted, 0xa5, sizeof wanted);
    write_header(wanted, 1);
    write_record(wanted + 16, 35, 3, 5, alternating);
    write_record(wanted + 560, 0, 64, 0, zeros);
    EXPECT(image_merge(first.bytes, ROOM, second.bytes, ROOM, third, END - 1), REFUSED(STRIP_NO_ROOM));
    EXPECT(third[0], 0xa5);
    EXPECT(image_merge(first.bytes, ROOM, second.bytes, ROOM, third, END), 2);
    expect("label 3, then 64", memcmp(third, wanted, sizeof third) == 0, 1);
    EXPECT(image_inspect(third, END), 2);
    EXPECT(image_row_label(third, END, 0), 3);
    EXPECT(image_row_label(third, END, 1), 64);
    EXPECT(image_row_rank(third, END, 3, 1, 5), 2);
    EXPECT(image_row_select(third, END, 3, 1, 1), 3);
    EXPECT(image_row_get(third, END, 3, 3), 1);
    EXPECT(image_row_length(third, END, 64), 0);

    write_record(wanted + 16, 2, 64, 0, zeros);
    write_record(wanted + 32, 0, 3, 5, alternating);
    EXPECT(image_merge(second.bytes, ROOM, first.bytes, ROOM, third, END), 2);
    expect("label 64, then 3", memcmp(third, wanted, sizeof third) == 0, 1);
}

/* Two images with a row of label 3, 01010, and two with another row of it: with a one at another place, and longer. */
static struct image row, same, other, longer;

/* Two with no row; the first of those above with wrong ones, with a wrong kind, with wrong ones and a wrong label, and
 * cut off; and one of no bytes. */
static struct image none, empty_too, wrong, broken, both, cut, nothing;

static void make_images(void)
{
    row = same = wrong = broken = both = cut = with(empty(ROOM), 3, 5, 512, alternating);
    other = with(empty(600), 3, 5, 512, moved);
    longer = with(empty(ROOM), 3, 6, 512, alternating);
    none = empty_too = empty(IMAGE_HEADER_BYTES);
    wrong.bytes[28] = both.bytes[28] = 3;
    broken.bytes[4] = 2;
    both.bytes[20] = 65;
    cut.size = 559;
}

#define MERGE(x, y, room) image_merge((x).bytes, (x).size, (y).bytes, (y).size, third, room)

/* The first image's 10 or 15, the second's, 18, 13: each before those that follow it. */
static void expect_order(void)
{
    uint8_t third[ROOM];
    EXPECT(MERGE(broken, wrong, 15), REFUSED(STRIP_UNSOUND));
    EXPECT(MERGE(wrong, broken, 15), REFUSED(STRIP_WRONG_ROW));
    EXPECT(MERGE(both, row, ROOM), REFUSED(STRIP_UNSOUND));
    EXPECT(MERGE(other, wrong, 15), REFUSED(STRIP_WRONG_ROW));
    EXPECT(MERGE(other, cut, 15), REFUSED(STRIP_UNSOUND));
    EXPECT(MERGE(row, other, 15), REFUSED(STRIP_CONFLICT));
    EXPECT(MERGE(row, other, ROOM), REFUSED(STRIP_CONFLICT));
    EXPECT(MERGE(row, longer, ROOM), REFUSED(STRIP_CONFLICT));
    EXPECT(MERGE(row, same, 559), REFUSED(STRIP_NO_ROOM));
    EXPECT(MERGE(row, same, 560), 1);
    EXPECT(MERGE(row, row, 560), 1);
    EXPECT(MERGE(none, empty_too, 15), REFUSED(STRIP_NO_ROOM));
    EXPECT(MERGE(none, empty_too, 16), 0);
    EXPECT(image_merge(NULL, 0, NULL, 0, NULL, 0), REFUSED(STRIP_UNSOUND));
    EXPECT(image_merge(none.bytes, 16, NULL, 0, NULL, 0), REFUSED(STRIP_UNSOUND));
    EXPECT(image_merge(none.bytes, 16, empty_too.bytes, 16, NULL, 0), REFUSED(STRIP_NO_ROOM));
}

/* Each image with each, into third buffers of the borders' sizes. */
static void expect_faults(void)
{
    const struct image *images[] = {&row, &other, &longer, &none, &wrong, &broken, &both, &cut, &nothing};
    for (size_t x = 0; x < COUNT_OF(images); x++)
        for (size_t y = 0; y < COUNT_OF(images); y++)
            for (size_t s = 0; s < COUNT_OF(sizes); s++)
                hold_merge("images with faults", images[x], images[y], sizes[s]);
}

/* Label 5 of every border's length in either image, with the same bits as far as both go, and other rows after it. */
static void expect_borders(void)
{
    enum { CAPACITY = 4608 };
    uint64_t words[CAPACITY / 64], state = 1;
    for (size_t w = 0; w < COUNT_OF(words); w++)
        words[w] = state = state * UINT64_C(6364136223846793005) + UINT64_C(1442695040888963407);
    for (size_t a = 0; a < COUNT_OF(small); a++)
        for (size_t b = 0; b < COUNT_OF(small); b++) {
            struct image first = with(empty(ROOM), 5, small[a], CAPACITY, words);
            struct image second = with(with(empty(ROOM), 64, small[a], CAPACITY, words), 5, small[b], CAPACITY, words);
            struct image apart = with(with(empty(ROOM), 1, small[b], CAPACITY, words), 2, 17, CAPACITY, words);
            hold_merge("one label in both", &first, &second, ROOM);
            hold_merge("one label in both", &second, &first, ROOM);
            hold_merge("no label in both", &first, &apart, ROOM);
            hold_merge("no label in both", &apart, &first, ROOM);
        }
}

int main(void)
{
    expect_example();
    make_images();
    expect_order();
    expect_faults();
    expect_borders();
    return failed;
}
