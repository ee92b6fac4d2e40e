/* Merges two images of one engine: merge FIRST SECOND THIRD, the names of three files. Writes the result to the third,
 * and prints a line for each of its rows, in chain order: label, length, misfires, and which image has the row, the
 * first, the second or both. Where the merge is refused it prints why, and writes no file. */
#include "image_file.h"
#include "strips.h"

#include <inttypes.h>

static struct image_file first, second, third;

/* An image as the calls take it. */
#define LENT(image) (image).bytes, (image).len

static bool has_row(struct image_file image, uint64_t label)
{
    return !STRIP_REFUSED(image_row_length(LENT(image), label));
}

/* The label of the k-th row in chain order; 0 past the last. */
static uint64_t label_at(struct image_file image, uint64_t k)
{
    uint64_t label = image_row_label(LENT(image), k);
    return STRIP_REFUSED(label) ? 0 : label;
}

static uint64_t misfires_of(struct image_file image, uint64_t label)
{
    return image_row_rank(LENT(image), label, 1, image_row_length(LENT(image), label));
}

/* The bytes of the result: its header, and a record for each row. Of an image with no sound chain, which the merge
 * refuses, no row counts. */
static size_t merged_size(void)
{
    size_t size = IMAGE_HEADER_BYTES;
    for (uint64_t k = 0, label; (label = label_at(first, k)) != 0; k++)
        size += image_record_size(image_row_length(LENT(first), label));
    for (uint64_t k = 0, label; (label = label_at(second, k)) != 0; k++)
        if (!has_row(first, label))
            size += image_record_size(image_row_length(LENT(second), label));
    return size;
}

/* Whether the rows of a label that is in both images are unequal: in length, in misfires, or in the place of one. */
static bool unequal(uint64_t label)
{
    uint64_t misfires = misfires_of(first, label);
    if (image_row_length(LENT(first), label) != image_row_length(LENT(second), label) ||
        misfires_of(second, label) != misfires)
        return true;
    for (uint64_t k = 0; k < misfires; k++)
        if (image_row_select(LENT(first), label, 1, k) != image_row_select(LENT(second), label, 1, k))
            return true;
    return false;
}

/* The first label of the second image that is in both, with unequal rows; 0 where there is none. */
static uint64_t conflict(void)
{
    for (uint64_t k = 0, label; (label = label_at(second, k)) != 0; k++)
        if (has_row(first, label) && unequal(label))
            return label;
    return 0;
}

/* Why the merge is refused. No room is never why: the third buffer has the bytes of the result. */
static void explain(enum strip_refusal why)
{
    const char *which = STRIP_REFUSED(image_inspect(LENT(first))) ? "first" : "second";
    if (why == STRIP_CONFLICT)
        printf("refused %d: label %" PRIu64 " is in both images, with unequal rows\n", (int)why, conflict());
    else
        printf("refused %d: %s in the %s image\n", (int)why, why == STRIP_UNSOUND ? "no sound chain" : "a wrong row",
               which);
}

static void show_row(uint64_t label)
{
    const char *from = !has_row(second, label) ? "first" : !has_row(first, label) ? "second" : "both";
    printf("%" PRIu64 " %" PRIu64 " %" PRIu64 " %s\n", label, image_row_length(LENT(third), label),
           misfires_of(third, label), from);
}

/* Tells what failed with the file. */
static int failed(const char *path)
{
    perror(path);
    return 2;
}

int main(int count, char **words)
{
    uint64_t rows;
    if (count != 4) {
        fprintf(stderr, "usage: %s FIRST SECOND THIRD\n", words[0]);
        return 2;
    }
    if (!read_image(words[1], &first))
        return failed(words[1]);
    if (!read_image(words[2], &second))
        return failed(words[2]);
    third.len = merged_size();
    third.bytes = malloc(third.len);
    if (third.bytes == NULL)
        return failed(words[3]);
    rows = image_merge(LENT(first), LENT(second), LENT(third));
    if (STRIP_REFUSED(rows)) {
        explain(STRIP_REFUSAL(rows));
        return 1;
    }
    if (!write_image(words[3], LENT(third)))
        return failed(words[3]);
    for (uint64_t k = 0; k < rows; k++)
        show_row(label_at(third, k));
    free(first.bytes);
    free(second.bytes);
    free(third.bytes);
    return 0;
}
