/* A small display: shows the rows of the image in the file that its argument names, in chain order, by the proved
 * calls of display.h alone. */
#include "display.h"
#include "image_file.h"

#include <inttypes.h>

/* How many misfires of a row are shown by their positions. */
enum { SHOWN = 5 };

static struct image_file image;

/* It, as the calls take it. */
#define IMAGE image.bytes, image.len

/* One line: label, length, misfires, and where the first of them are. */
static void show_row(uint64_t label)
{
    uint64_t length = image_row_length(IMAGE, label);
    uint64_t misfires = image_row_rank(IMAGE, label, 1, length);
    printf("%5" PRIu64 " %10" PRIu64 " %9" PRIu64, label, length, misfires);
    for (uint64_t k = 0; k < misfires && k < SHOWN; k++)
        printf("%s%" PRIu64, k == 0 ? "  " : " ", image_row_select(IMAGE, label, 1, k));
    printf("%s\n", misfires > SHOWN ? " .." : "");
}

int main(int count, char **words)
{
    uint64_t rows;
    if (count != 2) {
        fprintf(stderr, "usage: %s IMAGE\n", words[0]);
        return 2;
    }
    if (!read_image(words[1], &image)) {
        perror(words[1]);
        return 2;
    }
    rows = image_inspect(IMAGE);
    if (STRIP_REFUSED(rows)) {
        enum strip_refusal why = STRIP_REFUSAL(rows);
        printf("refused %d: %s\n", (int)why, why == STRIP_UNSOUND ? "no sound chain" : "a wrong row");
        return 1;
    }

    /* Every row is right, so no call below is refused. */
    printf("rows: %" PRIu64 "\n", rows);
    if (rows > 0)
        printf("label     length  misfires  first misfires at\n");
    for (uint64_t k = 0; k < rows; k++)
        show_row(image_row_label(IMAGE, k));
    free(image.bytes);
    return 0;
}
