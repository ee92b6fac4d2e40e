/* Writes an image of SIZE bytes to standard output: image SIZE [LABEL:LENGTH:STEP ..]. Each row has ones at the
 * positions that are multiples of STEP; none for STEP 0. */
#include "strips.h"

#include <inttypes.h>
#include <stdio.h>
#include <stdlib.h>
#include <string.h>

enum { CAPACITY = 134217728 };

static uint64_t words[STRIP_WORDS(CAPACITY)];

static void fill(uint64_t length, uint64_t step)
{
    memset(words, 0, (length + 63) / 64 * sizeof *words);
    for (uint64_t p = 0; step != 0 && p < length; p += step)
        words[p / 64] |= UINT64_C(1) << (p % 64);
}

int main(int count, char **args)
{
    size_t size = count > 1 ? strtoull(args[1], NULL, 10) : 0;
    uint8_t *image = calloc(size, 1);
    if (image == NULL || image_clear(image, size) != IMAGE_HEADER_BYTES)
        return 1;
    for (int k = 2; k < count; k++) {
        uint64_t label, length, step;
        if (sscanf(args[k], "%" SCNu64 ":%" SCNu64 ":%" SCNu64, &label, &length, &step) != 3 || length > CAPACITY)
            return 1;
        fill(length, step);
        /* Freezing counts the ones in the words, so that any total up to the length will do. */
        if (STRIP_REFUSED(image_freeze(CAPACITY, length, 0, words, STRIP_WORDS(CAPACITY), image, size, label)))
            return 1;
    }
    return fwrite(image, 1, size, stdout) == size ? 0 : 1;
}
