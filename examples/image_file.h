/* The bytes of an image in a file, for the programs of this folder. */
#ifndef IMAGE_FILE_H
#define IMAGE_FILE_H

#include <stdbool.h>
#include <stdint.h>
#include <stdio.h>
#include <stdlib.h>

/* An image in memory of its own. */
struct image_file {
    uint8_t *bytes;
    size_t len;
};

/* Reads the whole file. */
static inline bool read_image(const char *path, struct image_file *image)
{
    FILE *file = fopen(path, "rb");
    size_t room = 1 << 16;
    bool all;
    if (file == NULL)
        return false;
    image->len = 0;
    image->bytes = malloc(room);
    while (image->bytes != NULL) {
        image->len += fread(image->bytes + image->len, 1, room - image->len, file);
        if (image->len < room)
            break;
        room *= 2;
        image->bytes = realloc(image->bytes, room);
    }
    all = image->bytes != NULL && !ferror(file);
    fclose(file);
    return all;
}

/* Makes the file these bytes. */
static inline bool write_image(const char *path, const uint8_t *bytes, size_t len)
{
    FILE *file = fopen(path, "wb");
    bool written = file != NULL && fwrite(bytes, 1, len, file) == len;
    return file != NULL && fclose(file) == 0 && written;
}

#endif
