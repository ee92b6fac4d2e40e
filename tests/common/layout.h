/* The image's layout by the scope document: its numbers, a record's size, entries and bits, read and written. */
#ifndef LAYOUT_H
#define LAYOUT_H

#include <stdint.h>
#include <string.h>

static inline uint64_t little_endian(const uint8_t *s, unsigned bytes)
{
    uint64_t number = 0;
    for (unsigned b = bytes; b > 0; b--)
        number = 256 * number + s[b - 1];
    return number;
}

static inline uint64_t bit(const uint8_t *bits, uint64_t p)
{
    return bits[p / 8] >> (p % 8) & 1;
}

static inline uint64_t superblocks(uint64_t length)
{
    return (length + 4095) / 4096;
}

static inline uint64_t record_size(uint64_t length)
{
    return 16 + 528 * superblocks(length);
}

/* The number in so many bits of an entry, from a bit of it on. */
static inline uint64_t field(const uint8_t *entry, unsigned from, unsigned width)
{
    uint64_t number = 0;
    for (unsigned b = 0; b < width; b++)
        number |= bit(entry, from + b) << b;
    return number;
}

static inline uint64_t ones_of(const uint8_t *bytes, uint64_t count)
{
    uint64_t ones = 0, b = 0, eight;
    for (; b + 8 <= count; b += 8) {
        memcpy(&eight, bytes + b, 8);
        ones += (uint64_t)__builtin_popcountll(eight);
    }
    for (; b < count; b++)
        ones += (uint64_t)__builtin_popcountll(bytes[b]);
    return ones;
}

/* Whether the entry is that of its superblock, of which `before` ones of the row come before. */
static inline int entry_right(const uint8_t *entry, const uint8_t *bytes, uint64_t before)
{
    uint64_t within = 0;
    if (field(entry, 0, 44) != before)
        return 0;
    for (unsigned j = 1; j < 8; j++) {
        within += ones_of(bytes + 64 * (j - 1), 64);
        if (field(entry, 44 + 12 * (j - 1), 12) != within)
            return 0;
    }
    return 1;
}

static inline int row_right(const uint8_t *record)
{
    uint64_t length = little_endian(record + 8, 4), number = superblocks(length), ones = 0;
    const uint8_t *bits = record + 16 + 16 * number;
    for (uint64_t p = length; p < 4096 * number; p++)
        if (bit(bits, p) != 0)
            return 0;
    for (uint64_t e = 0; e < number; e++) {
        if (!entry_right(record + 16 + 16 * e, bits + 512 * e, ones))
            return 0;
        ones += ones_of(bits + 512 * e, 512);
    }
    return little_endian(record + 12, 4) == ones;
}

/* ---- writing */

static inline void store(uint8_t *at, unsigned bytes, uint64_t number)
{
    for (unsigned b = 0; b < bytes; b++)
        at[b] = (uint8_t)(number >> (8 * b));
}

/* Makes a record's padding, entries and ones those of its bits. */
static inline void make_right(uint8_t *record)
{
    uint64_t length = little_endian(record + 8, 4), number = superblocks(length), ones = 0;
    uint8_t *bits = record + 16 + 16 * number;
    for (uint64_t p = length; p < 4096 * number; p++)
        bits[p / 8] &= (uint8_t) ~(1 << (p % 8));
    for (uint64_t e = 0; e < number; e++) {
        unsigned __int128 entry = ones;
        for (unsigned j = 1; j < 8; j++)
            entry |= (unsigned __int128)ones_of(bits + 512 * e, 64 * j) << (44 + 12 * (j - 1));
        store(record + 16 + 16 * e, 8, (uint64_t)entry);
        store(record + 24 + 16 * e, 8, (uint64_t)(entry >> 64));
        ones += ones_of(bits + 512 * e, 512);
    }
    store(record + 12, 4, ones);
}

/* The header of a chain whose first record is at the unit; none for 0. */
static inline void write_header(uint8_t *image, uint64_t unit)
{
    store(image, 4, unit);
    store(image + 4, 4, 1);
    store(image + 8, 8, 0);
}

/* A record with the first bits of the words, `next` the unit of the one after it, 0 for none. */
static inline void write_record(uint8_t *record, uint64_t next, uint64_t label, uint64_t length, const uint64_t *words)
{
    uint8_t *bits = record + 16 + 16 * superblocks(length);
    memset(record, 0, record_size(length));
    store(record, 4, next);
    store(record + 4, 4, label);
    store(record + 8, 4, length);
    for (uint64_t p = 0; p < length; p++)
        bits[p / 8] |= (uint8_t)((words[p / 64] >> (p % 64) & 1) << (p % 8));
    make_right(record);
}

#endif
