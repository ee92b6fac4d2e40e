/* The borders that the C tests walk. tests/src/borders.rs has those of the Rust tests. */
#ifndef BORDERS_H
#define BORDERS_H

#include <stddef.h>
#include <stdint.h>

#define COUNT_OF(list) (sizeof(list) / sizeof(list)[0])

/* The most bytes of an image. A number with WIDE added is the same number, if it is cut to 32 bits. */
#define WIDE (UINT64_C(1) << 32)

/* The largest capacity, which is the greatest length of a row too, and its counters. */
enum { LARGEST = 134217728, MOST_COUNTERS = 299592 };

/* The most strokes of a window. */
enum { WIDEST = 65536 };

/* The largest capacity at one level, the smallest and the largest at two, the smallest at three. */
enum { ONE_LEVEL = 32768, TWO_LEVELS = 33280, TWO_LEVELS_FULL = 2097152, THREE_LEVELS = 2097664 };

/* Capacities with their numbers of counters: the smallest, those at the borders of the levels, the largest. */
static const uint64_t capacities[][2] = {{512, 72},
                                         {ONE_LEVEL, 72},
                                         {TWO_LEVELS, 216},
                                         {TWO_LEVELS_FULL, 4680},
                                         {THREE_LEVELS, 4896},
                                         {LARGEST, MOST_COUNTERS}};

/* Capacities that are not allowed. */
static const uint64_t bad_capacities[] = {
    0, 1, 511, 513, LARGEST + 1, LARGEST + 512, WIDE, WIDE + 512, UINT64_MAX - 511, UINT64_MAX};

/* Numbers far past every length: around 2^32, 2^63, below 2^64. */
static const uint64_t far[] = {
    UINT32_MAX, WIDE, WIDE + 1, (uint64_t)1 << 63, UINT64_MAX - 511, UINT64_MAX - 1, UINT64_MAX};

/* Lengths and positions around 0, and around the ends of the first byte, word, block and superblock. */
static const uint64_t small[] = {0, 1, 7, 63, 64, 65, 511, 512, 513, 4095, 4096, 4097};

/* Labels at both ends of the range, inside it and out of it. */
static const uint64_t labels[] = {0, 1, 3, 4, 64, 65, UINT32_MAX, WIDE + 3, UINT64_MAX};

/* Values good and bad. */
static const uint64_t values[] = {0, 1, 2, WIDE, WIDE + 1, UINT64_MAX};

/* Sizes of an image around the header, the first units and the first record. */
static const size_t sizes[] = {0, 1, 15, 16, 17, 31, 32, 33, 559, 560};

#endif
