/* The proved calls that read an image of frozen rows, and the refusals of all calls.
 *
 * libdisplay.a has these six functions and nothing else. libstrips.a has them too, beside those of strips.h, which
 * includes this header. A program links one of the two libraries, which are object code for x86-64. The comment of a
 * call begins with the bench's word for it, as row count(v, i); docs/CALLS.md has all of them.
 *
 * AN IMAGE is a run of bytes that holds up to 64 rows. A ROW is a strip that was frozen: a list of bits, position 0
 * first, of a length from 0 to 134,217,728, under a label from 1 to 64. 1 is a misfire, 0 a good firing. The rows
 * form a chain: each row's record tells where the next one stands. image_freeze (strips.h) appends at the chain's
 * end, so that chain order is the order of freezing; image_merge (strips.h) chains the first image's rows, then those
 * that only the second has. A record also holds the row's number of ones and an index of counts, its entries; its bits
 * are padded with zeros to a multiple of 4,096.
 *
 * The chain is SOUND when all of this holds: the size is 16 to 2^32 bytes; the header is right; no record reaches out
 * of the image; labels and lengths are in range; no label occurs twice; a record that follows another starts at or
 * past its end. What lies between records is not read. A row is RIGHT when its number of ones, its entries and its
 * padding are those of its bits, else WRONG. Where image_inspect accepts an image, its chain is sound and every row
 * is right. There is no checksum: an image that was changed may agree with itself again.
 *
 * LENDING. A call is lent the bytes image[0] to image[image_len - 1], at any address, and only reads them. Nobody
 * changes them until it returns. It allocates nothing and keeps nothing. Any bytes may be lent, of any length: what
 * has no sound chain is refused 10. An image of no bytes may be NULL; it is refused 10 like every other under 16
 * bytes. What no call can see is the caller's to keep: that so many bytes are there.
 *
 * NUMBERS. Every argument is taken as the 64-bit number that it is, and none is cut: a v of 2^32 + 1 is refused as
 * neither 0 nor 1, a label of 2^32 + 3 as none from 1 to 64, an i of 2^64 - 1 as a position above the length.
 *
 * ANSWERS. A call answers its value, which is below 2^32, or 2^32 plus the number of a refusal: see STRIP_REFUSED.
 * Keep an answer in a uint64_t: cut to 32 bits, a refusal looks like a small value. (strip_pair_span of strips.h
 * answers an int64_t.) The refusals of a call are named with it in the order in which they are judged, and the first
 * that applies is given (but see image_row_select on a wrong row). After a semicolon stands the refusal that only a
 * wrong row gets. Below each call stands what the inputs at its edges get: a value, or "refused" with the number.
 *
 * TIME. Every call walks the chain, over 12 bytes of each record. Then image_inspect reads every record whole,
 * image_row_select searches by halving, image_row_label walks the chain again up to the k-th record, and the others
 * take constant time.
 */
#ifndef STRIP_DISPLAY_H
#define STRIP_DISPLAY_H

#include <stddef.h>
#include <stdint.h>

#ifdef __cplusplus
extern "C" {
#endif

/* Why a call is refused. A length is that of the strip or of the row. */
enum strip_refusal {
    STRIP_BAD_HANDLE = 1,     /* capacity not a multiple of 512 from 512 to 134,217,728, length above capacity, or
                                 total above length */
    STRIP_BAD_WORDS = 2,      /* words_len (of two strips first_len, second_len, waiting_len) not capacity / 64 */
    STRIP_BAD_COUNTERS = 3,   /* counters_len not the number that the capacity needs */
    STRIP_POSITION = 4,       /* a position above the length; for a get or a flip also at the length.
                                 image_record_size: a length above 134,217,728 */
    STRIP_SPAN = 5,           /* a span whose start is above its end */
    STRIP_NOT_FOUND = 6,      /* no such position; for a select: k not below the number of v.
                                 strip_burst: no window of w strokes inside the strip holds m misfires or more.
                                 strip_pair_find: k not below the number of strokes judged differently.
                                 strip_waiting_find: no outcome has a k-th misfire */
    STRIP_FULL = 7,           /* length at capacity */
    STRIP_BAD_VALUE = 8,      /* v neither 0 nor 1 */
    STRIP_UNFIT = 9,          /* the record does not fit: a one at or past the length, a wrong counter, or a total that
                                 is not the number of ones */
    STRIP_UNSOUND = 10,       /* the image's chain is not sound */
    STRIP_BAD_LABEL = 11,     /* a label not from 1 to 64 */
    STRIP_LABEL_PRESENT = 12, /* a row has the label already */
    STRIP_NO_ROOM = 13,       /* image_clear: an image under 16 or over 2^32 bytes; image_freeze: the record would not
                                 end inside the image; image_merge: the result would not end inside the third buffer,
                                 or that has under 16 or over 2^32 bytes */
    STRIP_LABEL_ABSENT = 14,  /* no row has the label; image_row_label: k not below the number of rows */
    STRIP_WRONG_ROW = 15,     /* a row's ones, entries or padding are not those of its bits */
    STRIP_UNEQUAL = 16,       /* two strips of unequal capacity or unequal length */
    STRIP_BAD_WINDOW = 17,    /* a width not 1 to 65,536, or a number of misfires not 1 to the width */
    STRIP_CONFLICT = 18       /* a label in two images with rows of unequal length or bits */
};

/* Whether an answer is a refusal. It is given as the type that the call returns: a uint64_t, or the int64_t of
 * strip_pair_span (strips.h), of which a negative value is no refusal. Evaluates its argument once. */
#define STRIP_REFUSED(answer) ((answer) >= INT64_C(4294967296))

/* The refusal, as an enum strip_refusal, of either type. Of an accepted answer it means nothing: a value of 6 would
 * look like STRIP_NOT_FOUND. Evaluates its argument once. */
#define STRIP_REFUSAL(answer) ((enum strip_refusal)(uint32_t)(answer))

/* inspect.
 * Value: the number of rows, 0 to 64. Every row is then right, so that every rank, select and get on it is that of
 * its bits. Refused 15, no rank and no select is to be relied on: on the wrong row it may be any number that is
 * allowed there, and no call need tell which row that is.
 * Refusals: 10; 15.
 *   NULL, 0 or any image under 16 or over 2^32 bytes     refused 10
 *   a chain that is not sound                            refused 10, wrong rows or not
 *   a sound chain with no row                            0
 *   a sound chain with a wrong row                       refused 15 */
uint64_t image_inspect(const uint8_t *image, size_t image_len);

/* row count(v, i).
 * Value: how many of the first i bits of the label's row equal v, 0 to i. The bit at position i is not counted.
 * Refusals: 10, 11, 14, 8, 4; 15.
 *   i = 0                       0, also in an empty row
 *   i = length                  all of v in the row
 *   i above that                refused 4
 *   v above 1                   refused 8
 *   label 0, 65                 refused 11; one that no row has, 14
 *   a wrong row                 any number up to i, or refused 15; on a right row never 15, whatever the rows beside
 *                               it are */
uint64_t image_row_rank(const uint8_t *image, size_t image_len, uint64_t label, uint64_t v, uint64_t i);

/* row find(v, k).
 * Value: the position in the label's row that holds v and has k of v before it; k starts at 0, so that k = 0 asks for
 * the first v.
 * Refusals: 10, 11, 14, 8, 6; 15.
 *   k below the number of v     a position, below the length
 *   k at or past it             refused 6, in an empty row for every k
 *   v above 1                   refused 8
 *   label 0, 65                 refused 11; one that no row has, 14
 *   a wrong row                 refused 6 where k is at or past the length; else a position below the length, or
 *                               refused 6, or 15, and 15 may come where the bits alone would say 6. On a right row
 *                               never 15, whatever the rows beside it are */
uint64_t image_row_select(const uint8_t *image, size_t image_len, uint64_t label, uint64_t v, uint64_t k);

/* row look(i).
 * Value: the bit at position i of the label's row, 0 or 1.
 * Refusals: 10, 11, 14, 4.
 *   i = length or above     refused 4, in an empty row for every i
 *   label 0, 65             refused 11; one that no row has, 14
 *   a wrong row             the bit, as on a right one */
uint64_t image_row_get(const uint8_t *image, size_t image_len, uint64_t label, uint64_t i);

/* Value: the length of the label's row in bits, 0 to 134,217,728.
 * Refusals: 10, 11, 14.
 *   label 0, 65     refused 11; one that no row has, 14
 *   a wrong row     the length that its record tells */
uint64_t image_row_length(const uint8_t *image, size_t image_len, uint64_t label);

/* Value: the label of the k-th row in chain order, 1 to 64; k starts at 0. For all labels ask with k = 0 on, below
 * the number of rows that image_inspect answers, or up to the first 14.
 * Refusals: 10, 14.
 *   k = the number of rows, or above     refused 14, on an empty chain for every k
 *   a wrong row                          its label */
uint64_t image_row_label(const uint8_t *image, size_t image_len, uint64_t k);

#ifdef __cplusplus
}
#endif

#endif
