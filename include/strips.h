/* The proved calls on a strip and on an image of frozen rows, as in libstrips.a. display.h has the refusals, how an
 * answer tells one, and the calls that read an image; this header has the others. The comment of a call begins
 * with the bench's word for it, as add(v); docs/CALLS.md has all of them.
 *
 * A STRIP holds one bit for each stroke, the oldest at position 0: 1 for a misfire, 0 for a good firing. Capacities
 * are the multiples of 512 up to 134,217,728, 0 excluded; a length is at most its capacity, a total at most its length.
 *
 * A RECORD is the memory of a strip: STRIP_WORDS(capacity) words and STRIP_COUNTERS(capacity) counters, which the
 * caller supplies, and of which each call is lent exactly so many. Position p is bit p % 64 of words[p / 64], where
 * bit 0 has weight 1. The counters tell how many ones lie in which blocks, and only the calls read and write them.
 * (The record of a row, in an image, is another thing: see display.h.)
 *
 * A HANDLE is a capacity, a length and a TOTAL, the number of ones that the strip holds: the first three arguments of
 * most calls. The caller keeps it: strip_create gives the first, and every other change the one to go on with. So the
 * misfires of the whole strip are read from the handle, after every stroke, with no call.
 *
 * A record FITS when every bit at and past the length is 0, every counter is that of the bits, and the total of its
 * handle is the number of ones among them. Where accepted, strip_create, strip_fill and strip_truncate always leave a
 * record that fits; strip_push and strip_flip do where it fitted before.
 *
 * LENDING. A call is lent the elements x[0] to x[x_len - 1] of each buffer x. They are aligned for their type, words
 * and out to 8 bytes, counters to 4, images to 1. The buffers of one call do not overlap, but for the words of two
 * strips, or two images to be merged, which are only read, and may overlap or be the same; what the call writes
 * overlaps neither. Nobody else uses what a call writes, or changes what it reads, until it returns. It allocates
 * nothing and keeps nothing. A buffer of length 0 may be NULL. What no call can see is the caller's to keep: that so
 * many elements are there, aligned and apart. All else is judged, and any numbers and any contents may be given.
 *
 * NUMBERS. Every argument is taken as the 64-bit number that it is, and none is cut: a v of 2^32 + 1 is refused 8, a
 * capacity of 2^32 + 512 is refused 1.
 *
 * REFUSALS are named with each call in the order in which they are judged, and the first that applies is given. A
 * refused call changes no word, no counter and no byte of an image. Of every call that takes a record or its words:
 *   1   capacity not a multiple of 512 from 512 to 134,217,728, such as 0; or a length above it; or a total above the
 *       length
 *   2   words_len not capacity / 64; NULL, 0 is always too few
 *   3   counters_len, where counters are taken, not STRIP_COUNTERS(capacity); NULL, 0 is always too few
 * After a semicolon stands the refusal that only a record that does not fit gets. Below each call stands what the
 * inputs at its edges get: a value, or "refused" with the number.
 *
 * TIME. strip_create, strip_fill, strip_truncate and strip_verify go over all words and counters, strip_successor and
 * strip_predecessor from word to word up to the first hit, image_freeze over the words up to the length. strip_burst
 * goes over the words up to the window that it answers, and at most eight past it, or to the length, with three reads
 * of words for each; the windows that start in one word are tried start by start only where a bound on their ones
 * reaches m. The calls on two strips go over the words of both, each word once: those before i, those up to the stroke
 * found or to the length, those of the span; strip_waiting_find up to the latest position, where there is one, else to
 * the length. The other calls on a strip take constant time. image_merge reads both images as image_inspect does; then
 * a few times the numbers of each record; the rows of each label that is in both, up to the first eight bytes that
 * differ; and the rows that it copies, once.
 */
#ifndef STRIPS_H
#define STRIPS_H

#include "display.h"

#ifdef __cplusplus
extern "C" {
#endif

/* ---- Sizes. The macros that take an argument are constant expressions of type size_t where it is one, but may not
 * stand in #if; STRIP_COUNTERS evaluates it more than once. They judge nothing: of a capacity that is not allowed, or
 * a length above 134,217,728, they mean nothing. */

/* How many numbers a change writes to `out`; and so of strip_waiting_count and of strip_waiting_find. */
#define STRIP_OUT 6
#define STRIP_WAITING_COUNT_OUT 3
#define STRIP_WAITING_FIND_OUT 4

/* The words of a record of that capacity: 8 to 2,097,152. */
#define STRIP_WORDS(capacity) ((size_t)(capacity) / 64)

/* The counters of a record of that capacity: 72 for every 32,768 bits begun; above 32,768 another 72 for every
 * 2,097,152 begun; above 2,097,152 another 72. So 72 up to 32,768, and 299,592 at most. */
#define STRIP_COUNTERS(capacity)                                                         \
    (72 * (((size_t)(capacity) + 32767) / 32768 +                                        \
           ((size_t)(capacity) > 32768 ? ((size_t)(capacity) + 2097151) / 2097152 : 0) + \
           ((size_t)(capacity) > 2097152 ? 1 : 0)))

/* The bytes of an image before its rows, and of the record of a row of so many bits, 16 to 17,301,520. An image that
 * starts with image_clear has room for two rows of the lengths l and m exactly where it has at least
 * IMAGE_HEADER_BYTES + IMAGE_RECORD_BYTES(l) + IMAGE_RECORD_BYTES(m) bytes. */
#define IMAGE_HEADER_BYTES 16
#define IMAGE_RECORD_BYTES(length) (16 + 528 * (((size_t)(length) + 4095) / 4096))

/* Value: STRIP_COUNTERS(capacity).
 * Refusals: 1.
 *   capacity 512, 32,768             72
 *   capacity 33,280                  216
 *   capacity 2,097,664               4,896
 *   capacity 134,217,728             299,592
 *   capacity 0, 513, 2^32 + 512      refused 1 */
uint64_t strip_counter_count(uint64_t capacity);

/* Value: IMAGE_RECORD_BYTES(length).
 * Refusals: 4.
 *   length 0                  16
 *   length 1 to 4,096         544
 *   length 134,217,728        17,301,520
 *   length 134,217,729        refused 4 */
uint64_t image_record_size(uint64_t length);

/* ---- Changes of a record. They write six numbers to `out`, and none past the sixth:
 *   out[0]   the number of the refusal, or 0
 *   out[1]   the first value, 0 where refused
 *   out[2]   the second value, 0 where refused or where there is none
 *   out[3]   the capacity of the handle to go on with
 *   out[4]   its length
 *   out[5]   its total, the misfires that the strip now holds
 * Refused, they give back the handle that they got, as it was; strip_create, which got none, gives 0, 0, 0. With
 * out_len below 6, NULL and 0 among these, a call does nothing at all: not even `out` changes. */

/* lay(capacity). Makes every word and every counter 0, whatever they held, and gives the handle of the empty strip of
 * that capacity, with length and total 0.
 * Value: the number of counters.
 * Refusals: 1, 2, 3. The record then stands as it was, and goes on under its last handle.
 *   capacity 0, 513, 134,218,240                   refused 1
 *   words and counters of another capacity         refused 2
 *   a record in use, or one that does not fit      emptied, as any other */
void strip_create(uint64_t capacity, uint64_t *words, size_t words_len, uint32_t *counters, size_t counters_len,
                  uint64_t *out, size_t out_len);

/* add(v). Appends v; the length grows by 1, the total by v.
 * Values: its position, which is the length before; the number of counters changed, 0 for v = 0, else as strip_flip
 * at that position.
 * Refusals: 1, 2, 3, 8, 7.
 *   v above 1                      refused 8, in a full strip too
 *   length = capacity              refused 7
 *   an empty strip                 position 0
 *   a record that does not fit     position and handle are the same: the total moves by v. No bit changes but the one
 *                                  appended, which becomes v, and no counter but those over it; the number is any up
 *                                  to 45. The promise leaves open "refused 9" too, with nothing changed; this library
 *                                  does not give it */
void strip_push(uint64_t capacity, uint64_t length, uint64_t total, uint64_t *words, size_t words_len,
                uint32_t *counters, size_t counters_len, uint64_t v, uint64_t *out, size_t out_len);

/* turn(i). Replaces the bit at position i by its opposite; the length stays, the total goes up by one where the new bit
 * is 1, else down by one.
 * Values: the new bit; the number of counters changed, each by one, 1 to 45. It is the sum of 15 - c % 8 - c / 8 over
 *   c = i / 512 % 64
 *   c = i / 32768 % 64        for a capacity above 32,768
 *   c = i / 2097152 % 64      for a capacity above 2,097,152
 * Refusals: 1, 2, 3, 4; 9.
 *   i = length or above            refused 4, in an empty strip for every i
 *   total 0, and the bit is 1      refused 9: the total would go below 0
 *   total = length, the bit is 0   refused 9: the total would go above the length
 *   a record that does not fit     but for these two cases, which one that fits never meets, new bit and handle are the
 *                                  same: the total moves by exactly one. No other bit changes, and no counter but those
 *                                  over it; the number is any up to 45. The promise leaves open "refused 9" here too,
 *                                  with nothing changed; this library does not give it */
void strip_flip(uint64_t capacity, uint64_t length, uint64_t total, uint64_t *words, size_t words_len,
                uint32_t *counters, size_t counters_len, uint64_t i, uint64_t *out, size_t out_len);

/* run(a, b, v). Sets the positions a to b - 1 to v; the length stays. Makes every bit at and past the length 0, every
 * counter that of the bits, and the total the number of ones.
 * Value: the ones that the strip then holds, as the total.
 * Refusals: 1, 2, 3, 8, 5, 4.
 *   v above 1                      refused 8
 *   a above b                      refused 5, wherever b is
 *   b = length                     accepted
 *   b above that                   refused 4, with a = b too
 *   a = b                          sets no position; the rest is done
 *   an empty strip                 accepted with a = b = 0 alone; the value is 0
 *   a record that does not fit     the same, by its bits below the length, whatever the total was; it fits afterwards.
 *                                  So words that were written in another way become a record by a = b = 0, under a
 *                                  total of 0 as well as any other up to the length */
void strip_fill(uint64_t capacity, uint64_t length, uint64_t total, uint64_t *words, size_t words_len,
                uint32_t *counters, size_t counters_len, uint64_t a, uint64_t b, uint64_t v, uint64_t *out,
                size_t out_len);

/* cut(n). Keeps the first n bits; the length becomes n. Makes every bit at and past it 0, every counter that of the
 * bits, and the total the number of ones.
 * Value: the ones that the strip then holds, as the total.
 * Refusals: 1, 2, 3, 4.
 *   n = length                     keeps every bit; the rest is done
 *   n above that                   refused 4
 *   n = 0                          leaves the empty strip; the value is 0
 *   a record that does not fit     the same, by its first n bits, whatever the total was; it fits afterwards */
void strip_truncate(uint64_t capacity, uint64_t length, uint64_t total, uint64_t *words, size_t words_len,
                    uint32_t *counters, size_t counters_len, uint64_t n, uint64_t *out, size_t out_len);

/* ---- Readings of a strip. They write nothing. Those that take no counters ignore the bits at and past the length,
 * and answer alike whether the record fits or not; the total they judge against the length (1), and no further. */

/* look(i).
 * Value: the bit at position i, 0 or 1.
 * Refusals: 1, 2, 4.
 *   i = length or above     refused 4, in an empty strip for every i */
uint64_t strip_get(uint64_t capacity, uint64_t length, uint64_t total, const uint64_t *words, size_t words_len,
                   uint64_t i);

/* count(v, i).
 * Value: how many of the first i bits equal v, 0 to i. The bit at position i is not counted.
 * Refusals: 1, 2, 3, 8, 4; 9.
 *   i = 0                          0, also in an empty strip
 *   i = length                     all of v in the strip; of v = 1 that is the total
 *   i above that                   refused 4
 *   v above 1                      refused 8
 *   a record that does not fit     any number up to i, or refused 9, also where the total alone is wrong; on one that
 *                                  fits never 9 */
uint64_t strip_rank(uint64_t capacity, uint64_t length, uint64_t total, const uint64_t *words, size_t words_len,
                    const uint32_t *counters, size_t counters_len, uint64_t v, uint64_t i);

/* find(v, k).
 * Value: the position that holds v and has k of v before it; k starts at 0, so that k = 0 asks for the first v.
 * Refusals: 1, 2, 3, 8, 6; 9. Whether there is such a position, length and total settle: the number of v is the total
 * for v = 1, length - total for v = 0.
 *   k below the number of v        a position, below the length
 *   k at or past it                refused 6, in an empty strip for every k
 *   v above 1                      refused 8
 *   a record that does not fit     refused 6 exactly as above, by its length and total; else any position below the
 *                                  length, or refused 9. On one that fits never 9 */
uint64_t strip_select(uint64_t capacity, uint64_t length, uint64_t total, const uint64_t *words, size_t words_len,
                      const uint32_t *counters, size_t counters_len, uint64_t v, uint64_t k);

/* next(v, i).
 * Value: the smallest position at or past i, below the length, that holds v.
 * Refusals: 1, 2, 8, 4, 6.
 *   i = length          refused 6, also in an empty strip
 *   i above that        refused 4
 *   v above 1           refused 8
 *   no v from i on      refused 6 */
uint64_t strip_successor(uint64_t capacity, uint64_t length, uint64_t total, const uint64_t *words, size_t words_len,
                         uint64_t v, uint64_t i);

/* prior(v, i).
 * Value: the largest position below i that holds v.
 * Refusals: 1, 2, 8, 4, 6.
 *   i = length          the last v of the strip; refused 6 in an empty one
 *   i above that        refused 4
 *   i = 0               refused 6
 *   v above 1           refused 8
 *   no v before i       refused 6 */
uint64_t strip_predecessor(uint64_t capacity, uint64_t length, uint64_t total, const uint64_t *words, size_t words_len,
                           uint64_t v, uint64_t i);

/* burst(w, m). The window at s is the w strokes at the positions s to s + w - 1. It qualifies where it lies wholly
 * inside the strip, s + w being at most the length, and holds at least m ones.
 * Value: the start s of a window that qualifies, 0 to length - w. Where several do, it is that of any of them.
 * Refusals: 1, 2, 17, 6.
 *   w = 0 or above 65,536     refused 17
 *   m = 0 or above w          refused 17
 *   w above the length        refused 6, in an empty strip for every w from 1 to 65,536
 *   w = length                0 where the strip holds at least m ones, else refused 6
 *   m = w                     the start of w ones in a row, or refused 6
 *   no window qualifies       refused 6; ones at and past the length complete none */
uint64_t strip_burst(uint64_t capacity, uint64_t length, uint64_t total, const uint64_t *words, size_t words_len,
                     uint64_t w, uint64_t m);

/* check.
 * Value: the ones that the strip holds, which is the total.
 * Refusals: 1, 2, 3; 9 exactly where the record does not fit.
 *   an empty strip whose words and counters are all 0     0
 *   a total that is not the number of ones                refused 9; above the length, 1 */
uint64_t strip_verify(uint64_t capacity, uint64_t length, uint64_t total, const uint64_t *words, size_t words_len,
                      const uint32_t *counters, size_t counters_len);

/* ---- Readings of two strips that hold the same strokes, as two judges saw them: the first as the crank judged them,
 * say, the second as the pressure trace did. A strip MARKS a stroke where its bit is 1. Of each strip the calls take
 * the handle and the words, and no counters: first_capacity, first_length, first_total, first and first_len, and for
 * the second likewise. They write nothing, ignore the bits at and past the length in both, and answer alike whether
 * records fit or not. All six have these refusals first, in this order:
 *   1, 2   of the first strip, judged on its own handle and its own words
 *   1, 2   of the second strip, on its own
 *   16     first_capacity is not second_capacity, or first_length is not second_length; totals are not compared
 * So a first strip that gets 2, beside a second that gets 1, is refused 2; and two strips of unequal length are
 * refused 16 wherever i, k, a and b are. A strip that is ahead may be compared under the other's handle, since the bits
 * past the length are ignored, and a total has only to be no more than the length. Below, "length" is that of both. */

/* pair both(i).
 * Value: how many of the first i strokes both strips mark, 0 to i. The stroke at position i is not counted.
 * Refusals: 1, 2, 1, 2, 16, 4.
 *   i = 0            0, also in empty strips
 *   i = length       all such strokes
 *   i above that     refused 4 */
uint64_t strip_pair_both(uint64_t first_capacity, uint64_t first_length, uint64_t first_total, const uint64_t *first,
                         size_t first_len, uint64_t second_capacity, uint64_t second_length, uint64_t second_total,
                         const uint64_t *second, size_t second_len, uint64_t i);

/* pair either(i).
 * Value: how many of the first i strokes either strip marks, the first, the second or both of them; 0 to i.
 * Refusals and edges: as strip_pair_both. */
uint64_t strip_pair_either(uint64_t first_capacity, uint64_t first_length, uint64_t first_total, const uint64_t *first,
                           size_t first_len, uint64_t second_capacity, uint64_t second_length, uint64_t second_total,
                           const uint64_t *second, size_t second_len, uint64_t i);

/* pair only first(i).
 * Value: how many of the first i strokes only the first strip marks, and the second does not; 0 to i. With the strips
 * exchanged, those that only the second marks.
 * Refusals and edges: as strip_pair_both. */
uint64_t strip_pair_only_first(uint64_t first_capacity, uint64_t first_length, uint64_t first_total,
                               const uint64_t *first, size_t first_len, uint64_t second_capacity,
                               uint64_t second_length, uint64_t second_total, const uint64_t *second, size_t second_len,
                               uint64_t i);

/* pair differ(i).
 * Value: how many of the first i strokes the strips judge differently, one marking it and the other not; 0 to i.
 * Refusals and edges: as strip_pair_both. */
uint64_t strip_pair_differ(uint64_t first_capacity, uint64_t first_length, uint64_t first_total, const uint64_t *first,
                           size_t first_len, uint64_t second_capacity, uint64_t second_length, uint64_t second_total,
                           const uint64_t *second, size_t second_len, uint64_t i);

/* pair find(k).
 * Value: the position of the k-th stroke that the strips judge differently; k starts at 0, so that k = 0 asks for the
 * first of them, and strip_pair_differ of the position answered is k.
 * Refusals: 1, 2, 1, 2, 16, 6.
 *   k below the number of such strokes     a position, below the length
 *   k at or past it                        refused 6; in strips whose bits are equal, or empty, for every k */
uint64_t strip_pair_find(uint64_t first_capacity, uint64_t first_length, uint64_t first_total, const uint64_t *first,
                         size_t first_len, uint64_t second_capacity, uint64_t second_length, uint64_t second_total,
                         const uint64_t *second, size_t second_len, uint64_t k);

/* pair span(a, b).
 * Value: the ones of the first strip at the positions a to b - 1 less those of the second, from -(b - a) to b - a;
 * so never below -134,217,728, nor above 134,217,728. A refusal comes as 2^32 plus its number here too, which no value
 * reaches: STRIP_REFUSED and STRIP_REFUSAL take the answer as it is. Keep it in an int64_t: cut to an int, a refusal
 * looks like a small value; as a uint64_t, a negative value looks like a refusal.
 * Refusals: 1, 2, 1, 2, 16, 5, 4.
 *   a above b        refused 5, wherever b is
 *   b = length       accepted
 *   b above that     refused 4, with a = b too
 *   a = b            0, for every a up to the length; so in empty strips for a = b = 0 alone */
int64_t strip_pair_span(uint64_t first_capacity, uint64_t first_length, uint64_t first_total, const uint64_t *first,
                        size_t first_len, uint64_t second_capacity, uint64_t second_length, uint64_t second_total,
                        const uint64_t *second, size_t second_len, uint64_t a, uint64_t b);

/* ---- Readings of a strip of which some strokes still WAIT: the pressure trace lags, and has not judged them yet. A
 * second strip of the same capacity and length, the waiting strip, marks them: its bit is 1 where the stroke waits, 0
 * where it does not. A stroke that waits may become a misfire or a good firing, and the bit that the strip has of it
 * does not matter. An OUTCOME is a strip that may come of this: it has the strip's length, either bit for each stroke
 * that waits, and the strip's own bit for every other. For example, with 2^4 outcomes:
 *   the strip                             01101101010101110
 *   the waiting strip                     00110000000001001     strokes 2, 3, 13 and 16 wait
 *   the outcome with the least misfires   01001101010100110     8 of them
 *   the outcome with the most             01111101010101111     12
 * The calls answer for all outcomes together. Of each strip they take the handle and the words, and no counters:
 * capacity, length, total, words and words_len of the strip; waiting_capacity, waiting_length, waiting_total, waiting
 * and waiting_len of the waiting strip. They change no word, ignore the bits and marks at and past the length, and
 * answer alike whether records fit or not. The count writes three numbers to `out`, the find four, and neither any past
 * these:
 *   out[0]        the number of the refusal, or 0
 *   the others    the values, all 0 where refused
 * With out_len below that, NULL and 0 among these, a call does nothing at all: not even `out` changes. Both have these
 * refusals first, in this order:
 *   1, 2   of the strip, judged on its own handle and its own words
 *   1, 2   of the waiting strip, on its own
 *   16     capacity is not waiting_capacity, or length is not waiting_length; totals are not compared
 * One of the two that is a stroke ahead may be read under the other's handle, since what is past the length is ignored,
 * and a total has only to be no more than the length. Below, "length" is that of both. */

/* waiting count(i). How many of the first i strokes are misfires; the stroke at position i is not counted.
 * Values, 0 to i:
 *   out[1]   the least in any outcome
 *   out[2]   the most in any outcome; each number from the least to the most is that of some outcome
 * Refusals: 1, 2, 1, 2, 16, 4.
 *   i = 0                          0 and 0, also in empty strips
 *   i = length                     the least and the most misfires of the whole strip
 *   i above that                   refused 4
 *   none of the first i waits      the same number twice: their ones
 *   each of the first i waits      0 and i, whatever the strip's bits are */
void strip_waiting_count(uint64_t capacity, uint64_t length, uint64_t total, const uint64_t *words, size_t words_len,
                         uint64_t waiting_capacity, uint64_t waiting_length, uint64_t waiting_total,
                         const uint64_t *waiting, size_t waiting_len, uint64_t i, uint64_t *out, size_t out_len);

/* waiting find(k). Where the k-th misfire may lie; k starts at 0, so that k = 0 asks for the first one.
 * Values:
 *   out[1]   its earliest position in any outcome
 *   out[2]   1 where every outcome has a k-th misfire; 0 where some outcome has none, though others do
 *   out[3]   where out[2] is 1, its latest position in any outcome; where out[2] is 0 there is no latest, and the 0
 *            that stands here is no position
 * Refusals: 1, 2, 1, 2, 16, 6.
 * With the least and the most that waiting count(length) answers:
 *   k below the least                    earliest and latest, below the length; out[2] is 1
 *   k at or past it, below the most      the earliest alone; out[2] is 0
 *   k at or past the most                refused 6, no outcome has a k-th misfire; so for k at or past the length, and
 *                                        in empty strips for every k
 *   no stroke waits                      the same position twice, that of the k-th one; or refused 6
 *   every stroke waits                   k is the earliest, for every k below the length, and out[2] is 0 */
void strip_waiting_find(uint64_t capacity, uint64_t length, uint64_t total, const uint64_t *words, size_t words_len,
                        uint64_t waiting_capacity, uint64_t waiting_length, uint64_t waiting_total,
                        const uint64_t *waiting, size_t waiting_len, uint64_t k, uint64_t *out, size_t out_len);

/* ---- Writing an image. */

/* clear. Makes an image with no row: writes its first 16 bytes, whatever the image held, and no other byte.
 * Value: 16, the bytes written.
 * Refusals: 13.
 *   exactly 16 bytes                                     accepted, with room for no row
 *   NULL, 0 or any image under 16 or over 2^32 bytes     refused 13 */
uint64_t image_clear(uint8_t *image, size_t image_len);

/* freeze(label). Appends the strip to the image as a row under the label, the last in chain order. Writes the row's
 * record of IMAGE_RECORD_BYTES(length) bytes, right after the last record of the chain, or at byte 16 where there is
 * none, and four bytes of the record before it, or of the header, that lead there; no other byte. The rows that were
 * there keep their bits, and stay right or wrong as they were; the new row is right. Takes words alone: bits at and
 * past the length are ignored, the row's number of ones is counted, and the record need not fit.
 * Value: where the row's record starts, in units of 16 bytes; 1 for the first row of an image just cleared.
 * Refusals: 1, 2, 10, 11, 12, 13.
 *   NULL, 0 or any image with no sound chain         refused 10; an image is cleared first
 *   an image with a sound chain and a wrong row      accepted
 *   label 0, 65                                      refused 11
 *   a label that a row has, with room or without     refused 12
 *   a record that would end past the last byte       refused 13; accepted where it ends with the image
 *   an empty strip                                   accepted, as a row of length 0 with a record of 16 bytes */
uint64_t image_freeze(uint64_t capacity, uint64_t length, uint64_t total, const uint64_t *words, size_t words_len,
                      uint8_t *image, size_t image_len, uint64_t label);

/* merge. Makes one image of two that come from one engine, as of a unit and of the one that replaced it, in a third
 * buffer, whatever this held: the rows of the first image in chain order, then, in chain order too, those of the second
 * whose label the first lacks. A label that is in both, with the same length and bits, stands once, at the first
 * image's place. The result has no gaps: the header, then the records, the first at byte 16, each where the one before
 * ends. So it has IMAGE_HEADER_BYTES, and IMAGE_RECORD_BYTES(length) for each row; never more than first_len +
 * second_len - 16. No byte past it changes. image_inspect accepts it, and every reading of a row answers as on the
 * image that gave the row. The two images are only read, and may overlap or be the same; the third buffer overlaps
 * neither.
 * Value: the number of rows of the result, 0 to 64.
 * Refusals: 10, 15, 10, 15, 18, 13, in this order:
 *   10, 15   of the first image, as image_inspect gives them
 *   10, 15   of the second image, likewise
 *   18       a label is in both images, with rows of unequal length or bits
 *   13       the result would end past the last byte of the third buffer, or that has under 16 or over 2^32 bytes
 * So a wrong row in the first image, beside a second whose chain is not sound, is refused 15.
 *   NULL, 0 as the first or the second image         refused 10
 *   NULL, 0 or under 16 bytes as the third           refused 13, where nothing before it applies
 *   two images with no row                           0; the third buffer gets the header of an empty chain
 *   a second image whose labels the first all has    the first image's rows, with no gaps; or 18, or 13
 *   unequal rows of a label, and no room             refused 18
 *   a result that ends with the third buffer         accepted; with one byte less lent, refused 13 */
uint64_t image_merge(const uint8_t *first, size_t first_len, const uint8_t *second, size_t second_len, uint8_t *third,
                     size_t third_len);

#ifdef __cplusplus
}
#endif

#endif
