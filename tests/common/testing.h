/* The proved calls for tests alone, as in libtesting.a, which is linked beside libstrips.a and has no name in common
 * with it: select in a word, opening a row, the readings of its part, and scripts of calls. display.h has the
 * refusals and how an answer tells one, strips.h what a record and a handle are and what may be lent. Numbers are 64
 * bits wide and none is cut.
 *
 * Refusals are named with each call in the order in which they are judged, and the first that applies is given. After
 * a semicolon stands the refusal that only a wrong row gets. */
#ifndef TESTING_H
#define TESTING_H

#include <stddef.h>
#include <stdint.h>

#ifdef __cplusplus
extern "C" {
#endif

/* The position of the k-th one of x, k from 0; 64 where x has too few. It refuses nothing. */
uint64_t strip_select_in_word(uint64_t x, uint64_t k);

/* ---- Rows. An image is lent as to the calls of display.h. A row's part is its record: IMAGE_RECORD_BYTES(L) bytes
 * from the byte on that image_open answers, L the row's length. */

/* Value: the byte where the label's record starts.
 * Refusals: 10, 11, 14. */
uint64_t image_open(const uint8_t *image, size_t image_len, uint64_t label);

/* The readings of a part, `length` being the length held for it. They are those of display.h on the row, 15 among
 * them, on a part that is exactly one record with label and length in range, and with that length held. Else each is
 * refused 10, before all else; NULL, 0 too.
 * Refusals of a get: 10, 4. */
uint64_t image_part_get(const uint8_t *part, size_t part_len, uint64_t length, uint64_t i);

/* Refusals: 10, 8, 4; 15. */
uint64_t image_part_rank(const uint8_t *part, size_t part_len, uint64_t length, uint64_t v, uint64_t i);

/* Refusals: 10, 8, 6; 15. */
uint64_t image_part_select(const uint8_t *part, size_t part_len, uint64_t length, uint64_t v, uint64_t k);

/* Opening a row, then the reading of the row that was opened. A refusal met while opening comes through unchanged, so
 * each is promised what image_row_get, image_row_rank and image_row_select are.
 * Refusals of a get: 10, 11, 14, 4. */
uint64_t image_opened_get(const uint8_t *image, size_t image_len, uint64_t label, uint64_t i);

/* Refusals: 10, 11, 14, 8, 4; 15. */
uint64_t image_opened_rank(const uint8_t *image, size_t image_len, uint64_t label, uint64_t v, uint64_t i);

/* Refusals: 10, 11, 14, 8, 6; 15. */
uint64_t image_opened_select(const uint8_t *image, size_t image_len, uint64_t label, uint64_t v, uint64_t k);

/* ---- Scripts: lists of calls over one set of lent buffers. A call is four numbers, an opcode and three arguments,
 * of which it reads as many as it has; the opcode is taken modulo 17:
 *    0 lay(capacity)    1 add(v)           2 turn(i)             3 run(a, b, v)   4 cut(n)    5 look(i)
 *    6 count(v, i)      7 find(v, k)       8 next(v, i)          9 prior(v, i)   10 check    11 clear
 *   12 freeze(label)   13 inspect         14 row count(label, v, i)
 *   15 row find(label, v, k)              16 row look(label, i)
 */

/* The opening lay(capacity) and clear, clear first where clear_first is not 0, then every call of the script, each on
 * what the one before left. Returns the number of calls run. The answers: refusal of the opening or 0, capacity,
 * length and total of the last handle; then for each call refusal or 0, first value, second value, 0 where there is
 * none. Later places stay as they are. A refused opening puts its number into answers[0], changes nothing else and
 * returns 0. Numbers past the last whole call are not read. With fewer than 4 + 3 * (script_len / 4) answers lent
 * nothing runs, and 2^64 - 1 is returned. Refusals of the opening: 1, 2, 3, 13; 13 first where clear_first is not 0. */
uint64_t strip_execute(const uint64_t *script, size_t script_len, uint64_t capacity, uint64_t clear_first,
                       uint64_t *words, size_t words_len, uint32_t *counters, size_t counters_len, uint8_t *image,
                       size_t image_len, uint64_t *answers, size_t answers_len);

/* One call of a script, on the handle (capacity, length, total) and any buffers, fitting or not. Writes six numbers to
 * `out`: refusal or 0, first value, second value, capacity, length and total of the handle that is in use afterwards.
 * With fewer than six lent it does nothing at all.
 * Refusals: the call's own. */
void strip_step(uint64_t op, uint64_t x, uint64_t y, uint64_t z, uint64_t capacity, uint64_t length, uint64_t total,
                uint64_t *words, size_t words_len, uint32_t *counters, size_t counters_len, uint8_t *image,
                size_t image_len, uint64_t *out, size_t out_len);

#ifdef __cplusplus
}
#endif

#endif
