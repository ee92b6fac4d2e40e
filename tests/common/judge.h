/* What calls may tell, by the documents' definitions: the sizes, the readings of a strip's words, of two strips' words
 * and of a strip with strokes that wait, and on an image the chain, whether each row is right, clear, freeze, inspect,
 * opening, the labels and lengths of rows, and their readings; and the merge of two images. Of the library's nothing is
 * used but the refusals' numbers. */
#ifndef JUDGE_H
#define JUDGE_H

#include "borders.h"
#include "layout.h"
#include "refusals.h"

#include <stddef.h>
#include <stdint.h>
#include <string.h>

enum { ROWS = 64 };

/* A row: its record's place, label and length, its bits, and whether its ones, entries and padding are those of its
 * bits. */
struct row {
    uint64_t start, label, length;
    const uint8_t *bits;
    int right;
};

/* An image whose chain is sound, with its rows in chain order; or one whose chain is not. */
struct judged {
    int sound;
    unsigned count;
    struct row rows[ROWS];
};

static inline const struct row *row_of(const struct judged *j, uint64_t label)
{
    for (unsigned r = 0; r < j->count; r++)
        if (j->rows[r].label == label)
            return &j->rows[r];
    return NULL;
}

/* One more record, at a byte of the image: whether the chain is sound so far. */
static inline int take_record(struct judged *j, const uint8_t *s, uint64_t n, uint64_t start)
{
    if (start + 16 > n)
        return 0;
    uint64_t label = little_endian(s + start + 4, 4), length = little_endian(s + start + 8, 4);
    if (label < 1 || label > 64)
        return 0;
    if (length > LARGEST)
        return 0;
    if (row_of(j, label) != NULL)
        return 0;
    if (start + record_size(length) > n)
        return 0;
    const uint8_t *bits = s + start + 16 + 16 * superblocks(length);
    j->rows[j->count++] = (struct row){start, label, length, bits, row_right(s + start)};
    return 1;
}

/* Walks the chain. Each next is 0 or not before its record's end, so the walk ends. */
static inline void judge(struct judged *j, const uint8_t *s, uint64_t n)
{
    j->sound = 0;
    j->count = 0;
    if (n < 16 || n > WIDE)
        return;
    if (little_endian(s + 4, 4) != 1 || little_endian(s + 8, 8) != 0)
        return;
    for (uint64_t start = 16 * little_endian(s, 4); start != 0;) {
        if (!take_record(j, s, n, start))
            return;
        uint64_t next = 16 * little_endian(s + start, 4);
        if (next != 0 && next < start + record_size(j->rows[j->count - 1].length))
            return;
        start = next;
    }
    j->sound = 1;
}

/* ---- sizes, clear, freeze, inspect */

static inline int capacity_good(uint64_t capacity)
{
    return capacity % 512 == 0 && capacity >= 512 && capacity <= LARGEST;
}

/* How many counters a capacity needs: 72 for each node of each level. */
static inline uint64_t counter_count_of(uint64_t capacity)
{
    uint64_t nodes = 0, children = capacity / 512;
    do {
        children = (children + 63) / 64;
        nodes += children;
    } while (children > 1);
    return 72 * nodes;
}

/* The number of counters: 1, or as many as the capacity needs. */
static inline uint64_t counter_count_answer(uint64_t capacity)
{
    return capacity_good(capacity) ? counter_count_of(capacity) : REFUSED(STRIP_BAD_HANDLE);
}

/* The size of a record: 4 where no row is so long, or its bytes. */
static inline uint64_t record_size_answer(uint64_t length)
{
    return length > LARGEST ? REFUSED(STRIP_POSITION) : record_size(length);
}

/* clear: 13, or 16. */
static inline uint64_t clear_answer(uint64_t size)
{
    return size < 16 || size > WIDE ? REFUSED(STRIP_NO_ROOM) : 16;
}

/* A handle. The total is the number of ones; the calls on words alone only judge it. */
struct handle {
    uint64_t capacity, length, total;
};

/* The three arguments of a handle. */
#define OF_HANDLE(h) (h).capacity, (h).length, (h).total

/* 1 and 2 of a call with so many words lent, or 0. */
static inline uint64_t handle_refused(struct handle h, uint64_t words_len)
{
    if (!capacity_good(h.capacity) || h.length > h.capacity || h.total > h.length)
        return REFUSED(STRIP_BAD_HANDLE);
    return words_len != h.capacity / 64 ? REFUSED(STRIP_BAD_WORDS) : 0;
}

/* Where the next record starts: at the last one's end, or at unit 1. */
static inline uint64_t next_start(const struct judged *j)
{
    const struct row *last = j->count == 0 ? NULL : &j->rows[j->count - 1];
    return last == NULL ? 16 : last->start + record_size(last->length);
}

/* freeze(label) of so many bits into an image of so many bytes, after 1 and 2: 10, 11, 12, 13, or its unit index. */
static inline uint64_t freeze_answer(const struct judged *j, uint64_t size, uint64_t length, uint64_t label)
{
    if (!j->sound)
        return REFUSED(STRIP_UNSOUND);
    if (label < 1 || label > 64)
        return REFUSED(STRIP_BAD_LABEL);
    if (row_of(j, label) != NULL)
        return REFUSED(STRIP_LABEL_PRESENT);
    return next_start(j) + record_size(length) > size ? REFUSED(STRIP_NO_ROOM) : next_start(j) / 16;
}

/* inspect: 10, 15, or the number of rows. */
static inline uint64_t inspect_answer(const struct judged *j)
{
    if (!j->sound)
        return REFUSED(STRIP_UNSOUND);
    for (unsigned r = 0; r < j->count; r++)
        if (!j->rows[r].right)
            return REFUSED(STRIP_WRONG_ROW);
    return j->count;
}

/* ---- the merge of two images */

/* The rows of a merge, in order, and its bytes. */
struct merged {
    unsigned count;
    const struct row *rows[ROWS];
    uint64_t size;
};

/* Whether two rows have one length and the same bits. */
static inline int rows_equal(const struct row *x, const struct row *y)
{
    if (x->length != y->length || memcmp(x->bits, y->bits, x->length / 8) != 0)
        return 0;
    for (uint64_t p = x->length / 8 * 8; p < x->length; p++)
        if (bit(x->bits, p) != bit(y->bits, p))
            return 0;
    return 1;
}

static inline void take_row(struct merged *m, const struct row *row)
{
    m->rows[m->count++] = row;
    m->size += record_size(row->length);
}

/* merge into a third buffer of so many bytes: 10 and 15 of the first image, 10 and 15 of the second, 18, 13, or the
 * number of rows. The rows are in `m` where it is not refused, or refused by 13 alone. */
static inline uint64_t merge_answer(struct merged *m, const struct judged *first, const struct judged *second,
                                    uint64_t third_size)
{
    *m = (struct merged){.size = 16};
    if (STRIP_REFUSED(inspect_answer(first)))
        return inspect_answer(first);
    if (STRIP_REFUSED(inspect_answer(second)))
        return inspect_answer(second);
    for (unsigned r = 0; r < first->count; r++)
        take_row(m, &first->rows[r]);
    for (unsigned r = 0; r < second->count; r++) {
        const struct row *own = row_of(first, second->rows[r].label);
        if (own == NULL)
            take_row(m, &second->rows[r]);
        else if (!rows_equal(own, &second->rows[r]))
            return REFUSED(STRIP_CONFLICT);
    }
    return third_size < m->size || third_size > WIDE ? REFUSED(STRIP_NO_ROOM) : m->count;
}

/* Whether an image is a merge: these rows, each at its place and right. */
static inline int merge_written(const struct merged *m, const struct judged *j)
{
    uint64_t start = 16;
    if (!j->sound || j->count != m->count)
        return 0;
    for (unsigned r = 0; r < j->count; r++) {
        const struct row *row = &j->rows[r];
        if (row->start != start || row->label != m->rows[r]->label || !row->right || !rows_equal(row, m->rows[r]))
            return 0;
        start += record_size(row->length);
    }
    return 1;
}

/* ---- readings: of a row that was opened, or of none, which all get the refusal met before */

struct opened {
    const struct row *row;
    uint64_t refused;
};

/* Opening a label's row: 10, 11, 14. */
static inline struct opened open_row(const struct judged *j, uint64_t label)
{
    if (!j->sound)
        return (struct opened){NULL, REFUSED(STRIP_UNSOUND)};
    if (label < 1 || label > 64)
        return (struct opened){NULL, REFUSED(STRIP_BAD_LABEL)};
    const struct row *row = row_of(j, label);
    return (struct opened){row, row == NULL ? REFUSED(STRIP_LABEL_ABSENT) : 0};
}

/* A part of so many bytes with a length held: 10 where it is not exactly one record of that length. */
static inline struct opened open_part(struct judged *one, const uint8_t *part, uint64_t size, uint64_t length)
{
    one->count = 0;
    int whole = take_record(one, part, size, 0) && record_size(one->rows[0].length) == size;
    const struct row *row = whole && one->rows[0].length == length ? &one->rows[0] : NULL;
    return (struct opened){row, row == NULL ? REFUSED(STRIP_UNSOUND) : 0};
}

/* Opening as it is told: the byte where the record starts, or the refusal. */
static inline uint64_t open_answer(struct opened o)
{
    return o.row == NULL ? o.refused : o.row->start;
}

/* A row's length: that of its record, on a wrong row too. */
static inline uint64_t length_answer(struct opened o)
{
    return o.row == NULL ? o.refused : o.row->length;
}

/* The label of the k-th row in chain order, k from 0: 10, 14. */
static inline uint64_t label_answer(const struct judged *j, uint64_t k)
{
    if (!j->sound)
        return REFUSED(STRIP_UNSOUND);
    return k < j->count ? j->rows[k].label : REFUSED(STRIP_LABEL_ABSENT);
}

/* look(i): exact, on a wrong row too. */
static inline uint64_t get_answer(struct opened o, uint64_t i)
{
    if (o.row == NULL)
        return o.refused;
    return i < o.row->length ? bit(o.row->bits, i) : REFUSED(STRIP_POSITION);
}

/* How many of the first i bits are ones. */
static inline uint64_t ones_before(const struct row *row, uint64_t i)
{
    uint64_t ones = ones_of(row->bits, i / 8);
    for (uint64_t p = i / 8 * 8; p < i; p++)
        ones += bit(row->bits, p);
    return ones;
}

/* Whether count(v, i) may tell this: exact, but at most i or 15 on a wrong row. */
static inline int rank_allowed(struct opened o, uint64_t v, uint64_t i, uint64_t told)
{
    if (o.row == NULL)
        return told == o.refused;
    if (v > 1)
        return told == REFUSED(STRIP_BAD_VALUE);
    if (i > o.row->length)
        return told == REFUSED(STRIP_POSITION);
    if (!o.row->right)
        return told <= i || told == REFUSED(STRIP_WRONG_ROW);
    uint64_t ones = ones_before(o.row, i);
    return told == (v == 1 ? ones : i - ones);
}

/* find(v, k) by definition: past whole blocks that have too few of v, then bit by bit. */
static inline uint64_t found(const struct row *row, uint64_t v, uint64_t k)
{
    uint64_t p = 0;
    for (; p + 512 <= row->length; p += 512) {
        uint64_t ones = ones_of(row->bits + p / 8, 64), of_v = v == 1 ? ones : 512 - ones;
        if (k < of_v)
            break;
        k -= of_v;
    }
    for (; p < row->length; p++) {
        if (bit(row->bits, p) != v)
            continue;
        if (k == 0)
            return p;
        k--;
    }
    return REFUSED(STRIP_NOT_FOUND);
}

/* Whether find(v, k) may tell this: exact, but a position below the length, 6 or 15 on a wrong row, and 6 there for k
 * at or past the length. */
static inline int select_allowed(struct opened o, uint64_t v, uint64_t k, uint64_t told)
{
    if (o.row == NULL)
        return told == o.refused;
    if (v > 1)
        return told == REFUSED(STRIP_BAD_VALUE);
    if (k >= o.row->length)
        return told == REFUSED(STRIP_NOT_FOUND);
    if (!o.row->right)
        return told < o.row->length || told == REFUSED(STRIP_NOT_FOUND) || told == REFUSED(STRIP_WRONG_ROW);
    return told == found(o.row, v, k);
}

/* ---- the calls on a strip's words alone. Words lie in memory as the bits of a row do. */

/* The strip as a row, in `room`: 1, 2. */
static inline struct opened open_strip(struct row *room, struct handle h, const void *words, uint64_t words_len)
{
    uint64_t refused = handle_refused(h, words_len);
    *room = (struct row){0, 0, h.length, words, 1};
    return (struct opened){refused == 0 ? room : NULL, refused};
}

/* 1, 2, 8 and 4 of next and prior, or 0. */
static inline uint64_t seek_refused(struct opened o, uint64_t v, uint64_t i)
{
    if (o.row == NULL)
        return o.refused;
    if (v > 1)
        return REFUSED(STRIP_BAD_VALUE);
    return i > o.row->length ? REFUSED(STRIP_POSITION) : 0;
}

/* next(v, i). */
static inline uint64_t successor_answer(struct opened o, uint64_t v, uint64_t i)
{
    uint64_t refused = seek_refused(o, v, i);
    if (refused != 0)
        return refused;
    for (uint64_t p = i; p < o.row->length; p++)
        if (bit(o.row->bits, p) == v)
            return p;
    return REFUSED(STRIP_NOT_FOUND);
}

/* prior(v, i). */
static inline uint64_t predecessor_answer(struct opened o, uint64_t v, uint64_t i)
{
    uint64_t refused = seek_refused(o, v, i);
    if (refused != 0)
        return refused;
    for (uint64_t p = i; p > 0; p--)
        if (bit(o.row->bits, p - 1) == v)
            return p - 1;
    return REFUSED(STRIP_NOT_FOUND);
}

/* 1, 2, 17 of burst(w, m), and 6 where the strip is shorter than w, or 0. */
static inline uint64_t burst_refused(struct opened o, uint64_t w, uint64_t m)
{
    if (o.row == NULL)
        return o.refused;
    if (w < 1 || w > WIDEST || m < 1 || m > w)
        return REFUSED(STRIP_BAD_WINDOW);
    return w > o.row->length ? REFUSED(STRIP_NOT_FOUND) : 0;
}

/* The most ones of a window of w strokes, wholly inside the strip; w is 1 to the length. */
static inline uint64_t most_ones(const struct row *row, uint64_t w)
{
    uint64_t ones = ones_before(row, w), most = ones;
    for (uint64_t s = 1; s + w <= row->length; s++) {
        ones = ones + bit(row->bits, s + w - 1) - bit(row->bits, s - 1);
        most = ones > most ? ones : most;
    }
    return most;
}

/* Whether burst(w, m) may tell this: the start of any window that holds at least m ones; 6 where there is none. */
static inline int burst_allowed(struct opened o, uint64_t w, uint64_t m, uint64_t told)
{
    uint64_t refused = burst_refused(o, w, m);
    if (refused != 0)
        return told == refused;
    if (most_ones(o.row, w) < m)
        return told == REFUSED(STRIP_NOT_FOUND);
    return told <= o.row->length - w && ones_before(o.row, told + w) - ones_before(o.row, told) >= m;
}

/* The position of the k-th one of a word, or 64. */
static inline uint64_t word_select_answer(uint64_t x, uint64_t k)
{
    for (uint64_t p = 0; p < 64; p++) {
        if ((x >> p & 1) == 0)
            continue;
        if (k == 0)
            return p;
        k--;
    }
    return 64;
}

/* ---- the calls on two strips' words */

/* A strip as it is lent: its handle, its words as bytes, and how many words they are. */
struct strip {
    struct handle handle;
    const uint8_t *bits;
    uint64_t words_len;
};

/* The arguments of a strip on words alone. */
#define OF(s) OF_HANDLE((s).handle), (const uint64_t *)(s).bits, (s).words_len

/* 1 and 2 of the first strip, 1 and 2 of the second, 16, or 0. */
static inline uint64_t pair_refused(struct strip first, struct strip second)
{
    struct handle h = first.handle, g = second.handle;
    uint64_t refused = handle_refused(h, first.words_len);
    if (refused != 0)
        return refused;
    refused = handle_refused(g, second.words_len);
    if (refused != 0)
        return refused;
    return h.capacity != g.capacity || h.length != g.length ? REFUSED(STRIP_UNEQUAL) : 0;
}

/* Which strokes of two strips are counted. */
enum judged_so { BOTH_MARK, EITHER_MARKS, ONLY_FIRST_MARKS, JUDGED_DIFFERENTLY };

static inline int stroke_so(enum judged_so so, struct strip first, struct strip second, uint64_t p)
{
    int x = bit(first.bits, p) == 1, y = bit(second.bits, p) == 1;
    switch (so) {
    case BOTH_MARK: return x && y;
    case EITHER_MARKS: return x || y;
    case ONLY_FIRST_MARKS: return x && !y;
    default: return x != y;
    }
}

/* How many strokes before i the two strips judge so: 1 and 2 of each, 16, 4. */
static inline uint64_t pair_count_answer(enum judged_so so, struct strip first, struct strip second, uint64_t i)
{
    uint64_t refused = pair_refused(first, second), strokes = 0;
    if (refused != 0)
        return refused;
    if (i > first.handle.length)
        return REFUSED(STRIP_POSITION);
    for (uint64_t p = 0; p < i; p++)
        strokes += stroke_so(so, first, second, p);
    return strokes;
}

/* The k-th stroke judged differently, k from 0: 1 and 2 of each, 16, 6. */
static inline uint64_t pair_find_answer(struct strip first, struct strip second, uint64_t k)
{
    uint64_t refused = pair_refused(first, second);
    if (refused != 0)
        return refused;
    for (uint64_t p = 0; p < first.handle.length; p++) {
        if (!stroke_so(JUDGED_DIFFERENTLY, first, second, p))
            continue;
        if (k == 0)
            return p;
        k--;
    }
    return REFUSED(STRIP_NOT_FOUND);
}

/* The ones of the first in positions a to b - 1 less those of the second: 1 and 2 of each, 16, 5, 4. */
static inline int64_t pair_span_answer(struct strip first, struct strip second, uint64_t a, uint64_t b)
{
    uint64_t refused = pair_refused(first, second);
    int64_t difference = 0;
    if (refused != 0)
        return (int64_t)refused;
    if (a > b)
        return (int64_t)REFUSED(STRIP_SPAN);
    if (b > first.handle.length)
        return (int64_t)REFUSED(STRIP_POSITION);
    for (uint64_t p = a; p < b; p++)
        difference += (int64_t)bit(first.bits, p) - (int64_t)bit(second.bits, p);
    return difference;
}

/* ---- the calls on a strip with strokes that wait, and its waiting strip, which marks them */

/* The numbers that a call writes, 0 past the last. */
struct waiting_answer {
    uint64_t numbers[4];
};

/* The answer that tells a refusal, given as 2^32 plus its number. */
static inline struct waiting_answer waiting_refused(uint64_t refused)
{
    return (struct waiting_answer){{refused - REFUSED(0), 0, 0, 0}};
}

/* The least and the most ones of all outcomes, before some position. */
struct ones_range {
    uint64_t least, most;
};

/* Those before p + 1, of those before p. A stroke that waits is a one in some outcome, whatever the bit of it. */
static inline struct ones_range past_stroke(struct ones_range before, struct strip strip, struct strip waiting,
                                            uint64_t p)
{
    if (bit(waiting.bits, p) == 1)
        return (struct ones_range){before.least, before.most + 1};
    return (struct ones_range){before.least + bit(strip.bits, p), before.most + bit(strip.bits, p)};
}

/* The least and the most ones before i: 1 and 2 of each, 16, 4. */
static inline struct waiting_answer waiting_count_answer(struct strip strip, struct strip waiting, uint64_t i)
{
    uint64_t refused = pair_refused(strip, waiting);
    struct ones_range ones = {0, 0};
    if (refused != 0)
        return waiting_refused(refused);
    if (i > strip.handle.length)
        return waiting_refused(REFUSED(STRIP_POSITION));
    for (uint64_t p = 0; p < i; p++)
        ones = past_stroke(ones, strip, waiting, p);
    return (struct waiting_answer){{0, ones.least, ones.most, 0}};
}

/* The earliest and the latest position of the k-th one, k from 0, and between them whether every outcome has one: 1 and
 * 2 of each, 16, 6. It can be at p where p can be a one, and k ones can be before it. */
static inline struct waiting_answer waiting_find_answer(struct strip strip, struct strip waiting, uint64_t k)
{
    uint64_t refused = pair_refused(strip, waiting), earliest = 0, latest = 0;
    struct ones_range ones = {0, 0};
    int found = 0;
    if (refused != 0)
        return waiting_refused(refused);
    for (uint64_t p = 0; p < strip.handle.length && ones.least <= k; p++) {
        int can_be_one = bit(strip.bits, p) == 1 || bit(waiting.bits, p) == 1;
        if (can_be_one && k <= ones.most) {
            earliest = found ? earliest : p;
            latest = p;
            found = 1;
        }
        ones = past_stroke(ones, strip, waiting, p);
    }
    if (!found)
        return waiting_refused(REFUSED(STRIP_NOT_FOUND));
    return (struct waiting_answer){{0, earliest, ones.least > k, ones.least > k ? latest : 0}};
}

#endif
