/* A strip's record as one struct, for C and C++: its handle, with the buffers that the caller supplies.
 *
 * NOT PROVED: these are plain inline functions, which pass a record on to the proved calls of strips.h and take the
 * handle over that a change gives back. strips.h says what each call does, what it refuses and what may be lent. A
 * refused change leaves the record as it was, its handle too. A copy of a record does not follow the changes of the
 * other. Nothing is allocated.
 *
 *     static uint64_t words[STRIP_WORDS(512)];
 *     static uint32_t counters[STRIP_COUNTERS(512)];
 *     struct strip_record r = strip_record_over(words, STRIP_WORDS(512), counters, STRIP_COUNTERS(512));
 *     if (strip_record_create(&r, 512).refusal == 0 && strip_record_push(&r, 1).refusal == 0)
 *         misfires = strip_record_total(&r);
 */
#ifndef STRIP_RECORD_H
#define STRIP_RECORD_H

#include "strips.h"

/* What it holds may grow; strip_record_capacity, strip_record_length and strip_record_total read it. */
struct strip_handle {
    uint64_t capacity, length, total;
};

struct strip_record {
    struct strip_handle handle;
    uint64_t *words;
    size_t words_len;
    uint32_t *counters;
    size_t counters_len;
};

/* Accepted: 0, the value, and the second value, 0 where there is none. Refused: the number of the refusal, 0, 0. */
struct strip_answer {
    uint64_t refusal, value, second;
};

/* The same of strip_record_pair_span, whose value may be negative. Accepted: 0, and the value. Refused: the number of
 * the refusal, and 0. */
struct strip_difference {
    uint64_t refusal;
    int64_t value;
};

/* What strip_record_waiting_count answers. Accepted: 0, the least and the most. Refused: the number of the refusal,
 * 0, 0. */
struct strip_count_range {
    uint64_t refusal, least, most;
};

/* What strip_record_waiting_find answers. Accepted: 0; the earliest position; certain, 1 where every outcome has a k-th
 * misfire, else 0; the latest position where certain is 1, else 0. Refused: the number of the refusal, 0, 0, 0. */
struct strip_find_range {
    uint64_t refusal, earliest, certain, latest;
};

/* A record over these buffers, of which nothing is read yet. Up to an accepted strip_record_create every other call
 * on it is refused, by STRIP_BAD_HANDLE unless a record before it is refused first. */
static inline struct strip_record strip_record_over(uint64_t *words, size_t words_len, uint32_t *counters,
                                                    size_t counters_len)
{
    struct strip_record r = {{0, 0, 0}, words, words_len, counters, counters_len};
    return r;
}

/* A record over buffers that hold a strip already, under the handle that was kept with them, as after a reset.
 * strip_record_verify tells whether it fits, and so whether the total is that of the words, as it is not after a flip
 * whose handle was not kept; it does not see a length that is wrong among zeros, as after the push of a 0 whose handle
 * was not kept. strip_record_fill(&r, 0, 0, 0) makes it fit, by its bits below the length, whatever the total; one
 * above the length is refused, so that handle.total is set to 0 first. */
static inline struct strip_record strip_record_resume(struct strip_handle handle, uint64_t *words, size_t words_len,
                                                      uint32_t *counters, size_t counters_len)
{
    struct strip_record r = {handle, words, words_len, counters, counters_len};
    return r;
}

static inline uint64_t strip_record_capacity(const struct strip_record *r) { return r->handle.capacity; }

static inline uint64_t strip_record_length(const struct strip_record *r) { return r->handle.length; }

/* The misfires that the strip holds: a dashboard reads them from the handle after every stroke, with no call. */
static inline uint64_t strip_record_total(const struct strip_record *r) { return r->handle.total; }

/* The answer of a call that takes no record and returns a uint64_t, as strip_answer_of(image_clear(image, image_len));
 * image_merge is such a call. That of strip_pair_span is an int64_t: see strip_record_pair_span. */
static inline struct strip_answer strip_answer_of(uint64_t answer)
{
    struct strip_answer a = {0, 0, 0};
    if (STRIP_REFUSED(answer))
        a.refusal = STRIP_REFUSAL(answer);
    else
        a.value = answer;
    return a;
}

/* The answer of a change, by the numbers that it wrote. Accepted, the record goes on with the handle given. */
static inline struct strip_answer strip_record_changed(struct strip_record *r, const uint64_t *out)
{
    struct strip_answer a = {out[0], out[1], out[2]};
    if (a.refusal == 0) {
        r->handle.capacity = out[3];
        r->handle.length = out[4];
        r->handle.total = out[5];
    }
    return a;
}

/* The arguments that the calls on a record r start with; undefined again below. */
#define STRIP_RECORD_WORDS r->handle.capacity, r->handle.length, r->handle.total, r->words, r->words_len
#define STRIP_RECORD_WHOLE STRIP_RECORD_WORDS, r->counters, r->counters_len

/* ---- Changes. */

static inline struct strip_answer strip_record_create(struct strip_record *r, uint64_t capacity)
{
    uint64_t out[STRIP_OUT];
    strip_create(capacity, r->words, r->words_len, r->counters, r->counters_len, out, STRIP_OUT);
    return strip_record_changed(r, out);
}

static inline struct strip_answer strip_record_push(struct strip_record *r, uint64_t v)
{
    uint64_t out[STRIP_OUT];
    strip_push(STRIP_RECORD_WHOLE, v, out, STRIP_OUT);
    return strip_record_changed(r, out);
}

static inline struct strip_answer strip_record_flip(struct strip_record *r, uint64_t i)
{
    uint64_t out[STRIP_OUT];
    strip_flip(STRIP_RECORD_WHOLE, i, out, STRIP_OUT);
    return strip_record_changed(r, out);
}

static inline struct strip_answer strip_record_fill(struct strip_record *r, uint64_t a, uint64_t b, uint64_t v)
{
    uint64_t out[STRIP_OUT];
    strip_fill(STRIP_RECORD_WHOLE, a, b, v, out, STRIP_OUT);
    return strip_record_changed(r, out);
}

static inline struct strip_answer strip_record_truncate(struct strip_record *r, uint64_t n)
{
    uint64_t out[STRIP_OUT];
    strip_truncate(STRIP_RECORD_WHOLE, n, out, STRIP_OUT);
    return strip_record_changed(r, out);
}

/* ---- Readings, and freezing into an image. */

static inline struct strip_answer strip_record_get(const struct strip_record *r, uint64_t i)
{
    return strip_answer_of(strip_get(STRIP_RECORD_WORDS, i));
}

static inline struct strip_answer strip_record_rank(const struct strip_record *r, uint64_t v, uint64_t i)
{
    return strip_answer_of(strip_rank(STRIP_RECORD_WHOLE, v, i));
}

static inline struct strip_answer strip_record_select(const struct strip_record *r, uint64_t v, uint64_t k)
{
    return strip_answer_of(strip_select(STRIP_RECORD_WHOLE, v, k));
}

static inline struct strip_answer strip_record_successor(const struct strip_record *r, uint64_t v, uint64_t i)
{
    return strip_answer_of(strip_successor(STRIP_RECORD_WORDS, v, i));
}

static inline struct strip_answer strip_record_predecessor(const struct strip_record *r, uint64_t v, uint64_t i)
{
    return strip_answer_of(strip_predecessor(STRIP_RECORD_WORDS, v, i));
}

static inline struct strip_answer strip_record_burst(const struct strip_record *r, uint64_t w, uint64_t m)
{
    return strip_answer_of(strip_burst(STRIP_RECORD_WORDS, w, m));
}

static inline struct strip_answer strip_record_verify(const struct strip_record *r)
{
    return strip_answer_of(strip_verify(STRIP_RECORD_WHOLE));
}

static inline struct strip_answer strip_record_freeze(const struct strip_record *r, uint8_t *image, size_t image_len,
                                                      uint64_t label)
{
    return strip_answer_of(image_freeze(STRIP_RECORD_WORDS, image, image_len, label));
}

/* ---- Two strips compared. Of both records the handle and the words are read, and no counters; so a record that is
 * only compared may be one of strip_record_resume with NULL, 0 for counters. A strip that is ahead may be compared
 * under the other's handle: strip_record_resume(second.handle, first.words, first.words_len, NULL, 0). */

/* The arguments that these calls start with; undefined again below. */
#define STRIP_RECORD_PAIR                                                                              \
    first->handle.capacity, first->handle.length, first->handle.total, first->words, first->words_len, \
        second->handle.capacity, second->handle.length, second->handle.total, second->words, second->words_len

static inline struct strip_answer strip_record_pair_both(const struct strip_record *first,
                                                         const struct strip_record *second, uint64_t i)
{
    return strip_answer_of(strip_pair_both(STRIP_RECORD_PAIR, i));
}

static inline struct strip_answer strip_record_pair_either(const struct strip_record *first,
                                                           const struct strip_record *second, uint64_t i)
{
    return strip_answer_of(strip_pair_either(STRIP_RECORD_PAIR, i));
}

static inline struct strip_answer strip_record_pair_only_first(const struct strip_record *first,
                                                               const struct strip_record *second, uint64_t i)
{
    return strip_answer_of(strip_pair_only_first(STRIP_RECORD_PAIR, i));
}

static inline struct strip_answer strip_record_pair_differ(const struct strip_record *first,
                                                           const struct strip_record *second, uint64_t i)
{
    return strip_answer_of(strip_pair_differ(STRIP_RECORD_PAIR, i));
}

static inline struct strip_answer strip_record_pair_find(const struct strip_record *first,
                                                         const struct strip_record *second, uint64_t k)
{
    return strip_answer_of(strip_pair_find(STRIP_RECORD_PAIR, k));
}

static inline struct strip_difference strip_record_pair_span(const struct strip_record *first,
                                                             const struct strip_record *second, uint64_t a, uint64_t b)
{
    struct strip_difference d = {0, 0};
    int64_t answer = strip_pair_span(STRIP_RECORD_PAIR, a, b);
    if (STRIP_REFUSED(answer))
        d.refusal = STRIP_REFUSAL(answer);
    else
        d.value = answer;
    return d;
}

/* ---- A strip of which some strokes wait, and the waiting strip, which marks them. Of both records the handle and the
 * words are read, and no counters. The waiting strip is kept as any other: for each stroke a bit is pushed to it, 1
 * where the stroke waits, and this 1 is flipped when its pressure has come. */

/* The arguments that these calls start with; undefined again below. */
#define STRIP_RECORD_WAITING                                                                           \
    strip->handle.capacity, strip->handle.length, strip->handle.total, strip->words, strip->words_len, \
        waiting->handle.capacity, waiting->handle.length, waiting->handle.total, waiting->words, waiting->words_len

static inline struct strip_count_range strip_record_waiting_count(const struct strip_record *strip,
                                                                  const struct strip_record *waiting, uint64_t i)
{
    uint64_t out[STRIP_WAITING_COUNT_OUT];
    strip_waiting_count(STRIP_RECORD_WAITING, i, out, STRIP_WAITING_COUNT_OUT);
    struct strip_count_range range = {out[0], out[1], out[2]};
    return range;
}

static inline struct strip_find_range strip_record_waiting_find(const struct strip_record *strip,
                                                                const struct strip_record *waiting, uint64_t k)
{
    uint64_t out[STRIP_WAITING_FIND_OUT];
    strip_waiting_find(STRIP_RECORD_WAITING, k, out, STRIP_WAITING_FIND_OUT);
    struct strip_find_range range = {out[0], out[1], out[2], out[3]};
    return range;
}

#undef STRIP_RECORD_WORDS
#undef STRIP_RECORD_WHOLE
#undef STRIP_RECORD_PAIR
#undef STRIP_RECORD_WAITING

#endif
