/* Each function of strip_record.h on strip A, accepted and refused. A refused change leaves the record's handle. */
#include "strip_record.h"

#include <inttypes.h>
#include <stdio.h>
#include <string.h>

#define CAPACITY 512

/* Strip A, 17 bits. */
static const char a[] = "01101101010101110";

/* What another judge says of the same strokes: they differ at 2, 10 and 15. */
static const char other[] = "01001101011101100";

/* Which of these strokes wait: 2, 3, 13 and 16. */
static const char marks[] = "00110000000001001";

static uint64_t words[STRIP_WORDS(CAPACITY)], other_words[STRIP_WORDS(CAPACITY)];
static uint32_t counters[STRIP_COUNTERS(CAPACITY)], other_counters[STRIP_COUNTERS(CAPACITY)];
static uint8_t image[IMAGE_HEADER_BYTES + IMAGE_RECORD_BYTES(17)];
static struct strip_record record;

static int failed = 0;

static void expect(const char *call, struct strip_answer told, uint64_t refusal, uint64_t value, uint64_t second)
{
    if (told.refusal == refusal && told.value == value && told.second == second)
        return;
    printf("%s: %" PRIu64 ", %" PRIu64 ", %" PRIu64 "\n", call, told.refusal, told.value, told.second);
    failed = 1;
}

static void expect_span(const char *call, struct strip_difference told, uint64_t refusal, int64_t value)
{
    if (told.refusal == refusal && told.value == value)
        return;
    printf("%s: %" PRIu64 ", %" PRId64 "\n", call, told.refusal, told.value);
    failed = 1;
}

static void expect_count(const char *call, struct strip_count_range told, uint64_t refusal, uint64_t least,
                         uint64_t most)
{
    if (told.refusal == refusal && told.least == least && told.most == most)
        return;
    printf("%s: %" PRIu64 ", %" PRIu64 ", %" PRIu64 "\n", call, told.refusal, told.least, told.most);
    failed = 1;
}

static void expect_find(const char *call, struct strip_find_range told, uint64_t refusal, uint64_t earliest,
                        uint64_t certain, uint64_t latest)
{
    if (told.refusal == refusal && told.earliest == earliest && told.certain == certain && told.latest == latest)
        return;
    printf("%s: %" PRIu64 ", %" PRIu64 ", ", call, told.refusal, told.earliest);
    printf("%" PRIu64 ", %" PRIu64 "\n", told.certain, told.latest);
    failed = 1;
}

static void expect_handle(const char *call, struct strip_handle h)
{
    if (strip_record_capacity(&record) == h.capacity && strip_record_length(&record) == h.length &&
        strip_record_total(&record) == h.total)
        return;
    printf("after %s: capacity %" PRIu64 ", ", call, strip_record_capacity(&record));
    printf("length %" PRIu64 ", total %" PRIu64 "\n", strip_record_length(&record), strip_record_total(&record));
    failed = 1;
}

/* A reading: its value, or its refusal. */
#define VALUE(call, value) expect(#call, call, 0, value, 0)
#define REFUSAL(call, refusal) expect(#call, call, refusal, 0, 0)

/* A span of two strips: its value, or its refusal. */
#define SPAN_VALUE(call, value) expect_span(#call, call, 0, value)
#define SPAN_REFUSAL(call, refusal) expect_span(#call, call, refusal, 0)

/* A count and a find with strokes that wait: the values, or the refusal. */
#define BETWEEN(call, least, most) expect_count(#call, call, 0, least, most)
#define COUNT_REFUSAL(call, refusal) expect_count(#call, call, refusal, 0, 0)
#define FROM_TO(call, earliest, latest) expect_find(#call, call, 0, earliest, 1, latest)
#define FROM(call, earliest) expect_find(#call, call, 0, earliest, 0, 0)
#define FIND_REFUSAL(call, refusal) expect_find(#call, call, refusal, 0, 0, 0)

/* A change: its values, with the length and the total afterwards; or its refusal, and the handle as it was. */
#define CHANGED(call, value, second, length, total) \
    (expect(#call, call, 0, value, second), expect_handle(#call, (struct strip_handle){CAPACITY, length, total}))
#define KEPT(call, refusal)                          \
    do {                                             \
        struct strip_handle handle = record.handle;  \
        expect(#call, call, refusal, 0, 0);          \
        expect_handle(#call, handle);                \
    } while (0)

/* The record, which holds strip A, beside the other judge's; and beside records that may not be compared with it. */
static void compare(void)
{
    struct strip_record o =
        strip_record_over(other_words, STRIP_WORDS(CAPACITY), other_counters, STRIP_COUNTERS(CAPACITY));
    REFUSAL(strip_record_pair_both(&record, &o, 0), STRIP_BAD_HANDLE);
    REFUSAL(strip_record_pair_both(&o, &record, 0), STRIP_BAD_HANDLE);
    strip_record_create(&o, CAPACITY);
    for (uint64_t p = 0; p + 1 < strlen(other); p++)
        strip_record_push(&o, other[p] == '1');
    REFUSAL(strip_record_pair_both(&record, &o, 0), STRIP_UNEQUAL);
    REFUSAL(strip_record_pair_either(&record, &o, 18), STRIP_UNEQUAL);
    REFUSAL(strip_record_pair_only_first(&record, &o, 0), STRIP_UNEQUAL);
    REFUSAL(strip_record_pair_differ(&record, &o, 0), STRIP_UNEQUAL);
    REFUSAL(strip_record_pair_find(&record, &o, 9), STRIP_UNEQUAL);
    SPAN_REFUSAL(strip_record_pair_span(&record, &o, 1, 0), STRIP_UNEQUAL);

    /* each total is judged by its own record's length, 16 beside the other's 17; one not above it changes nothing */
    uint64_t total = strip_record_total(&o);
    o.handle.total = 17;
    REFUSAL(strip_record_pair_both(&record, &o, 0), STRIP_BAD_HANDLE);
    SPAN_REFUSAL(strip_record_pair_span(&o, &record, 0, 0), STRIP_BAD_HANDLE);
    o.handle.total = total;
    strip_record_push(&o, other[strlen(other) - 1] == '1');
    total = strip_record_total(&o);
    o.handle.total = 17;
    VALUE(strip_record_pair_both(&record, &o, 17), 8);
    VALUE(strip_record_pair_only_first(&o, &record, 17), 1);
    o.handle.total = total;

    VALUE(strip_record_pair_both(&record, &o, 17), 8);
    VALUE(strip_record_pair_either(&record, &o, 17), 11);
    VALUE(strip_record_pair_only_first(&record, &o, 17), 2);
    VALUE(strip_record_pair_only_first(&o, &record, 17), 1);
    VALUE(strip_record_pair_differ(&record, &o, 17), 3);
    VALUE(strip_record_pair_differ(&record, &o, 10), 1);
    REFUSAL(strip_record_pair_both(&record, &o, 18), STRIP_POSITION);
    REFUSAL(strip_record_pair_either(&record, &o, 18), STRIP_POSITION);
    REFUSAL(strip_record_pair_only_first(&record, &o, 18), STRIP_POSITION);
    REFUSAL(strip_record_pair_differ(&record, &o, 18), STRIP_POSITION);
    VALUE(strip_record_pair_find(&record, &o, 1), 10);
    REFUSAL(strip_record_pair_find(&record, &o, 3), STRIP_NOT_FOUND);
    SPAN_VALUE(strip_record_pair_span(&record, &o, 0, 17), 1);
    SPAN_VALUE(strip_record_pair_span(&record, &o, 8, 12), -1);
    SPAN_VALUE(strip_record_pair_span(&o, &record, 8, 12), 1);
    SPAN_VALUE(strip_record_pair_span(&record, &o, 17, 17), 0);
    SPAN_REFUSAL(strip_record_pair_span(&record, &o, 18, 17), STRIP_SPAN);
    SPAN_REFUSAL(strip_record_pair_span(&record, &o, 17, 18), STRIP_POSITION);

    /* each record by its own words; no counters are needed */
    o = strip_record_resume(o.handle, other_words, STRIP_WORDS(CAPACITY) - 1, NULL, 0);
    REFUSAL(strip_record_pair_both(&record, &o, 17), STRIP_BAD_WORDS);
    SPAN_REFUSAL(strip_record_pair_span(&o, &record, 0, 17), STRIP_BAD_WORDS);
    o = strip_record_resume(o.handle, other_words, STRIP_WORDS(CAPACITY), NULL, 0);
    VALUE(strip_record_pair_differ(&record, &o, 17), 3);
    SPAN_VALUE(strip_record_pair_span(&o, &record, 0, 17), -1);
}

/* The record, which holds strip A, with the record of the strokes that wait. */
static void wait_for_pressure(void)
{
    struct strip_record w =
        strip_record_over(other_words, STRIP_WORDS(CAPACITY), other_counters, STRIP_COUNTERS(CAPACITY));
    COUNT_REFUSAL(strip_record_waiting_count(&record, &w, 0), STRIP_BAD_HANDLE);
    FIND_REFUSAL(strip_record_waiting_find(&w, &record, 0), STRIP_BAD_HANDLE);
    strip_record_create(&w, CAPACITY);
    for (uint64_t p = 0; p + 1 < strlen(marks); p++)
        strip_record_push(&w, marks[p] == '1');
    COUNT_REFUSAL(strip_record_waiting_count(&record, &w, 18), STRIP_UNEQUAL);
    FIND_REFUSAL(strip_record_waiting_find(&record, &w, 99), STRIP_UNEQUAL);

    /* each total is judged by its own record's length, 16 beside the other's 17; one not above it changes nothing */
    uint64_t total = strip_record_total(&w);
    w.handle.total = 17;
    COUNT_REFUSAL(strip_record_waiting_count(&record, &w, 0), STRIP_BAD_HANDLE);
    FIND_REFUSAL(strip_record_waiting_find(&w, &record, 0), STRIP_BAD_HANDLE);
    w.handle.total = total;
    strip_record_push(&w, marks[strlen(marks) - 1] == '1');
    total = strip_record_total(&w);
    w.handle.total = 17;
    BETWEEN(strip_record_waiting_count(&record, &w, 17), 8, 12);
    FROM_TO(strip_record_waiting_find(&record, &w, 0), 1, 1);
    w.handle.total = total;

    BETWEEN(strip_record_waiting_count(&record, &w, 0), 0, 0);
    BETWEEN(strip_record_waiting_count(&record, &w, 4), 1, 3);
    BETWEEN(strip_record_waiting_count(&record, &w, 17), 8, 12);
    COUNT_REFUSAL(strip_record_waiting_count(&record, &w, 18), STRIP_POSITION);
    FROM_TO(strip_record_waiting_find(&record, &w, 0), 1, 1);
    FROM_TO(strip_record_waiting_find(&record, &w, 1), 2, 4);
    FROM_TO(strip_record_waiting_find(&record, &w, 7), 11, 15);
    FROM(strip_record_waiting_find(&record, &w, 8), 13);
    FROM(strip_record_waiting_find(&record, &w, 11), 16);
    FIND_REFUSAL(strip_record_waiting_find(&record, &w, 12), STRIP_NOT_FOUND);

    /* the pressure of 13 has come: its bit stands */
    strip_record_flip(&w, 13);
    BETWEEN(strip_record_waiting_count(&record, &w, 17), 9, 12);
    FROM_TO(strip_record_waiting_find(&record, &w, 8), 13, 15);

    /* each record by its own words; no counters are needed */
    w = strip_record_resume(w.handle, other_words, STRIP_WORDS(CAPACITY) - 1, NULL, 0);
    COUNT_REFUSAL(strip_record_waiting_count(&record, &w, 17), STRIP_BAD_WORDS);
    FIND_REFUSAL(strip_record_waiting_find(&w, &record, 0), STRIP_BAD_WORDS);
    w = strip_record_resume(w.handle, other_words, STRIP_WORDS(CAPACITY), NULL, 0);
    BETWEEN(strip_record_waiting_count(&record, &w, 17), 9, 12);
    FROM_TO(strip_record_waiting_find(&record, &w, 0), 1, 1);
}

int main(void)
{
    /* not laid yet: every other call is refused by 1 */
    record = strip_record_over(words, STRIP_WORDS(CAPACITY), counters, STRIP_COUNTERS(CAPACITY));
    expect_handle("strip_record_over", (struct strip_handle){0, 0, 0});
    KEPT(strip_record_push(&record, 1), STRIP_BAD_HANDLE);
    KEPT(strip_record_fill(&record, 0, 0, 0), STRIP_BAD_HANDLE);
    REFUSAL(strip_record_rank(&record, 1, 0), STRIP_BAD_HANDLE);
    REFUSAL(strip_record_burst(&record, 1, 1), STRIP_BAD_HANDLE);
    REFUSAL(strip_record_verify(&record), STRIP_BAD_HANDLE);
    KEPT(strip_record_create(&record, 513), STRIP_BAD_HANDLE);

    /* laid; the empty strip */
    CHANGED(strip_record_create(&record, CAPACITY), 72, 0, 0, 0);
    VALUE(strip_record_rank(&record, 0, 0), 0);
    REFUSAL(strip_record_select(&record, 0, 0), STRIP_NOT_FOUND);
    REFUSAL(strip_record_get(&record, 0), STRIP_POSITION);

    /* strip A, bit by bit: a one in the first block moves 15 counters, a zero none */
    uint64_t ones = 0;
    for (uint64_t p = 0; p < strlen(a); p++) {
        ones += a[p] == '1';
        CHANGED(strip_record_push(&record, a[p] == '1'), p, a[p] == '1' ? 15 : 0, p + 1, ones);
    }
    KEPT(strip_record_push(&record, 2), STRIP_BAD_VALUE);
    KEPT(strip_record_push(&record, (UINT64_C(1) << 32) + 1), STRIP_BAD_VALUE);

    /* readings */
    VALUE(strip_record_get(&record, 1), 1);
    REFUSAL(strip_record_get(&record, 17), STRIP_POSITION);
    VALUE(strip_record_rank(&record, 1, 8), 5);
    VALUE(strip_record_rank(&record, 1, 7), 4);
    VALUE(strip_record_rank(&record, 1, 17), 10);
    REFUSAL(strip_record_rank(&record, 1, 18), STRIP_POSITION);
    VALUE(strip_record_select(&record, 1, 7), 13);
    VALUE(strip_record_select(&record, 1, 9), 15);
    REFUSAL(strip_record_select(&record, 1, 10), STRIP_NOT_FOUND);
    VALUE(strip_record_successor(&record, 1, 8), 9);
    REFUSAL(strip_record_successor(&record, 1, 16), STRIP_NOT_FOUND);
    VALUE(strip_record_predecessor(&record, 0, 16), 12);
    REFUSAL(strip_record_predecessor(&record, 0, 18), STRIP_POSITION);
    VALUE(strip_record_burst(&record, 3, 3), 13);
    VALUE(strip_record_burst(&record, 15, 10), 1);
    VALUE(strip_record_burst(&record, 17, 10), 0);
    REFUSAL(strip_record_burst(&record, 4, 4), STRIP_NOT_FOUND);
    REFUSAL(strip_record_burst(&record, 18, 1), STRIP_NOT_FOUND);
    REFUSAL(strip_record_burst(&record, 3, 4), STRIP_BAD_WINDOW);
    VALUE(strip_record_verify(&record), 10);
    compare();
    wait_for_pressure();

    /* refused changes */
    KEPT(strip_record_create(&record, 1024), STRIP_BAD_WORDS);
    KEPT(strip_record_flip(&record, 17), STRIP_POSITION);
    KEPT(strip_record_fill(&record, 3, 2, 1), STRIP_SPAN);
    KEPT(strip_record_fill(&record, 3, 18, 1), STRIP_POSITION);
    KEPT(strip_record_truncate(&record, 18), STRIP_POSITION);
    record.counters_len--;
    KEPT(strip_record_flip(&record, 0), STRIP_BAD_COUNTERS);
    KEPT(strip_record_create(&record, CAPACITY), STRIP_BAD_COUNTERS);
    record.counters_len++;
    VALUE(strip_record_verify(&record), 10);

    /* into an image and back */
    VALUE(strip_answer_of(image_clear(image, sizeof image)), 16);
    REFUSAL(strip_answer_of(image_row_length(image, sizeof image, 3)), STRIP_LABEL_ABSENT);
    REFUSAL(strip_record_freeze(&record, image, sizeof image - 1, 3), STRIP_NO_ROOM);
    VALUE(strip_record_freeze(&record, image, sizeof image, 3), 1);
    REFUSAL(strip_record_freeze(&record, image, sizeof image, 3), STRIP_LABEL_PRESENT);
    REFUSAL(strip_record_freeze(&record, image, sizeof image, 65), STRIP_BAD_LABEL);
    VALUE(strip_answer_of(image_inspect(image, sizeof image)), 1);
    VALUE(strip_answer_of(image_row_label(image, sizeof image, 0)), 3);
    VALUE(strip_answer_of(image_row_length(image, sizeof image, 3)), 17);
    VALUE(strip_answer_of(image_row_rank(image, sizeof image, 3, 1, 8)), 5);

    /* changes */
    CHANGED(strip_record_flip(&record, 3), 1, 15, 17, 11);
    CHANGED(strip_record_flip(&record, 6), 1, 15, 17, 12);
    VALUE(strip_record_rank(&record, 1, 8), 7);
    VALUE(strip_record_select(&record, 1, 7), 9);
    CHANGED(strip_record_fill(&record, 2, 9, 0), 6, 0, 17, 6);
    CHANGED(strip_record_truncate(&record, 12), 3, 0, 12, 3);
    CHANGED(strip_record_push(&record, 0), 12, 0, 13, 3);

    /* the same buffers, under the handle that was kept */
    record = strip_record_resume(record.handle, words, STRIP_WORDS(CAPACITY), counters, STRIP_COUNTERS(CAPACITY));
    expect_handle("strip_record_resume", (struct strip_handle){CAPACITY, 13, 3});
    VALUE(strip_record_verify(&record), 3);

    /* under a wrong total: check tells it, a turn stays in its range, and a run over an empty span sets it right */
    record.handle.total = 0;
    REFUSAL(strip_record_verify(&record), STRIP_UNFIT);
    REFUSAL(strip_record_select(&record, 1, 0), STRIP_NOT_FOUND);
    KEPT(strip_record_flip(&record, 1), STRIP_UNFIT);
    record.handle.total = 14;
    REFUSAL(strip_record_get(&record, 0), STRIP_BAD_HANDLE);
    KEPT(strip_record_fill(&record, 0, 0, 0), STRIP_BAD_HANDLE);
    record.handle.total = 13;
    CHANGED(strip_record_fill(&record, 0, 0, 0), 3, 0, 13, 3);

    /* a full strip */
    for (uint64_t p = 13; p < CAPACITY; p++)
        CHANGED(strip_record_push(&record, 1), p, 15, p + 1, p - 9);
    KEPT(strip_record_push(&record, 1), STRIP_FULL);
    VALUE(strip_record_verify(&record), 502);

    /* a record that does not fit, and one laid anew */
    counters[40]++;
    REFUSAL(strip_record_verify(&record), STRIP_UNFIT);
    CHANGED(strip_record_create(&record, CAPACITY), 72, 0, 0, 0);
    VALUE(strip_record_verify(&record), 0);
    return failed;
}
