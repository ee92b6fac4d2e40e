/* Every exported function, on buffers that lie flush against a closed page, with right, wrong and hostile arguments:
 *
 *     guarded end|start ROUNDS SEED [ROUND]
 *
 * All buffers end, or all start, at a closed page. What a call may only read is lent through a view that cannot be
 * written. Each round draws a record, two images and two strips, and makes calls of every kind on them; round 0 is that
 * of the largest. A round draws from the seed and its number, which a failure tells; with ROUND it runs alone. Held
 * here is that a call touches nothing that was not lent, tells nothing that it may not tell, and changes nothing where
 * it is refused or only reads; the sizes, look, next, prior, burst, the eight calls on two strips, freezing, merging,
 * opening, the labels and lengths of rows and their readings are held to common/judge.h in full. At the end of all
 * rounds every function has been accepted and has met every refusal of its line. */
#include "lend.h"

#include "judge.h"
#include "strips.h"
#include "testing.h"

#include <inttypes.h>

#define UNTOUCHED UINT64_C(0x5bd1e995a5a55a5a)

enum { MOST_IMAGE = 16 + 16 + 528 * 32768 + 64, SCRIPT = 24 };

/* ---- what was told */

/* Those of libstrips.a, the display's six last, then those of libtesting.a. */
enum call {
    COUNTER_COUNT, CREATE, PUSH, FLIP, FILL, TRUNCATE, GET, RANK, SELECT, SUCCESSOR, PREDECESSOR, BURST, VERIFY,
    PAIR_BOTH, PAIR_EITHER, PAIR_ONLY_FIRST, PAIR_DIFFER, PAIR_FIND, PAIR_SPAN, WAITING_COUNT, WAITING_FIND,
    RECORD_SIZE, CLEAR, FREEZE, MERGE, INSPECT, ROW_RANK, ROW_SELECT, ROW_GET, ROW_LENGTH, ROW_LABEL, SELECT_IN_WORD,
    OPEN, PART_GET, PART_RANK, PART_SELECT, OPENED_GET, OPENED_RANK, OPENED_SELECT, EXECUTE, STEP, CALLS
};

#define R(n) (1u << (n))
#define HANDLE (R(STRIP_BAD_HANDLE) | R(STRIP_BAD_WORDS))
#define RECORD (HANDLE | R(STRIP_BAD_COUNTERS))
#define PAIR (HANDLE | R(STRIP_UNEQUAL))
#define OPENING (R(STRIP_UNSOUND) | R(STRIP_BAD_LABEL) | R(STRIP_LABEL_ABSENT))
#define COUNTING (R(STRIP_BAD_VALUE) | R(STRIP_POSITION) | R(STRIP_WRONG_ROW))
#define FINDING (R(STRIP_BAD_VALUE) | R(STRIP_NOT_FOUND) | R(STRIP_WRONG_ROW))

/* Each function's refusals. */
static const struct {
    const char *name;
    unsigned refusals;
} functions[CALLS] = {
    [COUNTER_COUNT] = {"strip_counter_count", R(STRIP_BAD_HANDLE)},
    [CREATE] = {"strip_create", RECORD},
    [PUSH] = {"strip_push", RECORD | R(STRIP_BAD_VALUE) | R(STRIP_FULL)},
    [FLIP] = {"strip_flip", RECORD | R(STRIP_POSITION) | R(STRIP_UNFIT)},
    [FILL] = {"strip_fill", RECORD | R(STRIP_BAD_VALUE) | R(STRIP_SPAN) | R(STRIP_POSITION)},
    [TRUNCATE] = {"strip_truncate", RECORD | R(STRIP_POSITION)},
    [GET] = {"strip_get", HANDLE | R(STRIP_POSITION)},
    [RANK] = {"strip_rank", RECORD | R(STRIP_BAD_VALUE) | R(STRIP_POSITION) | R(STRIP_UNFIT)},
    [SELECT] = {"strip_select", RECORD | R(STRIP_BAD_VALUE) | R(STRIP_NOT_FOUND) | R(STRIP_UNFIT)},
    [SUCCESSOR] = {"strip_successor", HANDLE | R(STRIP_BAD_VALUE) | R(STRIP_POSITION) | R(STRIP_NOT_FOUND)},
    [PREDECESSOR] = {"strip_predecessor", HANDLE | R(STRIP_BAD_VALUE) | R(STRIP_POSITION) | R(STRIP_NOT_FOUND)},
    [BURST] = {"strip_burst", HANDLE | R(STRIP_BAD_WINDOW) | R(STRIP_NOT_FOUND)},
    [VERIFY] = {"strip_verify", RECORD | R(STRIP_UNFIT)},
    [PAIR_BOTH] = {"strip_pair_both", PAIR | R(STRIP_POSITION)},
    [PAIR_EITHER] = {"strip_pair_either", PAIR | R(STRIP_POSITION)},
    [PAIR_ONLY_FIRST] = {"strip_pair_only_first", PAIR | R(STRIP_POSITION)},
    [PAIR_DIFFER] = {"strip_pair_differ", PAIR | R(STRIP_POSITION)},
    [PAIR_FIND] = {"strip_pair_find", PAIR | R(STRIP_NOT_FOUND)},
    [PAIR_SPAN] = {"strip_pair_span", PAIR | R(STRIP_SPAN) | R(STRIP_POSITION)},
    [WAITING_COUNT] = {"strip_waiting_count", PAIR | R(STRIP_POSITION)},
    [WAITING_FIND] = {"strip_waiting_find", PAIR | R(STRIP_NOT_FOUND)},
    [RECORD_SIZE] = {"image_record_size", R(STRIP_POSITION)},
    [CLEAR] = {"image_clear", R(STRIP_NO_ROOM)},
    [FREEZE] = {"image_freeze",
                HANDLE | R(STRIP_UNSOUND) | R(STRIP_BAD_LABEL) | R(STRIP_LABEL_PRESENT) | R(STRIP_NO_ROOM)},
    [MERGE] = {"image_merge", R(STRIP_UNSOUND) | R(STRIP_WRONG_ROW) | R(STRIP_CONFLICT) | R(STRIP_NO_ROOM)},
    [INSPECT] = {"image_inspect", R(STRIP_UNSOUND) | R(STRIP_WRONG_ROW)},
    [ROW_RANK] = {"image_row_rank", OPENING | COUNTING},
    [ROW_SELECT] = {"image_row_select", OPENING | FINDING},
    [ROW_GET] = {"image_row_get", OPENING | R(STRIP_POSITION)},
    [ROW_LENGTH] = {"image_row_length", OPENING},
    [ROW_LABEL] = {"image_row_label", R(STRIP_UNSOUND) | R(STRIP_LABEL_ABSENT)},
    [SELECT_IN_WORD] = {"strip_select_in_word", 0},
    [OPEN] = {"image_open", OPENING},
    [PART_GET] = {"image_part_get", R(STRIP_UNSOUND) | R(STRIP_POSITION)},
    [PART_RANK] = {"image_part_rank", R(STRIP_UNSOUND) | COUNTING},
    [PART_SELECT] = {"image_part_select", R(STRIP_UNSOUND) | FINDING},
    [OPENED_GET] = {"image_opened_get", OPENING | R(STRIP_POSITION)},
    [OPENED_RANK] = {"image_opened_rank", OPENING | COUNTING},
    [OPENED_SELECT] = {"image_opened_select", OPENING | FINDING},
    [EXECUTE] = {"strip_execute", RECORD | R(STRIP_NO_ROOM)},
    [STEP] = {"strip_step", 0xfffe},
};

static uint64_t calls[CALLS];
static unsigned met[CALLS];

/* The round under way. */
static const char *side;
static uint64_t seed, round_number;

static void expect(enum call call, int holds, const char *what)
{
    if (holds)
        return;
    printf("seed %" PRIu64 ", round %" PRIu64 ": %s, call %" PRIu64 ": %s\n", seed, round_number, functions[call].name,
           calls[call], what);
    printf("this round alone: guarded %s 0 %" PRIu64 " %" PRIu64 "\n", side, seed, round_number);
    fflush(stdout);
    abort();
}

/* Notes a refusal's number, 0 where the call was accepted. */
static void note(enum call call, uint64_t refusal)
{
    expect(call, refusal == 0 || (refusal <= STRIP_CONFLICT && functions[call].refusals >> refusal & 1),
           "a refusal not of its line");
    calls[call]++;
    met[call] |= 1u << refusal;
}

/* Notes an answer, a refusal as 2^32 plus its number, and answers it. */
static uint64_t told(enum call call, uint64_t answer)
{
    note(call, !STRIP_REFUSED(answer) ? 0 : answer == REFUSED(0) ? 99 : answer - REFUSED(0));
    return answer;
}

/* The same of an answer that may be negative. */
static int64_t told_signed(enum call call, int64_t answer)
{
    if (answer < (int64_t)WIDE)
        note(call, 0);
    else
        told(call, (uint64_t)answer);
    return answer;
}

/* ---- numbers drawn */

static uint64_t state;

/* The start of a round, other than 0: seed and number are spread over all 64 bits. */
static void begin_round(uint64_t number)
{
    round_number = number;
    state = seed * UINT64_C(0x9e3779b97f4a7c15) + number;
    state = (state ^ state >> 30) * UINT64_C(0xbf58476d1ce4e5b9);
    state = (state ^ state >> 27) * UINT64_C(0x94d049bb133111eb);
    state ^= state >> 31;
    state = state == 0 ? 1 : state;
}

static uint64_t number(void)
{
    state ^= state << 13;
    state ^= state >> 7;
    return state ^= state << 17;
}

static uint64_t below(uint64_t n)
{
    return (number() >> 11) % n;
}

static int one_in(unsigned n)
{
    return below(n) == 0;
}

static uint64_t huge(void)
{
    return far[below(COUNT_OF(far))];
}

static uint64_t near(uint64_t n)
{
    return n + below(3) - 1;
}

static uint64_t value(void)
{
    return one_in(12) ? (one_in(2) ? 2 + below(300) : huge()) : below(2);
}

/* A position, a number of bits or a k on so many bits. */
static uint64_t position(uint64_t length)
{
    switch (below(8)) {
    case 0: return huge();
    case 1: return WIDE + below(length + 1);
    case 2:
    case 3: return near(length);
    case 4: return near(512 * below(length / 512 + 2));
    case 5: return below(3);
    default: return below(length + 1);
    }
}

static uint64_t label_near(const struct judged *j)
{
    switch (below(12)) {
    case 0: return huge();
    case 1: return one_in(2) ? 0 : 65;
    case 2: return WIDE + 1 + below(64);
    case 3: return 1 + below(64);
    default: return j->count == 0 ? 1 + below(4) : j->rows[below(j->count)].label;
    }
}

/* A number of things lent where n are needed. */
static size_t size_near(size_t n)
{
    if (!one_in(12))
        return n;
    switch (below(4)) {
    case 0: return 0;
    case 1: return n - 1;
    case 2: return n + 1;
    default: return below(2 * n);
    }
}

/* ---- what is lent */

static int at_end;
static struct memory words_memory, second_memory, counters_memory, image_memory, other_memory, third_memory,
    most_memory, part_memory, out_memory, script_memory;

/* The address to lend: of no bytes it may be NULL. */
static void *lent_at(struct lent l, int writable)
{
    if (l.length == 0 && one_in(2))
        return NULL;
    return writable ? l.write : l.read;
}

#define WORDS(r) ((const uint64_t *)lent_at((r)->words, 0)), (r)->words.length / 8
#define COUNTERS(r) ((const uint32_t *)lent_at((r)->counters, 0)), (r)->counters.length / 4
#define WORDS_MUT(r) ((uint64_t *)lent_at((r)->words, 1)), (r)->words.length / 8
#define COUNTERS_MUT(r) ((uint32_t *)lent_at((r)->counters, 1)), (r)->counters.length / 4

/* The bytes lent, to be compared after a call that may not change them. */
struct copy {
    uint8_t *bytes;
    size_t room;
};

static void keep(struct copy *c, struct lent l)
{
    if (c->room < l.length) {
        free(c->bytes);
        c->bytes = malloc(l.length);
        c->room = l.length;
        must(c->bytes != NULL, "no memory");
    }
    if (l.length > 0)
        memcpy(c->bytes, l.write, l.length);
}

static int same(const struct copy *c, struct lent l)
{
    return l.length == 0 || memcmp(c->bytes, l.write, l.length) == 0;
}

static struct copy words_copy, counters_copy, image_copy, third_copy;

/* ---- a record */

struct record {
    struct handle handle;
    struct lent words, counters;
};

/* A capacity as passed: mostly the record's. */
static uint64_t some_capacity(const struct record *r)
{
    uint64_t capacity = r->handle.capacity;
    if (!one_in(16))
        return capacity;
    return one_in(4) ? capacity + 512 : bad_capacities[below(COUNT_OF(bad_capacities))];
}

/* A handle as passed: mostly the record's. */
static struct handle some_handle(const struct record *r)
{
    struct handle h = r->handle;
    h.capacity = some_capacity(r);
    if (one_in(24))
        h.length = one_in(2) ? r->handle.capacity + 1 : huge();
    switch (below(24)) {
    case 0: h.total = one_in(2) ? r->handle.length + 1 : huge(); break;
    case 1: h.total = WIDE + h.total; break;
    case 2: h.total = near(h.total); break;
    case 3: h.total = one_in(2) ? 0 : r->handle.length; break;
    default: break;
    }
    return h;
}

/* The handle among the numbers that a change writes. */
static struct handle handle_told(const uint64_t *out)
{
    return (struct handle){out[3], out[4], out[5]};
}

static int same_handle(struct handle h, struct handle g)
{
    return h.capacity == g.capacity && h.length == g.length && h.total == g.total;
}

static void bytes_drawn(uint8_t *at, size_t n, unsigned kind)
{
    for (size_t b = 0; b < n; b++)
        at[b] = kind == 0 ? 0 : kind == 1 ? 255 : kind == 2 ? number() & number() & number() : number();
}

/* The numbers that a call writes to `out`, and after them untouched ones. */
struct out {
    struct lent lent;
    uint64_t *at;
    size_t room, numbers;
};

static struct out lend_out(size_t numbers)
{
    struct out o = {{0}, NULL, one_in(12) ? below(numbers) : numbers + (one_in(4) ? below(4) : 0), numbers};
    o.lent = lend(&out_memory, 8 * o.room, at_end);
    for (size_t k = 0; k < o.room; k++)
        ((uint64_t *)o.lent.write)[k] = UNTOUCHED;
    if (o.room >= numbers)
        VALGRIND_MAKE_MEM_UNDEFINED(o.lent.write, 8 * numbers);
    o.at = lent_at(o.lent, 1);
    return o;
}

/* After the call: whether it ran, its refusal noted, and no number past its own written. */
static int told_out(enum call call, struct out o)
{
    uint64_t *out = (uint64_t *)o.lent.write;
    give_back(o.lent);
    for (size_t k = o.room < o.numbers ? 0 : o.numbers; k < o.room; k++)
        expect(call, out[k] == UNTOUCHED, "wrote past its numbers, or to fewer");
    if (o.room < o.numbers) {
        calls[call]++;
        return 0;
    }
    expect(call, VALGRIND_CHECK_MEM_IS_DEFINED(out, 8 * o.numbers) == 0, "left one of its numbers unset");
    note(call, out[0]);
    return 1;
}

/* Makes one change with drawn arguments, under a handle, and answers the position or number of strokes that a turn, run
 * or cut was given first. What create is lent is not set. */
static uint64_t make_change(const struct record *r, enum call call, struct handle h, uint64_t v, struct out o)
{
    uint64_t length = r->handle.length, i = position(length), k = one_in(2) ? i + below(200) : position(length);
    if (call == CREATE) {
        VALGRIND_MAKE_MEM_UNDEFINED(r->words.write, r->words.length);
        VALGRIND_MAKE_MEM_UNDEFINED(r->counters.write, r->counters.length);
        strip_create(h.capacity, WORDS_MUT(r), COUNTERS_MUT(r), o.at, o.room);
    } else if (call == PUSH) {
        strip_push(OF_HANDLE(h), WORDS_MUT(r), COUNTERS_MUT(r), v, o.at, o.room);
    } else if (call == FLIP) {
        strip_flip(OF_HANDLE(h), WORDS_MUT(r), COUNTERS_MUT(r), i, o.at, o.room);
    } else if (call == FILL) {
        strip_fill(OF_HANDLE(h), WORDS_MUT(r), COUNTERS_MUT(r), i, k, v, o.at, o.room);
    } else {
        strip_truncate(OF_HANDLE(h), WORDS_MUT(r), COUNTERS_MUT(r), i, o.at, o.room);
    }
    return i;
}

/* The handle that an accepted change leaves. */
static struct handle handle_left(const struct record *r, enum call call, struct handle h, uint64_t v, uint64_t i)
{
    switch (call) {
    case CREATE: return (struct handle){h.capacity, 0, 0};
    case PUSH: return (struct handle){h.capacity, h.length + 1, h.total + v};
    case FLIP: return (struct handle){h.capacity, h.length, bit(r->words.write, i) == 1 ? h.total + 1 : h.total - 1};
    case FILL: return (struct handle){h.capacity, h.length, ones_of(r->words.write, r->words.length)};
    default: return (struct handle){h.capacity, i, ones_of(r->words.write, r->words.length)};
    }
}

/* The first value that an accepted change tells. */
static uint64_t first_value(const struct record *r, enum call call, struct handle h, uint64_t i)
{
    switch (call) {
    case CREATE: return r->counters.length / 4;
    case PUSH: return h.length;
    case FLIP: return bit(r->words.write, i);
    default: return ones_of(r->words.write, r->words.length);
    }
}

static int all_set(struct lent l)
{
    int set = VALGRIND_CHECK_MEM_IS_DEFINED(l.write, l.length) == 0;
    VALGRIND_MAKE_MEM_DEFINED(l.write, l.length);
    return set;
}

/* One change; the record goes on with the handle given back. Refused, or with no room, it changes nothing. */
static void change(struct record *r, enum call call)
{
    struct handle h = some_handle(r);
    uint64_t v = value(), i;
    struct out o = lend_out(STRIP_OUT);
    uint64_t *out = (uint64_t *)o.lent.write;
    keep(&words_copy, r->words);
    keep(&counters_copy, r->counters);
    i = make_change(r, call, h, v, o);
    if (told_out(call, o) && out[0] == 0) {
        expect(call, all_set(r->words) && all_set(r->counters), "left a number unset");
        expect(call, same_handle(handle_told(out), handle_left(r, call, h, v, i)), "a wrong handle given back");
        expect(call, out[5] <= out[4] && out[4] <= out[3], "a handle that is not good given back");
        expect(call, out[1] == first_value(r, call, h, i), "another first value");
        r->handle = handle_told(out);
        return;
    }
    VALGRIND_MAKE_MEM_DEFINED(r->words.write, r->words.length);
    VALGRIND_MAKE_MEM_DEFINED(r->counters.write, r->counters.length);
    expect(call, same(&words_copy, r->words) && same(&counters_copy, r->counters), "refused, and changed the record");
    if (o.room < STRIP_OUT)
        return;
    expect(call, same_handle(handle_told(out), call == CREATE ? (struct handle){0, 0, 0} : h),
           "refused, and another handle given back");
    if (out[0] == STRIP_UNFIT)
        expect(call, h.total == (bit(r->words.write, i) == 1 ? 0 : h.length), "9 where the total can move");
}

/* look, next and prior, held to the judge. */
static void read_words(struct record *r, enum call call)
{
    struct handle h = some_handle(r);
    uint64_t i = position(r->handle.length), v = value(), answer, wanted;
    struct row room;
    struct opened strip = open_strip(&room, h, r->words.write, r->words.length / 8);
    if (call == GET) {
        answer = strip_get(OF_HANDLE(h), WORDS(r), i);
        wanted = get_answer(strip, i);
    } else if (call == SUCCESSOR) {
        answer = strip_successor(OF_HANDLE(h), WORDS(r), v, i);
        wanted = successor_answer(strip, v, i);
    } else {
        answer = strip_predecessor(OF_HANDLE(h), WORDS(r), v, i);
        wanted = predecessor_answer(strip, v, i);
    }
    expect(call, told(call, answer) == wanted, "another answer");
}

/* A width of a window on so many bits. */
static uint64_t width(uint64_t length)
{
    switch (below(8)) {
    case 0: return one_in(2) ? huge() : WIDE + below(length + 1);
    case 1: return near(one_in(2) ? WIDEST : length);
    case 2: return near(64 * below(length / 64 + 2));
    case 3: return below(3);
    default: return 1 + below(length + 1);
    }
}

/* burst, held to the judge: m at times around the most that a window holds. */
static void seek_burst(struct record *r)
{
    struct handle h = some_handle(r);
    uint64_t w = width(r->handle.length), m = one_in(2) ? 1 : one_in(4) ? WIDE + 1 : near(w);
    struct row room;
    struct opened strip = open_strip(&room, h, r->words.write, r->words.length / 8);
    if (burst_refused(strip, w, 1) == 0 && !one_in(4))
        m = near(most_ones(strip.row, w));
    uint64_t answer = told(BURST, strip_burst(OF_HANDLE(h), WORDS(r), w, m));
    expect(BURST, burst_allowed(strip, w, m, answer), "another answer");
}

/* count, find and check: within their bounds. A find is refused with 6 exactly where length and total give too few of
 * v; check, where accepted, tells the total. */
static void read_record(struct record *r, enum call call)
{
    struct handle h = some_handle(r);
    uint64_t i = position(r->handle.length), v = value(), answer;
    if (call == RANK) {
        answer = told(call, strip_rank(OF_HANDLE(h), WORDS(r), COUNTERS(r), v, i));
        expect(call, STRIP_REFUSED(answer) || answer <= i, "an answer out of its bounds");
    } else if (call == SELECT) {
        uint64_t number_of_v = v == 1 ? h.total : h.length - h.total;
        i = one_in(4) ? near(number_of_v) : i;
        answer = told(call, strip_select(OF_HANDLE(h), WORDS(r), COUNTERS(r), v, i));
        if (!STRIP_REFUSED(answer) || answer == REFUSED(STRIP_UNFIT))
            expect(call, (answer < h.length || STRIP_REFUSED(answer)) && i < number_of_v, "an answer past the last");
        else if (answer == REFUSED(STRIP_NOT_FOUND))
            expect(call, i >= number_of_v, "6 before the last");
    } else {
        answer = told(call, strip_verify(OF_HANDLE(h), WORDS(r), COUNTERS(r)));
        expect(call, STRIP_REFUSED(answer) || answer == h.total, "another number of ones than the total");
    }
}

/* The sizes of a record of some capacity, and of a row of some length. */
static void ask_sizes(const struct record *r)
{
    uint64_t c = one_in(4) ? bad_capacities[below(COUNT_OF(bad_capacities))] : 512 * (1 + below(LARGEST / 512));
    uint64_t n = one_in(2) ? position(LARGEST) : position(r->handle.length);
    c = one_in(4) ? near(c) : c;
    expect(COUNTER_COUNT, told(COUNTER_COUNT, strip_counter_count(c)) == counter_count_answer(c), "another number");
    expect(RECORD_SIZE, told(RECORD_SIZE, image_record_size(n)) == record_size_answer(n), "another size");
}

static void select_in_word(void)
{
    uint64_t x = one_in(4) ? huge() : number() & (one_in(2) ? number() : UINT64_MAX);
    uint64_t k = one_in(4) ? position(64) : below(64);
    uint64_t p = told(SELECT_IN_WORD, strip_select_in_word(x, k));
    expect(SELECT_IN_WORD, p == word_select_answer(x, k), "another position");
}

static uint64_t drawn_capacity(void)
{
    static const uint64_t list[] = {ONE_LEVEL, TWO_LEVELS, 65536, 66048};
    if (one_in(400))
        return one_in(2) ? TWO_LEVELS_FULL : THREE_LEVELS;
    return one_in(6) ? list[below(4)] : 512 * (1 + below(9));
}

/* A record: with as many words and counters as it needs, mostly; fitting, nearly so, or anything. */
static struct record drawn_record(uint64_t capacity)
{
    struct record r = {{capacity, one_in(4) ? capacity : below(capacity + 1), 0}, {0}, {0}};
    r.handle.total = below(r.handle.length + 1);
    r.words = lend(&words_memory, 8 * size_near(capacity / 64), at_end);
    r.counters = lend(&counters_memory, 4 * size_near(counter_count_of(capacity)), at_end);
    unsigned kind = below(4);
    bytes_drawn(r.words.write, r.words.length, below(4));
    bytes_drawn(r.counters.write, r.counters.length, below(4));
    if (kind == 0 || r.words.length != capacity / 8 || r.counters.length != 4 * counter_count_of(capacity))
        return r;
    uint64_t out[STRIP_OUT];
    strip_truncate(OF_HANDLE(r.handle), WORDS_MUT(&r), COUNTERS_MUT(&r), r.handle.length, out, STRIP_OUT);
    note(TRUNCATE, out[0]);
    r.handle = handle_told(out);
    if (kind == 1)
        r.counters.write[below(r.counters.length)] ^= 1 << below(8);
    return r;
}

static void record_calls(struct record *r)
{
    static const enum call words[] = {GET, SUCCESSOR, PREDECESSOR}, reads[] = {RANK, SELECT, VERIFY};
    static const enum call changes[] = {PUSH, FLIP, PUSH, FLIP, FILL, TRUNCATE, CREATE};
    unsigned many = r->handle.capacity > 100000 ? 2 : 20;
    for (unsigned k = 0; k < many; k++) {
        if (one_in(2))
            read_words(r, words[below(3)]);
        else
            read_record(r, reads[below(3)]);
        if (one_in(4))
            seek_burst(r);
        if (one_in(2))
            change(r, changes[below(one_in(4) ? 7 : 4)]);
    }
    ask_sizes(r);
    select_in_word();
}

/* ---- two strips */

#define STRIPS OF_HANDLE((x)->handle), WORDS(x), OF_HANDLE((y)->handle), WORDS(y)

/* A strip in a memory of its own: with as many words as it needs, mostly; its total and its bits any, past the length
 * too. */
static struct record drawn_strip(struct memory *m, uint64_t capacity, uint64_t length)
{
    struct handle h = {capacity, length, below(length + 1)};
    struct record r = {h, lend(m, 8 * size_near(capacity / 64), at_end), {0}};
    bytes_drawn(r.words.write, r.words.length, below(4));
    return r;
}

static struct strip strip_of(const struct record *r)
{
    return (struct strip){r->handle, r->words.write, r->words.length / 8};
}

static void hold_count(enum call call, const struct record *x, const struct record *y, uint64_t i, uint64_t wanted)
{
    uint64_t answer;
    switch (call) {
    case PAIR_BOTH: answer = strip_pair_both(STRIPS, i); break;
    case PAIR_EITHER: answer = strip_pair_either(STRIPS, i); break;
    case PAIR_ONLY_FIRST: answer = strip_pair_only_first(STRIPS, i); break;
    default: answer = strip_pair_differ(STRIPS, i); break;
    }
    expect(call, told(call, answer) == wanted, "another number");
}

static void hold_find(const struct record *x, const struct record *y, uint64_t k, uint64_t wanted)
{
    expect(PAIR_FIND, told(PAIR_FIND, strip_pair_find(STRIPS, k)) == wanted, "another position");
}

static void hold_span(const struct record *x, const struct record *y, uint64_t a, uint64_t b, int64_t wanted)
{
    expect(PAIR_SPAN, told_signed(PAIR_SPAN, strip_pair_span(STRIPS, a, b)) == wanted, "another difference");
}

/* The second strip: mostly of the first's capacity and length, with as many words as it needs; its bits any, or the
 * first's but for some. At times the first's own words, lent for both. */
static struct record drawn_second(const struct record *first)
{
    uint64_t capacity = one_in(16) ? 512 * (1 + below(9)) : first->handle.capacity, n = first->handle.length;
    uint64_t length = one_in(12) || n > capacity ? below(capacity + 1) : n;
    struct record second = drawn_strip(&second_memory, capacity, length);
    size_t size = second.words.length;
    if (one_in(3) && size == first->words.length && size > 0) {
        memcpy(second.words.write, first->words.write, size);
        for (unsigned k = below(4); k > 0; k--)
            second.words.write[below(size)] ^= 1 << below(8);
    } else if (one_in(12)) {
        give_back(second.words);
        second.words = first->words;
    }
    return second;
}

/* The six calls that compare, with drawn arguments and handles. */
static void compare_strips(struct record x, struct record y)
{
    static const enum call counts[] = {PAIR_BOTH, PAIR_EITHER, PAIR_ONLY_FIRST, PAIR_DIFFER};
    uint64_t n = x.handle.length, k = position(one_in(2) ? n : n / 2);
    uint64_t a = position(n), b = one_in(2) ? a + below(200) : position(n);
    x.handle = some_handle(&x);
    y.handle = some_handle(&y);
    struct strip first = strip_of(&x), second = strip_of(&y);
    for (int c = 0; c < 4; c++) {
        uint64_t i = position(n);
        hold_count(counts[c], &x, &y, i, pair_count_answer((enum judged_so)c, first, second, i));
    }
    hold_find(&x, &y, k, pair_find_answer(first, second, k));
    hold_span(&x, &y, a, b, pair_span_answer(first, second, a, b));
}

/* Whether strip_waiting_find told a latest position, at 1, and that some outcome has none, at 0. */
static int certain_told[2];

static void hold_waiting(enum call call, const struct record *x, const struct record *y, uint64_t at,
                         struct waiting_answer wanted)
{
    struct out o = lend_out(call == WAITING_COUNT ? STRIP_WAITING_COUNT_OUT : STRIP_WAITING_FIND_OUT);
    uint64_t *out = (uint64_t *)o.lent.write;
    if (call == WAITING_COUNT)
        strip_waiting_count(STRIPS, at, o.at, o.room);
    else
        strip_waiting_find(STRIPS, at, o.at, o.room);
    if (!told_out(call, o))
        return;
    for (size_t k = 0; k < o.numbers; k++)
        expect(call, out[k] == wanted.numbers[k], "another answer");
    if (call == WAITING_FIND && out[0] == 0)
        certain_told[out[2]] = 1;
}

/* The first as a strip, the second as its waiting strip, with drawn arguments and handles; k at times around the ones
 * that every outcome has, or that some outcome has. */
static void read_waiting(struct record x, struct record y)
{
    uint64_t n = x.handle.length, i = position(n);
    x.handle = some_handle(&x);
    y.handle = some_handle(&y);
    struct strip strip = strip_of(&x), waiting = strip_of(&y);
    struct waiting_answer ones = waiting_count_answer(strip, waiting, x.handle.length);
    uint64_t k = one_in(2) ? position(one_in(2) ? n : n / 2) : near(ones.numbers[1 + below(2)]);
    hold_waiting(WAITING_COUNT, &x, &y, i, waiting_count_answer(strip, waiting, i));
    hold_waiting(WAITING_FIND, &x, &y, k, waiting_find_answer(strip, waiting, k));
}

/* Two strips of their own, in either order. */
static void two_strips(void)
{
    uint64_t capacity = drawn_capacity();
    struct record first = drawn_strip(&words_memory, capacity, one_in(4) ? capacity : below(capacity + 1));
    struct record second = drawn_second(&first);
    for (unsigned k = capacity > 100000 ? 1 : 3; k > 0; k--) {
        compare_strips(first, second);
        compare_strips(second, first);
    }
    for (unsigned k = capacity > 100000 ? 1 : 3; k > 0; k--) {
        read_waiting(first, second);
        read_waiting(second, first);
    }
    if (second.words.of != first.words.of)
        give_back(second.words);
    give_back(first.words);
}

/* ---- an image */

static struct lent image;
static struct judged judged;

/* Opens, or closes where the chain is sound, what lies between its records. Readings skip it unread. */
static void gaps(void (*use)(uint8_t *at, size_t n))
{
    uint64_t from = 16;
    for (unsigned r = 0; judged.sound && r < judged.count; r++) {
        if (judged.rows[r].start > from)
            use(image.read + from, judged.rows[r].start - from);
        from = judged.rows[r].start + record_size(judged.rows[r].length);
    }
    if (judged.sound && image.length > from && image.length < WIDE - PAGE)
        use(image.read + from, image.length - from);
}

/* After the image has changed. */
static void settle(void)
{
    judge(&judged, image.write, image.length);
    gaps(close_bytes);
}

static void clear(void)
{
    gaps(open_bytes);
    if (image.length < WIDE - PAGE)
        keep(&image_copy, image);
    uint64_t answer = told(CLEAR, image_clear(lent_at(image, 1), image.length));
    int fit = !STRIP_REFUSED(clear_answer(image.length));
    expect(CLEAR, answer == clear_answer(image.length), "another answer");
    size_t from = fit ? 16 : 0;
    if (image.length > from && image.length < WIDE - PAGE)
        expect(CLEAR, memcmp(image_copy.bytes + from, image.write + from, image.length - from) == 0,
               "wrote past the header");
    settle();
    expect(CLEAR, !fit || (judged.sound && judged.count == 0), "not an empty chain");
}

/* The row just written is right, and has the strip's bits; no byte changed but its own and those of one index. */
static void freeze_wrote(const struct record *r, uint64_t n, uint64_t start, uint64_t index)
{
    const struct row *row = &judged.rows[judged.count - 1];
    expect(FREEZE, judged.sound && row->start == start && row->length == n && row->right,
           "not a right row at its place");
    expect(FREEZE, memcmp(row->bits, r->words.write, n / 8) == 0, "another byte of bits");
    for (uint64_t p = n / 8 * 8; p < n; p++)
        expect(FREEZE, bit(row->bits, p) == bit(r->words.write, p), "another bit");
    if (image.length >= WIDE - PAGE)
        return;
    memcpy(image_copy.bytes + index, image.write + index, 4);
    memcpy(image_copy.bytes + start, image.write + start, record_size(n));
    expect(FREEZE, same(&image_copy, image), "wrote to another byte");
}

static void freeze(const struct record *r, uint64_t label)
{
    struct handle h = some_handle(r);
    uint64_t start = next_start(&judged), index = judged.count == 0 ? 0 : judged.rows[judged.count - 1].start;
    uint64_t refused = handle_refused(h, r->words.length / 8);
    uint64_t answer = refused != 0 ? refused : freeze_answer(&judged, image.length, h.length, label);
    gaps(open_bytes);
    if (image.length < WIDE - PAGE)
        keep(&image_copy, image);
    uint8_t *at = lent_at(image, 1);
    expect(FREEZE, told(FREEZE, image_freeze(OF_HANDLE(h), WORDS(r), at, image.length, label)) == answer,
           "another answer");
    settle();
    if (!STRIP_REFUSED(answer))
        freeze_wrote(r, h.length, start, index);
    else
        expect(FREEZE, image.length >= WIDE - PAGE || same(&image_copy, image), "refused, and changed the image");
}

/* Makes a record of the chain a gap, or a wrong row, or breaks the chain. */
static void damage(void)
{
    static const uint64_t list[] = {0, 1, 64, 65, 4096, 4097, LARGEST, LARGEST + 1, UINT32_MAX, 1 << 28};
    gaps(open_bytes);
    unsigned r = judged.count == 0 ? 0 : below(judged.count);
    uint64_t at = judged.count == 0 ? 0 : judged.rows[r].start;
    uint8_t *byte = image.write + at;
    uint64_t field = one_in(4) ? near(image.length / 16) : one_in(3) ? near(at / 16) : list[below(10)];
    if (image.length < 16)
        ;
    else if (one_in(3) && judged.count > 0)
        memcpy(image.write + (r == 0 ? 0 : judged.rows[r - 1].start), byte, 4); /* unlinked: a gap */
    else if (one_in(2) && judged.count > 0 && judged.rows[r].length > 0)
        byte[12 + below(one_in(2) ? 20 : record_size(judged.rows[r].length) - 12)] ^= one_in(2) ? 255 : 1 << below(8);
    else if (one_in(2))
        for (unsigned b = 0, from = 4 * below(4); b < 4; b++)
            byte[from + b] = (uint8_t)(field >> (8 * b));
    else
        image.write[below(image.length)] ^= 1 << below(8);
    settle();
}

static void drawn_image(const struct record *r)
{
    size_t size = one_in(8) ? sizes[below(COUNT_OF(sizes))] : 16 + below(one_in(4) ? 600 : one_in(4) ? 60000 : 6000);
    image = lend(&image_memory, size, at_end);
    bytes_drawn(image.write, size, below(4));
    settle();
    if (!one_in(12))
        clear();
    for (unsigned k = below(7); k > 0; k--) {
        struct record part = *r;
        part.handle.length = one_in(2) ? r->handle.length : below(r->handle.length + 1);
        part.handle.total = below(part.handle.length + 1);
        freeze(&part, one_in(6) ? label_near(&judged) : 1 + below(64));
    }
    for (unsigned k = one_in(2) ? 1 + below(3) : 0; k > 0; k--)
        damage();
}

/* ---- the readings of an image */

#define IMAGE ((const uint8_t *)lent_at(image, 0)), image.length

static void hold_rank(enum call call, struct opened o, uint64_t v, uint64_t i, uint64_t answer)
{
    expect(call, rank_allowed(o, v, i, told(call, answer)), "another answer");
}

static void hold_select(enum call call, struct opened o, uint64_t v, uint64_t k, uint64_t answer)
{
    expect(call, select_allowed(o, v, k, told(call, answer)), "another answer");
}

static void hold(enum call call, uint64_t answer, uint64_t wanted)
{
    expect(call, told(call, answer) == wanted, "another answer");
}

/* A place in the chain: of a row, the first that is none, or past all. */
static uint64_t place(void)
{
    switch (below(6)) {
    case 0: return huge();
    case 1: return WIDE + below(judged.count + 1);
    case 2: return judged.count;
    default: return below(judged.count + 1);
    }
}

/* Inspect, a label of the chain, opening, and all readings of the label's row: by the label, and on the row opened. Two
 * readings of one row on the same place tell the same. */
static void read_label_at(uint64_t label, uint64_t v, uint64_t i, uint64_t k)
{
    struct opened o = open_row(&judged, label);
    uint64_t at = place(), ranked = image_row_rank(IMAGE, label, v, i), selected = image_row_select(IMAGE, label, v, k);
    hold(INSPECT, image_inspect(IMAGE), inspect_answer(&judged));
    hold(ROW_LABEL, image_row_label(IMAGE, at), label_answer(&judged, at));
    hold(ROW_LENGTH, image_row_length(IMAGE, label), length_answer(o));
    hold(OPEN, image_open(IMAGE, label), open_answer(o));
    hold(ROW_GET, image_row_get(IMAGE, label, i), get_answer(o, i));
    hold_rank(ROW_RANK, o, v, i, ranked);
    hold_select(ROW_SELECT, o, v, k, selected);
    hold(OPENED_GET, image_opened_get(IMAGE, label, i), get_answer(o, i));
    hold(OPENED_RANK, image_opened_rank(IMAGE, label, v, i), ranked);
    hold(OPENED_SELECT, image_opened_select(IMAGE, label, v, k), selected);
}

static void read_label(uint64_t label)
{
    const struct row *row = open_row(&judged, label).row;
    uint64_t length = row == NULL ? 600 : row->length, v = value(), i = position(length);
    read_label_at(label, v, i, position(one_in(2) ? length : length / 2));
}

/* A row's own part, alone in its memory; at times of another size, with another length held, or damaged. */
static void read_part(void)
{
    if (judged.count == 0 || image.length >= WIDE - PAGE)
        return;
    const struct row *whole = &judged.rows[below(judged.count)];
    size_t size = record_size(whole->length), lent_size = one_in(6) ? (one_in(2) ? near(size) : below(size)) : size;
    uint64_t n = one_in(8) ? (one_in(2) ? near(whole->length) : position(whole->length)) : whole->length;
    struct lent part = lend(&part_memory, lent_size, at_end);
    memset(part.write, 0, lent_size);
    memcpy(part.write, image.write + whole->start, lent_size < size ? lent_size : size);
    if (one_in(6) && lent_size > 16)
        part.write[4 + below(one_in(2) ? 12 : lent_size - 4)] ^= one_in(2) ? 255 : 1 << below(8);
    struct judged one;
    struct opened o = open_part(&one, part.write, lent_size, n);
    const uint8_t *at = lent_at(part, 0);
    uint64_t v = value(), i = position(whole->length), k = position(whole->length);
    hold(PART_GET, image_part_get(at, lent_size, n, i), get_answer(o, i));
    hold_rank(PART_RANK, o, v, i, image_part_rank(at, lent_size, n, v, i));
    hold_select(PART_SELECT, o, v, k, image_part_select(at, lent_size, n, v, k));
    give_back(part);
}

/* ---- two images, and a third buffer */

/* An image as it is lent, and what the judge finds in it. */
struct held {
    struct lent lent;
    struct judged judged;
};

#define HELD(h) ((const uint8_t *)lent_at((h)->lent, 0)), (h)->lent.length

/* Turns one of so many bits; at times one of the last, or one more beside it, so that the number of ones stays. */
static void alter(uint8_t *bits, uint64_t length)
{
    uint64_t p = one_in(3) ? length - 1 - below(length < 8 ? length : 8) : below(length);
    if (p > 0 && bit(bits, p - 1) != bit(bits, p) && !one_in(3))
        bits[(p - 1) / 8] ^= 1 << ((p - 1) % 8);
    bits[p / 8] ^= 1 << (p % 8);
}

/* One more row of the image, past a gap at times, where there is room and no row has the label: so many of these bits,
 * altered at times. */
static void append_row(uint64_t label, uint64_t length, const uint8_t *bits)
{
    uint64_t link = judged.count == 0 ? 0 : judged.rows[judged.count - 1].start;
    uint64_t start = next_start(&judged) + (one_in(4) ? 16 * below(4) : 0);
    if (row_of(&judged, label) != NULL || start + record_size(length) > image.length)
        return;
    gaps(open_bytes);
    uint8_t *record = image.write + start, *to = record + 16 + 16 * superblocks(length);
    memset(record, 0, record_size(length));
    store(record + 4, 4, label);
    store(record + 8, 4, length);
    memcpy(to, bits, (length + 7) / 8);
    if (length > 0 && one_in(8))
        alter(to, length);
    make_right(record);
    store(image.write + link, 4, start / 16);
    settle();
}

/* Another image, in the place of the first: of its rows some, at times a bit shorter, and others; damaged at times. */
static void draw_other(const struct held *first, const struct record *r)
{
    uint64_t size = 16 + below(4000);
    for (unsigned k = 0; k < first->judged.count; k++)
        size += record_size(first->judged.rows[k].length);
    image = lend(&other_memory, size, at_end);
    settle();
    clear();
    for (unsigned k = 0; k < first->judged.count; k++) {
        const struct row *row = &first->judged.rows[k];
        if (one_in(3))
            freeze(r, 1 + below(64));
        if (!one_in(3))
            append_row(row->label, row->length - (row->length > 0 && one_in(12)), row->bits);
    }
    freeze(r, 1 + below(64));
    if (one_in(6))
        damage();
}

/* The size of a third buffer where so many bytes are needed. */
static size_t third_size(uint64_t needed)
{
    switch (below(6)) {
    case 0: return sizes[below(COUNT_OF(sizes))];
    case 1: return near(needed);
    case 2: return needed + below(200);
    case 3: return below(needed);
    default: return needed;
    }
}

/* Where a merge is accepted its bytes are set and are those of the result, and the bytes after them are as they were;
 * else all are. */
static void merge_wrote(struct lent third, const struct merged *m, int accepted)
{
    static struct judged result;
    size_t end = accepted ? m->size : 0;
    expect(MERGE, VALGRIND_CHECK_MEM_IS_DEFINED(third.write, end) == 0, "left a byte unset");
    VALGRIND_MAKE_MEM_DEFINED(third.write, third.length);
    expect(MERGE, third.length == end || memcmp(third_copy.bytes + end, third.write + end, third.length - end) == 0,
           accepted ? "wrote past the result" : "refused, and changed the third buffer");
    if (!accepted)
        return;
    judge(&result, third.write, third.length);
    expect(MERGE, merge_written(m, &result), "another result");
}

/* A merge, held to the judge. What the third buffer holds is marked as not set. */
static void merge(const struct held *first, const struct held *second)
{
    struct merged m;
    merge_answer(&m, &first->judged, &second->judged, WIDE);
    struct lent third = lend(&third_memory, third_size(m.size), at_end);
    uint64_t wanted = merge_answer(&m, &first->judged, &second->judged, third.length);
    memset(third.write, below(256), third.length);
    bytes_drawn(third.write, third.length < PAGE ? third.length : PAGE, below(4));
    keep(&third_copy, third);
    VALGRIND_MAKE_MEM_UNDEFINED(third.write, third.length);
    hold(MERGE, image_merge(HELD(first), HELD(second), lent_at(third, 1), third.length), wanted);
    merge_wrote(third, &m, !STRIP_REFUSED(wanted));
    give_back(third);
}

/* The image and another, merged so many times in either order. */
static void two_images(const struct record *r, unsigned times)
{
    struct held first = {image, judged}, second;
    draw_other(&first, r);
    second = (struct held){image, judged};
    for (unsigned k = 0; k < times; k++) {
        merge(&first, &second);
        merge(&second, &first);
    }
    gaps(open_bytes);
    give_back(image);
    image = first.lent;
    judged = first.judged;
}

/* ---- scripts */

static int changes_record(uint64_t op)
{
    return op % OPCODES <= OP_TRUNCATE;
}

static int changes_image(uint64_t op)
{
    return op % OPCODES == OP_CLEAR || op % OPCODES == OP_FREEZE;
}

static uint64_t first_argument(const struct record *r, enum opcode op)
{
    switch (op) {
    case OP_CREATE: return some_capacity(r);
    case OP_FREEZE:
    case OP_ROW_RANK:
    case OP_ROW_SELECT:
    case OP_ROW_GET: return label_near(&judged);
    case OP_PUSH:
    case OP_RANK:
    case OP_SELECT:
    case OP_SUCCESSOR:
    case OP_PREDECESSOR: return value();
    default: return position(r->handle.length);
    }
}

static void drawn_call(const struct record *r, uint64_t call[4])
{
    enum opcode op = (enum opcode)below(OPCODES);
    call[0] = op + (one_in(4) ? OPCODES * below(UINT64_MAX / OPCODES) : 0);
    call[1] = first_argument(r, op);
    call[2] = op == OP_ROW_RANK || op == OP_ROW_SELECT ? value() : position(r->handle.length);
    call[3] = op == OP_FILL ? value() : position(r->handle.length);
}

static void keep_all(const struct record *r)
{
    keep(&words_copy, r->words);
    keep(&counters_copy, r->counters);
    keep(&image_copy, image);
}

static int same_record(const struct record *r)
{
    return same(&words_copy, r->words) && same(&counters_copy, r->counters);
}

static void step(struct record *r)
{
    uint64_t call[4];
    struct handle h = some_handle(r);
    drawn_call(r, call);
    struct out o = lend_out(STRIP_OUT);
    keep_all(r);
    gaps(open_bytes);
    strip_step(call[0], call[1], call[2], call[3], OF_HANDLE(h), WORDS_MUT(r), COUNTERS_MUT(r), lent_at(image, 1),
               image.length, o.at, o.room);
    uint64_t *out = (uint64_t *)o.lent.write;
    int ran = told_out(STEP, o), accepted = ran && out[0] == 0;
    expect(STEP, (accepted && changes_record(call[0])) || same_record(r), "changed the record");
    expect(STEP, (accepted && changes_image(call[0])) || same(&image_copy, image), "changed the image");
    if (accepted && changes_record(call[0])) {
        r->handle = handle_told(out);
        expect(STEP, out[4] <= out[3] && out[5] <= out[4], "a wrong handle given back");
    } else if (ran) {
        expect(STEP, same_handle(handle_told(out), h), "another handle given back");
    }
    settle();
}

/* A script of so many calls, and up to three numbers more. */
static struct lent lend_script(const struct record *r, size_t number_of_calls)
{
    size_t rest = below(4);
    uint64_t call[4];
    struct lent script = lend(&script_memory, 32 * number_of_calls + 8 * rest, at_end);
    for (size_t k = 0; k <= number_of_calls; k++) {
        drawn_call(r, call);
        memcpy(script.write + 32 * k, call, k < number_of_calls ? 32 : 8 * rest);
    }
    return script;
}

/* A whole script, with as many answers as it needs, more, or fewer: then nothing runs. */
static void execute(struct record *r)
{
    size_t most = below(SCRIPT + 1), need = 4 + 3 * most;
    size_t room = one_in(8) ? below(need) : need + (one_in(4) ? below(5) : 0);
    struct lent script = lend_script(r, most), answers = lend(&out_memory, 8 * room, at_end);
    uint64_t *out = (uint64_t *)answers.write, c = some_capacity(r);
    for (size_t k = 0; k < room; k++)
        out[k] = UNTOUCHED;
    keep_all(r);
    gaps(open_bytes);
    uint64_t run = strip_execute(lent_at(script, 0), script.length / 8, c, one_in(2) ? 0 : number(), WORDS_MUT(r),
                                 COUNTERS_MUT(r), lent_at(image, 1), image.length, lent_at(answers, 1), room);
    give_back(script);
    give_back(answers);
    settle();
    if (room < need)
        calls[EXECUTE]++;
    else
        note(EXECUTE, out[0]);
    int ran = room >= need && out[0] == 0;
    expect(EXECUTE, run == (ran ? most : room < need ? UINT64_MAX : 0), "another number of calls run");
    for (size_t k = ran ? need : room < need ? 0 : 1; k < room; k++)
        expect(EXECUTE, out[k] == UNTOUCHED, "an answer that is none");
    expect(EXECUTE, ran || (same_record(r) && same(&image_copy, image)), "nothing run, and something changed");
    if (ran) {
        r->handle = (struct handle){out[1], out[2], out[3]};
        expect(EXECUTE, out[1] / 8 == r->words.length && out[2] <= out[1], "a wrong handle");
        expect(EXECUTE, out[3] == ones_of(r->words.write, r->words.length), "a wrong total");
        expect(EXECUTE, judged.sound, "no sound chain");
    }
}

/* ---- the largest */

/* A record of the largest capacity, counted by a step too, and frozen into an image that it fills. */
static void largest_record(void)
{
    struct record r = {{LARGEST, LARGEST, 0}, {0}, {0}};
    r.words = lend(&words_memory, LARGEST / 8, at_end);
    r.counters = lend(&counters_memory, 4 * MOST_COUNTERS, at_end);
    memset(r.words.write, 0x5a, r.words.length);
    uint64_t out[STRIP_OUT];
    strip_truncate(OF_HANDLE(r.handle), WORDS_MUT(&r), COUNTERS_MUT(&r), r.handle.length, out, STRIP_OUT);
    note(TRUNCATE, out[0]);
    r.handle = handle_told(out);
    expect(TRUNCATE, out[1] == LARGEST / 2 && out[5] == LARGEST / 2, "another number of ones");
    strip_step(OP_RANK, 1, LARGEST, 0, OF_HANDLE(r.handle), WORDS_MUT(&r), COUNTERS_MUT(&r), NULL, 0, out, STRIP_OUT);
    note(STEP, out[0]);
    expect(STEP, out[1] == LARGEST / 2, "another count");
    uint64_t last = told(SELECT, strip_select(OF_HANDLE(r.handle), WORDS(&r), COUNTERS(&r), 1, LARGEST / 2 - 1));
    expect(SELECT, last == LARGEST - 2, "another position");
    for (unsigned k = 0; k < 6; k++) {
        read_record(&r, RANK);
        read_record(&r, SELECT);
        change(&r, FLIP);
    }
    image = lend(&image_memory, 16 + record_size(r.handle.length), at_end);
    settle();
    clear();
    while (judged.count == 0)
        freeze(&r, 64);
    for (unsigned k = 0; k < 3; k++)
        read_label(64);
    for (uint64_t k = 0; k < LARGEST / 2; k += LARGEST / 16 - 1)
        read_label_at(64, k % 2, k, k);
    two_images(&r, 1);
    gaps(open_bytes);
    give_back(image);
    give_back(r.words);
    give_back(r.counters);
}

/* Two strips of the greatest length: all ones, and none. */
static void largest_strips(void)
{
    struct record ones = {{LARGEST, LARGEST, LARGEST}, lend(&words_memory, LARGEST / 8, at_end), {0}};
    struct record none = {{LARGEST, LARGEST, 0}, lend(&second_memory, LARGEST / 8, at_end), {0}};
    memset(ones.words.write, 255, ones.words.length);
    memset(none.words.write, 0, none.words.length);
    hold_count(PAIR_BOTH, &ones, &none, LARGEST, 0);
    hold_count(PAIR_EITHER, &ones, &none, LARGEST, LARGEST);
    hold_count(PAIR_ONLY_FIRST, &ones, &none, LARGEST, LARGEST);
    hold_count(PAIR_ONLY_FIRST, &none, &ones, LARGEST, 0);
    hold_count(PAIR_DIFFER, &none, &ones, LARGEST - 1, LARGEST - 1);
    hold_find(&ones, &none, LARGEST - 1, LARGEST - 1);
    hold_find(&none, &ones, LARGEST, REFUSED(STRIP_NOT_FOUND));
    hold_span(&ones, &none, 0, LARGEST, LARGEST);
    hold_span(&none, &ones, 0, LARGEST, -LARGEST);
    give_back(ones.words);
    give_back(none.words);
}

/* A strip of the greatest length, all ones: none waits; and one without, of which all wait. */
static void largest_waiting(void)
{
    struct record ones = {{LARGEST, LARGEST, LARGEST}, lend(&words_memory, LARGEST / 8, at_end), {0}};
    struct record none = {{LARGEST, LARGEST, 0}, lend(&second_memory, LARGEST / 8, at_end), {0}};
    memset(ones.words.write, 255, ones.words.length);
    memset(none.words.write, 0, none.words.length);
    const uint64_t last = LARGEST - 1;
    hold_waiting(WAITING_COUNT, &ones, &none, LARGEST, (struct waiting_answer){{0, LARGEST, LARGEST, 0}});
    hold_waiting(WAITING_COUNT, &none, &ones, LARGEST, (struct waiting_answer){{0, 0, LARGEST, 0}});
    hold_waiting(WAITING_FIND, &ones, &none, last, (struct waiting_answer){{0, last, 1, last}});
    hold_waiting(WAITING_FIND, &none, &ones, last, (struct waiting_answer){{0, last, 0, 0}});
    hold_waiting(WAITING_FIND, &none, &ones, LARGEST, waiting_refused(REFUSED(STRIP_NOT_FOUND)));
    give_back(ones.words);
    give_back(none.words);
}

/* A strip of the greatest length, with ones in its last strokes alone. */
static void largest_burst(void)
{
    struct record r = {{LARGEST, LARGEST, 0}, lend(&words_memory, LARGEST / 8, at_end), {0}};
    memset(r.words.write, 0, r.words.length);
    memset(r.words.write + r.words.length - WIDEST / 8, 255, WIDEST / 8);
    uint64_t last = LARGEST - WIDEST;
    expect(BURST, told(BURST, strip_burst(OF_HANDLE(r.handle), WORDS(&r), WIDEST, WIDEST)) == last, "another start");
    r.handle.length--;
    expect(BURST, told(BURST, strip_burst(OF_HANDLE(r.handle), WORDS(&r), WIDEST, WIDEST)) == REFUSED(STRIP_NOT_FOUND),
           "a burst past the length");
    give_back(r.words);
}

/* An image of about 2^32 bytes with one row of `length` zeros at its end. Bytes that no call touches take no memory. */
static void largest_image(size_t size, uint64_t length)
{
    static const uint8_t kind[16] = {0, 0, 0, 0, 1};
    image = lend(&most_memory, size, at_end);
    uint64_t start = (WIDE - record_size(length)) / 16 * 16;
    uint8_t record[16] = {0, 0, 0, 0, 7, 0, 0, 0, (uint8_t)length, (uint8_t)(length >> 8)};
    memcpy(image.write, kind, 16);
    for (unsigned b = 0; b < 4; b++)
        image.write[b] = (uint8_t)(start / 16 >> (8 * b));
    memcpy(image.write + start, record, size < start + 16 ? size - start : 16);
    if (size > start + 16)
        memset(image.write + start + 16, 0, size - start - 16);
    settle();
    must(judged.sound == (size == WIDE), "the chain is sound in 2^32 bytes alone");
    for (unsigned k = 0; k < 8; k++)
        read_label(one_in(4) ? label_near(&judged) : 7);
    struct record r = drawn_record(1024);
    two_images(&r, 3);
    freeze(&r, 8);
    clear();
    freeze(&r, 9);
    read_label(9);
    memset(image.write, 0, 4096);
    give_back(image);
    give_back(r.words);
    give_back(r.counters);
}

/* A third buffer of about 2^32 bytes. */
static void largest_third(size_t size)
{
    static const uint8_t bits[1] = {10};
    static struct judged result;
    struct held images[2];
    struct merged m;
    struct memory *const of[2] = {&image_memory, &other_memory};
    for (int k = 0; k < 2; k++) {
        image = lend(of[k], 700, at_end);
        settle();
        clear();
        append_row(3 + k, 5, bits);
        images[k] = (struct held){image, judged};
    }
    struct lent third = lend(&most_memory, size, at_end);
    memset(third.write, 0xa5, PAGE);
    uint64_t wanted = merge_answer(&m, &images[0].judged, &images[1].judged, size);
    hold(MERGE, image_merge(HELD(&images[0]), HELD(&images[1]), third.write, size), wanted);
    judge(&result, third.write, size);
    expect(MERGE, STRIP_REFUSED(wanted) || merge_written(&m, &result), "another result");
    for (size_t b = STRIP_REFUSED(wanted) ? 0 : m.size; b < PAGE; b++)
        expect(MERGE, third.write[b] == 0xa5, "wrote to another byte");
    memset(third.write, 0, PAGE);
    give_back(third);
    for (int k = 0; k < 2; k++) {
        image = images[k].lent;
        judged = images[k].judged;
        gaps(open_bytes);
        give_back(image);
    }
}

static void one_round(void)
{
    struct record r = drawn_record(drawn_capacity());
    record_calls(&r);
    drawn_image(&r);
    for (unsigned k = 0; k < 6; k++) {
        read_label(label_near(&judged));
        read_part();
    }
    two_images(&r, 3);
    for (unsigned k = 0; k < 6; k++)
        step(&r);
    if (one_in(3))
        execute(&r);
    gaps(open_bytes);
    give_back(image);
    give_back(r.words);
    give_back(r.counters);
    two_strips();
}

/* Round 0: the largest record, strips and images. */
static void largest_round(void)
{
    largest_record();
    largest_strips();
    for (int off = -1; off <= 1; off++)
        for (uint64_t length = 0; length <= 300; length += 300)
            largest_image(WIDE + off, length);
    for (int off = -1; off <= 1; off++)
        largest_third(WIDE + off);
    largest_waiting();
    largest_burst();
}

static void run_round(uint64_t number)
{
    begin_round(number);
    if (number == 0)
        largest_round();
    else
        one_round();
}

/* Whether every function was accepted, and met every refusal of its line; and strip_waiting_find told both kinds of
 * answer. */
static int all_met(void)
{
    for (int call = 0; call < CALLS; call++) {
        if (met[call] != (functions[call].refusals | 1)) {
            printf("%s met %x, not %x\n", functions[call].name, met[call], functions[call].refusals | 1);
            return 0;
        }
    }
    if (!certain_told[0] || !certain_told[1])
        printf("%s told one kind of answer alone\n", functions[WAITING_FIND].name);
    return certain_told[0] && certain_told[1];
}

int main(int count, char **args)
{
    must((count == 4 || count == 5) && (strcmp(args[1], "end") == 0 || strcmp(args[1], "start") == 0),
         "guarded end|start ROUNDS SEED [ROUND]");
    side = args[1];
    at_end = strcmp(side, "end") == 0;
    seed = strtoull(args[3], NULL, 10);
    words_memory = memory_of(LARGEST / 8);
    second_memory = memory_of(LARGEST / 8);
    counters_memory = memory_of(4 * MOST_COUNTERS);
    image_memory = memory_of(MOST_IMAGE);
    other_memory = memory_of(MOST_IMAGE + PAGE);
    third_memory = memory_of(2 * (MOST_IMAGE + PAGE));
    most_memory = memory_of(WIDE + PAGE);
    part_memory = memory_of(MOST_IMAGE);
    out_memory = memory_of(PAGE);
    script_memory = memory_of(PAGE);
    if (count == 5) {
        run_round(strtoull(args[4], NULL, 10));
        return 0;
    }
    for (uint64_t round = 0, rounds = strtoull(args[2], NULL, 10); round <= rounds; round++)
        run_round(round);

    uint64_t all = 0;
    for (int call = 0; call < CALLS; call++) {
        printf("  %-22s %9" PRIu64 " calls\n", functions[call].name, calls[call]);
        all += calls[call];
    }
    if (!all_met())
        return 1;
    printf("buffers at the %s of a page, seed %s: %" PRIu64 " calls of %d functions\n", side, args[3], all, CALLS);
    return 0;
}
