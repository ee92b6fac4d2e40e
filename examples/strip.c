/* The day of two cylinders' strips, by the proved calls: a simulated watch is recorded, corrected, compared with what
 * the crank had said, read with strokes that still wait, counted, searched, checked and frozen. Each line shows a call
 * and its answers on the two strips. The image goes to the file that the first argument names. Two more go to the other
 * arguments, as of a unit that replaced this one: one can be merged with the first, one cannot. */
#include "image_file.h"
#include "strip_record.h"

#include <inttypes.h>
#include <string.h>

/* Four hours of 45,000 strokes. For a minute the crank sensor was unplugged, and the engine stopped before the end. */
#define WATCH 180000
#define UNPLUGGED 20000
#define PLUGGED 20750
#define STOPPED 179400

/* Room for the watch, a multiple of 512. */
#define CAPACITY 180224

/* A strip: its record with the buffers under it, the counters that corrections moved; the crank strip, which holds the
 * same strokes as they were before the turns; the waiting strip, which marks those whose trace comes last. Its
 * cylinder's number is its label in the image. */
static struct strip {
    uint64_t cylinder;
    struct strip_record record;
    uint64_t words[STRIP_WORDS(CAPACITY)];
    uint32_t counters[STRIP_COUNTERS(CAPACITY)];
    uint64_t moved;
    struct strip_record crank;
    uint64_t crank_words[STRIP_WORDS(CAPACITY)];
    struct strip_record waiting;
    uint64_t waiting_words[STRIP_WORDS(CAPACITY)];
    uint32_t waiting_counters[STRIP_COUNTERS(CAPACITY)];
} strips[2] = {{.cylinder = 1}, {.cylinder = 3}};

/* The strip that the calls below are on. */
static struct strip *strip = strips;

/* An image with room for the rows of two watches. */
static uint8_t image[IMAGE_HEADER_BYTES + 2 * IMAGE_RECORD_BYTES(WATCH)];

/* ---- The calls, by their names on paper. */

typedef struct strip_answer answer;

static answer lay(uint64_t capacity) { return strip_record_create(&strip->record, capacity); }
static answer add(uint64_t v) { return strip_record_push(&strip->record, v); }
static answer turn(uint64_t i) { return strip_record_flip(&strip->record, i); }
static answer run(uint64_t a, uint64_t b, uint64_t v) { return strip_record_fill(&strip->record, a, b, v); }
static answer cut(uint64_t n) { return strip_record_truncate(&strip->record, n); }
static answer look(uint64_t i) { return strip_record_get(&strip->record, i); }
static answer count(uint64_t v, uint64_t i) { return strip_record_rank(&strip->record, v, i); }
static answer find(uint64_t v, uint64_t k) { return strip_record_select(&strip->record, v, k); }
static answer next(uint64_t v, uint64_t i) { return strip_record_successor(&strip->record, v, i); }
static answer prior(uint64_t v, uint64_t i) { return strip_record_predecessor(&strip->record, v, i); }
static answer check(void) { return strip_record_verify(&strip->record); }
static answer burst(uint64_t w, uint64_t m) { return strip_record_burst(&strip->record, w, m); }
static answer clear(void) { return strip_answer_of(image_clear(image, sizeof image)); }
static answer freeze(uint64_t label) { return strip_record_freeze(&strip->record, image, sizeof image, label); }
static answer freeze_crank(uint64_t label) { return strip_record_freeze(&strip->crank, image, sizeof image, label); }
static answer inspect(void) { return strip_answer_of(image_inspect(image, sizeof image)); }

/* Of the crank strip first, and second the strip that the pressure trace has corrected. */
#define PAIR &strip->crank, &strip->record
static answer pair_only_first(uint64_t i) { return strip_record_pair_only_first(PAIR, i); }
static answer pair_differ(uint64_t i) { return strip_record_pair_differ(PAIR, i); }
static answer pair_find(uint64_t k) { return strip_record_pair_find(PAIR, k); }
static struct strip_difference pair_span(uint64_t a, uint64_t b) { return strip_record_pair_span(PAIR, a, b); }

/* Of the strip, and second the one that marks its strokes that wait. */
#define WAITING &strip->record, &strip->waiting
static struct strip_count_range waiting_count(uint64_t i) { return strip_record_waiting_count(WAITING, i); }
static struct strip_find_range waiting_find(uint64_t k) { return strip_record_waiting_find(WAITING, k); }

/* A call that has to be accepted; a refusal is told, and ends the program. */
static void accept(const char *call, uint64_t refusal)
{
    if (refusal != 0) {
        fflush(stdout);
        fprintf(stderr, "\ncylinder %" PRIu64 ", %s: refused %" PRIu64 "\n", strip->cylinder, call, refusal);
        exit(1);
    }
}

/* Its answer. */
static answer must(const char *call, answer a)
{
    accept(call, a.refusal);
    return a;
}

#define TEXT(call) #call
#define MUST(call) must(TEXT(call), call)

/* ---- The watch, simulated. */

/* A number for each stroke, as if drawn at random, and the same in every run. */
static uint64_t noise(uint64_t stroke)
{
    uint64_t x = (64 * stroke + strip->cylinder) * UINT64_C(0x9E3779B97F4A7C15);
    x = (x ^ x >> 29) * UINT64_C(0xBF58476D1CE4E5B9);
    return x ^ x >> 32;
}

/* What the pressure trace says of a stroke, some time after it: one in 2,000 misfires, but forty in a thousand while
 * the nozzle of cylinder 3's injector drips. */
static bool misfired(uint64_t stroke)
{
    bool drips = strip->cylinder == 3 && 96000 <= stroke && stroke < 104000;
    return noise(stroke) % 2000 < (drips ? 80 : 1);
}

/* What the crank says at once: one stroke in 30,000 it misjudges, and each that it hears nothing of is a misfire. */
static bool heard(uint64_t stroke)
{
    if (stroke >= STOPPED || (UNPLUGGED <= stroke && stroke < PLUGGED))
        return true;
    return misfired(stroke) != (noise(stroke) / 2000 % 30000 == 0);
}

/* Whether the trace of a stroke comes last: of a good firing one in 5,000, of a misfire, which is looked at twice, one
 * in eight. */
static bool lags(uint64_t stroke) { return noise(stroke) / 60000000 % (misfired(stroke) ? 8 : 5000) == 0; }

/* Adds each stroke as the crank judges it. Answers the strip's length. */
static uint64_t record(void)
{
    for (uint64_t p = 0; p < WATCH; p++)
        MUST(add(heard(p)));
    return strip_record_length(&strip->record);
}

/* Keeps the strip as the crank strip, in words of its own; comparing takes no counters. */
static void keep_crank(void)
{
    memcpy(strip->crank_words, strip->words, sizeof strip->words);
    strip->crank = strip_record_resume(strip->record.handle, strip->crank_words, STRIP_WORDS(CAPACITY), NULL, 0);
}

/* Turns each stroke that the pressure trace judges otherwise, once the crank strip is kept. Answers their number. */
static uint64_t correct(void)
{
    uint64_t turns = 0;
    keep_crank();
    for (uint64_t p = 0; p < strip_record_length(&strip->record); p++)
        if (MUST(look(p)).value != misfired(p)) {
            strip->moved += MUST(turn(p)).second;
            turns++;
        }
    return turns;
}

/* Lays the waiting strip, and adds to it a 1 for each stroke whose trace comes last. Answers their number. */
static uint64_t mark(void)
{
    struct strip_record *w = &strip->waiting;
    *w = strip_record_over(strip->waiting_words, STRIP_WORDS(CAPACITY), strip->waiting_counters,
                           STRIP_COUNTERS(CAPACITY));
    must("lay the waiting strip", strip_record_create(w, CAPACITY));
    for (uint64_t p = 0; p < strip_record_length(&strip->record); p++)
        must("add a mark", strip_record_push(w, lags(p)));
    return strip_record_total(w);
}

/* The misfires in the pressure trace up to the stop, with no strip. */
static uint64_t plain_count(void)
{
    uint64_t misfires = 0;
    for (uint64_t p = 0; p < STOPPED; p++)
        misfires += misfired(p);
    return misfires;
}

/* ---- The page. */

static void show_value(uint64_t value) { printf("%12" PRIu64, value); }

static void show_answer(answer a)
{
    char text[32];
    if (a.refusal == 0) {
        show_value(a.value);
        return;
    }
    snprintf(text, sizeof text, "refused %" PRIu64, a.refusal);
    printf("%12s", text);
}

/* A signed answer, of a call that has to be accepted. */
static void show_difference(const char *call, struct strip_difference d)
{
    accept(call, d.refusal);
    printf("%+12" PRId64, d.value);
}

/* The least and the most, of a call that has to be accepted. */
static void show_count(const char *call, struct strip_count_range r)
{
    char text[64];
    accept(call, r.refusal);
    snprintf(text, sizeof text, "%" PRIu64 "-%" PRIu64, r.least, r.most);
    printf("%12s", text);
}

/* The earliest and the latest position; the earliest alone, where some outcome has no such stroke. */
static void show_find(const char *call, struct strip_find_range r)
{
    char text[64];
    accept(call, r.refusal);
    if (r.certain)
        snprintf(text, sizeof text, "%" PRIu64 "-%" PRIu64, r.earliest, r.latest);
    else
        snprintf(text, sizeof text, "from %" PRIu64, r.earliest);
    printf("%12s", text);
}

/* A line: a call, what is shown of it for each of the two strips, and what that tells. */
#define LINE(call, show, meaning)                         \
    do {                                                  \
        printf("  %-24s", call);                          \
        for (strip = strips; strip < strips + 2; strip++) \
            show;                                         \
        strip = strips;                                   \
        printf("  %s\n", meaning);                        \
    } while (0)

/* SHOW is of a call that has to be accepted, ASK of one that may be refused, TELL of a number. */
#define SHOW_AS(text, call, meaning) LINE(text, show_answer(MUST(call)), meaning)
#define SHOW(call, meaning) SHOW_AS(TEXT(call), call, meaning)
#define ASK_AS(text, call, meaning) LINE(text, show_answer(call), meaning)
#define ASK(call, meaning) ASK_AS(TEXT(call), call, meaning)
#define TELL(text, value, meaning) LINE(text, show_value(value), meaning)
#define SHOW_SPAN(text, call, meaning) LINE(text, show_difference(TEXT(call), call), meaning)
#define SHOW_COUNT(text, call, meaning) LINE(text, show_count(TEXT(call), call), meaning)
#define SHOW_FIND(text, call, meaning) LINE(text, show_find(TEXT(call), call), meaning)

/* A line of a call on the image. */
#define SHOW_IMAGE(call, meaning) printf("  %-24s%24" PRIu64 "  %s\n", TEXT(call), MUST(call).value, meaning)

/* ---- The images. */

/* Writes the image to a file; a failure is told, and ends the program. */
static void keep(const char *path)
{
    if (!write_image(path, image, sizeof image)) {
        perror(path);
        exit(1);
    }
}

/* Another unit's image: cylinder 1's strip as above, and under `label` cylinder 3's as the crank judged it. */
static void freeze_other(uint64_t label)
{
    MUST(clear());
    MUST(freeze(strip->cylinder));
    strip++;
    MUST(freeze_crank(label));
    strip = strips;
}

int main(int arguments, char **words)
{
    if (arguments != 4) {
        fprintf(stderr, "usage: %s IMAGE OTHER CONFLICTING\n", words[0]);
        return 2;
    }
    for (strip = strips; strip < strips + 2; strip++)
        strip->record =
            strip_record_over(strip->words, STRIP_WORDS(CAPACITY), strip->counters, STRIP_COUNTERS(CAPACITY));
    strip = strips;

    printf("A watch of four hours: 45000 strokes an hour, a bit for each stroke of a cylinder, 1 is a misfire.\n");
    printf("%-26s%12s%12s\n", "Under way", "cylinder 1", "cylinder 3");
    SHOW(lay(CAPACITY), "counters, over room for 180224 strokes");
    TELL("add(v), each stroke", record(), "strokes recorded");
    TELL("the handle's total", strip_record_total(&strip->record), "misfires, says the crank; read with no call");

    printf("The pressure trace knows better\n");
    SHOW(cut(STOPPED), "misfires left: the engine had stopped");
    SHOW(run(UNPLUGGED, PLUGGED, 0), "misfires left: the crank sensor was unplugged");
    TELL("turn(i), if misjudged", correct(), "strokes turned");
    TELL("", strip->moved, "counters moved by that, each by one");
    SHOW(check(), "misfires; total and counters agree with the bits");
    TELL("", plain_count(), "misfires by a plain count over the trace");

    printf("Where the two camps part: the crank strip, kept before the turns, against the pressure strip\n");
    SHOW_AS("pair differ(179400)", pair_differ(STOPPED), "strokes judged differently: those turned");
    SHOW_AS("pair only first(179400)", pair_only_first(STOPPED), "of these, what the crank alone calls a misfire");
    SHOW_AS("pair find(0)", pair_find(0), "the first stroke judged differently");
    SHOW_SPAN("pair span(0, 45000)", pair_span(0, 45000), "first hour: the crank's misfires less pressure's");

    printf("Read while some of the trace was still to come: a strip marks the strokes that wait for it\n");
    TELL("add(v), 1 if it waits", mark(), "strokes that wait; each may become either value");
    SHOW_COUNT("waiting count(179400)", waiting_count(STOPPED), "misfires that there can be: the least, the most");
    SHOW_FIND("waiting find(99)", waiting_find(99), "where the 100th can lie; \"from\": there may be none");

    printf("Whose injector is it?\n");
    SHOW(count(1, 45000), "misfires before stroke 45000: the first hour");
    SHOW(count(1, 96000), "misfires before stroke 96000");
    SHOW(count(1, 104000), "8000 strokes on: cylinder 3's injector drips");
    ASK(find(1, 99), "the 100th misfire; 6 says: no such stroke");
    SHOW(prior(1, 96000), "the last misfire before stroke 96000");
    SHOW(next(1, 96000), "the first misfire from stroke 96000 on");
    SHOW(burst(1000, 4), "a start of 1000 strokes with 4 misfires or more");
    ASK(burst(1000, 40), "with 40 or more: a nozzle; 6 says: there is none");

    printf("In harbour the strips are frozen into an image\n");
    SHOW_IMAGE(clear(), "bytes of header, and no row yet");
    SHOW_AS("freeze(1), freeze(3)", freeze(strip->cylinder), "where the row starts, in units of 16 bytes");
    ASK_AS("freeze(1), freeze(3)", freeze(strip->cylinder), "12 says: the image has a row of that label");
    SHOW_IMAGE(inspect(), "rows; bits, index and misfires agree in each");
    keep(words[1]);

    freeze_other(9);
    keep(words[2]);
    freeze_other(3);
    keep(words[3]);
    return 0;
}
